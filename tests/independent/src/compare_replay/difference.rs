//! Where two outputs of a replay part.

const LINES_BEFORE: usize = 3;
const LINES_SHOWN: usize = 12;
const SHOWN_BYTES: usize = 100;

/// The entry at which the own output parts from the program's, with both
/// outputs around it.
pub fn describe(own: &[u8], theirs: &[u8]) -> Option<String> {
    describe_to("the program's output", own, theirs)
}

/// The same for an output that is not the program's.
pub fn describe_to(name: &str, own: &[u8], theirs: &[u8]) -> Option<String> {
    if own == theirs {
        return None;
    }
    let (own, theirs) = (lines(own), lines(theirs));
    let same = own
        .iter()
        .zip(&theirs)
        .take_while(|(own, theirs)| own == theirs);
    let place = same.count();
    let first = place.saturating_sub(LINES_BEFORE);
    let around = |lines: &[&[u8]]| {
        let shown = &lines[first.min(lines.len())..(first + LINES_SHOWN).min(lines.len())];
        let more = first + shown.len() < lines.len();
        let end = if more {
            "        ..\n"
        } else {
            "        (end)\n"
        };
        shown.iter().map(|line| show(line)).collect::<String>() + end
    };
    Some(format!(
        "entry {}:\n      own output:\n{}      {name}:\n{}",
        entry_number(&own, &theirs, place),
        around(&own),
        around(&theirs).trim_end(),
    ))
}

/// Lines with their ends, so that a missing newline is a difference too.
fn lines(output: &[u8]) -> Vec<&[u8]> {
    output.split_inclusive(|&byte| byte == b'\n').collect()
}

/// The entry that the line belongs to, by the last E line up to it.
fn entry_number(own: &[&[u8]], theirs: &[&[u8]], place: usize) -> String {
    let lines = if place < own.len() { own } else { theirs };
    let number = |line: &&[u8]| {
        let text = std::str::from_utf8(line.strip_prefix(b"E ")?).ok()?;
        Some(text.split(' ').next()?.to_string())
    };
    let upto = &lines[..(place + 1).min(lines.len())];
    upto.iter()
        .rev()
        .find_map(number)
        .unwrap_or("1".to_string())
}

/// A line with a dot for each byte that can't be printed.
fn show(line: &[u8]) -> String {
    let (text, end) = match line.strip_suffix(b"\n") {
        Some(text) => (text, ""),
        None => (line, " (no newline)"),
    };
    let printable = |&byte: &u8| match byte {
        b' '..=b'~' => char::from(byte),
        _ => '.',
    };
    let shown: String = text.iter().take(SHOWN_BYTES).map(printable).collect();
    let more = if text.len() > SHOWN_BYTES { ".." } else { "" };
    format!("        {shown}{more}{end}\n")
}

#[cfg(test)]
mod tests {
    use super::*;

    #[test]
    fn equal_outputs() {
        assert_eq!(describe(b"", b""), None);
        assert_eq!(describe(b"E 1 4 0\n", b"E 1 4 0\n"), None);
    }

    #[test]
    fn the_entry_is_named() {
        let own = b"E 1 0 21\nT 0 DV00160012550461\nE 2 11 0\n";
        let entry = |theirs: &[u8]| {
            let text = describe(own, theirs).unwrap();
            text.lines().next().unwrap().to_string()
        };
        assert_eq!(entry(b""), "entry 1:");
        assert_eq!(entry(b"E 1 0 21\nT 0 DV00160013550461\n"), "entry 1:");
        assert_eq!(entry(b"E 1 0 21\nT 0 DV00160012550461\n"), "entry 2:");
        assert_eq!(
            entry(b"E 1 0 21\nT 0 DV00160012550461\nE 2 11 0"),
            "entry 2:"
        );
        let longer = [&own[..], b"E 3 1 0\n"].concat();
        assert_eq!(entry(&longer), "entry 3:");
    }
}
