//! From text to bytes.

use crate::set::entry::{Entry, LONGEST};

/// More would only be a slip of the pen.
pub const MOST_TICKS: usize = 1_000_000;

/// How much of a word that is wrong a message shows.
const SHOWN: usize = 40;
/// Some editors put it in front of a text.
const BYTE_ORDER_MARK: &[u8] = b"\xef\xbb\xbf";

type Parsed<T> = Result<T, String>;

/// The bytes of a text feed, or the line that is wrong and what was expected
/// there.
pub fn to_binary(text: &[u8]) -> Parsed<Vec<u8>> {
    let text = text.strip_prefix(BYTE_ORDER_MARK).unwrap_or(text);
    let mut feed = Vec::new();
    for (place, line) in text.split(|&byte| byte == b'\n').enumerate() {
        push_line(line, &mut feed).map_err(|why| format!("line {}: {why}", place + 1))?;
    }
    Ok(feed)
}

/// Puts the entries of one line behind the feed.
pub fn push_line(line: &[u8], feed: &mut Vec<u8>) -> Parsed<()> {
    let line = std::str::from_utf8(line).map_err(|error| {
        let byte = line[error.valid_up_to()];
        format!("expected text in UTF-8, found the byte {byte:02x}")
    })?;
    let words = line.split_ascii_whitespace();
    let words: Vec<&str> = words.take_while(|word| !word.starts_with('#')).collect();
    let Some((&name, words)) = without_number(&words).split_first() else {
        return Ok(());
    };
    match name {
        "plan" => push_plan(words, feed),
        "raw" => push_raw(words, feed),
        "tick" => push_ticks(words, feed),
        _ => {
            parse_entry(name, words)?.push(feed);
            Ok(())
        }
    }
}

/// Leaves out the entry numbers that `show` puts in front. They are not
/// checked, so that lines can be taken out of a feed that was shown.
fn without_number<'a, 'b>(words: &'a [&'b str]) -> &'a [&'b str] {
    match words {
        [number, rest @ ..] if !rest.is_empty() && is_number(number) => rest,
        _ => words,
    }
}

/// `7` or `8..13`
fn is_number(word: &str) -> bool {
    let (first, last) = word.split_once("..").unwrap_or((word, word));
    decimal(first).is_some() && decimal(last).is_some()
}

/// The entries that are a few words each.
fn parse_entry<'a>(name: &str, words: &[&'a str]) -> Parsed<Entry<'a>> {
    Ok(match (name, words) {
        ("telegram", &[desk, telegram]) => Entry::Telegram {
            desk: byte("desk", desk)?,
            telegram: parse_telegram(telegram)?,
        },
        ("press", &[desk, channel, on]) => Entry::Press {
            desk: byte("desk", desk)?,
            channel: byte("channel", channel)?,
            on: parse_on(on)?,
        },
        ("cut", &[desk, channel]) => Entry::Cut {
            desk: byte("desk", desk)?,
            channel: byte("channel", channel)?,
        },
        ("mobile-on", &[channel, base, number]) => Entry::MobileOn {
            channel: byte("channel", channel)?,
            base: byte("base", base)?,
            number: parse_number(number)?,
        },
        ("mobile-off", &[channel]) => Entry::MobileOff {
            channel: byte("channel", channel)?,
        },
        ("handover", []) => Entry::Handover,
        ("mobile-call", &[channel, base, number, called]) => Entry::MobileCall {
            channel: byte("channel", channel)?,
            base: byte("base", base)?,
            number: parse_number(number)?,
            called: parse_number(called)?,
        },
        ("mobile-cancel", &[channel]) => Entry::MobileCancel {
            channel: byte("channel", channel)?,
        },
        _ => return Err(wanted(name, words)),
    })
}

/// What should have stood in place of these words.
fn wanted(name: &str, words: &[&str]) -> String {
    let form = match name {
        "telegram" => "telegram DESK TELEGRAM",
        "press" => "press DESK CHANNEL on|off",
        "cut" => "cut DESK CHANNEL",
        "mobile-on" => "mobile-on CHANNEL BASE NUMBER",
        "mobile-off" => "mobile-off CHANNEL",
        "tick" => "tick, or tick COUNT",
        "plan" => "plan CODE:NUMBER .. / CHANNEL:DESK,DESK ..",
        "handover" => "handover alone",
        "mobile-call" => "mobile-call CHANNEL BASE NUMBER CALLED",
        "mobile-cancel" => "mobile-cancel CHANNEL",
        "raw" => "raw HEX",
        _ => {
            let names = "plan, telegram, press, cut, mobile-on, mobile-off, tick, handover, \
                         mobile-call, mobile-cancel or raw";
            return expected(names, name);
        }
    };
    expected(form, &[&[name], words].concat().join(" "))
}

/// A message, with as much of the wrong words as a line has room for.
fn expected(what: &str, found: &str) -> String {
    let mut shown: String = found.chars().take(SHOWN).collect();
    if shown.len() < found.len() {
        shown += "..";
    }
    format!("expected {what}, found '{}'", shown.escape_debug())
}

fn push_ticks(words: &[&str], feed: &mut Vec<u8>) -> Parsed<()> {
    let count = match *words {
        [] => 1,
        [count] => decimal(count)
            .filter(|count| (1..=MOST_TICKS).contains(count))
            .ok_or_else(|| expected(&format!("a count of ticks, 1 to {MOST_TICKS}"), count))?,
        _ => return Err(wanted("tick", words)),
    };
    for _ in 0..count {
        Entry::Tick.push(feed);
    }
    Ok(())
}

fn push_raw(words: &[&str], feed: &mut Vec<u8>) -> Parsed<()> {
    let &[hex] = words else {
        return Err(wanted("raw", words));
    };
    let value = |digit: char| digit.to_digit(16);
    if let Some(wrong) = hex.chars().find(|&digit| value(digit).is_none()) {
        return Err(expected("a hexadecimal digit", &wrong.to_string()));
    }
    if hex.len() % 2 == 1 {
        return Err(expected("two hexadecimal digits for each byte", hex));
    }
    let digits: Vec<u32> = hex.chars().filter_map(value).collect();
    let bytes = digits.chunks_exact(2).map(|pair| pair[0] << 4 | pair[1]);
    feed.extend(bytes.map(|byte| byte as u8));
    Ok(())
}

fn push_plan(words: &[&str], feed: &mut Vec<u8>) -> Parsed<()> {
    let slash = words.iter().position(|&word| word == "/");
    let slash = slash.ok_or_else(|| wanted("plan", words))?;
    let (desks, channels) = (&words[..slash], &words[slash + 1..]);
    let mut plan = vec![count("desks", desks)?];
    for desk in desks {
        let parts = desk.split_once(':');
        let (code, number) = parts.ok_or_else(|| expected("a desk, CODE:NUMBER", desk))?;
        let code: u16 = decimal(code)
            .and_then(|code| code.try_into().ok())
            .ok_or_else(|| expected("a code, 0 to 65535", code))?;
        plan.extend_from_slice(&code.to_be_bytes());
        plan.extend_from_slice(&parse_number(number)?);
    }
    plan.push(count("channels", channels)?);
    for channel in channels {
        let parts = channel.split_once(':');
        let (code, entitled) =
            parts.ok_or_else(|| expected("a channel, CODE:DESK,DESK ..", channel))?;
        plan.extend_from_slice(&[byte("channel", code)?, parse_mask(entitled)?]);
    }
    Entry::Plan(&plan).push(feed);
    Ok(())
}

fn count(what: &str, words: &[&str]) -> Parsed<u8> {
    let wrong = |_| format!("expected at most 255 {what}, found {}", words.len());
    u8::try_from(words.len()).map_err(wrong)
}

fn parse_mask(desks: &str) -> Parsed<u8> {
    let mut mask = 0;
    for desk in desks.split(',').filter(|_| !desks.is_empty()) {
        let bit = decimal(desk).filter(|&bit| bit < 8);
        mask |= 1 << bit.ok_or_else(|| expected("a desk, 0 to 7", desk))?;
    }
    Ok(mask)
}

fn parse_telegram(telegram: &str) -> Parsed<&[u8]> {
    let telegram = printable(telegram)?;
    if telegram.len() > LONGEST {
        let size = telegram.len();
        return Err(format!(
            "expected a telegram of at most {LONGEST} bytes, found one of {size}"
        ));
    }
    Ok(telegram)
}

fn parse_number(number: &str) -> Parsed<[u8; 8]> {
    let bytes = printable(number)?;
    let wrong = |_| expected("a number of 8 characters", number);
    bytes.try_into().map_err(wrong)
}

fn parse_on(on: &str) -> Parsed<bool> {
    match on {
        "on" => Ok(true),
        "off" => Ok(false),
        _ => Err(expected("on or off", on)),
    }
}

fn printable(word: &str) -> Parsed<&[u8]> {
    if word.bytes().all(|byte| byte.is_ascii_graphic()) {
        Ok(word.as_bytes())
    } else {
        Err(expected("ASCII characters", word))
    }
}

fn byte(what: &str, word: &str) -> Parsed<u8> {
    decimal(word)
        .and_then(|value| value.try_into().ok())
        .ok_or_else(|| expected(&format!("a {what}, 0 to 255"), word))
}

/// Digits only: the library's parser would take a sign too.
fn decimal(word: &str) -> Option<usize> {
    let digits = word.bytes().all(|byte| byte.is_ascii_digit());
    digits.then(|| word.parse().ok()).flatten()
}
