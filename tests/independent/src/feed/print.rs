//! From bytes to text.

use super::parse;
use crate::set::entry::{self, Entry};
use std::io::{self, Write};

/// Writes a feed as text from which the same bytes come back.
pub fn to_text(feed: &[u8], out: &mut (impl Write + ?Sized)) -> io::Result<()> {
    for line in lines(feed) {
        writeln!(out, "{}", line.text)?;
    }
    Ok(())
}

/// Writes a feed as text with the numbers that the replay gives the entries.
/// Those that it does not reach have none.
pub fn show(feed: &[u8], out: &mut (impl Write + ?Sized)) -> io::Result<()> {
    let mut lines = lines(feed);
    for line in lines.by_ref() {
        let comment = if line.ends {
            "  # refused with 1: the replay ends here"
        } else {
            ""
        };
        writeln!(out, "{}  {}{comment}", line.numbers(), line.text)?;
        if line.ends {
            break;
        }
    }
    lines.try_for_each(|line| writeln!(out, "{}", line.text))
}

/// A line and the numbers of the entries that it stands for.
struct Line {
    first: usize,
    last: usize,
    text: String,
    /// Whether the replay ends with it.
    ends: bool,
}

impl Line {
    fn numbers(&self) -> String {
        let Line { first, last, .. } = self;
        match last - first {
            0 => first.to_string(),
            _ => format!("{first}..{last}"),
        }
    }
}

/// One line an entry, but only one for a run of ticks.
fn lines(feed: &[u8]) -> impl Iterator<Item = Line> + '_ {
    let (mut rest, mut last) = (feed, 0);
    std::iter::from_fn(move || {
        let first = last + 1;
        let ticks = take_ticks(&mut rest);
        if ticks > 0 {
            last += ticks;
            let text = match ticks {
                1 => "tick".to_string(),
                _ => format!("tick {ticks}"),
            };
            return Some(Line {
                first,
                last,
                text,
                ends: false,
            });
        }
        let (bytes, behind) = entry::split_first(rest)?;
        rest = behind;
        last += 1;
        Some(Line {
            first,
            last,
            text: line(bytes),
            ends: entry::ends_feed(bytes),
        })
    })
}

/// Takes the ticks in front, and tells how many they are.
fn take_ticks(rest: &mut &[u8]) -> usize {
    let tick = Entry::Tick.bytes();
    let mut count = 0;
    while count < parse::MOST_TICKS {
        let Some(behind) = rest.strip_prefix(&tick[..]) else {
            break;
        };
        *rest = behind;
        count += 1;
    }
    count
}

/// The line that gives these bytes, in words if there are any for them.
pub fn line(bytes: &[u8]) -> String {
    let text = entry::read_loosely(bytes).and_then(|entry| in_words(&entry));
    text.filter(|text| {
        let mut again = Vec::new();
        parse::push_line(text.as_bytes(), &mut again).is_ok() && again == bytes
    })
    .unwrap_or_else(|| format!("raw {}", hex(bytes)))
}

/// May give text that says something else if there are odd characters.
fn in_words(entry: &Entry) -> Option<String> {
    let ascii = |bytes: &[u8]| String::from_utf8_lossy(bytes).into_owned();
    Some(match *entry {
        Entry::Telegram { desk, telegram } => format!("telegram {desk} {}", ascii(telegram)),
        Entry::Press { desk, channel, on } => {
            format!("press {desk} {channel} {}", if on { "on" } else { "off" })
        }
        Entry::Cut { desk, channel } => format!("cut {desk} {channel}"),
        Entry::MobileOn {
            channel,
            base,
            ref number,
        } => format!("mobile-on {channel} {base} {}", ascii(number)),
        Entry::MobileOff { channel } => format!("mobile-off {channel}"),
        Entry::Tick => "tick".to_string(),
        Entry::Plan(plan) => plan_in_words(plan)?,
        Entry::Handover => "handover".to_string(),
        Entry::MobileCall {
            channel,
            base,
            ref number,
            ref called,
        } => {
            let (number, called) = (ascii(number), ascii(called));
            format!("mobile-call {channel} {base} {number} {called}")
        }
        Entry::MobileCancel { channel } => format!("mobile-cancel {channel}"),
    })
}

fn plan_in_words(plan: &[u8]) -> Option<String> {
    let (&desk_count, rest) = plan.split_first()?;
    let (desks, rest) = rest.split_at_checked(usize::from(desk_count) * 10)?;
    let (_, channels) = rest.split_first()?;
    let mut text = "plan".to_string();
    for desk in desks.chunks_exact(10) {
        let code = u16::from_be_bytes([desk[0], desk[1]]);
        text += &format!(" {code}:{}", String::from_utf8_lossy(&desk[2..]));
    }
    text += " /";
    for channel in channels.chunks_exact(2) {
        let entitled = (0..8).filter(|desk| channel[1] >> desk & 1 == 1);
        let entitled: Vec<String> = entitled.map(|desk: u8| desk.to_string()).collect();
        text += &format!(" {}:{}", channel[0], entitled.join(","));
    }
    Some(text)
}

fn hex(bytes: &[u8]) -> String {
    bytes.iter().map(|byte| format!("{byte:02x}")).collect()
}
