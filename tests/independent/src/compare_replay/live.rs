//! A program that waits for more input must have printed what it knows.

use super::difference;
use super::program::Program;
use super::Group;
use crate::feed;
use crate::replay;
use crate::set::entry;
use std::io::Write;
use std::thread;
use std::time::Duration;

const PATIENCE: Duration = Duration::from_secs(5);
/// Ticks whose answers are more than the program's text has room for, 131,072
/// bytes, but themselves fit its input, which has as much.
const MANY: usize = 14_000;
/// Ticks that are more than its input has room for.
const MORE: usize = 35_000;

pub fn check(program: &mut Program) -> Group {
    let mut group = Group::new("output before more input");
    let conversation = [
        "plan 12:00120001 13:00130001 / 7:0,1 9:0",
        "telegram 0 DV0030001255041120240229120000",
        "tick 3",
        "press 0 7 on",
        "handover",
    ];
    let parts: Vec<Vec<u8>> = conversation.iter().map(|text| binary(text)).collect();
    group.check("entry by entry", problem(&parts, None, program));
    // One entry in two parts; there is nothing to print between them.
    let plan = binary(conversation[0]);
    let halves = [plan[..5].to_vec(), plan[5..].to_vec()];
    group.check("an entry in two parts", problem(&halves, None, program));
    // It knows by the length alone, and stops without the rest.
    let stop = Some("E 2 1 0\n");
    let parts = [plan, vec![0x2e, 0xe1]];
    group.check("a length of 12,001", problem(&parts, stop, program));
    for (name, ticks, rest) in [
        ("a burst of 14,000 ticks", MANY, 0),
        ("a burst that ends in half an entry", MANY, 17),
        ("a burst longer than the input", MORE, 17),
    ] {
        let parts = burst(ticks, rest);
        group.check(name, problem(&parts, None, program));
    }
    group
}

/// A plan and so many ticks in one part, with so many bytes of a telegram
/// behind them; then the other bytes of it.
fn burst(ticks: usize, rest: usize) -> [Vec<u8>; 2] {
    let ticks = format!("plan 12:00120001 13:00130001 / 7:0,1 9:0\ntick {ticks}");
    let telegram = binary("telegram 0 DV0030001255041120240229120000");
    let (half, other) = telegram.split_at(rest);
    [[&binary(&ticks), half].concat(), other.to_vec()]
}

fn binary(text: &str) -> Vec<u8> {
    feed::to_binary(text.as_bytes()).expect("the feeds here are written right")
}

/// Sends part by part and waits after each for all that is due up to it. With
/// lines for a stop, the last part must bring them and the program's end
/// while its input is still open. Written beside the reading, because neither
/// side need take all of a burst before the other goes on.
fn problem(parts: &[Vec<u8>], stop: Option<&str>, program: &mut Program) -> Option<String> {
    let mut session = match program.start(PATIENCE) {
        Ok(session) => session,
        Err(why) => return Some(why),
    };
    let mut input = session.take_input();
    let (mut feed, mut read) = (Vec::new(), Vec::new());
    for (place, part) in parts.iter().enumerate() {
        let bytes = part.clone();
        let writing = thread::spawn(move || input.write_all(&bytes).map(|()| input));
        let last = place + 1 == parts.len();
        let due = match stop.filter(|_| last) {
            Some(lines) => [&read[..], lines.as_bytes()].concat(),
            None => {
                feed.extend_from_slice(part);
                whole_entries_output(&feed)
            }
        };
        match session.read(due.len() - read.len()) {
            Ok(output) => read.extend_from_slice(&output),
            Err(failure) => {
                read.extend_from_slice(session.so_far());
                let shown = difference::describe(&due, &read).unwrap_or_default();
                return Some(format!("{failure}; after part {place}, {shown}"));
            }
        }
        if let Some(text) = difference::describe(&due, &read) {
            return Some(text);
        }
        input = match writing.join().expect("writing does not panic") {
            Ok(input) => input,
            Err(error) => return Some(format!("the program takes no input: {error}")),
        };
    }
    if stop.is_none() {
        drop(input);
    }
    let ended = session.end();
    let why = |failure| format!("{failure}, though it should have stopped");
    ended.map_err(why).err()
}

/// What the replay prints as long as the input stays open.
fn whole_entries_output(feed: &[u8]) -> Vec<u8> {
    let whole = replay::entries(feed).filter(|entry| entry::is_whole(entry));
    replay::output(&feed[..whole.map(<[u8]>::len).sum()])
}

#[cfg(test)]
mod tests {
    use super::*;

    /// What makes a burst one: see `MANY` and `MORE`.
    #[test]
    fn bursts_are_as_long_as_they_say() {
        const ROOM: usize = 131_072;
        let [many, rest] = burst(MANY, 17);
        assert!(many.len() < ROOM / 2, "{}", many.len());
        assert!(whole_entries_output(&many).len() > ROOM);
        let [more, _] = burst(MORE, 17);
        assert!(more.len() > ROOM);
        assert!(!rest.is_empty());
    }
}
