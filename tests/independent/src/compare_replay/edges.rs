//! Feeds that end inside an entry, and entries about as long as allowed.

use super::program::Program;
use super::Group;
use crate::feed;
use crate::generate::too_long;
use crate::replay;
use crate::set::entry::{self, LONGEST};

const BEGINNING: &str = "
    plan 12:00120001 13:00130001 / 7:0,1 9:0
    telegram 0 DV0030001255041120240229120000
    telegram 0 DV0018001255042101
    telegram 0 DV002900125506000078001200011
";

/// Entries of each kind behind which a feed breaks off.
const LAST: [&str; 11] = [
    "telegram 0 DV002900125506000078001200010",
    "press 0 7 on",
    "cut 0 7",
    "mobile-on 7 3 00990007",
    "mobile-off 7",
    "tick",
    "plan 12:00120001 / 7:0",
    "handover",
    "mobile-call 9 3 00990007 00120001",
    "mobile-cancel 9",
    "telegram 0 DV003800125504190093800990007800120001",
];

fn binary(text: &str) -> Vec<u8> {
    feed::to_binary(text.as_bytes()).expect("the feeds here are written right")
}

/// Each entry cut short at every byte, and whole; also as a feed's only one.
pub fn break_offs(program: &mut Program) -> Group {
    let mut group = Group::new("feeds that break off");
    for last in LAST {
        let bytes = binary(last);
        for end in 0..=bytes.len() {
            let name = format!("'{last}' up to byte {end}");
            let feed = [&binary(BEGINNING), &bytes[..end]].concat();
            let mut due = replay::output(&binary(BEGINNING));
            if end > 0 && end < bytes.len() {
                due.extend_from_slice(b"E 5 1 0\n");
            } else if end == bytes.len() {
                due = replay::output(&feed);
            }
            group.check(&name, compare(&feed, Some(&due), program));
        }
    }
    let plan = binary(LAST[6]);
    for end in 0..=plan.len() {
        let name = format!("a plan alone up to byte {end}");
        let due: &[u8] = match end {
            0 => b"",
            _ if end == plan.len() => b"E 1 0 21\nT 0 DV00160012550461\n",
            _ => b"E 1 1 0\n",
        };
        group.check(&name, compare(&plan[..end], Some(due), program));
    }
    group
}

/// Lengths at and around the highest, and those that no entry has.
pub fn lengths(program: &mut Program) -> Group {
    let mut group = Group::new("entries of odd lengths");
    let beginning = binary(BEGINNING);
    let mut add = |name: &str, last: &[u8], lines: &str| {
        // What follows a refusal 1 must not be read.
        let feed = [&beginning, last, &binary("tick")].concat();
        let due = [&replay::output(&beginning), lines.as_bytes()].concat();
        group.check(name, compare(&feed, Some(&due), program));
    };
    for length in [LONGEST - 1, LONGEST] {
        let kinds = [1, 2, 4, 6, 7, 8, 9, 10, 11];
        for (kind, refusal) in kinds.into_iter().zip([8, 3, 3, 3, 5, 3, 3, 3, 3]) {
            let name = format!("length {length}, kind {kind}");
            let lines = format!("E 5 {refusal} 0\nE 6 0 0\n");
            add(&name, &filled(kind, length), &lines);
        }
    }
    for length in [LONGEST + 1, LONGEST + 2, 32_767, 32_768, 65_535] {
        add(&format!("length {length}"), &too_long(length), "E 5 1 0\n");
    }
    add("length 0", &[0, 0], "E 5 1 0\n");
    add("length 1", &[0, 1, 1], "E 5 1 0\n");
    add("length 2 of zeros", &[0, 2, 0, 0], "E 5 2 0\nE 6 0 0\n");
    add(
        "two ticks in one",
        &[0, 6, 1, 6, 0, 2, 1, 6],
        "E 5 3 0\nE 6 0 0\n",
    );
    // A telegram that is as long as its length field can say.
    let telegram = format!("DV999900125506000078001200011{}", "0".repeat(9_970));
    let long = binary(&format!("telegram 0 {telegram}"));
    add("telegram of 9,999 bytes", &long, "E 5 10 0\nE 6 0 0\n");
    group
}

fn filled(kind: u8, length: usize) -> Vec<u8> {
    let mut bytes = Vec::new();
    // Desk 0, so that a telegram gets as far as its header.
    let payload = vec![0; length - 2];
    entry::push(&mut bytes, kind, &[&payload]);
    bytes
}

/// Holds the own output against what is due, then the program's against it.
fn compare(feed: &[u8], due: Option<&[u8]>, program: &mut Program) -> Option<String> {
    let own = replay::output(feed);
    if due.is_some_and(|due| due != own) {
        let own = String::from_utf8_lossy(&own).into_owned();
        return Some(format!("own output is not the one due: {own}"));
    }
    program.problem(feed.to_vec(), &own)
}
