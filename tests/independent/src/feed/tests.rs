//! Both directions, and the messages for text that is wrong.

use super::*;
use crate::generate;
use crate::random::Random;
use crate::replay::entries;
use crate::streams::Trouble;
use std::io::{self, Error, Read, Write};

fn text_of(feed: &[u8]) -> String {
    let mut text = Vec::new();
    to_text(feed, &mut text).unwrap();
    String::from_utf8(text).unwrap()
}

fn shown(feed: &[u8]) -> String {
    let mut text = Vec::new();
    show(feed, &mut text).unwrap();
    String::from_utf8(text).unwrap()
}

/// Back to the same bytes.
fn round_trip(feed: &[u8]) {
    let text = text_of(feed);
    assert_eq!(to_binary(text.as_bytes()).unwrap(), feed, "{text}");
}

#[test]
fn every_form() {
    let text = "\
plan 12:00120001 13:00130001 / 7:0,1 9:0
telegram 0 DV002900125506000078001200011
press 0 7 on
press 0 7 off
cut 0 7
mobile-on 7 3 00990007
mobile-off 7
tick
handover
mobile-call 7 3 00990007 00120001
mobile-cancel 7
tick 130
raw 00021a06
raw 0002
";
    let feed = to_binary(text.as_bytes()).unwrap();
    assert_eq!(text_of(&feed), text);
    let plan = b"\0\x1c\x01\x07\x02\0\x0c00120001\0\x0d00130001\x02\x07\x03\x09\x01";
    assert!(feed.starts_with(plan));
    let press = b"\0\x05\x01\x02\0\x07\x01";
    assert!(feed.windows(press.len()).any(|bytes| bytes == press));
    let call = b"\0\x14\x01\x09\x07\x030099000700120001\0\x03\x01\x0a\x07";
    assert!(feed.windows(call.len()).any(|bytes| bytes == call));
}

#[test]
fn comments_and_blank_lines() {
    let feed = to_binary(b"# nothing\n\n  tick  # one\n\ttick 2\r\n").unwrap();
    assert_eq!(feed, b"\0\x02\x01\x06".repeat(3));
    assert_eq!(to_binary(b"").unwrap(), b"");
}

#[test]
fn bad_plans_have_words_too() {
    for text in ["plan /", "plan 65535:x/:,#### / 255:", "plan / 7:0,7 7:0"] {
        let feed = to_binary(text.as_bytes()).unwrap();
        assert_eq!(text_of(&feed), format!("{text}\n"));
    }
}

#[test]
fn entry_numbers() {
    let feed = to_binary(b"press 0 7 on\ntick\ntick 12\nhandover\nraw 00").unwrap();
    let due = "\
1  press 0 7 on
2..14  tick 13
15  handover
16  raw 00  # refused with 1: the replay ends here
";
    assert_eq!(shown(&feed), due);
}

#[test]
fn what_the_replay_does_not_reach_has_no_number() {
    for last in ["0000", "000101", &format!("2ee1{:024002}", 0)] {
        let feed = to_binary(format!("tick 2\nraw {last}\ntick 3\nhandover").as_bytes()).unwrap();
        let due =
            format!("1..2  tick 2\n3  raw {last}  # refused with 1: the replay ends here\ntick 3\nhandover\n");
        assert_eq!(shown(&feed), due);
    }
}

#[test]
fn too_long_for_words() {
    for (size, word) in [(12_000, "telegram"), (12_001, "raw"), (65_535, "raw")] {
        assert!(shown(&generate::too_long(size)).starts_with(&format!("1  {word} ")));
    }
}

/// The last number of a shown feed is the replay's, and the numbers do not
/// keep it from being turned back into the same bytes.
#[test]
fn shown_feeds_match_the_replay() {
    for seed in 0..200 {
        let feed = generate::feed(seed, 200);
        let text = shown(&feed);
        assert_eq!(to_binary(text.as_bytes()).unwrap(), feed, "{seed}");
        let numbers = text.lines().filter_map(last_number);
        assert_eq!(numbers.last(), Some(entries(&feed).count()), "{seed}");
    }
}

fn last_number(line: &str) -> Option<usize> {
    let number = line.split_once("  ")?.0;
    number.rsplit("..").next()?.parse().ok()
}

#[test]
fn what_no_words_say_is_raw() {
    for hex in [
        "0003010100",
        "000401010020",
        "0004010100ff",
        "000401010023",
        "0005010200070200",
        "0003010600",
        "00130109070330303939303030373030313230303030",
        "00150109070330303939303030373030313230303031ff",
        "001401090703303039393030303730303132303030ff",
        "0002010a",
        "0004010a0700",
        "0003010b07",
        "000201",
        "0000",
        "00",
        "000201070000",
    ] {
        let text = format!("raw {hex}");
        let feed = to_binary(text.as_bytes()).unwrap();
        assert!(text_of(&feed).starts_with("raw"), "{hex}");
        round_trip(&feed);
    }
}

#[test]
fn round_trip_of_generated_feeds() {
    for seed in 0..100 {
        round_trip(&generate::feed(seed, 200));
    }
}

#[test]
fn round_trip_of_random_bytes() {
    let mut random = Random::new(7);
    for _ in 0..20_000 {
        let size = random.within(0, 40);
        let mut bytes = random.bytes(size);
        // Lengths, versions and kinds that are often right.
        for place in 0..size {
            match random.below(4) {
                0 => bytes[place] = 0,
                1 => bytes[place] = random.within(1, 10) as u8,
                2 => bytes[place] = random.within(b' '.into(), b'~'.into()) as u8,
                _ => {}
            }
        }
        round_trip(&bytes);
    }
}

#[test]
fn a_byte_order_mark_is_passed_over() {
    assert_eq!(to_binary(b"\xef\xbb\xbf").unwrap(), b"");
    let feed = to_binary(b"\xef\xbb\xbftick\r\n# one\r\n").unwrap();
    assert_eq!(feed, b"\0\x02\x01\x06");
    // Only the first one is a mark.
    let message = to_binary("tick\n\u{feff}tick".as_bytes()).unwrap_err();
    assert!(message.starts_with("line 2: expected plan, "), "{message}");
}

#[test]
fn messages() {
    let names = "plan, telegram, press, cut, mobile-on, mobile-off, tick, handover, mobile-call, \
                 mobile-cancel or raw";
    let no_entry = |found: &str| format!("expected {names}, found '{found}'");
    let long = "0".repeat(12_001);
    for (text, message) in [
        ("jump 7", &*no_entry("jump")),
        ("12", &no_entry("12")),
        ("8.13 tick", &no_entry("8.13")),
        ("8.. tick", &no_entry("8..")),
        ("\x1b[2J", &no_entry("\\u{1b}[2J")),
        (&long, &no_entry(&format!("{}..", "0".repeat(40)))),
        (
            "telegram 0",
            "expected telegram DESK TELEGRAM, found 'telegram 0'",
        ),
        (
            "telegram 0 D\u{e9}",
            "expected ASCII characters, found 'D\u{e9}'",
        ),
        (
            &format!("telegram 0 {long}"),
            "expected a telegram of at most 12000 bytes, found one of 12001",
        ),
        (
            "press 0 7",
            "expected press DESK CHANNEL on|off, found 'press 0 7'",
        ),
        ("press 0 7 up", "expected on or off, found 'up'"),
        ("cut 0", "expected cut DESK CHANNEL, found 'cut 0'"),
        ("cut 0 256", "expected a channel, 0 to 255, found '256'"),
        ("cut -1 2", "expected a desk, 0 to 255, found '-1'"),
        (
            "mobile-on 7 3",
            "expected mobile-on CHANNEL BASE NUMBER, found 'mobile-on 7 3'",
        ),
        (
            "mobile-on 7 x 00990007",
            "expected a base, 0 to 255, found 'x'",
        ),
        (
            "mobile-on 7 3 0099007",
            "expected a number of 8 characters, found '0099007'",
        ),
        (
            "mobile-off",
            "expected mobile-off CHANNEL, found 'mobile-off'",
        ),
        (
            "tick 0",
            "expected a count of ticks, 1 to 1000000, found '0'",
        ),
        (
            "tick +1",
            "expected a count of ticks, 1 to 1000000, found '+1'",
        ),
        ("tick 1 2", "expected tick, or tick COUNT, found 'tick 1 2'"),
        (
            "handover now",
            "expected handover alone, found 'handover now'",
        ),
        (
            "mobile-call 7 3 00990007",
            "expected mobile-call CHANNEL BASE NUMBER CALLED, found 'mobile-call 7 3 00990007'",
        ),
        (
            "mobile-call 7 3 00990007 0012001",
            "expected a number of 8 characters, found '0012001'",
        ),
        (
            "mobile-cancel",
            "expected mobile-cancel CHANNEL, found 'mobile-cancel'",
        ),
        ("raw", "expected raw HEX, found 'raw'"),
        (
            "raw 000",
            "expected two hexadecimal digits for each byte, found '000'",
        ),
        ("raw 0g", "expected a hexadecimal digit, found 'g'"),
        (
            "raw 0\u{e9}",
            "expected a hexadecimal digit, found '\u{e9}'",
        ),
        (
            "plan 1:00000001 7:0",
            "expected plan CODE:NUMBER .. / CHANNEL:DESK,DESK .., found 'plan 1:00000001 7:0'",
        ),
        (
            "plan 100000001 / 7:0",
            "expected a desk, CODE:NUMBER, found '100000001'",
        ),
        (
            "plan 65536:00000001 / 7:0",
            "expected a code, 0 to 65535, found '65536'",
        ),
        (
            "plan 1:0000001 / 7:0",
            "expected a number of 8 characters, found '0000001'",
        ),
        (
            "plan 1:00000001 / 7",
            "expected a channel, CODE:DESK,DESK .., found '7'",
        ),
        (
            "plan 1:00000001 / 256:0",
            "expected a channel, 0 to 255, found '256'",
        ),
        (
            "plan 1:00000001 / 7:0,8",
            "expected a desk, 0 to 7, found '8'",
        ),
        (
            &format!("plan / {}", "7:0 ".repeat(256)),
            "expected at most 255 channels, found 256",
        ),
    ] {
        let text = format!("tick\n\n{text}\ntick");
        let message = format!("line 3: {message}");
        assert_eq!(to_binary(text.as_bytes()).unwrap_err(), message);
    }
    assert_eq!(
        to_binary(b"tick\ntick \xff").unwrap_err(),
        "line 2: expected text in UTF-8, found the byte ff"
    );
}

#[test]
fn the_form_is_told_by_the_first_bytes() {
    for text in [
        &b""[..],
        b"\n",
        b"\r\n",
        b"\n\n\n",
        b" \t\x0c",
        b"#",
        b"#\xc3\xa9 is a letter",
        b"\xef\xbb\xbf",
        b"\xef\xbb\xbf\0",
        b"tick",
        b"1  tick",
        b"/ a slip",
        b"\xff\xfet\0",
    ] {
        assert!(!form::is_binary(text), "{text:?}");
    }
    for bytes in [
        &b"\0"[..],
        b"\0\x02\x01\x06",
        b"\x09\x20\x01",
        b"\x0a\x0d\x01",
        b"\x23\x23\x01",
        b"\x2e\xe0\x01",
        b"\xff\xff\x01",
        b"\x0a\0",
        b"\n\n\x7f",
    ] {
        assert!(form::is_binary(bytes), "{bytes:?}");
    }
    // A longer feed has the form of its beginning.
    for size in 0..6 {
        let told = form::is_told(&b"tick 2"[..size]);
        assert_eq!(told, size >= 3);
        let told = form::is_told(&b"\n\0\x01\x06"[..size.min(4)]);
        assert_eq!(told, size >= 2);
    }
}

/// No length that an entry can have makes a feed look like a text.
#[test]
fn every_length_is_binary() {
    for length in 2..=65_535_u16 {
        let [high, low] = length.to_be_bytes();
        assert!(form::is_binary(&[high, low, 1]), "{length}");
        assert!(form::is_binary(&[high, low, 1, 1, 0, b'D', b'V']));
    }
}

#[test]
fn generated_feeds_are_binary_and_their_texts_are_not() {
    for seed in 0..200 {
        let feed = generate::feed(seed, 20);
        assert_eq!(bytes_of(feed.clone()).unwrap(), feed, "{seed}");
        for text in [text_of(&feed), shown(&feed)] {
            assert_eq!(bytes_of(text.into_bytes()).unwrap(), feed, "{seed}");
        }
    }
}

/// Gives its parts one by one, then an end or an error.
struct Parts {
    parts: Vec<Vec<u8>>,
    error: Option<Error>,
}

impl Read for Parts {
    fn read(&mut self, place: &mut [u8]) -> io::Result<usize> {
        if self.parts.is_empty() {
            return self.error.take().map_or(Ok(0), Err);
        }
        let part = self.parts.remove(0);
        place[..part.len()].copy_from_slice(&part);
        Ok(part.len())
    }
}

/// Notes where it was flushed.
#[derive(Default)]
struct Flushed {
    bytes: Vec<u8>,
    places: Vec<usize>,
}

impl Write for Flushed {
    fn write(&mut self, bytes: &[u8]) -> io::Result<usize> {
        self.bytes.extend_from_slice(bytes);
        Ok(bytes.len())
    }

    fn flush(&mut self) -> io::Result<()> {
        self.places.push(self.bytes.len());
        Ok(())
    }
}

fn passed(parts: &[&[u8]], error: Option<Error>) -> (Flushed, Result<(), Trouble>) {
    let parts = parts.iter().map(|part| part.to_vec()).collect();
    let mut output = Flushed::default();
    let done = pass_on(&mut Parts { parts, error }, &mut output);
    (output, done)
}

#[test]
fn binary_entries_are_passed_on_once_they_are_whole() {
    let parts: [&[u8]; 6] = [
        b"\0",
        b"\x02\x01\x06\0",
        b"\x02\x01",
        b"\x06",
        b"\0\x02\x01\x06",
        b"\0",
    ];
    let (output, done) = passed(&parts, None);
    assert!(done.is_ok());
    assert_eq!(output.bytes, parts.concat());
    assert_eq!(output.places, [0, 4, 4, 8, 12, 12]);
}

#[test]
fn nothing_is_passed_on_behind_the_end_of_the_replay() {
    for (feed, size) in [
        (&b"\0\x02\x01\x06\0\0\0\x02\x01\x06"[..], 6),
        (b"\0\x01\x01\0\x02\x01\x06", 3),
        (b"\x2e\xe1\x01\x06", 2),
        (b"\0\x02\x01\x06\xff\xff", 6),
    ] {
        // It does not wait for more.
        let (output, done) = passed(&[feed], Some(Error::other("not read")));
        assert!(done.is_ok(), "{feed:?}");
        assert_eq!(output.bytes, &feed[..size]);
    }
}

#[test]
fn texts_are_passed_on_at_their_end() {
    let (output, done) = passed(&[b"ti", b"ck 2\nti", b"ck"], None);
    assert!(done.is_ok());
    assert_eq!(output.bytes, b"\0\x02\x01\x06".repeat(3));
    let (output, done) = passed(&[b"tick\n", b"tock\n"], None);
    assert!(matches!(done, Err(Trouble::Wrong(why)) if why.starts_with("line 2: expected ")));
    assert_eq!(output.bytes, b"");
}

/// Half an entry or half a text may go on in any way.
#[test]
fn what_is_not_whole_at_an_error_is_not_passed_on() {
    for (parts, size) in [
        (&[&b"\0\x02\x01\x06\0\x02\x01"[..]][..], 4),
        (&[b"\0\x02\x01\x06", b"\0"], 4),
        (&[b"\0"], 0),
        (&[b"tick\n"], 0),
        (&[], 0),
    ] {
        let (output, done) = passed(parts, Some(Error::from_raw_os_error(5)));
        assert!(matches!(done, Err(Trouble::Unread(error)) if error.raw_os_error() == Some(5)));
        assert_eq!(output.bytes.len(), size);
    }
}
