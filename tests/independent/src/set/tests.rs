//! The edges that the rules name, and what holds of every entry.

use super::*;
use crate::feed::to_binary;
use crate::generate;
use crate::replay::{entries, BUFFER};

const RUNNING: &str = "
    plan 12:00120001 / 7:0
    telegram 0 DV0030001255041120240229120000
    telegram 0 DV0018001255042101
";
const CAPTURE: &str = "telegram 0 DV002900125506000078001200011";

fn binary(text: &str) -> Vec<u8> {
    to_binary(text.as_bytes()).unwrap()
}

fn set_after(text: &str) -> Set {
    let mut set = Set::new();
    for entry in entries(&binary(text)) {
        assert_eq!(set.step(entry, &mut [0; BUFFER]).refusal, 0, "{text}");
    }
    set
}

/// The refusal of one entry after others that are all accepted.
fn refusal(before: &str, entry: &str) -> u8 {
    let mut set = set_after(before);
    set.step(&binary(entry), &mut [0; BUFFER]).refusal
}

#[test]
fn empty_entry() {
    for bytes in [&b""[..], b"\0", b"\0\x02", b"\0\x02\x01"] {
        let reply = Set::new().step(bytes, &mut [0; BUFFER]);
        assert_eq!((reply.refusal, reply.count), (1, 0));
    }
}

#[test]
fn named_edges() {
    let plan = "plan 12:00120001 / 7:0";
    let time = |date: &str| format!("telegram 0 DV00300012550411{date}120000");
    assert_eq!(refusal(plan, &time("20240229")), 0);
    assert_eq!(refusal(plan, &time("20230229")), 10);
    assert_eq!(refusal("", "plan 1023:00120001 / 7:0"), 0);
    assert_eq!(refusal("", "plan 1024:00120001 / 7:0"), 6);
    let code = |code: &str| format!("telegram 0 DV0030{code}55041120240229120000");
    assert_eq!(refusal("plan 1023:00120001 / 7:0", &code("1023")), 0);
    assert_eq!(refusal("plan 1023:00120001 / 7:0", &code("1024")), 8);
    let request = |channel: &str| format!("telegram 0 DV00290012550600{channel}8001200011");
    assert_eq!(refusal(RUNNING, &request("007")), 0);
    assert_eq!(refusal(RUNNING, &request("206")), 12);
    assert_eq!(refusal(RUNNING, &request("999")), 12);
    assert_eq!(refusal(RUNNING, &request("207")), 10);
}

#[test]
fn buffer_of_58_and_of_59_bytes() {
    let capture = binary(CAPTURE);
    let before = set_after(RUNNING);
    let mut set = before.clone();
    let mut buffer = [0xaa; 58];
    let reply = set.step(&capture, &mut buffer);
    assert_eq!((reply.refusal, reply.count), (16, 0));
    assert_eq!((set, buffer), (before.clone(), [0xaa; 58]));

    let mut set = before.clone();
    let reply = set.step(&capture, &mut [0xaa; 59]);
    assert_eq!((reply.refusal, reply.count), (0, 59));
    assert_ne!(set, before);
}

#[test]
fn ticks_after_press_off() {
    let pressed = format!("{RUNNING}{CAPTURE}\npress 0 7 on\npress 0 7 off");
    let mut set = set_after(&pressed);
    let tick = binary("tick");
    let counts: Vec<usize> = (1..=140)
        .map(|_| set.step(&tick, &mut [0; BUFFER]).count)
        .collect();
    let sent: Vec<(usize, usize)> = (1..=140).zip(counts).filter(|tick| tick.1 > 0).collect();
    assert_eq!(sent, [(10, 51), (130, 34)]);
}

#[test]
fn largest_output() {
    let codes: Vec<String> = (0..32).map(|code| format!("{code}:0,1,2,3")).collect();
    let mut text = format!(
        "plan 1:00000001 2:00000002 3:00000003 4:00000004 / {}\n",
        codes.join(" ")
    );
    for desk in 0..4 {
        let code = desk + 1;
        text += &format!("telegram {desk} DV0030000{code}55041120240229120000\n");
        text += &format!("telegram {desk} DV0018000{code}55042101\n");
    }
    for channel in 0..32 {
        text += &format!("mobile-on {channel} 3 00990007\n");
        text += &format!("telegram 0 DV00290001550600{channel:03}8000000011\n");
        text += &format!("press 0 {channel} on\n");
    }
    let reply = set_after(&text).step(&binary("handover"), &mut [0; BUFFER]);
    assert_eq!((reply.refusal, reply.count), (0, 22_976));
}

/// Each entry of generated feeds once with a buffer one byte too short, once
/// with one that just fits, and once with more.
#[test]
fn what_holds_of_every_entry() {
    let mut accepted_with_records = 0;
    for seed in 0..60 {
        let feed = generate::feed(seed, 300);
        let mut set = Set::new();
        for entry in entries(&feed) {
            accepted_with_records += usize::from(check_entry(&mut set, entry));
        }
    }
    assert!(accepted_with_records > 1000);
}

fn check_entry(set: &mut Set, entry: &[u8]) -> bool {
    let before = set.clone();
    let mut buffer = vec![0xaa; BUFFER];
    let reply = set.step(entry, &mut buffer);
    for channel in set.lines().map_or(&[][..], |lines| &lines.channels) {
        check_ring(channel);
    }
    let (written, rest) = buffer.split_at(reply.count);
    assert!(rest.iter().all(|&byte| byte == 0xaa));
    if reply.refusal != 0 {
        assert_eq!(reply.count, 0);
        assert_eq!(*set, before);
        return false;
    }
    let mut just_fits = vec![0xaa; reply.count];
    let mut other = before.clone();
    assert_eq!(other.step(entry, &mut just_fits), reply);
    assert_eq!((&other, &just_fits[..]), (&*set, written));
    if reply.count == 0 {
        return false;
    }
    let mut too_short = vec![0xaa; reply.count - 1];
    let mut other = before.clone();
    let refused = other.step(entry, &mut too_short);
    assert_eq!((refused.refusal, refused.count), (16, 0));
    assert_eq!(other, before);
    assert!(too_short.iter().all(|&byte| byte == 0xaa));
    true
}

/// A ring has its call, told to the called desk alone, and nothing else.
fn check_ring(channel: &Channel) {
    let Some(ring) = channel.ring else { return };
    assert!((1..=15).contains(&ring.seconds));
    let call = channel.call.expect("a ring has a call");
    assert_eq!((call.call_type, call.source), (3, ring.number));
    assert_eq!(call.recipients, Desks::only(ring.desk));
    assert!(channel.entitled.contains(ring.desk));
    let idle = Channel {
        call: None,
        ring: None,
        ..*channel
    };
    assert_eq!(idle, Channel::new(channel.code, channel.entitled));
}

const TWO_RUNNING: &str = "
    plan 12:00120001 13:00130001 / 7:0,1 9:0,1 11:0
    telegram 0 DV0030001255041120240229120000
    telegram 0 DV0018001255042101
    telegram 1 DV0030001355041120240229120000
    telegram 1 DV0018001355042101
";
const CALL: &str = "mobile-call 7 3 00990007 00120001";
const ANSWER: &str = "telegram 0 DV003800125504190073800990007800120001";

/// What a replay prints for one entry after others that are all accepted.
fn lines(before: &str, entry: &str) -> Vec<String> {
    let feed = binary(&format!("{before}\n{entry}"));
    let output = String::from_utf8(crate::replay::output(&feed)).unwrap();
    let last = output.rfind("\nE ").unwrap();
    output[last..].lines().skip(2).map(String::from).collect()
}

/// The entry's refusal is 16 with one byte less, and with that many it fits.
fn just_fits(before: &str, entry: &str, count: usize) {
    let before = set_after(before);
    let mut buffer = vec![0xaa; count];
    let mut set = before.clone();
    let reply = set.step(&binary(entry), &mut buffer[1..]);
    assert_eq!((reply.refusal, reply.count), (16, 0), "{entry}");
    assert_eq!(set, before);
    assert!(buffer.iter().all(|&byte| byte == 0xaa));
    let reply = set.step(&binary(entry), &mut buffer);
    assert_eq!((reply.refusal, reply.count), (0, count), "{entry}");
}

#[test]
fn buffers_of_a_ring() {
    let ring = format!("{TWO_RUNNING}{CALL}");
    just_fits(TWO_RUNNING, CALL, 102);
    just_fits(&ring, ANSWER, 60 + 34 * 2);
    just_fits(&format!("{RUNNING}{CALL}"), ANSWER, 60 + 34);
    just_fits(
        &ring,
        "telegram 1 DV003800135504190073800990007800120001",
        25,
    );
    just_fits(&ring, "mobile-cancel 7", 94);
    just_fits(&ring, "handover", 94);
    just_fits(&format!("{ring}\ntick 14"), "tick", 94);
    let two = format!("{ring}\nmobile-call 9 3 00990007 00120001\ntick 14");
    just_fits(&two, "tick", 188);
}

#[test]
fn ring_refusals_come_before_the_space() {
    let ring = format!("{TWO_RUNNING}{CALL}");
    for (before, entry, refusal) in [
        (TWO_RUNNING, "mobile-call 7 3 00990007 00140001", 17),
        (TWO_RUNNING, "mobile-call 11 3 00990007 00130001", 17),
        (TWO_RUNNING, "mobile-cancel 7", 17),
        (&ring, CALL, 17),
        (TWO_RUNNING, CALL, 16),
        (&ring, "mobile-cancel 7", 16),
        (TWO_RUNNING, "mobile-call 8 3 00990007 00140001", 12),
        (TWO_RUNNING, "mobile-call 7 3 00000000 00140001", 13),
        (TWO_RUNNING, "mobile-call 7 3 00990007 0014000x", 13),
        (TWO_RUNNING, "mobile-cancel 8", 12),
    ] {
        let reply = set_after(before).step(&binary(entry), &mut []);
        assert_eq!((reply.refusal, reply.count), (refusal, 0), "{entry}");
    }
}

#[test]
fn shapes_of_ring_entries() {
    for (entry, due) in [
        ("mobile-call 7 0 00990007 00120001", 0),
        ("mobile-call 7 29 00990007 00120001", 0),
        ("mobile-call 7 30 00990007 00120001", 3),
        ("mobile-call 200 30 00000000 00000000", 3),
        ("raw 001301090703303039393030303730303132303030", 3),
        ("raw 0015010907033030393930303037303031323030303130", 3),
        ("raw 0002010a", 3),
        ("raw 0004010a0700", 3),
        ("raw 0003010b07", 3),
    ] {
        assert_eq!(refusal(TWO_RUNNING, entry), due, "{entry}");
    }
    for entry in [CALL, "mobile-cancel 7"] {
        assert_eq!(refusal("", entry), 4, "{entry}");
    }
}

/// A tick that is refused does not count.
#[test]
fn fifteenth_accepted_tick() {
    let mut set = set_after(&format!("{TWO_RUNNING}{CALL}\ntick 14"));
    let tick = binary("tick");
    for _ in 0..3 {
        assert_eq!(set.step(&tick, &mut [0; 93]).refusal, 16);
    }
    let mut answered = set.clone();
    assert_eq!(answered.step(&binary(ANSWER), &mut [0; BUFFER]).count, 128);
    assert_eq!(set.step(&tick, &mut [0; 94]).count, 94);
    assert_eq!(set.step(&binary(ANSWER), &mut [0; BUFFER]).count, 25);
}

#[test]
fn ring_and_answer() {
    assert_eq!(
        lines(TWO_RUNNING, CALL),
        [
            "C 0 2 7 1",
            "T 0 DV003800125504680073800990007800120001",
            "T 0 DV00460012550473007003302100800990007800000000",
        ]
    );
    let ring = format!("{TWO_RUNNING}{CALL}");
    assert_eq!(
        lines(&ring, ANSWER),
        [
            "T 0 DV002000125504690071",
            "T 0 DV0030001255048000731800120001",
            "T 0 DV002900125506510078001200011",
            "T 1 DV002900135506510078000000001",
        ]
    );
    assert_eq!(
        lines(&ring, "mobile-cancel 7"),
        [
            "C 0 2 7 0",
            "T 0 DV0030001255048000730800120001",
            "T 0 DV00460012550473007003302002800990007800000000",
        ]
    );
    assert_eq!(lines(&ring, "handover"), lines(&ring, "mobile-cancel 7"));
    assert_eq!(
        lines(&format!("{ring}\ntick 14"), "tick"),
        [
            "C 0 2 7 0",
            "T 0 DV0030001255048000730800120001",
            "T 0 DV00460012550473007003302005800990007800000000",
        ]
    );
}

#[test]
fn answers_that_do_not_match() {
    let ring = format!("{TWO_RUNNING}{CALL}");
    let before = set_after(&ring);
    for (desk, body) in [
        (1, "0073800990007800120001"),
        (1, "0073800990007800130001"),
        (0, "0071800990007800120001"),
        (0, "0072800990007800120001"),
        (0, "0073800990008800120001"),
        (0, "0073800990007800130001"),
        (0, "0073800120001800990007"),
        (0, "0093800990007800120001"),
    ] {
        let code = 12 + desk;
        let channel = &body[..3];
        let answer = format!("telegram {desk} DV003800{code}550419{body}");
        let reply = format!("T {desk} DV002000{code}550469{channel}0");
        assert_eq!(lines(&ring, &answer), [reply], "{answer}");
        let mut set = before.clone();
        set.step(&binary(&answer), &mut [0; BUFFER]);
        assert_eq!(set, before, "{answer}");
    }
}

/// As far as a 550600 would go, but never to 13.
#[test]
fn refusals_of_an_answer() {
    let ring = format!("{TWO_RUNNING}{CALL}");
    for (entry, due) in [
        ("telegram 2 DV003800125504190073800990007800120001", 7),
        ("telegram 0 DV003800135504190073800990007800120001", 8),
        ("telegram 0 DV003800125504680073800990007800120001", 9),
        ("telegram 0 DV002000125504690071", 9),
        ("telegram 0 DV0030001255048000731800120001", 9),
        ("telegram 0 DV003800125504190074800990007800120001", 10),
        ("telegram 0 DV00380012550419007380099000x800120001", 10),
        ("telegram 0 DV003800125504199993800990007800120001", 12),
        ("telegram 0 DV003800125504190083800990007800120001", 12),
        ("telegram 1 DV003800135504190113800990007800130001", 12),
        ("telegram 0 DV003800125504190073800000000800000000", 0),
    ] {
        assert_eq!(refusal(&ring, entry), due, "{entry}");
    }
    let phase_2 = "plan 12:00120001 / 7:0\ntelegram 0 DV0030001255041120240229120000";
    assert_eq!(refusal("plan 12:00120001 / 7:0", ANSWER), 11);
    assert_eq!(refusal(phase_2, ANSWER), 11);
    let unknown = "telegram 0 DV003800125504190083800990007800120001";
    assert_eq!(refusal(phase_2, unknown), 11);
}

#[test]
fn entries_during_a_ring() {
    let ring = format!("{TWO_RUNNING}{CALL}");
    for (entry, due) in [
        ("press 0 7 on", 14),
        ("press 0 7 off", 14),
        ("cut 0 7", 14),
        ("mobile-on 7 3 00990007", 15),
        ("mobile-off 7", 15),
        ("mobile-call 7 4 00990008 00130001", 17),
    ] {
        assert_eq!(refusal(&ring, entry), due, "{entry}");
    }
    for order in 0..=1 {
        for desk in 0..=1 {
            let code = 12 + desk;
            let request = format!("telegram {desk} DV002900{code}550600007800{code}0001{order}");
            let reply = format!("T {desk} DV002000{code}5506500071");
            assert_eq!(lines(&ring, &request), [reply]);
        }
    }
}

#[test]
fn timers_after_an_answer() {
    let mut set = set_after(&format!("{TWO_RUNNING}{CALL}\ntick 14\n{ANSWER}"));
    let tick = binary("tick");
    let sent: Vec<(usize, usize)> = (1..=140)
        .map(|number| (number, set.step(&tick, &mut [0; BUFFER]).count))
        .filter(|tick| tick.1 > 0)
        .collect();
    assert_eq!(sent, [(10, 51), (130, 68)]);
}

#[test]
fn types_after_an_answer() {
    let answered = format!("{TWO_RUNNING}{CALL}\n{ANSWER}");
    assert_eq!(
        lines(&answered, "press 0 7 on"),
        ["C 0 1 7 1", "T 0 DV0033001255047700799931001200011"]
    );
    assert_eq!(
        lines(&answered, "mobile-on 7 4 00990008"),
        [
            "C 0 2 7 1",
            "T 0 DV003200125504640070043009900081",
            "T 0 DV0033001255047700700432009900081",
        ]
    );
    let left_over = format!("{answered}\nmobile-on 7 4 00990008\ncut 0 7\n{CAPTURE}\npress 0 7 on");
    assert_eq!(
        lines(&left_over, "mobile-off 7"),
        [
            "C 0 2 7 0",
            "T 0 DV003200125504640070043009900080",
            "T 0 DV0033001255047700700432009900080",
        ]
    );
    let later = format!("{answered}\ntick 10");
    assert_eq!(
        lines(&later, "press 0 7 on"),
        [
            "C 0 1 7 1",
            "T 0 DV00460012550473007999101100800120001800000000",
            "T 0 DV0033001255047700799911001200011",
        ]
    );
}
