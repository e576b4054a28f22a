//! The groups of telegrams that two readers are compared on. Where the rules
//! give the answer to a generated telegram, it is written down beside it.

use crate::random::Random;
use crate::samples::{self, Edges, LAYOUTS, SAMPLES};

pub struct Case {
    pub telegram: Vec<u8>,
    /// The refusal number by the rules, 0 for accepted, if the generator
    /// knows it without reading the telegram.
    pub expected: Option<u8>,
}

pub struct Group {
    pub name: &'static str,
    pub cases: Vec<Case>,
    /// The answers without which the group would miss what it is for.
    pub must_see: &'static [u8],
}

/// All groups; the random ones have this many telegrams each.
pub fn all(seed: u64, count: usize) -> Vec<Group> {
    let random = &mut Random::new(seed);
    let group = |name, must_see, cases| Group {
        name,
        cases,
        must_see,
    };
    vec![
        group("field edges", &[0, 8, 10], field_edges()),
        group("dates", &[0, 10], dates()),
        group("single-byte damage", &[0, 8, 9, 10], single_byte_damage()),
        group("cut short", &[8, 10], cut_short()),
        group("lengthened", &[8, 10], lengthened(random)),
        group("headers", &[0, 8], headers()),
        group("codes", &[0, 8], codes()),
        group("channels", &[0, 10], channels()),
        group("bases", &[0, 10], bases()),
        group("reasons", &[0, 10], reasons()),
        group("identifiers", &[0, 9, 10], identifiers(random)),
        group("several faults", &[0, 8, 9, 10], several_faults()),
        group("long frames", &[8, 9, 10], long_frames(random)),
        group("random valid", &[0], random_valid(random, count)),
        group(
            "random damage",
            &[0, 8, 9, 10],
            random_damage(random, count),
        ),
        group("random bodies", &[0, 10], random_bodies(random, count)),
        group("random bytes", &[8, 9], random_bytes(random, count)),
    ]
}

fn known(telegram: Vec<u8>, expected: u8) -> Case {
    Case {
        telegram,
        expected: Some(expected),
    }
}

fn unknown(telegram: Vec<u8>) -> Case {
    Case {
        telegram,
        expected: None,
    }
}

/// The sample with other bytes from a position on.
fn patched(sample: &[u8], position: usize, bytes: &[u8]) -> Vec<u8> {
    let mut telegram = sample.to_vec();
    telegram[position..position + bytes.len()].copy_from_slice(bytes);
    telegram
}

/// The telegram with its length field made right, if it has one and its
/// length fits.
fn corrected(telegram: &[u8]) -> Option<Vec<u8>> {
    let fits = (6..=9999).contains(&telegram.len());
    fits.then(|| patched(telegram, 2, format!("{:04}", telegram.len()).as_bytes()))
}

/// Bytes that are no digits: the two beside the digits, those that lenient
/// number readers let by, and a digit with its highest bit set.
const NO_DIGITS: [u8; 14] = [
    b'/', b':', b' ', b'+', b'-', b'.', b'_', b'*', b'A', b'x', b'\n', 0, 0xB1, 0xFF,
];

/// Each field's edges, with the others of its telegram at their lowest, at a
/// middle and at their highest value.
fn field_edges() -> Vec<Case> {
    let mut cases = Vec::new();
    for (identifier, layout) in LAYOUTS {
        for filling in [lowest, middle, highest] {
            let values: Vec<&str> = layout.iter().map(filling).collect();
            code_edges(identifier, values.concat().as_bytes(), &mut cases);
            for (place, edges) in layout.iter().enumerate() {
                let mut with = |value: &[u8], expected| {
                    let (before, after) = (values[..place].concat(), values[place + 1..].concat());
                    let body = [before.as_bytes(), value, after.as_bytes()].concat();
                    cases.push(known(
                        samples::telegram("0012", identifier, &body),
                        expected,
                    ));
                };
                edges.valid.iter().for_each(|v| with(v.as_bytes(), 0));
                edges.wrong.iter().for_each(|v| with(v.as_bytes(), 10));
                let value = values[place].as_bytes();
                for position in 0..value.len() {
                    for byte in NO_DIGITS {
                        with(&patched(value, position, &[byte]), 10);
                    }
                }
            }
        }
    }
    cases
}

fn lowest(edges: &Edges) -> &'static str {
    edges.valid[0]
}

fn middle(edges: &Edges) -> &'static str {
    edges.valid[edges.valid.len() / 2]
}

fn highest(edges: &Edges) -> &'static str {
    edges.valid[edges.valid.len() - 1]
}

fn code_edges(identifier: &str, body: &[u8], cases: &mut Vec<Case>) {
    for code in ["0000", "0001", "0512", "1022", "1023"] {
        cases.push(known(samples::telegram(code, identifier, body), 0));
    }
    for code in [
        "1024", "1025", "2000", "9999", "+012", "-001", " 012", "12  ", "00A2", "0x0C",
    ] {
        cases.push(known(samples::telegram(code, identifier, body), 8));
    }
}

fn dates() -> Vec<Case> {
    let mut cases = Vec::new();
    let mut date = |text: String, valid: bool| {
        let telegram = samples::telegram("0012", "550411", text.as_bytes());
        cases.push(known(telegram, if valid { 0 } else { 10 }));
    };
    month_ends(&mut date);
    whole_years(&mut date);
    // Only 2000 to 2099 count, whatever kind of year the others are.
    for year in 0..=9999 {
        let in_century = (2000..=2099).contains(&year);
        let leap = samples::LEAP_YEARS.contains(&year);
        date(format!("{year:04}0101000000"), in_century);
        date(format!("{year:04}0228235959"), in_century);
        date(format!("{year:04}0229120000"), leap);
        date(format!("{year:04}1231235959"), in_century);
    }
    times(&mut date);
    cases
}

/// The days at the ends of every month of the century.
fn month_ends(date: &mut impl FnMut(String, bool)) {
    for year in 2000..=2099 {
        for month in 1..=12 {
            let last = samples::last_day(year, month);
            for day in [0, 1, 28, 29, 30, 31, 32] {
                let valid = day >= 1 && day <= last;
                date(format!("{year}{month:02}{day:02}120000"), valid);
            }
        }
        for month in [0, 13] {
            for day in [0, 1, 28, 31] {
                date(format!("{year}{month:02}{day:02}120000"), false);
            }
        }
    }
}

/// Every month and day that two digits can spell, in two leap years, a year
/// between and the years beyond both ends.
fn whole_years(date: &mut impl FnMut(String, bool)) {
    for year in [1999, 2000, 2023, 2024, 2099, 2100] {
        for month in 0..=99 {
            for day in 0..=99 {
                let valid = (2000..=2099).contains(&year)
                    && (1..=12).contains(&month)
                    && (1..=samples::last_day(year, month)).contains(&day);
                date(format!("{year}{month:02}{day:02}235959"), valid);
            }
        }
    }
}

/// Hours, minutes and seconds from 00 to 99, and their edges together.
fn times(date: &mut impl FnMut(String, bool)) {
    for value in 0..=99 {
        for day in ["20000101", "20240229", "20991231"] {
            date(format!("{day}{value:02}0000"), value <= 23);
            date(format!("{day}00{value:02}00"), value <= 59);
            date(format!("{day}0000{value:02}"), value <= 59);
            date(format!("{day}{value:02}5959"), value <= 23);
            date(format!("{day}23{value:02}59"), value <= 59);
            date(format!("{day}2359{value:02}"), value <= 59);
        }
    }
    for hour in [23, 24] {
        for minute in [59, 60] {
            for second in [59, 60] {
                let valid = (hour, minute, second) == (23, 59, 59);
                date(format!("20240229{hour}{minute}{second}"), valid);
            }
        }
    }
}

/// Every sample with every byte replaced by every other value.
fn single_byte_damage() -> Vec<Case> {
    let mut cases = Vec::new();
    for sample in SAMPLES {
        let sample = sample.as_bytes();
        for position in 0..sample.len() {
            for byte in (0..=255).filter(|&byte| byte != sample[position]) {
                cases.push(Case {
                    telegram: patched(sample, position, &[byte]),
                    expected: damage_answer(position, byte.is_ascii_digit()),
                });
            }
        }
    }
    cases
}

/// What the rules say of another byte at a position, as far as they do so
/// without a look at the values.
fn damage_answer(position: usize, digit: bool) -> Option<u8> {
    match position {
        0..=5 => Some(8),
        _ if digit => None,
        6..=9 => Some(8),
        10..=15 => Some(9),
        _ => Some(10),
    }
}

/// Every sample cut at every length, with the length field left alone and
/// with it corrected.
fn cut_short() -> Vec<Case> {
    let mut cases = Vec::new();
    for sample in SAMPLES {
        for length in 0..sample.len() {
            let cut = &sample.as_bytes()[..length];
            cases.push(known(cut.to_vec(), 8));
            if let Some(telegram) = corrected(cut) {
                cases.push(known(telegram, if length < 16 { 8 } else { 10 }));
            }
        }
    }
    cases
}

/// Every sample with 1 to 20 bytes more, and with a second telegram behind.
fn lengthened(random: &mut Random) -> Vec<Case> {
    let mut tails: Vec<Vec<u8>> = SAMPLES.iter().map(|s| s.as_bytes().to_vec()).collect();
    for extra in 1..=20 {
        for byte in [b'0', b'1', b'8', b' ', b'\n', b'\r', 0] {
            tails.push(vec![byte; extra]);
        }
        tails.push((0..extra).map(|_| random.digit()).collect());
        tails.push(random.bytes(extra));
    }
    let mut cases = Vec::new();
    for sample in SAMPLES {
        for tail in &tails {
            let telegram = [sample.as_bytes(), tail].concat();
            cases.extend(corrected(&telegram).map(|telegram| known(telegram, 10)));
            cases.push(known(telegram, 8));
        }
    }
    cases
}

/// First letters and length fields.
fn headers() -> Vec<Case> {
    let mut cases = Vec::new();
    for sample in SAMPLES {
        let bytes = sample.as_bytes();
        for letters in ["DV", "dv", "Dv", "dV", "VD", "DD", "VV", "00", "  ", "\0\0"] {
            let expected = if letters == "DV" { 0 } else { 8 };
            cases.push(known(patched(bytes, 0, letters.as_bytes()), expected));
        }
        for length in 0..=9999 {
            let expected = if length == sample.len() { 0 } else { 8 };
            let digits = format!("{length:04}");
            cases.push(known(patched(bytes, 2, digits.as_bytes()), expected));
        }
        let length = sample.len();
        for field in [
            format!("  {length}"),
            format!("{length}  "),
            format!("+0{length}"),
            format!(" 0{length}"),
            format!("{length}.0"),
            format!("0x{length:02X}"),
        ] {
            cases.push(known(patched(bytes, 2, field.as_bytes()), 8));
        }
        for lead in [&b" "[..], b"0", b"\0", b"\n", b"D", b"DV"] {
            let telegram = [lead, bytes].concat();
            cases.extend(corrected(&telegram).map(|telegram| known(telegram, 8)));
            cases.push(known(telegram, 8));
        }
    }
    cases
}

fn codes() -> Vec<Case> {
    let mut cases = Vec::new();
    for sample in SAMPLES {
        for code in (0..=1100).chain([2047, 2048, 4095, 4096, 9999]) {
            let digits = format!("{code:04}");
            let expected = if code <= 1023 { 0 } else { 8 };
            let telegram = patched(sample.as_bytes(), 6, digits.as_bytes());
            cases.push(known(telegram, expected));
        }
    }
    cases
}

fn channels() -> Vec<Case> {
    let mut cases = Vec::new();
    for sample in samples::WITH_CHANNEL {
        for channel in 0..=999 {
            let valid = channel <= 99 || (187..=206).contains(&channel) || channel == 999;
            let digits = format!("{channel:03}");
            let telegram = patched(sample.as_bytes(), 16, digits.as_bytes());
            cases.push(known(telegram, if valid { 0 } else { 10 }));
        }
    }
    cases
}

fn bases() -> Vec<Case> {
    let mut cases = Vec::new();
    for sample in samples::WITH_BASE {
        for base in 0..=999 {
            let valid = base <= 29 || base >= 997;
            let digits = format!("{base:03}");
            let telegram = patched(sample.as_bytes(), 19, digits.as_bytes());
            cases.push(known(telegram, if valid { 0 } else { 10 }));
        }
    }
    cases
}

/// Every reason, at a start and at an end and in both directions: the reader
/// ties it to neither.
fn reasons() -> Vec<Case> {
    let mut cases = Vec::new();
    for direction_and_start in ["10", "11", "20", "21"] {
        let bytes = samples::WITH_REASON.as_bytes();
        let sample = patched(bytes, 24, direction_and_start.as_bytes());
        for reason in 0..=99 {
            let valid = [0, 1, 2, 3, 5, 9].contains(&reason);
            let telegram = patched(&sample, 26, format!("{reason:02}").as_bytes());
            cases.push(known(telegram, if valid { 0 } else { 10 }));
        }
    }
    cases
}

/// Every identifier from 550000 to 550999, some around and random ones, each
/// before the body of every sample.
fn identifiers(random: &mut Random) -> Vec<Case> {
    let mut tried: Vec<String> = (549_990..=551_010).map(|id| id.to_string()).collect();
    for text in [
        "000000", "999999", "055041", "504110", "5504 1", "+50411", "-50411", " 50411", "0x8663",
    ] {
        tried.push(text.to_string());
    }
    // The same last digits under other first ones.
    for (known, _) in LAYOUTS {
        for first in ["000", "054", "155", "549", "551", "560", "650", "950"] {
            tried.push(format!("{first}{}", &known[3..]));
        }
    }
    for _ in 0..1000 {
        tried.push(format!("{:06}", random.within(0, 999_999)));
    }
    let mut cases = Vec::new();
    for sample in SAMPLES {
        for identifier in &tried {
            let telegram = patched(sample.as_bytes(), 10, identifier.as_bytes());
            cases.push(Case {
                expected: identifier_answer(identifier, sample),
                telegram,
            });
        }
    }
    cases
}

/// One of the table before another's body is left to the two readers.
fn identifier_answer(identifier: &str, sample: &str) -> Option<u8> {
    if *identifier == sample[10..16] {
        return Some(0);
    }
    let in_table = LAYOUTS.iter().any(|(known, _)| *known == identifier);
    (!in_table).then_some(9)
}

/// Faults of several parts at once: the first check that fails answers.
fn several_faults() -> Vec<Case> {
    let headers = [
        ("DV", 0, "0012", true),
        ("DW", 0, "0012", false),
        ("DV", 1, "0012", false),
        ("DV", -1, "0012", false),
        ("DV", 0, "1024", false),
        ("DV", 0, "00A2", false),
        ("DW", 16, "1024", false),
    ];
    let mut cases = Vec::new();
    for sample in SAMPLES {
        let (identifier, body) = (&sample[10..16], &sample[16..]);
        let spoilt = format!("{}x", &body[..body.len().saturating_sub(1)]);
        let longer = format!("{body}0");
        for (letters, difference, code, right_header) in headers {
            for tried in [identifier, "550462", "55046A"] {
                for tried_body in [body, &longer, &spoilt] {
                    let length = 16 + tried_body.len() as i32 + difference;
                    let text = format!("{letters}{length:04}{code}{tried}{tried_body}");
                    let expected = match (right_header, tried == identifier, tried_body == body) {
                        (false, _, _) => 8,
                        (true, false, _) => 9,
                        (true, true, false) => 10,
                        (true, true, true) => 0,
                    };
                    cases.push(known(text.into_bytes(), expected));
                }
            }
        }
    }
    cases
}

fn long_frames(random: &mut Random) -> Vec<Case> {
    let mut cases = Vec::new();
    for sample in SAMPLES {
        let long = |length: usize, field: usize| {
            let mut telegram = sample.as_bytes().to_vec();
            telegram.resize(length, b'0');
            patched(&telegram, 2, format!("{field:04}").as_bytes())
        };
        for length in [100, 255, 256, 257, 1000, 4096, 9998, 9999] {
            let telegram = long(length, length);
            cases.push(known(patched(&telegram, 6, b"1024"), 8));
            cases.push(known(patched(&telegram, 10, b"550462"), 9));
            cases.push(known(telegram, 10));
        }
        // Lengths that are right once 256, 10,000 or 32,768 is lost.
        let right = sample.len();
        for lost in [256, 512, 10_000, 20_000, 32_768, 60_000] {
            cases.push(known(long(right + lost, right), 8));
        }
        cases.push(known(long(10_000, 1000), 8));
        cases.push(known(long(10_000, 0), 8));
        cases.push(known(long(65_535, 9999), 8));
        cases.push(known(long(65_535, 5535), 8));
        cases.push(known(long(65_535, 6553), 8));
    }
    for _ in 0..40 {
        let length = random.within(81, 65_535);
        cases.push(unknown(random.bytes(length)));
        let length = random.within(81, 9983);
        let body = random.bytes(length);
        let (identifier, _) = LAYOUTS[random.below(LAYOUTS.len())];
        let telegram = samples::telegram("0012", identifier, &body);
        cases.push(known(telegram, 10));
    }
    cases.push(known(random.bytes(65_535), 8));
    cases
}

fn random_valid(random: &mut Random, count: usize) -> Vec<Case> {
    let one = |_| known(samples::random_telegram(random), 0);
    (0..count).map(one).collect()
}

/// Valid telegrams with 1 to 3 bytes replaced, half of them by digits, so
/// that some stay valid.
fn random_damage(random: &mut Random, count: usize) -> Vec<Case> {
    let one = |_| {
        let mut telegram = samples::random_telegram(random);
        for _ in 0..random.within(1, 3) {
            let position = random.below(telegram.len());
            telegram[position] = match random.below(2) {
                0 => random.digit(),
                _ => random.byte(),
            };
        }
        unknown(telegram)
    };
    (0..count).map(one).collect()
}

/// Random digits behind a right header, as many as the kind needs. Small ones
/// come more often, because fields with few values would never fit otherwise.
fn random_bodies(random: &mut Random, count: usize) -> Vec<Case> {
    let one = |_| {
        let sample = SAMPLES[random.below(SAMPLES.len())];
        let digits = random.pick(&["01", "012", "0018", "0123589", "0123456789"]);
        let mut telegram = sample.as_bytes().to_vec();
        for byte in &mut telegram[16..] {
            if random.below(4) != 0 {
                *byte = random.pick(digits.as_bytes());
            }
        }
        unknown(telegram)
    };
    (0..count).map(one).collect()
}

/// Random bytes, some of them digits behind a right beginning.
fn random_bytes(random: &mut Random, count: usize) -> Vec<Case> {
    let one = |_| {
        let length = random.within(0, 80);
        let mut telegram = match random.below(2) {
            0 => random.bytes(length),
            _ => (0..length).map(|_| random.digit()).collect(),
        };
        if random.below(4) == 0 && length >= 10 {
            telegram = patched(&telegram, 0, format!("DV{length:04}0012").as_bytes());
        }
        unknown(telegram)
    };
    (0..count).map(one).collect()
}
