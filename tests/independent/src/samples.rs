//! Valid telegrams and the values at each field's edges, for the generator.
//! All of it is written out here from the rules; nothing is taken from the
//! reader, so that a mistake there can't hide itself.

use crate::random::Random;

/// One telegram of each kind, those of a ring last.
pub const SAMPLES: [&str; 14] = [
    "DV0030001255041120240229123456",
    "DV0018001255042101",
    "DV00160012550461",
    "DV003200125504640070121123456781",
    "DV00160012550471",
    "DV00460012550473007999101100800120001800000000",
    "DV0033001255047700799911001200011",
    "DV002900125506000078001200011",
    "DV002000125506500070",
    "DV002900125506510078001200011",
    "DV003800125504680073800990007800120001",
    "DV003800125504190073800990007800120001",
    "DV002000125504690071",
    "DV0030001255048000731800120001",
];

/// The samples that have a CH, and those that have a base after it.
pub const WITH_CHANNEL: [&str; 10] = [
    SAMPLES[3],
    SAMPLES[5],
    SAMPLES[6],
    SAMPLES[7],
    SAMPLES[8],
    SAMPLES[9],
    SAMPLES[10],
    SAMPLES[11],
    SAMPLES[12],
    SAMPLES[13],
];
pub const WITH_BASE: [&str; 3] = [SAMPLES[3], SAMPLES[5], SAMPLES[6]];
pub const WITH_REASON: &str = SAMPLES[5];

/// Values of a field at its edges. The valid ones rise from the lowest to the
/// highest, the wrong ones are one beyond each edge and some further away.
pub struct Edges {
    pub valid: &'static [&'static str],
    pub wrong: &'static [&'static str],
}

const CHANNEL: Edges = Edges {
    valid: &[
        "000", "001", "007", "098", "099", "187", "188", "205", "206", "999",
    ],
    wrong: &[
        "100", "101", "143", "185", "186", "207", "208", "256", "500", "997", "998",
    ],
};
const BASE: Edges = Edges {
    valid: &["000", "001", "012", "028", "029", "997", "998", "999"],
    wrong: &["030", "031", "099", "100", "500", "995", "996"],
};
const CALL_TYPE: Edges = Edges {
    valid: &["1", "2", "3"],
    wrong: &["0", "4", "5", "6", "7", "8", "9"],
};
const DIRECTION: Edges = Edges {
    valid: &["1", "2"],
    wrong: &["0", "3", "4", "5", "6", "7", "8", "9"],
};
/// System, state, order, start, media, accepted and result.
const FLAG: Edges = Edges {
    valid: &["0", "1"],
    wrong: &["2", "3", "4", "5", "6", "7", "8", "9"],
};
const REASON: Edges = Edges {
    valid: &["00", "01", "02", "03", "05", "09"],
    wrong: &[
        "04", "06", "07", "08", "10", "11", "20", "30", "50", "90", "99",
    ],
};
const LEN: Edges = Edges {
    valid: &["8"],
    wrong: &["0", "1", "2", "3", "4", "5", "6", "7", "9"],
};
const NUMBER: Edges = Edges {
    valid: &[
        "00000000", "00000001", "00120001", "12345678", "99999998", "99999999",
    ],
    wrong: &["********", "        ", "1234567 ", " 1234567", "-0000001"],
};
const DATE_TIME: Edges = Edges {
    valid: &[
        "20000101000000",
        "20000131235959",
        "20000229000000",
        "20230228235959",
        "20240229120000",
        "20240430000000",
        "20991130235959",
        "20991231235959",
    ],
    wrong: &[
        "00000000000000",
        "19991231235959",
        "20230229120000",
        "20240001000000",
        "20240100000000",
        "20240101006000",
        "20240101000060",
        "20240101240000",
        "20240132000000",
        "20240230000000",
        "20240431000000",
        "20241301000000",
        "21000101000000",
        "99991231235959",
    ],
};

/// Each kind's identifier and the fields of its body, in the samples' order.
pub const LAYOUTS: [(&str, &[Edges]); 14] = [
    ("550411", &[DATE_TIME]),
    ("550421", &[FLAG, FLAG]),
    ("550461", &[]),
    ("550464", &[CHANNEL, BASE, CALL_TYPE, NUMBER, FLAG]),
    ("550471", &[]),
    (
        "550473",
        &[
            CHANNEL, BASE, CALL_TYPE, FLAG, DIRECTION, FLAG, REASON, LEN, NUMBER, LEN, NUMBER,
        ],
    ),
    (
        "550477",
        &[CHANNEL, BASE, CALL_TYPE, DIRECTION, NUMBER, FLAG],
    ),
    ("550600", &[CHANNEL, LEN, NUMBER, FLAG]),
    ("550650", &[CHANNEL, FLAG]),
    ("550651", &[CHANNEL, LEN, NUMBER, FLAG]),
    ("550468", &[CHANNEL, CALL_TYPE, LEN, NUMBER, LEN, NUMBER]),
    ("550419", &[CHANNEL, CALL_TYPE, LEN, NUMBER, LEN, NUMBER]),
    ("550469", &[CHANNEL, FLAG]),
    ("550480", &[CHANNEL, CALL_TYPE, FLAG, LEN, NUMBER]),
];
/// How many of them have nothing to do with a ring.
pub const WITHOUT_RING: usize = 10;

/// The leap years from 2000 to 2099.
pub const LEAP_YEARS: [usize; 25] = [
    2000, 2004, 2008, 2012, 2016, 2020, 2024, 2028, 2032, 2036, 2040, 2044, 2048, 2052, 2056, 2060,
    2064, 2068, 2072, 2076, 2080, 2084, 2088, 2092, 2096,
];

/// The last day of each month, January first, in a leap year and in others.
pub const LAST_DAY_LEAP: [usize; 12] = [31, 29, 31, 30, 31, 30, 31, 31, 30, 31, 30, 31];
pub const LAST_DAY: [usize; 12] = [31, 28, 31, 30, 31, 30, 31, 31, 30, 31, 30, 31];

/// The last day of a month from 1 to 12.
pub fn last_day(year: usize, month: usize) -> usize {
    if LEAP_YEARS.contains(&year) {
        LAST_DAY_LEAP[month - 1]
    } else {
        LAST_DAY[month - 1]
    }
}

/// A telegram with a right length field around any identifier and body.
pub fn telegram(code: &str, identifier: &str, body: &[u8]) -> Vec<u8> {
    let length = 16 + body.len();
    let mut telegram = format!("DV{length:04}{code}{identifier}").into_bytes();
    telegram.extend_from_slice(body);
    telegram
}

/// Any valid telegram.
pub fn random_telegram(random: &mut Random) -> Vec<u8> {
    let (identifier, _) = LAYOUTS[random.below(LAYOUTS.len())];
    let code = format!("{:04}", random.within(0, 1023));
    telegram(
        &code,
        identifier,
        random_body(identifier, random).as_bytes(),
    )
}

fn random_body(identifier: &str, random: &mut Random) -> String {
    let (channel, base) = (random_channel(random), random_base(random));
    let (call_type, direction) = (random.within(1, 3), random.within(1, 2));
    let (number, other_number) = (random_number(random), random_number(random));
    let (flag, other_flag) = (random.within(0, 1), random.within(0, 1));
    let reason = random.pick(&["00", "01", "02", "03", "05", "09"]);
    match identifier {
        "550411" => random_date_time(random),
        "550421" => format!("{flag}{other_flag}"),
        "550464" => format!("{channel}{base}{call_type}{number}{flag}"),
        "550473" => format!(
            "{channel}{base}{call_type}{flag}{direction}{other_flag}{reason}8{number}8{other_number}"
        ),
        "550477" => format!("{channel}{base}{call_type}{direction}{number}{flag}"),
        "550600" | "550651" => format!("{channel}8{number}{flag}"),
        "550650" | "550469" => format!("{channel}{flag}"),
        "550468" | "550419" => format!("{channel}{call_type}8{number}8{other_number}"),
        "550480" => format!("{channel}{call_type}{flag}8{number}"),
        _ => String::new(),
    }
}

fn random_channel(random: &mut Random) -> String {
    let channel = match random.below(10) {
        0 => 999,
        1..=3 => random.within(187, 206),
        _ => random.within(0, 99),
    };
    format!("{channel:03}")
}

fn random_base(random: &mut Random) -> String {
    let base = match random.below(3) {
        0 => random.within(997, 999),
        _ => random.within(0, 29),
    };
    format!("{base:03}")
}

/// The none-number comes often enough to be met in every place.
fn random_number(random: &mut Random) -> String {
    match random.below(8) {
        0 => "00000000".to_string(),
        _ => format!("{:08}", random.within(0, 99_999_999)),
    }
}

pub fn random_date_time(random: &mut Random) -> String {
    let (year, month) = (random.within(2000, 2099), random.within(1, 12));
    let day = random.within(1, last_day(year, month));
    let (hour, minute) = (random.within(0, 23), random.within(0, 59));
    let second = random.within(0, 59);
    format!("{year}{month:02}{day:02}{hour:02}{minute:02}{second:02}")
}
