//! Plans: which desks and channels a case has.

use super::channel::Channel;
use super::desks::{Desk, Desks, Phase};
use crate::telegram::decimal;

const HIGHEST_CODE: u16 = 1023;
const HIGHEST_CHANNEL: u8 = 99;
const DESK_BYTES: usize = 10;
const CHANNEL_BYTES: usize = 2;

/// The desks and channels of an accepted plan, with all that is known of them.
#[derive(Clone, Debug, PartialEq, Eq)]
pub struct Lines {
    pub desks: Vec<Desk>,
    pub channels: Vec<Channel>,
}

/// Nothing if the plan breaks a rule.
pub fn read(plan: &[u8]) -> Option<Lines> {
    let (&desk_count, rest) = plan.split_first()?;
    let (desks, rest) = rest.split_at_checked(usize::from(desk_count) * DESK_BYTES)?;
    let (&channel_count, channels) = rest.split_first()?;
    let right = (1..=4).contains(&desk_count)
        && (1..=32).contains(&channel_count)
        && channels.len() == usize::from(channel_count) * CHANNEL_BYTES;
    if !right {
        return None;
    }
    let lines = Lines {
        desks: read_desks(desks)?,
        channels: read_channels(channels, desk_count)?,
    };
    let rising = |pair: &[Channel]| pair[0].code < pair[1].code;
    (lines.channels.windows(2).all(rising) && numbers_differ(&lines.desks)).then_some(lines)
}

fn read_desks(bytes: &[u8]) -> Option<Vec<Desk>> {
    let read_desk = |bytes: &[u8]| {
        let code = u16::from_be_bytes([bytes[0], bytes[1]]);
        let number = read_number(&bytes[2..])?;
        (code <= HIGHEST_CODE).then_some(Desk {
            code,
            number,
            phase: Phase::AwaitsTime,
        })
    };
    bytes.chunks_exact(DESK_BYTES).map(read_desk).collect()
}

fn read_channels(bytes: &[u8], desk_count: u8) -> Option<Vec<Channel>> {
    let all = (1 << desk_count) - 1;
    let read_channel = |bytes: &[u8]| {
        let (code, entitled) = (bytes[0], bytes[1]);
        let right = code <= HIGHEST_CHANNEL && entitled != 0 && entitled & !all == 0;
        right.then(|| Channel::new(code, Desks(entitled)))
    };
    bytes
        .chunks_exact(CHANNEL_BYTES)
        .map(read_channel)
        .collect()
}

fn numbers_differ(desks: &[Desk]) -> bool {
    let mut pairs = (1..desks.len()).flat_map(|high| (0..high).map(move |low| (low, high)));
    pairs.all(|(low, high)| desks[low].number != desks[high].number)
}

/// The number of a desk or a mobile: 8 digits, not the none-number.
pub fn read_number(digits: &[u8]) -> Option<u32> {
    decimal(digits).filter(|&number| number != 0)
}
