//! Feeds of every shape, each with buffers of every kind.

use crate::pair::{Pair, Seen};
use independent::generate::{shapes, Generator};

/// Feeds from so many seeds, for the shape in which anything may come.
const SEEDS: u64 = 30;
const ENTRIES: usize = 1_000;
const FIRST_SEED: u64 = 1023;

#[derive(Clone, Copy)]
pub enum Room {
    Nothing,
    OneShort,
    Exact,
    More,
}

pub const ROOMS: [(Room, &str); 4] = [
    (Room::Nothing, "no buffer"),
    (Room::OneShort, "one byte short"),
    (Room::Exact, "exactly enough"),
    (Room::More, "more than enough"),
];

impl Room {
    fn of(self, need: usize, number: usize) -> usize {
        match self {
            Room::Nothing => 0,
            Room::OneShort => need.saturating_sub(1),
            Room::Exact => need,
            Room::More => need + 1 + number % 100,
        }
    }
}

/// The entries of each feed of a shape: the generator's own, or one of its
/// loads.
pub fn of_shape(shape: Option<&str>) -> Vec<Vec<Vec<u8>>> {
    let Some(name) = shape else {
        return (FIRST_SEED..FIRST_SEED + SEEDS)
            .map(|seed| generated(seed, ENTRIES))
            .collect();
    };
    let feed = shapes::feed(name, FIRST_SEED, 5 * ENTRIES).expect("the shape is one of its names");
    vec![entries(&feed)]
}

pub fn generated(seed: u64, count: usize) -> Vec<Vec<u8>> {
    let mut generator = Generator::new(seed);
    (0..count).map(|_| generator.next_entry()).collect()
}

fn entries(mut feed: &[u8]) -> Vec<Vec<u8>> {
    let mut entries = Vec::new();
    while let [high, low, ..] = *feed {
        let end = (2 + usize::from(u16::from_be_bytes([high, low]))).min(feed.len());
        entries.push(feed[..end].to_vec());
        feed = &feed[end..];
    }
    entries
}

/// Steps each feed in a pair of its own. An entry that did not fit is taken
/// again with just enough room, so that the feed goes on.
pub fn compare(feeds: &[Vec<Vec<u8>>], room: Room) -> Result<Seen, String> {
    let mut seen = Seen::default();
    for (feed, entries) in feeds.iter().enumerate() {
        let mut pair = Pair::new();
        for (number, entry) in entries.iter().enumerate() {
            let named = |fault| format!("feed {feed}, entry {number}: {fault}");
            let need = pair.need(entry);
            let room = room.of(need, number);
            pair.step(entry, room).map_err(named)?;
            if room < need {
                pair.step(entry, need).map_err(named)?;
            }
        }
        seen.accepted += pair.seen.accepted;
        seen.refused += pair.seen.refused;
        seen.no_room += pair.seen.no_room;
        seen.bytes += pair.seen.bytes;
    }
    let is_short = matches!(room, Room::Nothing | Room::OneShort);
    if seen.accepted == 0 || is_short != (seen.no_room > 0) {
        return Err("these feeds do not try what they are for".into());
    }
    Ok(seen)
}
