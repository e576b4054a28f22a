//! Entries: their bytes, and the refusals that need nothing but these.

use crate::refusal::Refusal;

/// The highest length of an entry, which counts all bytes after itself.
pub const LONGEST: usize = 12_000;
/// Bytes of the length.
pub const LENGTH: usize = 2;

const VERSION: u8 = 1;
const HIGHEST_BASE: u8 = 29;

#[derive(Clone, Copy, Debug, PartialEq, Eq)]
pub enum Entry<'a> {
    Telegram {
        desk: u8,
        telegram: &'a [u8],
    },
    Press {
        desk: u8,
        channel: u8,
        on: bool,
    },
    Cut {
        desk: u8,
        channel: u8,
    },
    MobileOn {
        channel: u8,
        base: u8,
        number: [u8; 8],
    },
    MobileOff {
        channel: u8,
    },
    Tick,
    Plan(&'a [u8]),
    Handover,
    MobileCall {
        channel: u8,
        base: u8,
        number: [u8; 8],
        called: [u8; 8],
    },
    MobileCancel {
        channel: u8,
    },
}

/// Takes a whole entry apart; the refusals are 1 to 3.
pub fn read(bytes: &[u8]) -> Result<Entry<'_>, Refusal> {
    let &[_, _, version, kind, ref payload @ ..] = bytes else {
        return Err(Refusal::Length);
    };
    if !is_whole(bytes) || bytes.len() > LENGTH + LONGEST {
        return Err(Refusal::Length);
    }
    if version != VERSION {
        return Err(Refusal::Version);
    }
    match shape(kind, payload) {
        Some(Entry::MobileOn { base, .. } | Entry::MobileCall { base, .. })
            if base > HIGHEST_BASE =>
        {
            Err(Refusal::Shape)
        }
        Some(entry) => Ok(entry),
        None => Err(Refusal::Shape),
    }
}

/// Whether an entry has as many bytes as its length says.
pub fn is_whole(bytes: &[u8]) -> bool {
    match *bytes {
        [high, low, ref rest @ ..] => usize::from(u16::from_be_bytes([high, low])) == rest.len(),
        _ => false,
    }
}

/// Whether nothing is read behind this entry: it is refused with 1.
pub fn ends_feed(bytes: &[u8]) -> bool {
    read(bytes) == Err(Refusal::Length)
}

/// Takes an entry apart without a limit on the base, for those who want to
/// show what it says.
pub fn read_loosely(bytes: &[u8]) -> Option<Entry<'_>> {
    match *bytes {
        [_, _, VERSION, kind, ref payload @ ..] if !ends_feed(bytes) => shape(kind, payload),
        _ => None,
    }
}

fn shape(kind: u8, payload: &[u8]) -> Option<Entry<'_>> {
    Some(match (kind, payload) {
        (1, &[desk, ref telegram @ ..]) => Entry::Telegram { desk, telegram },
        (2, &[desk, channel, on @ (0 | 1)]) => Entry::Press {
            desk,
            channel,
            on: on == 1,
        },
        (3, &[desk, channel]) => Entry::Cut { desk, channel },
        (4, &[channel, base, ref number @ ..]) => Entry::MobileOn {
            channel,
            base,
            number: number.try_into().ok()?,
        },
        (5, &[channel]) => Entry::MobileOff { channel },
        (6, []) => Entry::Tick,
        (7, plan) => Entry::Plan(plan),
        (8, []) => Entry::Handover,
        (9, &[channel, base, ref numbers @ ..]) => {
            let (number, called) = numbers.split_at_checked(8)?;
            Entry::MobileCall {
                channel,
                base,
                number: number.try_into().ok()?,
                called: called.try_into().ok()?,
            }
        }
        (10, &[channel]) => Entry::MobileCancel { channel },
        _ => return None,
    })
}

impl Entry<'_> {
    /// Puts the entry's bytes behind the feed.
    pub fn push(&self, feed: &mut Vec<u8>) {
        match *self {
            Entry::Telegram { desk, telegram } => push(feed, 1, &[&[desk], telegram]),
            Entry::Press { desk, channel, on } => push(feed, 2, &[&[desk, channel, on.into()]]),
            Entry::Cut { desk, channel } => push(feed, 3, &[&[desk, channel]]),
            Entry::MobileOn {
                channel,
                base,
                ref number,
            } => push(feed, 4, &[&[channel, base], number]),
            Entry::MobileOff { channel } => push(feed, 5, &[&[channel]]),
            Entry::Tick => push(feed, 6, &[]),
            Entry::Plan(plan) => push(feed, 7, &[plan]),
            Entry::Handover => push(feed, 8, &[]),
            Entry::MobileCall {
                channel,
                base,
                ref number,
                ref called,
            } => push(feed, 9, &[&[channel, base], number, called]),
            Entry::MobileCancel { channel } => push(feed, 10, &[&[channel]]),
        }
    }

    pub fn bytes(&self) -> Vec<u8> {
        let mut bytes = Vec::new();
        self.push(&mut bytes);
        bytes
    }
}

/// An entry of any kind. Its length is right as long as it fits two bytes.
pub fn push(feed: &mut Vec<u8>, kind: u8, payload: &[&[u8]]) {
    let length = 2 + payload.iter().map(|part| part.len()).sum::<usize>();
    feed.extend_from_slice(&(length as u16).to_be_bytes());
    feed.extend_from_slice(&[VERSION, kind]);
    for part in payload {
        feed.extend_from_slice(part);
    }
}

/// Bytes up to the next entry, by the length in front: fewer than it says if
/// the feed breaks off, nothing at its end.
pub fn split_first(feed: &[u8]) -> Option<(&[u8], &[u8])> {
    let whole = match *feed {
        [] => return None,
        [_] => 1,
        [high, low, ..] => LENGTH + usize::from(u16::from_be_bytes([high, low])),
    };
    Some(feed.split_at(whole.min(feed.len())))
}
