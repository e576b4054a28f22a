//! A feed handed on as it comes.

use super::{form, parse};
use crate::set::entry::{self, LENGTH, LONGEST};
use crate::streams::{read_some, Trouble};
use std::io::{Read, Write};

/// Hands on the entries of a feed in either form, as bytes: those of a binary
/// one as soon as each is whole, and nothing behind one that ends the replay;
/// those of a text at its end. Where the input can't be read further, an entry
/// of which a part is there is not handed on: nobody knows how it goes on.
pub fn pass_on(input: &mut dyn Read, output: &mut dyn Write) -> Result<(), Trouble> {
    let mut held = Vec::new();
    while !form::is_told(&held) {
        if read_some(input, &mut held)? == 0 {
            break;
        }
    }
    if form::is_binary(&held) {
        pass_entries(held, input, output)
    } else {
        input.read_to_end(&mut held).map_err(Trouble::Unread)?;
        let feed = parse::to_binary(&held).map_err(Trouble::Wrong)?;
        output.write_all(&feed).map_err(Trouble::Unwritten)
    }
}

fn pass_entries(
    mut held: Vec<u8>,
    input: &mut dyn Read,
    output: &mut dyn Write,
) -> Result<(), Trouble> {
    loop {
        let (size, ended) = known(&held);
        let written = output.write_all(&held[..size]);
        written.and(output.flush()).map_err(Trouble::Unwritten)?;
        if ended {
            return Ok(());
        }
        held.drain(..size);
        if read_some(input, &mut held)? == 0 {
            return output.write_all(&held).map_err(Trouble::Unwritten);
        }
    }
}

/// How many bytes in front are whole entries, and whether the replay ends with
/// the last of these. It ends too at a length that no entry has, without the
/// rest.
fn known(feed: &[u8]) -> (usize, bool) {
    let (mut rest, mut size) = (feed, 0);
    while let Some((bytes, behind)) = entry::split_first(rest) {
        if says_too_much(bytes) {
            return (size + LENGTH, true);
        }
        if !entry::is_whole(bytes) {
            break;
        }
        size += bytes.len();
        if entry::ends_feed(bytes) {
            return (size, true);
        }
        rest = behind;
    }
    (size, false)
}

fn says_too_much(bytes: &[u8]) -> bool {
    match *bytes {
        [high, low, ..] => usize::from(u16::from_be_bytes([high, low])) > LONGEST,
        _ => false,
    }
}
