//! Feeds as text, one entry a line, and as the bytes that a set takes.
//!
//! ```text
//! plan 12:00120001 13:00130001 / 7:0,1 9:0    desks code:number / channels code:entitled desks
//! telegram 0 DV0018001255042101               desk, telegram
//! press 0 7 on                                desk, channel, on or off
//! cut 0 7                                     desk, channel
//! mobile-on 7 3 00990007                      channel, base, number
//! mobile-off 7                                channel
//! tick 130                                    so many ticks; one without a count
//! handover
//! mobile-call 7 3 00990007 00120001           channel, base, number, called number
//! mobile-cancel 7                             channel
//! raw 00021a                                  any bytes, in hex, the length included
//! # a comment
//! ```
//!
//! A line may have entry numbers in front, as `show` puts them: `8..13  tick 6`.

mod form;
mod parse;
mod print;
mod stream;
#[cfg(test)]
mod tests;

pub use parse::to_binary;
pub use print::{show, to_text};
pub use stream::pass_on;

/// The bytes of a feed in either form.
pub fn bytes_of(feed: Vec<u8>) -> Result<Vec<u8>, String> {
    if form::is_binary(&feed) {
        Ok(feed)
    } else {
        to_binary(&feed)
    }
}
