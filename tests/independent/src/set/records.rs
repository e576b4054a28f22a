//! Records. The rules send theirs twice: first they are only measured, to see
//! whether they fit the buffer, then they are written.

use super::desks::{Desk, Desks};
use crate::telegram::{self, Message};

/// Bytes of a record before its telegram: length, version, desk, kind.
const BEFORE_TELEGRAM: usize = 5;
const CONTACT_BYTES: usize = 8;

const VERSION: u8 = 1;
const TELEGRAM: u8 = 1;
const CONTACT: u8 = 2;

#[derive(Clone, Copy, Debug, PartialEq, Eq)]
#[repr(u8)]
pub enum Contact {
    PressAnswer = 1,
    Incoming = 2,
}

/// Takes records, each for every desk of a set, lowest desk first.
pub trait Records {
    fn telegram(&mut self, recipients: Desks, message: &Message);
    fn contact(&mut self, recipients: Desks, contact: Contact, channel: u8, on: bool);
}

/// Measures records.
#[derive(Default)]
pub struct Measure {
    pub bytes: usize,
}

impl Records for Measure {
    fn telegram(&mut self, recipients: Desks, message: &Message) {
        self.bytes += recipients.count() * (BEFORE_TELEGRAM + message.length());
    }

    fn contact(&mut self, recipients: Desks, _: Contact, _: u8, _: bool) {
        self.bytes += recipients.count() * CONTACT_BYTES;
    }
}

/// Writes records to the front of a buffer, into which they fit.
pub struct Writer<'a> {
    buffer: &'a mut [u8],
    codes: [u16; 4],
    pub bytes: usize,
}

impl<'a> Writer<'a> {
    pub fn new(buffer: &'a mut [u8], desks: &[Desk]) -> Self {
        let mut codes = [0; 4];
        for (code, desk) in codes.iter_mut().zip(desks) {
            *code = desk.code;
        }
        Writer {
            buffer,
            codes,
            bytes: 0,
        }
    }

    /// Starts a record and gives the place of what follows its kind.
    fn start(&mut self, bytes: usize, desk: u8, kind: u8) -> &mut [u8] {
        let record = &mut self.buffer[self.bytes..self.bytes + bytes];
        self.bytes += bytes;
        let (start, rest) = record.split_at_mut(BEFORE_TELEGRAM);
        let length = (bytes - 2) as u16;
        start[..2].copy_from_slice(&length.to_be_bytes());
        start[2..].copy_from_slice(&[VERSION, desk, kind]);
        rest
    }
}

impl Records for Writer<'_> {
    fn telegram(&mut self, recipients: Desks, message: &Message) {
        for desk in recipients.iter() {
            let code = self.codes[usize::from(desk)];
            let place = self.start(BEFORE_TELEGRAM + message.length(), desk, TELEGRAM);
            telegram::write(code, message, place).expect("the rules only send what is in range");
        }
    }

    fn contact(&mut self, recipients: Desks, contact: Contact, channel: u8, on: bool) {
        for desk in recipients.iter() {
            let place = self.start(CONTACT_BYTES, desk, CONTACT);
            place.copy_from_slice(&[contact as u8, channel, on.into()]);
        }
    }
}

/// A record as it stands in a buffer.
#[derive(Debug, PartialEq, Eq)]
pub enum Record<'a> {
    Telegram {
        desk: u8,
        telegram: &'a [u8],
    },
    Contact {
        desk: u8,
        contact: u8,
        channel: u8,
        on: u8,
    },
}

/// The records of the written part of a buffer, one after another.
pub fn each(mut written: &[u8]) -> impl Iterator<Item = Record<'_>> {
    std::iter::from_fn(move || {
        let [high, low, rest @ ..] = written else {
            return None;
        };
        let length = usize::from(u16::from_be_bytes([*high, *low]));
        let (record, behind) = rest.split_at(length);
        written = behind;
        match *record {
            [VERSION, desk, TELEGRAM, ref telegram @ ..] => {
                Some(Record::Telegram { desk, telegram })
            }
            [VERSION, desk, CONTACT, contact, channel, on] => Some(Record::Contact {
                desk,
                contact,
                channel,
                on,
            }),
            _ => unreachable!("only the writer above writes records"),
        }
    })
}
