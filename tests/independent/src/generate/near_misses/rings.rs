//! Near misses about rings: calls, answers and cancels with one part wrong or
//! another.

use super::{damaged, digits, entry, samples, with_right_length, Entry, Scene};
use crate::generate::moves;
use crate::set::channel::Channel;
use crate::set::desks::Desks;

impl Scene<'_> {
    pub fn near_miss_of_a_ring(&mut self) -> Vec<u8> {
        match self.random.below(40) {
            0..=14 => self.wild_answer(),
            15..=27 => self.wild_mobile_call(),
            28..=31 => {
                let channel = self.wild_channel(0);
                moves::mobile_cancel(channel)
            }
            32..=33 => {
                let identifier = self.random.pick(&["550419", "550468", "550469", "550480"]);
                self.wild_telegram(identifier)
            }
            34..=36 => {
                let bytes = self.acceptable_in_a_ring();
                self.changed_byte(bytes)
            }
            _ => self.wrong_shape_of_a_ring(),
        }
    }

    /// One that rings, if there is any among a few that are drawn.
    fn ringing_channel(&mut self) -> Channel {
        let mut channel = self.channel();
        for _ in 0..4 {
            if channel.ring.is_some() {
                break;
            }
            channel = self.channel();
        }
        channel
    }

    /// The answer that the ring waits for, each part of it wrong now and then.
    /// Without a ring it is as if there had been one.
    fn wild_answer(&mut self) -> Vec<u8> {
        let channel = self.ringing_channel();
        let (called, source) = match (channel.ring, channel.call) {
            (Some(ring), _) => (Some(ring.desk), ring.number),
            (None, Some(call)) => (channel.holder, call.source),
            (None, None) => (None, self.random.within(1, 99_999_999) as u32),
        };
        let desk = match (called, self.random.below(6)) {
            (Some(called), 1..) => called,
            _ => self.wild_desk(),
        };
        let code = match self.random.below(8) {
            0 => self.wild_request_channel(desk),
            _ => format!("{:03}", channel.code),
        };
        let kind = self.random.pick(b"3333333333331204x");
        let place = usize::from(called.unwrap_or(desk)).min(self.lines.desks.len() - 1);
        let source = self.wild_number(source);
        let destination = self.wild_number(self.lines.desks[place].number);
        let mut body = [code.as_bytes(), &[kind, b'8'], &source, b"8", &destination].concat();
        if self.one_in(40) {
            body[4] = b'7';
        }
        self.resize(&mut body);
        let code = self.wild_code(desk);
        let telegram = samples::telegram(&code, "550419", &body);
        let telegram = &telegram[..];
        Entry::Telegram { desk, telegram }.bytes()
    }

    fn wild_number(&mut self, right: u32) -> [u8; 8] {
        let number = match self.random.below(20) {
            0 => 0,
            1 => right.saturating_sub(1),
            2 => self.lines.desks[self.random.below(self.lines.desks.len())].number,
            _ => right,
        };
        let number = digits(&format!("{number:08}"));
        match self.random.below(30) {
            0 => damaged(number, self.random),
            _ => number,
        }
    }

    fn wild_mobile_call(&mut self) -> Vec<u8> {
        let known = self.channel();
        let channel = match self.random.below(8) {
            0 => self.wild_channel(0),
            _ => known.code,
        };
        let base = match self.random.below(16) {
            0 => 30,
            1 => self.random.within(30, 255),
            2 => 29,
            _ => self.random.within(0, 29),
        };
        let number = self.random.within(1, 99_999_999);
        let number = self.wild_mobile_number(digits(&format!("{number:08}")));
        let called = self.wild_called(&known);
        let called = self.wild_mobile_number(digits(&format!("{called:08}")));
        Entry::MobileCall {
            channel,
            base: base as u8,
            number,
            called,
        }
        .bytes()
    }

    fn wild_mobile_number(&mut self, number: [u8; 8]) -> [u8; 8] {
        match self.random.below(16) {
            0 => digits("00000000"),
            1 => damaged(number, self.random),
            _ => number,
        }
    }

    /// The number of a desk that may be called, of any desk or of none.
    fn wild_called(&mut self, channel: &Channel) -> u32 {
        let desks = &self.lines.desks;
        let any = desks[self.random.below(desks.len())].number;
        let desk = match self.random.below(8) {
            0 => return self.random.within(1, 99_999_999) as u32,
            1 => return any % 99_999_999 + 1,
            2 => self.one_of(Desks(self.running().0 & !channel.entitled.0)),
            3 => None,
            _ => self.listener(channel),
        };
        desk.map_or(any, |desk| desks[usize::from(desk)].number)
    }

    /// A call, a right answer or a cancel, taken or not.
    fn acceptable_in_a_ring(&mut self) -> Vec<u8> {
        let channel = self.ringing_channel();
        match (channel.ring, self.random.below(3)) {
            (Some(ring), 0..=1) => {
                let right = self.right_answer(ring.desk, ring.number);
                self.answer(channel.code, &right)
            }
            (Some(_), _) => moves::mobile_cancel(channel.code),
            (None, _) => {
                let desk = self.listener(&channel).unwrap_or(0);
                self.mobile_call(channel.code, desk).0
            }
        }
    }

    /// A byte too many or too few, or another kind with the same payload.
    fn wrong_shape_of_a_ring(&mut self) -> Vec<u8> {
        let channel = self.ringing_channel();
        let mut bytes = match self.random.below(3) {
            0 => moves::mobile_cancel(channel.code),
            _ => {
                let desk = self.listener(&channel).unwrap_or(0);
                self.mobile_call(channel.code, desk).0
            }
        };
        match self.random.below(8) {
            0 => bytes[3] = self.random.within(1, 12) as u8,
            1 => {
                // With one number only, as a mobile on has it.
                let payload = bytes[4..].to_vec();
                bytes.clear();
                entry::push(&mut bytes, 9, &[&payload[..payload.len().min(10)]]);
            }
            2..=4 => bytes.push(self.random.byte()),
            _ => drop(bytes.pop()),
        }
        with_right_length(bytes)
    }
}
