//! Entries that are mostly refused, though they look like those that are not.
//! Their parts are right or wrong independently of each other, so that the
//! order of the refusals shows.

mod rings;

use super::moves::Scene;
use super::plans::{self, damaged, digits};
use crate::samples;
use crate::set::desks::Desks;
use crate::set::entry::{self, Entry, LENGTH, LONGEST};

impl Scene<'_> {
    /// Never one that is refused with 1, because that ends a feed.
    pub fn near_miss(&mut self) -> Vec<u8> {
        match self.random.below(4) {
            0 => self.near_miss_of_a_ring(),
            _ => self.near_miss_without_ring(),
        }
    }

    /// The loads to measure draw on these alone, so that they stay as they are.
    pub fn near_miss_without_ring(&mut self) -> Vec<u8> {
        match self.random.below(100) {
            0..=31 => self.wild_telegram("550600"),
            32..=40 => {
                let identifier = self.random.pick(&["550411", "550421"]);
                self.wild_telegram(identifier)
            }
            41..=46 => self.wild_telegram_of_any_kind(),
            47..=60 => self.wild_press(),
            61..=67 => self.wild_cut(),
            68..=75 => self.wild_mobile_on(),
            76..=80 => self.wild_mobile_off(),
            81..=90 => {
                let bytes = self.acceptable();
                self.changed_byte(bytes)
            }
            91..=95 => self.wrong_shape(),
            96..=97 => self.plan(),
            _ => self.long_entry(),
        }
    }

    fn one_in(&mut self, count: usize) -> bool {
        self.random.below(count) == 0
    }

    fn wild_desk(&mut self) -> u8 {
        let count = self.lines.desks.len();
        match self.random.below(20) {
            0 => count as u8,
            1 => self.random.within(count, 255) as u8,
            2..=5 => self.random.below(count) as u8,
            _ => {
                let running = self.running();
                self.one_of(running).unwrap_or(0)
            }
        }
    }

    /// A channel to which the desk is entitled, or not, or no channel at all.
    fn wild_channel(&mut self, desk: u8) -> u8 {
        match self.random.below(8) {
            0 => self.random.within(0, 99) as u8,
            1 => self.random.within(0, 255) as u8,
            2 => self.channel_for(desk, false),
            _ => self.channel_for(desk, true),
        }
    }

    fn channel_for(&mut self, desk: u8, entitled: bool) -> u8 {
        let mut channel = self.channel();
        for _ in 0..4 {
            if channel.entitled.contains(desk & 7) == entitled {
                break;
            }
            channel = self.channel();
        }
        channel.code
    }

    fn wild_press(&mut self) -> Vec<u8> {
        let (desk, channel) = self.wild_desk_and_channel();
        let on = match self.random.below(20) {
            0 => self.random.within(2, 255),
            _ => self.random.below(2),
        };
        let mut bytes = Vec::new();
        entry::push(&mut bytes, 2, &[&[desk, channel, on as u8]]);
        bytes
    }

    fn wild_cut(&mut self) -> Vec<u8> {
        let (desk, channel) = self.wild_desk_and_channel();
        Entry::Cut { desk, channel }.bytes()
    }

    /// Half of them are the holder's, so that it can be the others that err.
    fn wild_desk_and_channel(&mut self) -> (u8, u8) {
        let channel = self.channel();
        match channel.holder {
            Some(holder) if self.one_in(2) => (holder, channel.code),
            _ => {
                let desk = self.wild_desk();
                (desk, self.wild_channel(desk))
            }
        }
    }

    fn wild_mobile_on(&mut self) -> Vec<u8> {
        let channel = self.wild_channel(0);
        let base = match self.random.below(10) {
            0 => 30,
            1 => self.random.within(30, 255),
            _ => self.random.within(0, 29),
        };
        let number = self.random.within(1, 99_999_999);
        let number = digits(&format!("{number:08}"));
        let number = match self.random.below(6) {
            0 => digits("00000000"),
            1 => damaged(number, self.random),
            _ => number,
        };
        Entry::MobileOn {
            channel,
            base: base as u8,
            number,
        }
        .bytes()
    }

    fn wild_mobile_off(&mut self) -> Vec<u8> {
        let channel = self.wild_channel(0);
        Entry::MobileOff { channel }.bytes()
    }

    fn wild_telegram_of_any_kind(&mut self) -> Vec<u8> {
        let (identifier, _) = samples::LAYOUTS[self.random.below(samples::WITHOUT_RING)];
        self.wild_telegram(identifier)
    }

    fn wild_telegram(&mut self, identifier: &str) -> Vec<u8> {
        let desk = self.wild_desk();
        let body = match identifier {
            "550600" => self.wild_request_body(desk),
            _ => self.wild_body(identifier),
        };
        let code = self.wild_code(desk);
        let identifier = match self.random.below(30) {
            0 => "550601".to_string(),
            1 => format!("{:06}", self.random.within(0, 999_999)),
            2 => "55060x".to_string(),
            _ => identifier.to_string(),
        };
        let mut telegram = samples::telegram(&code, &identifier, &body);
        self.damage_header(&mut telegram);
        Entry::Telegram {
            desk,
            telegram: &telegram,
        }
        .bytes()
    }

    fn wild_code(&mut self, desk: u8) -> String {
        let place = usize::from(desk).min(self.lines.desks.len() - 1);
        let right = self.lines.desks[place].code;
        match self.random.below(30) {
            0 => format!("{:04}", right + 1),
            1 => "1024".to_string(),
            2 => format!("{:04}", self.lines.desks[0].code),
            3 => format!("{:03}x", right / 10),
            _ => format!("{right:04}"),
        }
    }

    fn damage_header(&mut self, telegram: &mut Vec<u8>) {
        match self.random.below(40) {
            0 => telegram[self.random.below(2)] ^= 0x20,
            1 => telegram[5] = self.random.digit(),
            2 => telegram[self.random.within(2, 5)] = b' ',
            3 => telegram.truncate(self.random.within(0, 16)),
            4 => telegram.push(b'0'),
            _ => {}
        }
    }

    fn wild_body(&mut self, identifier: &str) -> Vec<u8> {
        let layout = samples::LAYOUTS.iter().find(|known| known.0 == identifier);
        let mut body = Vec::new();
        for edges in layout.map_or(&[][..], |known| known.1) {
            let values = match self.random.below(8) {
                0 => edges.wrong,
                _ => edges.valid,
            };
            body.extend_from_slice(self.random.pick(values).as_bytes());
        }
        self.resize(&mut body);
        body
    }

    fn wild_request_body(&mut self, desk: u8) -> Vec<u8> {
        let channel = self.wild_request_channel(desk);
        let len = if self.one_in(30) { "7" } else { "8" };
        let order = match self.random.below(30) {
            0 => "2",
            1 => "x",
            2..=20 => "1",
            _ => "0",
        };
        let number = self.wild_request_number(desk);
        let mut body = channel.into_bytes();
        body.extend_from_slice(len.as_bytes());
        body.extend_from_slice(&number);
        body.extend_from_slice(order.as_bytes());
        self.resize(&mut body);
        body
    }

    fn wild_request_channel(&mut self, desk: u8) -> String {
        let odd = [
            "999", "187", "206", "207", "186", "100", "998", "0x7", "263",
        ];
        match self.random.below(8) {
            0 => self.random.pick(&odd).to_string(),
            _ => format!("{:03}", self.wild_channel(desk)),
        }
    }

    fn wild_request_number(&mut self, desk: u8) -> [u8; 8] {
        let place = usize::from(desk).min(self.lines.desks.len() - 1);
        let other = self.random.below(self.lines.desks.len());
        let own = self.lines.desks[place].number;
        let number = match self.random.below(12) {
            0 => 0,
            1 => own - 1,
            2..=3 => self.lines.desks[other].number,
            _ => own,
        };
        let number = digits(&format!("{number:08}"));
        match self.random.below(16) {
            0 => damaged(number, self.random),
            _ => number,
        }
    }

    /// Now and then one byte too many or too few.
    fn resize(&mut self, body: &mut Vec<u8>) {
        match self.random.below(40) {
            0 => body.push(b'0'),
            1 => drop(body.pop()),
            _ => {}
        }
    }

    /// An entry with one byte changed behind its length.
    fn changed_byte(&mut self, mut bytes: Vec<u8>) -> Vec<u8> {
        let place = self.random.within(LENGTH, bytes.len() - 1);
        bytes[place] = match self.random.below(4) {
            0 => self.random.byte(),
            1 => bytes[place].wrapping_add(1),
            2 => bytes[place].wrapping_sub(1),
            _ => self.random.digit(),
        };
        bytes
    }

    fn acceptable(&mut self) -> Vec<u8> {
        let entry = match self.random.below(6) {
            0 => self.bring_up(Desks(0)),
            1 => self.capture(),
            2 => self.release(),
            3 => self.press(),
            4 => self.cut(),
            _ => self.mobile(),
        };
        entry.unwrap_or_else(super::moves::tick)
    }

    /// Another version, another kind, or a byte too many or too few; now and
    /// then two of them.
    fn wrong_shape(&mut self) -> Vec<u8> {
        let mut bytes = self.acceptable();
        for _ in 0..self.random.pick(&[1, 1, 2]) {
            match self.random.below(6) {
                0 => bytes[2] = 0,
                1 => bytes[2] = self.random.within(2, 255) as u8,
                2 => bytes[3] = self.random.pick(&[0, 9, 10, 128, 255]),
                3 => bytes[3] = self.random.within(1, 8) as u8,
                4 => bytes.push(self.random.byte()),
                _ if bytes.len() > 4 => drop(bytes.pop()),
                _ => bytes.push(0),
            }
        }
        with_right_length(bytes)
    }

    fn plan(&mut self) -> Vec<u8> {
        match self.random.below(2) {
            0 => plans::good(self.random).entry(),
            _ => plans::bad(self.random),
        }
    }

    /// As long as an entry may be, or as a telegram can say that it is.
    fn long_entry(&mut self) -> Vec<u8> {
        let kind = self.random.within(1, 8) as u8;
        if kind == 1 && self.one_in(2) {
            let desk = self.wild_desk();
            let code = self.wild_code(desk);
            let body = vec![b'0'; 9_999 - 16];
            let telegram = samples::telegram(&code, "550600", &body);
            let telegram = &telegram[..];
            return Entry::Telegram { desk, telegram }.bytes();
        }
        let size = self.random.pick(&[LONGEST, LONGEST - 1, 4_000]);
        let mut bytes = Vec::new();
        entry::push(&mut bytes, kind, &[&vec![b'1'; size - 2]]);
        bytes
    }
}

fn with_right_length(mut bytes: Vec<u8>) -> Vec<u8> {
    let length = (bytes.len() - LENGTH) as u16;
    bytes[..LENGTH].copy_from_slice(&length.to_be_bytes());
    bytes
}
