//! Entries that a set in a given state takes: what desks and mobiles do.

use crate::random::Random;
use crate::samples;
use crate::set::channel::{Answer, Channel, INDIVIDUAL};
use crate::set::desks::{Desks, Phase};
use crate::set::entry::Entry;
use crate::set::plan::Lines;

pub const CAPTURE: u32 = 1;
pub const RELEASE: u32 = 0;

/// The state to move in, and the channels that most moves are about: few, so
/// that they see much.
pub struct Scene<'a> {
    pub lines: &'a Lines,
    pub focus: &'a [usize],
    pub random: &'a mut Random,
}

impl Scene<'_> {
    pub fn channel(&mut self) -> Channel {
        let place = match self.random.below(8) {
            0 => self.random.below(self.lines.channels.len()),
            _ => self.random.pick(self.focus),
        };
        self.lines.channels[place]
    }

    pub fn running(&self) -> Desks {
        Desks::running(&self.lines.desks)
    }

    /// One desk of a set, if it has any.
    pub fn one_of(&mut self, desks: Desks) -> Option<u8> {
        let desks: Vec<u8> = desks.iter().collect();
        (!desks.is_empty()).then(|| self.random.pick(&desks))
    }

    /// A desk that could capture the channel.
    pub fn listener(&mut self, channel: &Channel) -> Option<u8> {
        self.one_of(channel.listeners(&self.lines.desks))
    }

    /// The next step of a desk's link that is not among the shy ones.
    pub fn bring_up(&mut self, shy: Desks) -> Option<Vec<u8>> {
        let all = (1u8 << self.lines.desks.len()) - 1;
        let desk = self.one_of(Desks(all & !self.running().0 & !shy.0))?;
        Some(match self.lines.desks[usize::from(desk)].phase {
            Phase::AwaitsTime => self.time_notice(desk),
            _ => {
                let state = self.random.pick(&[0, 1, 1, 1]);
                self.operation_answer(desk, state)
            }
        })
    }

    pub fn time_notice(&mut self, desk: u8) -> Vec<u8> {
        let time = samples::random_date_time(self.random);
        self.telegram(desk, "550411", &time)
    }

    pub fn operation_answer(&mut self, desk: u8, state: u32) -> Vec<u8> {
        let system = self.random.below(2);
        self.telegram(desk, "550421", &format!("{system}{state}"))
    }

    pub fn request(&self, desk: u8, channel: u8, order: u32) -> Vec<u8> {
        let number = self.lines.desks[usize::from(desk)].number;
        let body = format!("{channel:03}8{number:08}{order}");
        self.telegram(desk, "550600", &body)
    }

    pub fn telegram(&self, desk: u8, identifier: &str, body: &str) -> Vec<u8> {
        let code = format!("{:04}", self.lines.desks[usize::from(desk)].code);
        let telegram = samples::telegram(&code, identifier, body.as_bytes());
        Entry::Telegram {
            desk,
            telegram: &telegram,
        }
        .bytes()
    }

    pub fn capture(&mut self) -> Option<Vec<u8>> {
        let channel = self.channel();
        // Most that are captured are free, but not all.
        if channel.holder.is_some() && self.random.below(3) > 0 {
            return None;
        }
        let desk = self.listener(&channel)?;
        Some(self.request(desk, channel.code, CAPTURE))
    }

    pub fn release(&mut self) -> Option<Vec<u8>> {
        let channel = self.channel();
        let desk = match (channel.holder, self.random.below(3)) {
            (Some(holder), 0..=1) => holder,
            _ => self.listener(&channel)?,
        };
        Some(self.request(desk, channel.code, RELEASE))
    }

    pub fn press(&mut self) -> Option<Vec<u8>> {
        let channel = self.channel();
        Some(press(channel.holder?, channel.code, !channel.pressed))
    }

    pub fn cut(&mut self) -> Option<Vec<u8>> {
        let channel = self.channel();
        Some(cut(channel.holder?, channel.code))
    }

    pub fn mobile(&mut self) -> Option<Vec<u8>> {
        let channel = self.channel();
        if channel.arrival.is_some() {
            return Some(mobile_off(channel.code));
        }
        // Most that come on are heard, but not all.
        let heard = channel.listeners(&self.lines.desks).count() > 0;
        (heard || self.random.below(4) == 0).then(|| self.mobile_on(channel.code))
    }

    pub fn mobile_on(&mut self, channel: u8) -> Vec<u8> {
        let (base, number) = self.base_and_number();
        Entry::MobileOn {
            channel,
            base,
            number: super::plans::digits(&format!("{number:08}")),
        }
        .bytes()
    }

    fn base_and_number(&mut self) -> (u8, u32) {
        let base = match self.random.below(8) {
            0 => 0,
            1 => 29,
            _ => self.random.within(0, 29),
        };
        // Now and then a mobile that has a desk's number.
        let number = match self.random.below(12) {
            0 => self.lines.desks[0].number,
            1 => 1,
            2 => 99_999_999,
            _ => self.random.within(1, 99_999_999) as u32,
        };
        (base as u8, number)
    }

    /// What suits the channel: a call, or an answer or a cancel of its ring.
    pub fn ring(&mut self) -> Option<Vec<u8>> {
        let channel = self.channel();
        let Some(ring) = channel.ring else {
            let desk = self.listener(&channel).filter(|_| channel.is_idle())?;
            return Some(self.mobile_call(channel.code, desk).0);
        };
        match self.random.below(6) {
            0 => Some(mobile_cancel(channel.code)),
            1..=2 => {
                let right = self.right_answer(ring.desk, ring.number);
                Some(self.answer(channel.code, &right))
            }
            _ => None,
        }
    }

    /// A call of the desk, and the mobile's number.
    pub fn mobile_call(&mut self, channel: u8, desk: u8) -> (Vec<u8>, u32) {
        let (base, number) = self.base_and_number();
        let called = self.lines.desks[usize::from(desk)].number;
        let entry = Entry::MobileCall {
            channel,
            base,
            number: super::plans::digits(&format!("{number:08}")),
            called: super::plans::digits(&format!("{called:08}")),
        };
        (entry.bytes(), number)
    }

    /// What the called desk has to say to a mobile of this number.
    pub fn right_answer(&self, desk: u8, number: u32) -> Answer {
        Answer {
            desk,
            call_type: INDIVIDUAL,
            source: number,
            destination: self.lines.desks[usize::from(desk)].number,
        }
    }

    pub fn answer(&self, channel: u8, answer: &Answer) -> Vec<u8> {
        let Answer {
            desk,
            call_type,
            source,
            destination,
        } = *answer;
        let body = format!("{channel:03}{call_type}8{source:08}8{destination:08}");
        self.telegram(desk, "550419", &body)
    }

    /// How many ticks to run: mostly few, else about to where a timer ends.
    pub fn tick_count(&mut self) -> usize {
        let moving = self.lines.channels.iter().filter(|c| ticks_matter(c));
        let near = moving.clone().map(next_end).min().unwrap_or(5);
        let far = moving.map(last_end).max().unwrap_or(12);
        let aim = match self.random.below(40) {
            0..=26 => return self.random.within(1, 3),
            27..=33 => return self.random.within(4, 12),
            34..=37 => near,
            38 => far,
            _ => self.random.pick(&[10, 120, 130]),
        };
        (aim + self.random.below(3)).saturating_sub(1).max(1)
    }
}

fn ticks_matter(channel: &Channel) -> bool {
    let stopped = channel.pressed || channel.arrival.is_some();
    !stopped && last_end(channel) > 0
}

/// Ticks until the timer that falls now has ended.
fn next_end(channel: &Channel) -> usize {
    match (channel.ring, channel.quiet) {
        (Some(ring), _) => ring.seconds.into(),
        (None, 0) => channel.release.into(),
        (None, quiet) => quiet.into(),
    }
}

/// Ticks until all have.
fn last_end(channel: &Channel) -> usize {
    let ring = channel.ring.map_or(0, |ring| ring.seconds);
    usize::from(ring) + usize::from(channel.quiet) + usize::from(channel.release)
}

pub fn press(desk: u8, channel: u8, on: bool) -> Vec<u8> {
    Entry::Press { desk, channel, on }.bytes()
}

pub fn cut(desk: u8, channel: u8) -> Vec<u8> {
    Entry::Cut { desk, channel }.bytes()
}

pub fn mobile_off(channel: u8) -> Vec<u8> {
    Entry::MobileOff { channel }.bytes()
}

pub fn mobile_cancel(channel: u8) -> Vec<u8> {
    Entry::MobileCancel { channel }.bytes()
}

pub fn tick() -> Vec<u8> {
    Entry::Tick.bytes()
}

pub fn handover() -> Vec<u8> {
    Entry::Handover.bytes()
}
