//! Rings from their beginning to what follows them.

use super::{moves, Scene, Script, CAPTURE, RELEASE};
use crate::set::channel::{Answer, Channel};
use crate::set::desks::Desks;

/// One of the scripts about rings, on a channel that a running desk may hold.
pub fn any(scene: &mut Scene) -> Option<Vec<Vec<u8>>> {
    let (mut script, first, second) = Script::begin(scene)?;
    match script.scene.random.below(16) {
        0..=1 => script.answered_ring(first, second),
        2 => script.ring_to_the_last_second(first, second),
        3 => script.cancelled_ring(first, second),
        4..=5 => script.ring_with_wrong_answers(first, second),
        6 => script.calls_of_a_busy_channel(first, second),
        7 => script.busy_ring(first, second),
        8..=10 => script.two_rings(first, second),
        11 => script.arrival_of_a_ring_left_over(first, second),
        12..=13 => script.general_call_after_a_ring(first, second),
        _ => script.handover_during_rings(first, second),
    }
    Some(script.entries)
}

impl Script<'_, '_> {
    /// Lets the channel go and rings a desk on it. The answer is the right one.
    fn ring(&mut self, holder: u8, called: u8) -> Answer {
        self.let_go(holder);
        self.call(called)
    }

    fn call(&mut self, called: u8) -> Answer {
        let (entry, number) = self.scene.mobile_call(self.channel, called);
        self.entries.push(entry);
        self.scene.right_answer(called, number)
    }

    fn answer(&mut self, answer: &Answer) {
        self.entries.push(self.scene.answer(self.channel, answer));
    }

    fn cancel(&mut self) {
        self.entries.push(moves::mobile_cancel(self.channel));
    }

    /// What desk and mobile say to each other is of the ring's type.
    fn answered_ring(&mut self, holder: u8, called: u8) {
        let right = self.ring(holder, called);
        self.maybe_ticks(14);
        self.answer(&right);
        self.maybe_ticks(9);
        match self.scene.random.below(5) {
            0 => self.press_and_mobile(called),
            1 => {
                self.mobile_on();
                self.maybe_ticks(3);
                self.mobile_off();
            }
            2 => {
                self.press(called, true);
                self.maybe_ticks(3);
            }
            3 => self.cancel(),
            _ => self.answer(&right),
        }
        match self.scene.random.below(4) {
            0 => self.entries.push(moves::handover()),
            1 => self.let_go(called),
            _ => self.ticks_about(&[10, 10, 130]),
        }
    }

    fn ring_to_the_last_second(&mut self, holder: u8, called: u8) {
        let right = self.ring(holder, called);
        self.ticks_about(&[14, 15]);
        self.answer(&right);
        if self.coin() {
            self.answer(&right);
        }
        self.maybe_ticks(2);
    }

    fn cancelled_ring(&mut self, holder: u8, called: u8) {
        let right = self.ring(holder, called);
        self.maybe_ticks(14);
        self.cancel();
        match self.scene.random.below(5) {
            0 => self.cancel(),
            1 => drop(self.call(called)),
            2..=3 => {
                let strangers = Desks(self.scene.running().0 & !self.listeners().0);
                let stranger = self.scene.one_of(strangers).unwrap_or(called);
                self.call(stranger);
            }
            _ => {}
        }
        self.answer(&right);
    }

    /// Each differs from the right one in one part.
    fn ring_with_wrong_answers(&mut self, holder: u8, called: u8) {
        let right = self.ring(holder, called);
        let others = Desks(self.listeners().0 & !Desks::only(called).0);
        let other = self.scene.one_of(others).unwrap_or(called);
        for _ in 0..self.scene.random.within(2, 5) {
            let mut wrong = right;
            match self.scene.random.below(8) {
                0..=1 => wrong.desk = other,
                2..=3 => wrong.call_type = self.scene.random.within(1, 2) as u32,
                4 => wrong.source = self.scene.random.within(0, 99_999_999) as u32,
                5 => wrong.source = right.destination,
                6 => wrong.destination = right.source,
                _ => wrong.destination = self.scene.lines.desks[usize::from(other)].number,
            }
            self.answer(&wrong);
            self.maybe_ticks(3);
        }
        self.answer(&right);
        self.maybe_ticks(2);
        if self.coin() {
            self.let_go(called);
        }
        self.answer(&right);
    }

    /// While there is a holder, an arrival, a call or two of them.
    fn calls_of_a_busy_channel(&mut self, holder: u8, called: u8) {
        self.call(called);
        if self.coin() {
            // An arrival that its call does not outlive.
            self.mobile_on();
            self.let_go(holder);
        } else {
            self.let_go(holder);
            self.mobile_on();
        }
        self.call(called);
        self.mobile_off();
        self.call(called);
        self.maybe_ticks(9);
        self.call(called);
        self.ticks_about(&[10]);
        let right = self.call(called);
        self.call(holder);
        self.answer(&right);
        self.call(called);
    }

    /// What desks and mobiles try while it rings.
    fn busy_ring(&mut self, holder: u8, called: u8) {
        let right = self.ring(holder, called);
        for _ in 0..self.scene.random.within(2, 8) {
            let desk = if self.coin() { holder } else { called };
            match self.scene.random.below(7) {
                0 => self.request(desk, CAPTURE),
                1 => self.request(desk, RELEASE),
                2 => self.press(desk, true),
                3 => self.entries.push(moves::cut(desk, self.channel)),
                4 => self.mobile_on(),
                5 => self.mobile_off(),
                _ => drop(self.call(desk)),
            }
        }
        self.maybe_ticks(14);
        self.answer(&right);
    }

    fn request(&mut self, desk: u8, order: u32) {
        self.entries
            .push(self.scene.request(desk, self.channel, order));
    }

    /// To one desk or two, answered or not.
    fn two_rings(&mut self, holder: u8, called: u8) {
        let first_channel = self.channel;
        let right = self.ring(holder, called);
        let second_right = self.ring_elsewhere(called);
        if self.coin() {
            self.ticks_about(&[14]);
        }
        if self.coin() {
            self.answer(&second_right);
        }
        self.channel = first_channel;
        if self.coin() {
            // The other channel's answer does not match here.
            self.answer(&second_right);
        }
        self.answer(&right);
        self.ticks_about(&[1, 15]);
    }

    fn listeners(&self) -> Desks {
        let mut channels = self.scene.lines.channels.iter();
        let known = channels.find(|known| known.code == self.channel);
        known.map_or(Desks(0), |known| known.listeners(&self.scene.lines.desks))
    }

    /// A ring on another channel, if there is one on which the desk may be
    /// called.
    fn ring_elsewhere(&mut self, called: u8) -> Answer {
        let lines = self.scene.lines;
        let fits = |other: &&Channel| {
            let listens = other.listeners(&lines.desks).contains(called);
            listens && other.is_idle() && other.code != self.channel
        };
        let others: Vec<u8> = lines.channels.iter().filter(fits).map(|c| c.code).collect();
        if !others.is_empty() {
            self.channel = self.scene.random.pick(&others);
        }
        self.call(called)
    }

    /// Its end has the type of the call in which it began.
    fn arrival_of_a_ring_left_over(&mut self, holder: u8, called: u8) {
        let right = self.ring(holder, called);
        self.answer(&right);
        self.maybe_press(called);
        self.mobile_on();
        self.let_go(called);
        self.maybe_ticks(3);
        if self.coin() {
            self.capture(holder);
            self.maybe_press(holder);
        }
        if self.scene.random.below(6) == 0 {
            self.entries.push(moves::handover());
            return;
        }
        self.mobile_off();
        self.ticks_about(&[2, 10]);
    }

    /// The ring's call ends in its ten quiet seconds; the hold outlives it.
    fn general_call_after_a_ring(&mut self, holder: u8, called: u8) {
        let right = self.ring(holder, called);
        self.maybe_ticks(3);
        self.answer(&right);
        self.ticks_about(&[10, 11]);
        if self.coin() {
            self.press(called, true);
            self.press(called, false);
        } else {
            self.mobile_on();
            self.mobile_off();
        }
        self.ticks_about(&[2, 10]);
        self.answer(&right);
    }

    fn handover_during_rings(&mut self, holder: u8, called: u8) {
        self.ring(holder, called);
        if self.coin() {
            self.ring_elsewhere(called);
        }
        self.maybe_ticks(14);
        self.entries.push(moves::handover());
    }
}
