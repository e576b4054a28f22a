//! Short runs of entries that lead a channel through the rules that random
//! moves seldom reach.

pub mod rings;

use super::moves::{self, Scene, CAPTURE, RELEASE};

/// One of the scripts, on a channel that a running desk may hold.
pub fn any(scene: &mut Scene) -> Option<Vec<Vec<u8>>> {
    let (mut script, first, second) = Script::begin(scene)?;
    match script.scene.random.below(8) {
        0 | 1 => script.mobile_under_old_holder(first, second),
        2 => script.unheld_mobile(first, second),
        3 => script.press_and_mobile(first),
        4 => script.both_timers(first),
        5 => script.cut_in_quiet(first, second),
        6 => script.two_channels(first),
        _ => script.handover_with_all_open(first),
    }
    Some(script.entries)
}

struct Script<'a, 'b> {
    entries: Vec<Vec<u8>>,
    scene: &'a mut Scene<'b>,
    channel: u8,
}

impl<'a, 'b> Script<'a, 'b> {
    /// On a channel that the first of the two desks holds in the end.
    fn begin(scene: &'a mut Scene<'b>) -> Option<(Self, u8, u8)> {
        let channel = scene.channel();
        let first = match channel.holder {
            Some(holder) => holder,
            None => scene.listener(&channel)?,
        };
        let second = scene.listener(&channel)?;
        let mut script = Script {
            entries: Vec::new(),
            scene,
            channel: channel.code,
        };
        if channel.ring.is_some() {
            script.entries.push(moves::mobile_cancel(channel.code));
        }
        if channel.arrival.is_some() {
            script.mobile_off();
        }
        script.capture(first);
        if channel.pressed {
            script.press(first, false);
        }
        Some((script, first, second))
    }
}

impl Script<'_, '_> {
    /// Keyed up under one holder, ended under another.
    fn mobile_under_old_holder(&mut self, first: u8, second: u8) {
        self.maybe_press(first);
        self.mobile_on();
        self.maybe_ticks(3);
        self.let_go(first);
        self.maybe_ticks(3);
        self.capture(second);
        self.maybe_press(second);
        if self.scene.random.below(5) == 0 {
            self.entries.push(moves::handover());
            return;
        }
        self.mobile_off();
        self.ticks_about(&[2, 10, 10, 130]);
    }

    /// A call that goes to all who listen, and who captures meanwhile.
    fn unheld_mobile(&mut self, first: u8, second: u8) {
        self.let_go(first);
        self.mobile_on();
        if self.coin() {
            self.capture(second);
        }
        self.maybe_press(second);
        self.mobile_off();
        self.maybe_ticks(9);
        if self.coin() {
            self.capture(first);
        }
        self.ticks_about(&[1, 5, 10, 10, 120]);
        if self.coin() {
            self.let_go(second);
        }
    }

    /// One of the two ends before the other.
    fn press_and_mobile(&mut self, holder: u8) {
        let press_first = self.coin();
        if press_first {
            self.press(holder, true);
        }
        self.mobile_on();
        if !press_first {
            self.press(holder, true);
        }
        self.maybe_ticks(12);
        if self.coin() {
            self.press(holder, false);
            self.maybe_ticks(12);
            self.mobile_off();
        } else {
            self.mobile_off();
            self.maybe_ticks(12);
            self.press(holder, false);
        }
        self.ticks_about(&[2, 10, 10, 130]);
    }

    /// Up to the edge of a timer, then something that starts it anew.
    fn both_timers(&mut self, holder: u8) {
        self.press(holder, true);
        self.press(holder, false);
        self.ticks_about(&[1, 9, 10, 20]);
        match self.scene.random.below(4) {
            0 => self.press(holder, true),
            1 => self.mobile_on(),
            2 => self.capture(holder),
            _ => {}
        }
        self.maybe_ticks(2);
        self.press(holder, false);
        self.mobile_off();
        self.ticks_about(&[9, 10, 129, 130]);
    }

    /// Nothing of the timers may be left for the next holder.
    fn cut_in_quiet(&mut self, first: u8, second: u8) {
        self.press(first, true);
        self.press(first, false);
        self.maybe_ticks(9);
        self.let_go(first);
        self.maybe_ticks(2);
        self.capture(second);
        self.ticks_about(&[10, 120]);
    }

    /// Timers that end in the same tick.
    fn two_channels(&mut self, holder: u8) {
        let second = self.scene.channel().code;
        for channel in [self.channel, second] {
            self.channel = channel;
            self.capture(holder);
            self.press(holder, true);
            self.press(holder, false);
        }
        self.ticks_about(&[10, 10, 130]);
    }

    fn handover_with_all_open(&mut self, holder: u8) {
        if self.coin() {
            self.press(holder, true);
        }
        if self.coin() {
            self.mobile_on();
        }
        self.maybe_ticks(2);
        self.entries.push(moves::handover());
    }

    fn capture(&mut self, desk: u8) {
        self.entries
            .push(self.scene.request(desk, self.channel, CAPTURE));
    }

    fn let_go(&mut self, desk: u8) {
        let entry = if self.coin() {
            moves::cut(desk, self.channel)
        } else {
            self.scene.request(desk, self.channel, RELEASE)
        };
        self.entries.push(entry);
    }

    fn press(&mut self, desk: u8, on: bool) {
        self.entries.push(moves::press(desk, self.channel, on));
    }

    fn maybe_press(&mut self, desk: u8) {
        match self.scene.random.below(4) {
            0 => self.press(desk, true),
            1 => {
                self.press(desk, true);
                self.press(desk, false);
            }
            _ => {}
        }
    }

    fn mobile_on(&mut self) {
        self.entries.push(self.scene.mobile_on(self.channel));
    }

    fn mobile_off(&mut self) {
        self.entries.push(moves::mobile_off(self.channel));
    }

    fn maybe_ticks(&mut self, most: usize) {
        if self.coin() {
            let count = self.scene.random.within(1, most);
            self.ticks(count);
        }
    }

    /// One less than, as many as, or one more than one of these.
    fn ticks_about(&mut self, counts: &[usize]) {
        let count = self.scene.random.pick(counts);
        let count = count + self.scene.random.below(3) - 1;
        self.ticks(count);
    }

    fn ticks(&mut self, count: usize) {
        self.entries
            .extend(std::iter::repeat_with(moves::tick).take(count));
    }

    fn coin(&mut self) -> bool {
        self.scene.random.below(2) == 0
    }
}
