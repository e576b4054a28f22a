//! What generated feeds bring about: how often each refusal came, and each
//! situation that the rules treat on their own.

mod rings;

use crate::set::channel::Channel;
use crate::set::entry::{self, Entry};
use crate::set::plan::Lines;
use crate::set::{Reply, Set};
use std::collections::BTreeMap;

/// The highest refusal, and the one that no replay can show: its buffer is
/// never too small.
const HIGHEST_REFUSAL: usize = 17;
const SPACE: usize = 16;

const SITUATIONS: [&str; 22] = [
    "capture of a free channel",
    "capture of a channel held by the same desk",
    "capture of a channel held by another",
    "capture during an arrival",
    "release by the holder",
    "release by another desk",
    "cut while pressed",
    "cut of a call that others were told of",
    "press on in a call that is open",
    "mobile on that several desks are told of",
    "mobile on that no desk is told of",
    "mobile off told to a desk while another holds",
    "mobile off while pressed",
    "call ended by the quiet timer",
    "holder gone by the release timer",
    "timers of two channels ended by one tick",
    "cut while the quiet timer runs",
    "handover during a press",
    "handover during an arrival",
    "handover during a press and an arrival",
    "handover during an open call",
    "handover of a held channel at rest",
];

#[derive(Default)]
pub struct Coverage {
    refusals: [usize; HIGHEST_REFUSAL + 1],
    situations: BTreeMap<&'static str, usize>,
    history: rings::History,
}

impl Coverage {
    /// Begins another feed.
    pub fn start(&mut self) {
        self.history = rings::History::default();
    }

    /// Counts one entry, with the set as it was before and is after it.
    pub fn count(&mut self, before: &Set, entry: &[u8], reply: Reply, after: &Set) {
        self.refusals[usize::from(reply.refusal)] += 1;
        let Some(lines) = before.lines() else { return };
        self.count_rings(lines, entry, reply.refusal, after);
        if let (Ok(entry), 0) = (entry::read(entry), reply.refusal) {
            self.count_accepted(lines, entry, after);
            let tick = entry == Entry::Tick;
            self.history.follow(lines, tick, after);
        }
    }

    fn count_accepted(&mut self, lines: &Lines, entry: Entry, after: &Set) {
        match entry {
            Entry::Tick => self.count_tick(lines, after),
            Entry::Handover => self.count_handover(lines),
            Entry::Telegram { desk, telegram } => self.count_request(lines, desk, telegram),
            Entry::Press { channel, .. } | Entry::Cut { channel, .. } => {
                self.count_press_or_cut(&entry, find(lines, channel));
            }
            Entry::MobileOn { channel, .. } => self.count_mobile_on(after, channel),
            Entry::MobileOff { channel } => self.count_mobile_off(find(lines, channel)),
            Entry::Plan(_) | Entry::MobileCall { .. } | Entry::MobileCancel { .. } => {}
        }
    }

    fn saw(&mut self, happened: bool, situation: &'static str) {
        if happened {
            *self.situations.entry(situation).or_default() += 1;
        }
    }

    fn count_request(&mut self, lines: &Lines, desk: u8, telegram: &[u8]) {
        let Some((b"550600", [a, b, c, _, .., order])) = telegram[10..].split_first_chunk() else {
            return;
        };
        let code = [a, b, c]
            .iter()
            .fold(0, |code, &digit| code * 10 + (digit - b'0'));
        let channel = find(lines, code);
        let other = channel.holder.is_some_and(|holder| holder != desk);
        let own = channel.holder == Some(desk);
        if *order == b'1' {
            let free = channel.holder.is_none() && channel.ring.is_none();
            self.saw(free, "capture of a free channel");
            self.saw(own, "capture of a channel held by the same desk");
            self.saw(other, "capture of a channel held by another");
            let arrival = channel.holder.is_none() && channel.arrival.is_some();
            self.saw(arrival, "capture during an arrival");
        } else {
            self.saw(own, "release by the holder");
            self.saw(!own, "release by another desk");
        }
    }

    fn count_press_or_cut(&mut self, entry: &Entry, channel: &Channel) {
        match *entry {
            Entry::Press { on: true, .. } => {
                self.saw(channel.call.is_some(), "press on in a call that is open");
            }
            Entry::Cut { desk, .. } => {
                self.saw(channel.pressed, "cut while pressed");
                self.saw(channel.quiet > 0, "cut while the quiet timer runs");
                let others = channel
                    .call
                    .map_or(0, |call| call.recipients.0 & !(1 << desk));
                self.saw(others != 0, "cut of a call that others were told of");
            }
            _ => {}
        }
    }

    fn count_mobile_on(&mut self, after: &Set, code: u8) {
        let arrival = after.lines().and_then(|lines| find(lines, code).arrival);
        let told = arrival.map_or(0, |arrival| arrival.recipients.count());
        self.saw(told > 1, "mobile on that several desks are told of");
        self.saw(told == 0, "mobile on that no desk is told of");
    }

    fn count_mobile_off(&mut self, channel: &Channel) {
        self.saw(channel.pressed, "mobile off while pressed");
        let (Some(holder), Some(arrival)) = (channel.holder, channel.arrival) else {
            return;
        };
        let told = arrival.recipients;
        self.saw(
            told.count() > 0 && !told.contains(holder),
            "mobile off told to a desk while another holds",
        );
    }

    fn count_tick(&mut self, lines: &Lines, after: &Set) {
        let after = after.lines().map_or(&[][..], |lines| &lines.channels);
        let mut ends = 0;
        for (before, after) in lines.channels.iter().zip(after) {
            let quiet = before.call.is_some() && before.ring.is_none();
            let ended = quiet && after.call.is_none();
            self.saw(ended, "call ended by the quiet timer");
            let gone = before.holder.is_some() && after.holder.is_none();
            self.saw(gone, "holder gone by the release timer");
            ends += usize::from(ended || gone);
        }
        self.saw(ends > 1, "timers of two channels ended by one tick");
    }

    fn count_handover(&mut self, lines: &Lines) {
        for channel in &lines.channels {
            let arrival = channel.arrival.is_some();
            let both = channel.pressed && arrival;
            self.saw(channel.pressed, "handover during a press");
            self.saw(arrival, "handover during an arrival");
            self.saw(both, "handover during a press and an arrival");
            self.saw(channel.call.is_some(), "handover during an open call");
            let rest = channel.holder.is_some() && channel.call.is_none() && !arrival;
            self.saw(rest, "handover of a held channel at rest");
        }
    }

    /// Each refusal and each situation with its count.
    pub fn counts(&self) -> Vec<(String, usize)> {
        let refusals = self.refusals.iter().enumerate();
        let refusals = refusals.filter(|&(number, _)| number != SPACE);
        let refusals = refusals.map(|(number, &count)| (format!("refusal {number}"), count));
        let situations = SITUATIONS.iter().chain(&rings::SITUATIONS).map(|&name| {
            let count = self.situations.get(name).copied().unwrap_or(0);
            (name.to_string(), count)
        });
        refusals.chain(situations).collect()
    }
}

/// The channel of an accepted entry.
fn find(lines: &Lines, code: u8) -> &Channel {
    let found = lines.channels.iter().find(|channel| channel.code == code);
    found.expect("accepted entries are about channels of the plan")
}

#[cfg(test)]
mod tests {
    use super::*;
    use crate::generate;
    use crate::replay::{entries, Player};

    /// Far fewer feeds than a comparison runs, so no count can be small there.
    #[test]
    fn feeds_bring_about_everything() {
        let mut coverage = Coverage::default();
        for seed in 0..300 {
            coverage.start();
            let mut player = Player::new();
            for entry in entries(&generate::feed(seed, 500)) {
                let before = player.set.clone();
                let reply = player.play(entry, &mut std::io::sink()).unwrap();
                coverage.count(&before, entry, reply, &player.set);
            }
        }
        for (name, count) in coverage.counts() {
            assert!(count >= 10, "{name} came {count} times");
        }
        let listed = |name| SITUATIONS.contains(name) || rings::SITUATIONS.contains(name);
        assert!(coverage.situations.keys().all(listed));
    }
}
