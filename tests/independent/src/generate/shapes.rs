//! Feeds for measuring speed: one kind of load each, after a plan of four
//! desks has been brought up, or of one desk if the name ends in `-1desk`.

use super::moves::{self, Scene, CAPTURE, RELEASE};
use super::plans;
use crate::random::Random;
use crate::replay::BUFFER;
use crate::set::Set;

pub const NAMES: [&str; 7] = [
    "mixed1",
    "mixed4",
    "mixed32",
    "ticks-rest",
    "ticks-held",
    "telegrams",
    "refused",
];

/// A feed of one of the shapes, or nothing if there is none of that name.
pub fn feed(name: &str, seed: u64, count: usize) -> Option<Vec<u8>> {
    let (name, desks) = match name.strip_suffix("-1desk") {
        Some(name) => (name, 1),
        None => (name, 4),
    };
    let channels = match name {
        "mixed1" => 1,
        "mixed4" | "telegrams" => 4,
        "mixed32" | "ticks-rest" | "ticks-held" | "refused" => 32,
        _ => return None,
    };
    let mut load = Load {
        random: Random::new(seed),
        set: Set::new(),
        buffer: vec![0; BUFFER],
        feed: Vec::new(),
        left: count,
    };
    load.bring_up(desks, channels);
    match name {
        "ticks-held" => load.hold_all(desks),
        "refused" => load.use_some(),
        _ => {}
    }
    let mut turn = 0;
    while load.left > 0 {
        match name {
            "ticks-rest" => load.add(&moves::tick()),
            "ticks-held" => load.press_one_and_tick(turn),
            "telegrams" => load.request(),
            "refused" => load.refused(),
            _ => load.mixed(),
        }
        turn += 1;
    }
    Some(load.feed)
}

struct Load {
    random: Random,
    set: Set,
    buffer: Vec<u8>,
    feed: Vec<u8>,
    left: usize,
}

impl Load {
    fn add(&mut self, entry: &[u8]) {
        if self.left > 0 {
            self.set.step(entry, &mut self.buffer);
            self.feed.extend_from_slice(entry);
            self.left -= 1;
        }
    }

    /// Builds an entry from the state, if there is one that suits.
    fn build<T>(&mut self, build: impl FnOnce(&mut Scene) -> Option<T>) -> Option<T> {
        let lines = self.set.lines()?;
        let focus: Vec<usize> = (0..lines.channels.len()).collect();
        build(&mut Scene {
            lines,
            focus: &focus,
            random: &mut self.random,
        })
    }

    /// Adds what is built, or else a tick.
    fn add_from(&mut self, build: impl FnOnce(&mut Scene) -> Option<Vec<u8>>) {
        let entry = self.build(build);
        self.add(&entry.unwrap_or_else(moves::tick));
    }

    fn bring_up(&mut self, desks: u8, channels: usize) {
        self.add(&plans::full(desks.into(), channels).entry());
        for desk in 0..desks {
            self.add_from(|scene| Some(scene.time_notice(desk)));
            self.add_from(|scene| Some(scene.operation_answer(desk, 1)));
        }
    }

    fn mixed(&mut self) {
        let kind = self.random.below(100);
        if kind < 5 {
            return self.refused();
        }
        self.add_from(|scene| match kind {
            5..=22 => scene.capture(),
            23..=32 => scene.release(),
            33..=57 => scene.press(),
            58..=79 => scene.mobile(),
            80..=84 => scene.cut(),
            _ => None,
        });
    }

    /// Every channel held, by one desk after the other, and pressed once.
    fn hold_all(&mut self, desks: u8) {
        for place in 0..32 {
            let desk = place as u8 % desks;
            self.add_from(|scene| {
                let channel = scene.lines.channels[place].code;
                Some(scene.request(desk, channel, CAPTURE))
            });
            self.press_on_and_off(place);
        }
    }

    fn press_on_and_off(&mut self, place: usize) {
        for on in [true, false] {
            self.add_from(|scene| {
                let channel = scene.lines.channels[place];
                Some(moves::press(channel.holder?, channel.code, on))
            });
        }
    }

    /// Each channel has its turn after 128 seconds, so none is released; the
    /// calls end in between.
    fn press_one_and_tick(&mut self, turn: usize) {
        self.press_on_and_off(turn % 32);
        for _ in 0..4 {
            self.add(&moves::tick());
        }
    }

    fn request(&mut self) {
        let order = self.random.pick(&[CAPTURE, RELEASE]);
        self.add_from(|scene| {
            let channel = scene.channel();
            let desk = scene.listener(&channel)?;
            Some(scene.request(desk, channel.code, order))
        });
    }

    /// Some channels in use, so that more than one refusal can come.
    fn use_some(&mut self) {
        for _ in 0..200 {
            self.mixed();
        }
    }

    /// Long entries are left out: they would only measure the reading.
    fn refused(&mut self) {
        while let Some(entry) = self.build(|scene| Some(scene.near_miss_without_ring())) {
            let refused = self.set.clone().step(&entry, &mut self.buffer).refusal > 1;
            if refused && entry.len() < 200 {
                return self.add(&entry);
            }
        }
    }
}
