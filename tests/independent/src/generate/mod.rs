//! Feeds made from a seed. The generator steps a set of its own beside the
//! feed, so that it can choose what comes next by the state that is reached.

mod moves;
mod near_misses;
mod plans;
mod scripts;
pub mod shapes;
#[cfg(test)]
mod tests;

use crate::random::Random;
use crate::replay::BUFFER;
use crate::set::desks::Desks;
use crate::set::entry::{self, LONGEST};
use crate::set::plan::{self, Lines};
use crate::set::Set;
use moves::Scene;
use std::collections::VecDeque;

/// The feed of a seed: so many entries, the last of which may be refused with
/// 1 or break off.
pub fn feed(seed: u64, count: usize) -> Vec<u8> {
    let mut generator = Generator::new(seed);
    let mut feed = Vec::new();
    for _ in 1..count {
        feed.extend_from_slice(&generator.next_entry());
    }
    if count > 0 {
        feed.extend_from_slice(&generator.last_entry());
    }
    feed
}

pub struct Generator {
    random: Random,
    set: Set,
    buffer: Vec<u8>,
    /// Entries that were decided on before.
    waiting: VecDeque<Vec<u8>>,
    habits: Habits,
}

/// What differs from plan to plan.
struct Habits {
    /// Places of the channels that most entries are about.
    focus: Vec<usize>,
    /// Desks that are not brought up.
    shy: Desks,
    /// How many of a hundred moves bring up a desk while there is one.
    eagerness: usize,
}

impl Generator {
    pub fn new(seed: u64) -> Self {
        Generator {
            random: Random::new(seed),
            set: Set::new(),
            buffer: vec![0; BUFFER],
            waiting: VecDeque::new(),
            habits: Habits {
                focus: vec![0],
                shy: Desks(0),
                eagerness: 0,
            },
        }
    }

    /// The next entry, never one that is refused with 1.
    pub fn next_entry(&mut self) -> Vec<u8> {
        let entry = self.choose();
        let planned = self.set.lines().is_some();
        self.set.step(&entry, &mut self.buffer);
        if !planned {
            if let Some(lines) = self.set.lines() {
                self.habits = Habits::new(lines, &mut self.random);
            }
        }
        entry
    }

    fn choose(&mut self) -> Vec<u8> {
        let Some(lines) = self.set.lines() else {
            self.waiting.clear();
            return self.choose_without_plan();
        };
        let mut scene = Scene {
            lines,
            focus: &self.habits.focus,
            random: &mut self.random,
        };
        // Less often inside a script, so that most of them reach their end.
        let near_misses = if self.waiting.is_empty() { 36 } else { 10 };
        if scene.random.below(100) < near_misses {
            return scene.near_miss();
        }
        if let Some(entry) = self.waiting.pop_front() {
            return entry;
        }
        if let Some(entry) = one_move(&mut scene, &self.habits, &mut self.waiting) {
            return entry;
        }
        moves::tick()
    }

    fn choose_without_plan(&mut self) -> Vec<u8> {
        let random = &mut self.random;
        match random.below(20) {
            0..=8 => plans::good(random).entry(),
            9..=15 => plans::bad(random),
            _ => {
                // Right under some plan, but there is none.
                let plan = plans::good(random).bytes();
                let lines = plan::read(&plan).expect("the plan is a good one");
                let focus = [0];
                let mut scene = Scene {
                    lines: &lines,
                    focus: &focus,
                    random,
                };
                scene.near_miss()
            }
        }
    }

    /// The last entry of a feed: often one that is refused with 1.
    pub fn last_entry(&mut self) -> Vec<u8> {
        let mut entry = self.next_entry();
        let random = &mut self.random;
        match random.below(16) {
            0..=2 => entry.truncate(random.within(1, entry.len() - 1)),
            3 => entry.truncate(entry.len() - 1),
            4 => entry = too_long(LONGEST + 1),
            5 => entry = too_long(random.within(LONGEST + 1, 65_535)),
            6 => entry = vec![0, 0],
            7 => entry = vec![0, 1, 1],
            // The rest must not be read.
            8 => entry = [too_long(LONGEST + 1), entry].concat(),
            9 => entry = [vec![0, 0], entry].concat(),
            _ => {}
        }
        entry
    }
}

impl Habits {
    fn new(lines: &Lines, random: &mut Random) -> Self {
        let focus = (0..random.within(1, 3))
            .map(|_| random.below(lines.channels.len()))
            .collect();
        let shy = match random.below(3) {
            0 => random.below(16) as u8,
            _ => 0,
        };
        Habits {
            focus,
            shy: Desks(shy),
            eagerness: random.pick(&[10, 40, 90]),
        }
    }
}

/// One move that suits the state, or nothing if what was drawn does not.
fn one_move(
    scene: &mut Scene,
    habits: &Habits,
    waiting: &mut VecDeque<Vec<u8>>,
) -> Option<Vec<u8>> {
    if scene.random.below(100) < habits.eagerness {
        if let Some(entry) = scene.bring_up(habits.shy) {
            return Some(entry);
        }
    }
    for _ in 0..8 {
        let entry = match scene.random.below(230) {
            0..=39 => scene.capture(),
            40..=59 => scene.release(),
            60..=109 => scene.press(),
            110..=154 => scene.mobile(),
            155..=168 => scene.cut(),
            169..=185 => {
                let more = scene.tick_count() - 1;
                waiting.extend(std::iter::repeat_with(moves::tick).take(more));
                Some(moves::tick())
            }
            186..=197 => scripts::any(scene).map(|script| start(script, waiting)),
            198 if scene.random.below(2) == 0 => Some(moves::handover()),
            199..=210 => scene.ring(),
            211..=227 => scripts::rings::any(scene).map(|script| start(script, waiting)),
            _ => scene.bring_up(Desks(0)),
        };
        if entry.is_some() {
            return entry;
        }
    }
    None
}

/// The first entry of a script; the others wait.
fn start(script: Vec<Vec<u8>>, waiting: &mut VecDeque<Vec<u8>>) -> Vec<u8> {
    waiting.extend(script);
    waiting.pop_front().unwrap_or_else(moves::tick)
}

/// An entry whose length is above what is allowed, all of it there.
pub fn too_long(length: usize) -> Vec<u8> {
    let mut entry = Vec::new();
    entry::push(&mut entry, 1, &[&vec![b'0'; length - 2]]);
    entry
}
