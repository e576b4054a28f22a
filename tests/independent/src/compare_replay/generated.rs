//! Feeds made from seeds, and what they bring about.

use super::program::Program;
use super::{Group, Options};
use crate::coverage::Coverage;
use crate::generate;
use crate::replay::{self, Player};

/// How often each refusal and each situation must come in so many entries.
/// With fewer entries nothing is asked.
const LEAST_REFUSALS: usize = 200;
const LEAST_SITUATIONS: usize = 50;
const ENTRIES: usize = 500_000;

pub fn compare(options: &Options, program: &mut Program) -> (Group, Group) {
    let mut group = Group::new("generated feeds");
    let (seed, feeds, entries) = (options.seed, options.feeds, options.entries);
    let last = seed.wrapping_add(feeds as u64 - 1);
    let note = format!("seeds {seed} to {last}, {entries} entries each");
    group.notes.push(note);
    let mut coverage = Coverage::default();
    for place in 0..feeds {
        let seed = seed.wrapping_add(place as u64);
        let feed = generate::feed(seed, entries);
        let own = output(&feed, &mut coverage);
        let name = format!("generate {seed} {entries}");
        group.check(&name, program.problem(feed, &own));
    }
    (group, check(&coverage, feeds * entries))
}

/// What the replay prints, counted as it comes about.
fn output(feed: &[u8], coverage: &mut Coverage) -> Vec<u8> {
    let mut output = Vec::new();
    let mut player = Player::new();
    coverage.start();
    for entry in replay::entries(feed) {
        let before = player.set.clone();
        let reply = player.play(entry, &mut output);
        let reply = reply.expect("nothing can fail in memory");
        coverage.count(&before, entry, reply, &player.set);
    }
    output
}

/// Feeds that miss something show nothing about it.
fn check(coverage: &Coverage, entries: usize) -> Group {
    let mut group = Group::new("what the generated feeds brought about");
    for (name, count) in coverage.counts() {
        let least = match name.starts_with("refusal") {
            _ if entries < ENTRIES => 0,
            true => LEAST_REFUSALS,
            false => LEAST_SITUATIONS,
        };
        let few = count < least;
        group.notes.push(format!("{count:>8}  {name}"));
        group.check(
            &name,
            few.then(|| format!("came {count} times, not {least}")),
        );
    }
    group
}
