//! How long the steps of a feed take, without reading and printing.

use crate::replay::BUFFER;
use crate::set::entry;
use crate::set::Set;
use std::hint::black_box;
use std::io::{self, Write};
use std::time::Instant;

/// Steps a new set through the feed so many times.
pub fn time(feed: &[u8], rounds: usize, out: &mut impl Write) -> io::Result<()> {
    let entries = split(feed);
    let mut times: Vec<f64> = (0..rounds).map(|_| round(&entries)).collect();
    times.sort_by(f64::total_cmp);
    let (best, median) = (times[0], times[rounds / 2]);
    writeln!(out, "{} entries", entries.len())?;
    writeln!(out, "{best:.1} ns an entry in the best of {rounds} rounds")?;
    writeln!(out, "{median:.1} ns an entry in the median round")
}

fn split(mut feed: &[u8]) -> Vec<&[u8]> {
    let mut entries = Vec::new();
    while let Some((entry, rest)) = entry::split_first(feed) {
        entries.push(entry);
        feed = rest;
    }
    entries
}

/// Nanoseconds an entry.
fn round(entries: &[&[u8]]) -> f64 {
    let mut set = Set::new();
    let mut buffer = vec![0; BUFFER];
    let start = Instant::now();
    for entry in entries {
        black_box(set.step(black_box(entry), &mut buffer));
    }
    start.elapsed().as_nanos() as f64 / entries.len().max(1) as f64
}
