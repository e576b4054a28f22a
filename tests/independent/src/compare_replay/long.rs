//! One long feed: the output is right to its end, and the memory stays small.
//! Both outputs are compared as they come, so neither is kept.

use super::difference;
use super::program::Program;
use super::{Group, Options};
use crate::child::Failure;
use crate::generate::Generator;
use crate::replay::Player;
use crate::session::Session;
use std::io::{BufWriter, Write};
use std::process::ChildStdin;
use std::sync::mpsc::{self, Receiver};
use std::thread;
use std::time::Duration;

const PATIENCE: Duration = Duration::from_secs(10);
const MOST_KILOBYTES: u64 = 64 * 1024;
/// Output is compared in blocks of about this size.
const BLOCK: usize = 1 << 16;

pub fn compare(options: &Options, program: &mut Program) -> Group {
    let mut group = Group::new("long feed");
    let (seed, entries) = (options.seed, options.long);
    group.notes.push(format!("seed {seed}, {entries} entries"));
    let session = match program.start(PATIENCE) {
        Ok(session) => session,
        Err(why) => {
            group.check("start", Some(why));
            return group;
        }
    };
    match follow(session, seed, entries) {
        Ok((difference, kilobytes)) => {
            group.check("output", difference);
            let problem = memory_problem(kilobytes, &mut group.notes);
            group.check("memory", problem);
        }
        Err(failure) => group.check("output", Some(program.explain(&failure))),
    }
    group
}

fn memory_problem(kilobytes: Option<u64>, notes: &mut Vec<String>) -> Option<String> {
    let Some(kilobytes) = kilobytes else {
        return Some("the program's memory is not known".to_string());
    };
    notes.push(format!("{kilobytes} kB of memory at most"));
    (kilobytes > MOST_KILOBYTES).then(|| format!("{kilobytes} kB are more than {MOST_KILOBYTES}"))
}

/// The first difference, and the most memory in kilobytes. The input is held
/// open until all output has come, because the memory can't be asked for
/// after the program's end.
fn follow(
    mut session: Session,
    seed: u64,
    entries: usize,
) -> Result<(Option<String>, Option<u64>), Failure> {
    let input = session.take_input();
    let (done, wait) = mpsc::channel();
    thread::spawn(move || write_feed(input, seed, entries, &wait));
    let mut generator = Generator::new(seed);
    let mut player = Player::new();
    let mut own = Vec::new();
    for number in 1..=entries {
        let entry = generator.next_entry();
        let played = player.play(&entry, &mut own);
        played.expect("nothing can fail in memory");
        if own.len() < BLOCK && number < entries {
            continue;
        }
        let theirs = session.read(own.len())?;
        if let Some(text) = difference::describe(&own, &theirs) {
            return Ok((Some(text), session.peak_memory()));
        }
        own.clear();
    }
    let kilobytes = session.peak_memory();
    drop(done);
    let more = session.read(1)?;
    let status = session.end()?;
    let problem = if !more.is_empty() {
        Some("the program prints more than is due".to_string())
    } else {
        (!status.success()).then(|| format!("the program ended with {status}"))
    };
    Ok((problem, kilobytes))
}

/// Writes the feed and leaves the input open until the other side is done.
/// A program that ends early shows in its output, so errors are dropped.
fn write_feed(input: ChildStdin, seed: u64, entries: usize, wait: &Receiver<()>) {
    let mut input = BufWriter::with_capacity(BLOCK, input);
    let mut generator = Generator::new(seed);
    for _ in 0..entries {
        if input.write_all(&generator.next_entry()).is_err() {
            return;
        }
    }
    let _ = input.flush();
    let _ = wait.recv();
}
