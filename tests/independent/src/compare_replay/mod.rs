//! Compares another replay program's output with that of this one.

mod difference;
mod edges;
mod generated;
mod live;
mod long;
mod named;
mod program;
#[cfg(test)]
mod tests;

use program::Program;
use std::ffi::OsString;
use std::io::{self, Write};
use std::path::PathBuf;

const SHOWN_PROBLEMS: usize = 5;

pub struct Options {
    pub program: OsString,
    pub seed: u64,
    pub feeds: usize,
    pub entries: usize,
    /// Entries of the long feed.
    pub long: usize,
    pub named: Vec<PathBuf>,
}

/// Runs all groups and says whether all of them passed.
pub fn run(options: &Options, out: &mut impl Write) -> io::Result<bool> {
    let program = &mut Program::new(&options.program);
    let mut totals = Totals::default();
    for directory in &options.named {
        totals.report(named::compare(directory, program), out)?;
    }
    totals.report(edges::break_offs(program), out)?;
    totals.report(edges::lengths(program), out)?;
    totals.report(live::check(program), out)?;
    let (feeds, coverage) = generated::compare(options, program);
    totals.report(feeds, out)?;
    totals.report(coverage, out)?;
    totals.report(long::compare(options, program), out)?;
    writeln!(out, "{} passed, {} failed", totals.passed, totals.failed)?;
    out.flush()?;
    Ok(totals.failed == 0)
}

/// Checks of one sort, one a feed in most.
struct Group {
    name: String,
    passed: usize,
    /// What is worth knowing even if all passed.
    notes: Vec<String>,
    problems: Vec<String>,
}

impl Group {
    fn new(name: impl Into<String>) -> Self {
        Group {
            name: name.into(),
            passed: 0,
            notes: Vec::new(),
            problems: Vec::new(),
        }
    }

    /// Counts one check, which failed if there is a problem.
    fn check(&mut self, name: &str, problem: Option<String>) {
        match problem {
            Some(problem) => self.problems.push(format!("{name}: {problem}")),
            None => self.passed += 1,
        }
    }
}

#[derive(Default)]
struct Totals {
    passed: usize,
    failed: usize,
}

impl Totals {
    /// A wrong program could have a problem a feed, so only some are shown.
    fn report(&mut self, mut group: Group, out: &mut impl Write) -> io::Result<()> {
        if group.passed == 0 && group.problems.is_empty() {
            group.problems.push("there is nothing to check".to_string());
        }
        let (passed, failed) = (group.passed, group.problems.len());
        self.passed += passed;
        self.failed += failed;
        let verdict = if failed == 0 { "ok" } else { "FAILED" };
        writeln!(
            out,
            "{}: {passed} of {}, {verdict}",
            group.name,
            passed + failed
        )?;
        for note in &group.notes {
            writeln!(out, "  {note}")?;
        }
        for problem in group.problems.iter().take(SHOWN_PROBLEMS) {
            writeln!(out, "  {problem}")?;
        }
        if failed > SHOWN_PROBLEMS {
            writeln!(out, "  and {} more", failed - SHOWN_PROBLEMS)?;
        }
        out.flush()
    }
}
