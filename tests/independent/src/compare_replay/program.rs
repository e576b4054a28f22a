//! The program that is compared.

use super::difference;
use crate::child::{self, Failure, Limits};
use crate::session::Session;
use std::ffi::OsStr;
use std::time::Duration;

const TIME_LIMIT: Duration = Duration::from_secs(20);

pub struct Program<'a> {
    path: &'a OsStr,
    /// Set once it did not end in time, so that a program that always stands
    /// still does not use up the limit again and again.
    stuck: bool,
}

impl<'a> Program<'a> {
    pub fn new(path: &'a OsStr) -> Self {
        Program { path, stuck: false }
    }

    /// What is wrong with its output on a feed that gives this output here.
    pub fn problem(&mut self, feed: Vec<u8>, own: &[u8]) -> Option<String> {
        if self.stuck {
            return Some(not_run());
        }
        let limits = Limits {
            time: TIME_LIMIT,
            output: 4 * own.len() + 1_000_000,
        };
        match child::run(self.path, feed, limits) {
            Ok((output, status)) => difference::describe(own, &output).or_else(|| {
                (!status.success()).then(|| format!("the program ended with {status}"))
            }),
            Err(failure) => Some(self.explain(&failure)),
        }
    }

    /// Starts it to be fed and read at the same time.
    pub fn start(&self, patience: Duration) -> Result<Session, String> {
        if self.stuck {
            return Err(not_run());
        }
        Session::start(self.path, patience).map_err(|failure| failure.to_string())
    }

    pub fn explain(&mut self, failure: &Failure) -> String {
        self.stuck |= matches!(failure, Failure::TimedOut);
        failure.to_string()
    }
}

fn not_run() -> String {
    "not run, because the program stood still before".to_string()
}
