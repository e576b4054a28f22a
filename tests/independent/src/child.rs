//! Runs another program on a given input, with limits on its time and output.

use std::ffi::OsStr;
use std::fmt;
use std::io::{self, Read, Write};
use std::process::{Child, Command, ExitStatus, Stdio};
use std::sync::mpsc;
use std::thread;
use std::time::{Duration, Instant};

#[derive(Debug)]
pub enum Failure {
    NotStarted(io::Error),
    NotRead(io::Error),
    TooMuchOutput,
    TimedOut,
}

impl fmt::Display for Failure {
    fn fmt(&self, f: &mut fmt::Formatter) -> fmt::Result {
        match self {
            Failure::NotStarted(error) => write!(f, "the program can't be started: {error}"),
            Failure::NotRead(error) => write!(f, "the program's output can't be read: {error}"),
            Failure::TooMuchOutput => write!(f, "the program prints far too much"),
            Failure::TimedOut => write!(f, "the program did not end in time"),
        }
    }
}

#[derive(Clone, Copy)]
pub struct Limits {
    pub time: Duration,
    pub output: usize,
}

/// Gives all that the program printed and how it ended.
pub fn run(
    program: &OsStr,
    input: Vec<u8>,
    limits: Limits,
) -> Result<(Vec<u8>, ExitStatus), Failure> {
    let deadline = Instant::now() + limits.time;
    let mut child = Command::new(program)
        .stdin(Stdio::piped())
        .stdout(Stdio::piped())
        .spawn()
        .map_err(Failure::NotStarted)?;
    let ended = exchange(&mut child, input, limits.output, deadline)
        .and_then(|output| Ok((output, wait(&mut child, deadline)?)));
    if ended.is_err() {
        // It may have ended by itself in the meantime.
        let _ = child.kill();
        let _ = child.wait();
    }
    ended
}

/// Writes and reads in threads of their own, so that neither full pipes nor a
/// program that stands still can block. The threads are not joined: something
/// that the program started may keep its pipes open.
fn exchange(
    child: &mut Child,
    input: Vec<u8>,
    output_limit: usize,
    deadline: Instant,
) -> Result<Vec<u8>, Failure> {
    let mut stdin = child.stdin.take().expect("stdin is piped");
    let stdout = child.stdout.take().expect("stdout is piped");
    // A program that ends early shows in its lines, so an error is dropped.
    thread::spawn(move || drop(stdin.write_all(&input)));
    let (sender, receiver) = mpsc::channel();
    thread::spawn(move || {
        let mut output = Vec::new();
        let read = stdout
            .take(output_limit as u64 + 1)
            .read_to_end(&mut output);
        // Nobody listens any more after the deadline.
        let _ = sender.send(read.map(|_| output));
    });
    let left = deadline.saturating_duration_since(Instant::now());
    match receiver.recv_timeout(left) {
        Ok(Ok(output)) if output.len() > output_limit => Err(Failure::TooMuchOutput),
        Ok(Ok(output)) => Ok(output),
        Ok(Err(error)) => Err(Failure::NotRead(error)),
        Err(_) => Err(Failure::TimedOut),
    }
}

/// A program can close its output without ending.
fn wait(child: &mut Child, deadline: Instant) -> Result<ExitStatus, Failure> {
    loop {
        match child.try_wait() {
            Ok(Some(status)) => return Ok(status),
            Ok(None) if Instant::now() < deadline => thread::sleep(Duration::from_millis(1)),
            Ok(None) => return Err(Failure::TimedOut),
            Err(error) => return Err(Failure::NotRead(error)),
        }
    }
}

#[cfg(test)]
mod tests {
    use super::*;

    fn cat(size: usize, output: usize) -> Result<(Vec<u8>, ExitStatus), Failure> {
        let time = Duration::from_secs(30);
        run("cat".as_ref(), vec![b'x'; size], Limits { time, output })
    }

    #[test]
    fn full_pipes_do_not_block() {
        let (output, status) = cat(5_000_000, 5_000_000).unwrap();
        assert_eq!(output.len(), 5_000_000);
        assert!(status.success());
    }

    #[test]
    fn too_much_output() {
        assert!(matches!(cat(1001, 1000), Err(Failure::TooMuchOutput)));
    }
}
