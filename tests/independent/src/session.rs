//! A program that is fed and read at the same time.

use crate::child::Failure;
use std::ffi::OsStr;
use std::fs;
use std::io::{self, Read};
use std::process::{Child, ChildStdin, Command, ExitStatus, Stdio};
use std::sync::mpsc::{self, Receiver, RecvTimeoutError};
use std::thread;
use std::time::{Duration, Instant};

const CHUNK: usize = 1 << 16;
/// How many chunks of output may wait to be read.
const CHUNKS: usize = 16;

pub struct Session {
    child: Child,
    input: Option<ChildStdin>,
    chunks: Receiver<io::Result<Vec<u8>>>,
    /// What has come of the output and was not asked for yet.
    rest: Vec<u8>,
    patience: Duration,
}

impl Session {
    /// Starts the program. Nobody waits longer than this for it to do anything.
    pub fn start(program: &OsStr, patience: Duration) -> Result<Self, Failure> {
        let mut child = Command::new(program)
            .stdin(Stdio::piped())
            .stdout(Stdio::piped())
            .spawn()
            .map_err(Failure::NotStarted)?;
        let mut output = child.stdout.take().expect("stdout is piped");
        let (sender, chunks) = mpsc::sync_channel(CHUNKS);
        thread::spawn(move || loop {
            let mut chunk = vec![0; CHUNK];
            let read = output.read(&mut chunk).map(|count| {
                chunk.truncate(count);
                chunk
            });
            let last = !matches!(&read, Ok(chunk) if !chunk.is_empty());
            if sender.send(read).is_err() || last {
                break;
            }
        });
        Ok(Session {
            input: child.stdin.take(),
            child,
            chunks,
            rest: Vec::new(),
            patience,
        })
    }

    /// The program's input, which ends when this is dropped.
    pub fn take_input(&mut self) -> ChildStdin {
        self.input.take().expect("the input is taken once")
    }

    /// The next bytes of the output, fewer only if it ends.
    pub fn read(&mut self, count: usize) -> Result<Vec<u8>, Failure> {
        while self.rest.len() < count {
            match self.chunks.recv_timeout(self.patience) {
                Ok(Ok(chunk)) if chunk.is_empty() => break,
                Ok(Ok(chunk)) => self.rest.extend_from_slice(&chunk),
                Ok(Err(error)) => return Err(Failure::NotRead(error)),
                Err(RecvTimeoutError::Disconnected) => break,
                Err(RecvTimeoutError::Timeout) => return Err(Failure::TimedOut),
            }
        }
        let behind = self.rest.split_off(count.min(self.rest.len()));
        Ok(std::mem::replace(&mut self.rest, behind))
    }

    /// What has come of the output so far without waiting for more.
    pub fn so_far(&mut self) -> &[u8] {
        while let Ok(Ok(chunk)) = self.chunks.try_recv() {
            self.rest.extend_from_slice(&chunk);
        }
        &self.rest
    }

    /// The most memory that the program had so far, in kilobytes. Only known
    /// while it runs.
    pub fn peak_memory(&self) -> Option<u64> {
        let status = fs::read_to_string(format!("/proc/{}/status", self.child.id())).ok()?;
        let line = status
            .lines()
            .find_map(|line| line.strip_prefix("VmHWM:"))?;
        line.trim().strip_suffix(" kB")?.trim().parse().ok()
    }

    /// Waits for the program to end by itself.
    pub fn end(mut self) -> Result<ExitStatus, Failure> {
        let deadline = Instant::now() + self.patience;
        loop {
            match self.child.try_wait() {
                Ok(Some(status)) => return Ok(status),
                Ok(None) if Instant::now() < deadline => {
                    thread::sleep(Duration::from_millis(1));
                }
                Ok(None) => return Err(Failure::TimedOut),
                Err(error) => return Err(Failure::NotRead(error)),
            }
        }
    }
}

impl Drop for Session {
    /// It may have ended already.
    fn drop(&mut self) {
        let _ = self.child.kill();
        let _ = self.child.wait();
    }
}
