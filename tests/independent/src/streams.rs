//! Where the commands that people run get their bytes from, and the line that
//! says what went wrong on the way.

use std::ffi::{OsStr, OsString};
use std::fmt;
use std::fs::File;
use std::io::{self, BufWriter, ErrorKind, Read, Write};
use std::process::ExitCode;

const CHUNK: usize = 1 << 16;

/// Why not all of the input became output.
#[derive(Debug)]
pub enum Trouble {
    Unread(io::Error),
    Unwritten(io::Error),
    /// What is wrong in the input, and where.
    Wrong(String),
}

/// What stands around a command: the name that its user knows it by, and the
/// file that it reads, standard input if there is none.
pub struct Setting {
    command: OsString,
    file: Option<OsString>,
}

impl Setting {
    /// From the arguments `[--as NAME] [FILE]`.
    pub fn new(arguments: &[OsString]) -> Option<Self> {
        let (command, files) = match arguments {
            [option, name, files @ ..] if option == "--as" => (name.clone(), files),
            files => ("independent".into(), files),
        };
        let file = match files {
            [] => None,
            [file] => Some(file.clone()),
            _ => return None,
        };
        Some(Setting { command, file })
    }

    /// Does the work from the input to standard output. Whoever reads that may
    /// leave at any time, and nothing is said of it.
    pub fn run(
        &self,
        work: impl FnOnce(&mut dyn Read, &mut dyn Write) -> Result<(), Trouble>,
    ) -> ExitCode {
        let mut output = BufWriter::with_capacity(CHUNK, io::stdout().lock());
        let done = self
            .open()
            .map_err(Trouble::Unread)
            .and_then(|mut input| work(&mut input, &mut output))
            .and_then(|()| output.flush().map_err(Trouble::Unwritten));
        match done {
            Ok(()) => ExitCode::SUCCESS,
            Err(Trouble::Unwritten(error)) if error.kind() == ErrorKind::BrokenPipe => {
                ExitCode::SUCCESS
            }
            Err(trouble) => {
                // Where even this can't be written, the status still tells.
                let _ = writeln!(io::stderr(), "{}", self.line(&trouble));
                ExitCode::FAILURE
            }
        }
    }

    fn open(&self) -> io::Result<Box<dyn Read>> {
        Ok(match &self.file {
            Some(file) => Box::new(File::open(file)?),
            None => Box::new(io::stdin().lock()),
        })
    }

    fn line(&self, trouble: &Trouble) -> String {
        let command = self.command.display();
        let source = self.file.as_deref().unwrap_or(OsStr::new("standard input"));
        let source = source.display();
        match trouble {
            Trouble::Unread(error) => {
                format!("{command}: {source} cannot be read: {}", Number(error))
            }
            Trouble::Unwritten(error) => {
                let number = Number(error);
                format!("{command}: standard output cannot be written: {number}")
            }
            Trouble::Wrong(why) => format!("{command}: {source}: {why}"),
        }
    }
}

/// The system's number of an error, as the programs say it too.
struct Number<'a>(&'a io::Error);

impl fmt::Display for Number<'_> {
    fn fmt(&self, f: &mut fmt::Formatter) -> fmt::Result {
        match self.0.raw_os_error() {
            Some(number) => write!(f, "error {number}"),
            None => write!(f, "{}", self.0),
        }
    }
}

/// Reads once, behind the bytes that are held, and tells how many came: none
/// at the end.
pub fn read_some(input: &mut dyn Read, held: &mut Vec<u8>) -> Result<usize, Trouble> {
    let size = held.len();
    held.resize(size + CHUNK, 0);
    loop {
        match input.read(&mut held[size..]) {
            Ok(read) => {
                held.truncate(size + read);
                return Ok(read);
            }
            Err(error) if error.kind() == ErrorKind::Interrupted => {}
            Err(error) => return Err(Trouble::Unread(error)),
        }
    }
}
