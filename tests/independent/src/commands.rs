//! The commands and their arguments.

use crate::streams::{Setting, Trouble};
use crate::{compare_replay, compare_telegrams, feed, frames, generate, replay, timing};
use std::ffi::{OsStr, OsString};
use std::io::{self, BufReader, BufWriter, Write};
use std::path::PathBuf;
use std::process::ExitCode;
use std::str::FromStr;
use std::time::{SystemTime, UNIX_EPOCH};

/// Fewer random telegrams could miss answers that their group must see.
const LOWEST_COUNT: usize = 1000;
const OUTPUT_BUFFER: usize = 1 << 16;

/// How the program ends, or nothing if the arguments are wrong.
type Done = io::Result<Option<ExitCode>>;

pub fn run(arguments: &[OsString]) -> Done {
    let Some((command, arguments)) = arguments.split_first() else {
        return Ok(None);
    };
    let Some(command) = command.to_str() else {
        return Ok(None);
    };
    match (command, arguments) {
        ("telegrams", []) => telegrams(),
        ("compare-telegrams", [program, options @ ..]) => compare_telegrams(program, options),
        ("replay", []) => replay(),
        ("compare-replay", [program, options @ ..]) => compare_replay(program, options),
        ("feed", [direction, setting @ ..]) => feed(direction, setting),
        ("frame-lines", setting) => frame_lines(setting),
        ("generate", [seed, count, options @ ..]) => generate(seed, count, options),
        ("time", [file, rounds]) => time(file, rounds),
        _ => Ok(None),
    }
}

fn output() -> impl Write {
    BufWriter::with_capacity(OUTPUT_BUFFER, io::stdout().lock())
}

fn telegrams() -> Done {
    let input = BufReader::new(io::stdin().lock());
    frames::answer_all(input, output())?;
    Ok(Some(ExitCode::SUCCESS))
}

fn compare_telegrams(program: &OsStr, options: &[OsString]) -> Done {
    let Some((seed, count)) = seed_and_count(options) else {
        return Ok(None);
    };
    let passed = compare_telegrams::run(program, seed, count, &mut output())?;
    Ok(Some(verdict(passed)))
}

fn seed_and_count(options: &[OsString]) -> Option<(u64, usize)> {
    let (mut seed, mut count) = (1023, 40_000);
    for option in options.chunks(2) {
        match option {
            [name, value] if name == "--seed" => seed = number(value)?,
            [name, value] if name == "--count" => count = number(value)?,
            _ => return None,
        }
    }
    (count >= LOWEST_COUNT).then_some((seed, count))
}

fn replay() -> Done {
    replay::replay(io::stdin().lock(), &mut output())?;
    Ok(Some(ExitCode::SUCCESS))
}

fn compare_replay(program: &OsStr, options: &[OsString]) -> Done {
    let Some(options) = replay_options(program, options) else {
        return Ok(None);
    };
    let passed = compare_replay::run(&options, &mut output())?;
    Ok(Some(verdict(passed)))
}

fn replay_options(program: &OsStr, options: &[OsString]) -> Option<compare_replay::Options> {
    let mut read = compare_replay::Options {
        program: program.to_owned(),
        seed: 1023,
        feeds: 1000,
        entries: 500,
        long: 1_000_000,
        named: Vec::new(),
    };
    for option in options.chunks(2) {
        match option {
            [name, value] if name == "--seed" && value == "random" => read.seed = clock(),
            [name, value] if name == "--seed" => read.seed = number(value)?,
            [name, value] if name == "--feeds" => read.feeds = number(value)?,
            [name, value] if name == "--entries" => read.entries = number(value)?,
            [name, value] if name == "--long" => read.long = number(value)?,
            [name, value] if name == "--named" => read.named.push(PathBuf::from(value)),
            _ => return None,
        }
    }
    if read.named.is_empty() {
        read.named = vec!["tests/feeds".into(), "samples".into()];
    }
    (read.feeds > 0 && read.entries > 0 && read.long > 0).then_some(read)
}

/// A seed that is another one at each run, short enough to be typed again.
fn clock() -> u64 {
    let now = SystemTime::now().duration_since(UNIX_EPOCH);
    now.map_or(1, |now| now.as_millis() as u64 % 1_000_000_000)
}

fn feed(direction: &OsStr, setting: &[OsString]) -> Done {
    let Some(setting) = Setting::new(setting) else {
        return Ok(None);
    };
    Ok(Some(match direction.to_str() {
        Some("entries") => setting.run(feed::pass_on),
        Some("to-binary") => convert(&setting, |feed, output| output.write_all(feed)),
        Some("to-text") => convert(&setting, |feed, output| feed::to_text(feed, output)),
        Some("show") => convert(&setting, |feed, output| feed::show(feed, output)),
        _ => return Ok(None),
    }))
}

/// Reads a whole feed in either form, and writes its bytes in another way.
fn convert(
    setting: &Setting,
    write: impl FnOnce(&[u8], &mut dyn Write) -> io::Result<()>,
) -> ExitCode {
    setting.run(|input, output| {
        let mut feed = Vec::new();
        input.read_to_end(&mut feed).map_err(Trouble::Unread)?;
        let feed = feed::bytes_of(feed).map_err(Trouble::Wrong)?;
        write(&feed, output).map_err(Trouble::Unwritten)
    })
}

fn frame_lines(setting: &[OsString]) -> Done {
    let setting = Setting::new(setting);
    Ok(setting.map(|setting| setting.run(frames::frame_lines)))
}

fn generate(seed: &OsStr, count: &OsStr, options: &[OsString]) -> Done {
    let (Some(seed), Some(count)) = (number(seed), number(count)) else {
        return Ok(None);
    };
    let feed = match options {
        [] => Some(generate::feed(seed, count)),
        [name, shape] if name == "--shape" => shape
            .to_str()
            .and_then(|shape| generate::shapes::feed(shape, seed, count)),
        _ => None,
    };
    let Some(feed) = feed else {
        return Ok(None);
    };
    io::stdout().lock().write_all(&feed)?;
    Ok(Some(ExitCode::SUCCESS))
}

fn time(file: &OsStr, rounds: &OsStr) -> Done {
    let Some(rounds) = number(rounds).filter(|&rounds| rounds > 0) else {
        return Ok(None);
    };
    timing::time(&std::fs::read(file)?, rounds, &mut io::stdout().lock())?;
    Ok(Some(ExitCode::SUCCESS))
}

fn verdict(passed: bool) -> ExitCode {
    if passed {
        ExitCode::SUCCESS
    } else {
        ExitCode::FAILURE
    }
}

fn number<T: FromStr>(text: &OsStr) -> Option<T> {
    text.to_str()?.parse().ok()
}
