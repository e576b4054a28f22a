//! The independent test program: its own reading of the rules, held against
//! another program's answers.

use independent::commands;
use std::ffi::OsString;
use std::process::ExitCode;

const USAGE: &str = "usage:
  independent telegrams
      answers telegrams from standard input, each after its 2-byte length
  independent compare-telegrams PROGRAM [--seed N] [--count N]
      compares PROGRAM's answers with its own; the seed is that of the random
      telegrams (1023 if not given), the count how many of them each random
      group has (40000 if not given, 1000 or more)
  independent replay
      steps a set through the entries from standard input and prints what it
      answers and sends
  independent compare-replay PROGRAM [--seed N] [--feeds N] [--entries N]
                             [--long N] [--named DIR]..
      compares PROGRAM's output with that of replay: on the text feeds in
      each DIR (tests/feeds and samples if none is given), on feeds that break
      off, on generated ones (1000 of 500 entries, from the seeds 1023 on; the
      seed 'random' is taken from the clock) and on a long one (1000000)
  independent feed to-binary | to-text | show | entries [--as NAME] [FILE]
      writes a feed as bytes, as text, as text with the numbers that the replay
      gives the entries, or as bytes while it comes, up to where the replay
      ends. The feed may have any of these forms: it is binary if one of its
      first three bytes is a control character other than a blank or a line
      end, else text. NAME stands before what is said on standard error
  independent frame-lines [--as NAME] [FILE]
      puts its length of 2 bytes before each line
  independent generate SEED N [--shape NAME]
      writes a feed of N entries; as a load to measure if a shape is named:
      mixed1, mixed4, mixed32, ticks-rest, ticks-held, telegrams, refused, on
      four desks, or on one with -1desk behind the name
  independent time FEED ROUNDS
      measures the steps of a feed in nanoseconds an entry";

fn main() -> ExitCode {
    let arguments: Vec<OsString> = std::env::args_os().skip(1).collect();
    match commands::run(&arguments) {
        Ok(Some(status)) => status,
        Ok(None) => {
            eprintln!("{USAGE}");
            ExitCode::from(2)
        }
        Err(error) => {
            eprintln!("independent: {error}");
            ExitCode::FAILURE
        }
    }
}
