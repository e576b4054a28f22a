//! Compares another program's answers to telegrams with those of this one.

use crate::child::{self, Failure, Limits};
use crate::frames;
use crate::samples::SAMPLES;
use crate::telegram_groups::{self, Case, Group};
use std::ffi::OsStr;
use std::io::{self, Write};
use std::time::Duration;

const TIME_LIMIT: Duration = Duration::from_secs(30);
const SHOWN_PROBLEMS: usize = 10;
const SHOWN_BYTES: usize = 120;

/// The answers whose coming is counted.
const ANSWERS: [u8; 4] = [0, 8, 9, 10];

/// Runs all groups and says whether all of them passed.
pub fn run(program: &OsStr, seed: u64, count: usize, out: &mut impl Write) -> io::Result<bool> {
    let mut groups = telegram_groups::all(seed, count);
    let mut comparison = Comparison::new(program);
    for group in &groups {
        let result = comparison.compare(group);
        comparison.add_answers(&result);
        comparison.report(group.name, "telegrams", &result, out)?;
    }
    let truncated = comparison.compare_truncated();
    comparison.report("truncated frames", "inputs", &truncated, out)?;

    // Once more without a new process at each group.
    let together = Group {
        name: "all in one input",
        cases: groups.iter_mut().flat_map(|g| g.cases.drain(..)).collect(),
        must_see: &ANSWERS,
    };
    let result = comparison.compare(&together);
    comparison.report(together.name, "telegrams", &result, out)?;
    comparison.report_answers(out)?;
    let Comparison { passed, failed, .. } = comparison;
    writeln!(out, "{passed} passed, {failed} failed")?;
    out.flush()?;
    Ok(failed == 0)
}

/// What one group gave: the problems found, and how often each answer came
/// from both sides alike.
#[derive(Default)]
struct Outcome {
    size: usize,
    problems: Vec<String>,
    not_shown: usize,
    answer_counts: [usize; 4],
}

impl Outcome {
    /// Keeps the first few; a wrong program could have one a telegram.
    fn problem(&mut self, text: impl FnOnce() -> String) {
        if self.problems.len() < SHOWN_PROBLEMS {
            self.problems.push(text());
        } else {
            self.not_shown += 1;
        }
    }
}

struct Comparison<'a> {
    program: &'a OsStr,
    /// Set once the program did not end in time, so that a program that
    /// always stands still does not use up the limit again and again.
    timed_out: bool,
    answer_counts: [usize; 4],
    passed: usize,
    failed: usize,
}

impl<'a> Comparison<'a> {
    fn new(program: &'a OsStr) -> Self {
        Comparison {
            program,
            timed_out: false,
            answer_counts: [0; 4],
            passed: 0,
            failed: 0,
        }
    }

    fn compare(&mut self, group: &Group) -> Outcome {
        let mut result = Outcome {
            size: group.cases.len(),
            ..Outcome::default()
        };
        let mut input = Vec::new();
        for case in &group.cases {
            frames::push_frame(&mut input, &case.telegram);
        }
        let own: Vec<String> = group
            .cases
            .iter()
            .map(|case| frames::answer(&case.telegram))
            .collect();
        for (case, own) in group.cases.iter().zip(&own) {
            check_own(case, own, &mut result);
        }
        // Without lines the reason is among the problems already.
        if let Some(theirs) = self.lines(input, own.join("\n").len(), &mut result) {
            compare_lines(group, &own, &theirs, &mut result);
            check_seen(group, &mut result);
        }
        result
    }

    /// The program's lines, or nothing if it did not run to its end.
    fn lines(
        &mut self,
        input: Vec<u8>,
        expected_size: usize,
        result: &mut Outcome,
    ) -> Option<Vec<Vec<u8>>> {
        if self.timed_out {
            result.problem(|| "not run, because the program did not end before".to_string());
            return None;
        }
        let limits = Limits {
            time: TIME_LIMIT,
            output: 4 * expected_size + 1_000_000,
        };
        let (output, status) = match child::run(self.program, input, limits) {
            Ok(ended) => ended,
            Err(failure) => {
                self.timed_out = matches!(failure, Failure::TimedOut);
                result.problem(|| failure.to_string());
                return None;
            }
        };
        if !status.success() {
            result.problem(|| format!("the program ended with {status}"));
        }
        Some(split_lines(&output, result))
    }

    /// Inputs that end inside their last frame, one process each.
    fn compare_truncated(&mut self) -> Outcome {
        let mut result = Outcome::default();
        for truncated in truncated_inputs() {
            result.size += 1;
            let mut own = Vec::new();
            if frames::answer_all(&truncated.input[..], &mut own).is_err()
                || own != truncated.lines.as_bytes()
            {
                result.problem(|| format!("own lines are wrong for {}", show(&truncated.input)));
            }
            let Some(theirs) = self.lines(truncated.input.clone(), own.len(), &mut result) else {
                break;
            };
            let expected: Vec<&[u8]> = truncated.lines.lines().map(str::as_bytes).collect();
            if theirs != expected {
                result.problem(|| {
                    let theirs = theirs.join(&b'\n');
                    format!(
                        "input {}\n    lines due: {:?}\n    program's lines: {}",
                        show(&truncated.input),
                        truncated.lines,
                        show_text(&theirs)
                    )
                });
            }
        }
        result
    }

    fn report(
        &mut self,
        name: &str,
        unit: &str,
        result: &Outcome,
        out: &mut impl Write,
    ) -> io::Result<()> {
        let passed = result.problems.is_empty() && result.size > 0;
        self.count(passed);
        let verdict = if passed { "ok" } else { "FAILED" };
        writeln!(out, "{name}: {} {unit}, {verdict}", result.size)?;
        for problem in &result.problems {
            writeln!(out, "  {problem}")?;
        }
        if result.not_shown > 0 {
            writeln!(out, "  and {} more", result.not_shown)?;
        }
        out.flush()
    }

    fn add_answers(&mut self, result: &Outcome) {
        for (sum, count) in self.answer_counts.iter_mut().zip(result.answer_counts) {
            *sum += count;
        }
    }

    /// Nothing would be shown by a run in which one of the answers never came.
    fn report_answers(&mut self, out: &mut impl Write) -> io::Result<()> {
        let passed = self.answer_counts.iter().all(|&count| count > 0);
        self.count(passed);
        let verdict = if passed { "ok" } else { "FAILED" };
        let [accepted, header, identifier, body] = self.answer_counts;
        writeln!(
            out,
            "answers: 0 came {accepted} times, 8 {header}, 9 {identifier}, 10 {body}, {verdict}"
        )
    }

    fn count(&mut self, passed: bool) {
        if passed {
            self.passed += 1;
        } else {
            self.failed += 1;
        }
    }
}

/// Holds the own answer against the rule written beside the telegram. What is
/// accepted has only one spelling, so it must come back as it was.
fn check_own(case: &Case, own: &str, result: &mut Outcome) {
    let number = answer_number(own.as_bytes());
    if case.expected.is_some() && case.expected != number {
        result.problem(|| {
            let expected = case.expected.unwrap_or_default();
            let telegram = show(&case.telegram);
            format!("own answer is not {expected} as the generator says: {own} for {telegram}")
        });
    }
    if number == Some(0) && own.as_bytes()[2..] != case.telegram {
        result.problem(|| {
            let telegram = show(&case.telegram);
            format!("own writer does not give back what was read: {own} for {telegram}")
        });
    }
}

fn compare_lines(group: &Group, own: &[String], theirs: &[Vec<u8>], result: &mut Outcome) {
    for ((case, own), theirs) in group.cases.iter().zip(own).zip(theirs) {
        if own.as_bytes() == theirs {
            if let Some(number) = answer_number(theirs) {
                result.answer_counts[index_of(number)] += 1;
            }
            continue;
        }
        result.problem(|| {
            format!(
                "telegram {}\n    own answer: {own}\n    program's answer: {}",
                show(&case.telegram),
                show_text(theirs)
            )
        });
    }
    if theirs.len() != own.len() {
        let text = format!(
            "the program printed {} lines where {} are due",
            theirs.len(),
            own.len()
        );
        result.problems.push(text);
    }
}

/// A group that never met one of its answers shows nothing about it.
fn check_seen(group: &Group, result: &mut Outcome) {
    for answer in group.must_see {
        if result.answer_counts[index_of(*answer)] == 0 {
            let text = format!("the answer {answer} never came from both sides alike");
            result.problems.push(text);
        }
    }
}

/// Every line has its newline, the last one too.
fn split_lines(output: &[u8], result: &mut Outcome) -> Vec<Vec<u8>> {
    let mut lines: Vec<Vec<u8>> = output.split(|&b| b == b'\n').map(<[u8]>::to_vec).collect();
    if lines.last().is_some_and(Vec::is_empty) {
        lines.pop();
    } else {
        result.problem(|| "the program's last line has no newline".to_string());
    }
    lines
}

fn answer_number(line: &[u8]) -> Option<u8> {
    match line {
        b"8" => Some(8),
        b"9" => Some(9),
        b"10" => Some(10),
        _ => line.starts_with(b"0 ").then_some(0),
    }
}

fn index_of(answer: u8) -> usize {
    let found = ANSWERS.iter().position(|&known| known == answer);
    found.expect("only answers of the list are looked up")
}

/// Bytes as hex and as text, cut where they are long.
fn show(bytes: &[u8]) -> String {
    let shown = &bytes[..bytes.len().min(SHOWN_BYTES)];
    let hex: String = shown.iter().map(|byte| format!("{byte:02x}")).collect();
    let more = if shown.len() < bytes.len() { "..." } else { "" };
    let text = show_text(bytes);
    format!("of {} bytes: {hex}{more} \"{text}\"", bytes.len())
}

/// Bytes as text, with a dot for each that can't be printed.
fn show_text(bytes: &[u8]) -> String {
    let printable = |&byte: &u8| match byte {
        b' '..=b'~' => char::from(byte),
        _ => '.',
    };
    let mut text: String = bytes.iter().take(SHOWN_BYTES).map(printable).collect();
    if bytes.len() > SHOWN_BYTES {
        text.push_str("...");
    }
    text
}

/// An input and the lines due for it.
struct TruncatedInput {
    input: Vec<u8>,
    lines: String,
}

fn truncated_inputs() -> Vec<TruncatedInput> {
    let mut inputs = Vec::new();
    let mut add = |whole: &[(&str, &str)], rest: &[u8]| {
        let (mut input, mut lines) = (Vec::new(), String::new());
        for (telegram, line) in whole {
            frames::push_frame(&mut input, telegram.as_bytes());
            lines.push_str(line);
            lines.push('\n');
        }
        input.extend_from_slice(rest);
        inputs.push(TruncatedInput { input, lines });
    };
    let accepted = ("DV00160012550461", "0 DV00160012550461");
    let refused = ("DV00161024550461", "8");
    let empty = ("", "8");

    // The last frame ends at every byte of it, its length included.
    let mut last = Vec::new();
    frames::push_frame(&mut last, SAMPLES[5].as_bytes());
    for end in 0..last.len() {
        add(&[accepted, refused], &last[..end]);
    }
    // Nothing whole before, or nothing at all.
    for end in [0, 1, 2, 3, 18, 47] {
        add(&[], &last[..end]);
    }
    // What is there is a whole telegram, but its frame promises more.
    add(&[], b"\x00\x11DV00160012550461");
    add(&[accepted], b"\x00\x1eDV00160012550461");
    add(&[refused], b"\xff\xffDV00160012550461");
    // Long frames and empty ones before the end.
    add(&[accepted], &vec![0xff; 2 + 65_534]);
    add(&[accepted], b"\xff\xff");
    add(&[empty], b"\x00");
    add(&[empty, empty], b"\x00\x01");
    add(&[empty, accepted], b"");
    inputs
}

#[cfg(test)]
mod tests {
    use super::*;

    fn report(program: &str) -> (bool, String) {
        let mut out = Vec::new();
        let passed = run(program.as_ref(), 1, 1000, &mut out).unwrap();
        (passed, String::from_utf8(out).unwrap())
    }

    #[test]
    fn programs_that_answer_nothing_right_fail() {
        for program in ["no-such-program", "true", "cat", "yes"] {
            let (passed, report) = report(program);
            assert!(!passed, "{program}");
            assert!(report.ends_with("\n0 passed, 20 failed\n"), "{report}");
        }
    }

    #[test]
    fn generator_and_reader_agree() {
        for group in telegram_groups::all(1, 1000) {
            let mut result = Outcome::default();
            for case in &group.cases {
                check_own(case, &frames::answer(&case.telegram), &mut result);
            }
            assert_eq!(result.problems, Vec::<String>::new(), "{}", group.name);
        }
    }

    #[test]
    fn lines_end_with_newlines() {
        let mut result = Outcome::default();
        assert!(split_lines(b"", &mut result).is_empty());
        assert_eq!(split_lines(b"8\n\n", &mut result), [&b"8"[..], b""]);
        assert!(result.problems.is_empty());
        assert_eq!(split_lines(b"8\n9", &mut result), [b"8", b"9"]);
        assert_eq!(result.problems.len(), 1);
    }

    #[test]
    fn truncated_inputs_have_their_lines() {
        for truncated in truncated_inputs() {
            let mut own = Vec::new();
            frames::answer_all(&truncated.input[..], &mut own).unwrap();
            assert_eq!(own, truncated.lines.as_bytes());
        }
    }
}
