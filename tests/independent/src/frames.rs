//! Telegrams in a stream, each after its length (2 bytes, big-endian), and
//! the line that answers each.

use crate::streams::{read_some, Trouble};
use crate::telegram;
use std::io::{self, ErrorKind, Read, Write};

/// The longest frame.
const LONGEST: usize = 65_535;

/// Answers every whole frame with one line.
pub fn answer_all(mut input: impl Read, mut output: impl Write) -> io::Result<()> {
    while let Some(bytes) = next_frame(&mut input)? {
        writeln!(output, "{}", answer(&bytes))?;
    }
    output.flush()
}

/// The line for one telegram: 0 and the telegram as the writer writes what
/// was read, or the refusal number.
pub fn answer(bytes: &[u8]) -> String {
    let written =
        telegram::read(bytes).and_then(|(code, message)| telegram::written(code, &message));
    match written {
        Ok(written) => format!("0 {}", String::from_utf8_lossy(&written)),
        Err(refusal) => refusal.number().to_string(),
    }
}

/// Puts a telegram of at most 65,535 bytes behind the stream.
pub fn push_frame(stream: &mut Vec<u8>, telegram: &[u8]) {
    let length = u16::try_from(telegram.len()).expect("a frame has at most 65,535 bytes");
    stream.extend_from_slice(&length.to_be_bytes());
    stream.extend_from_slice(telegram);
}

/// Makes a frame of each line as it comes. The last line may have no end, but
/// not where the input can't be read further.
pub fn frame_lines(input: &mut dyn Read, output: &mut dyn Write) -> Result<(), Trouble> {
    let mut held = Vec::new();
    loop {
        let mut frames = Vec::new();
        let mut lines = held.split(|&byte| byte == b'\n');
        let rest = lines.next_back().unwrap_or_default().to_vec();
        lines.for_each(|line| push_line(&mut frames, line));
        held = rest;
        let written = output.write_all(&frames);
        written.and(output.flush()).map_err(Trouble::Unwritten)?;
        if read_some(input, &mut held)? == 0 {
            break;
        }
    }
    let mut last = Vec::new();
    if !held.is_empty() {
        push_line(&mut last, &held);
    }
    output.write_all(&last).map_err(Trouble::Unwritten)
}

/// No telegram has 10,000 bytes, so one that is too long for a frame is as
/// wrong when it is cut.
fn push_line(frames: &mut Vec<u8>, line: &[u8]) {
    push_frame(frames, &line[..line.len().min(LONGEST)]);
}

/// Nothing at the end of the input, and for a frame that breaks off.
fn next_frame(input: &mut impl Read) -> io::Result<Option<Vec<u8>>> {
    let mut length = [0; 2];
    if !fill(input, &mut length)? {
        return Ok(None);
    }
    let mut telegram = vec![0; usize::from(u16::from_be_bytes(length))];
    Ok(fill(input, &mut telegram)?.then_some(telegram))
}

fn fill(input: &mut impl Read, buffer: &mut [u8]) -> io::Result<bool> {
    match input.read_exact(buffer) {
        Ok(()) => Ok(true),
        Err(error) if error.kind() == ErrorKind::UnexpectedEof => Ok(false),
        Err(error) => Err(error),
    }
}

#[cfg(test)]
mod tests {
    use super::*;

    fn answers(stream: &[u8]) -> String {
        let mut output = Vec::new();
        answer_all(stream, &mut output).unwrap();
        String::from_utf8(output).unwrap()
    }

    #[test]
    fn one_line_a_frame() {
        let mut stream = Vec::new();
        push_frame(&mut stream, b"DV00160012550461");
        push_frame(&mut stream, b"");
        push_frame(&mut stream, b"DV00160012550462");
        push_frame(&mut stream, b"DV001700125504610");
        assert_eq!(answers(&stream), "0 DV00160012550461\n8\n9\n10\n");
    }

    #[test]
    fn broken_frames_get_no_line() {
        let mut stream = Vec::new();
        push_frame(&mut stream, b"");
        let whole = stream.len();
        push_frame(&mut stream, b"DV00160012550461");
        for end in whole..stream.len() {
            assert_eq!(answers(&stream[..end]), "8\n");
        }
        assert_eq!(answers(b""), "");
    }

    fn framed(text: &[u8]) -> Vec<u8> {
        let mut frames = Vec::new();
        frame_lines(&mut &text[..], &mut frames).unwrap();
        frames
    }

    #[test]
    fn lines_as_frames() {
        assert_eq!(framed(b""), b"");
        assert_eq!(framed(b"\n"), b"\0\0");
        assert_eq!(framed(b"ab\n\nc"), b"\0\x02ab\0\0\0\x01c");
        assert_eq!(framed(b"\0\r\n\xff\n"), b"\0\x02\0\r\0\x01\xff");
    }

    /// A line longer than a chunk, and one longer than a frame.
    #[test]
    fn long_lines() {
        let line = vec![b'x'; LONGEST];
        let frame = [&b"\xff\xff"[..], &line].concat();
        assert_eq!(framed(&[&line[..], b"\n"].concat()), frame);
        let two = [&line[..], &line, b"\n", b"y"].concat();
        assert_eq!(framed(&two), [&frame[..], b"\0\x01y"].concat());
    }

    /// Half a line, then an error.
    struct Half<'a>(&'a [u8]);

    impl Read for Half<'_> {
        fn read(&mut self, place: &mut [u8]) -> io::Result<usize> {
            let size = self.0.read(place)?;
            match size {
                0 => Err(io::Error::from_raw_os_error(5)),
                _ => Ok(size),
            }
        }
    }

    #[test]
    fn half_a_line_before_an_error_is_no_frame() {
        let mut frames = Vec::new();
        let done = frame_lines(&mut Half(b"ab\ncd"), &mut frames);
        assert!(matches!(done, Err(Trouble::Unread(_))));
        assert_eq!(frames, b"\0\x02ab");
    }
}
