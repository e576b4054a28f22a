//! The replay program: entries in, one line an entry and one a record out.

use crate::refusal::Refusal;
use crate::set::entry::{self, LENGTH, LONGEST};
use crate::set::records::{self, Record};
use crate::set::{Reply, Set};
use std::io::{self, BufReader, ErrorKind, Read, Write};

/// The buffer that each entry is lent.
pub const BUFFER: usize = 32_768;
const INPUT_BUFFER: usize = 1 << 16;

/// Steps one set through all entries, up to one that is refused with 1.
pub fn replay(input: impl Read, output: &mut impl Write) -> io::Result<()> {
    let mut input = BufReader::with_capacity(INPUT_BUFFER, input);
    let mut entry = vec![0; LENGTH + LONGEST];
    let mut player = Player::new();
    loop {
        let size = read_entry(&mut input, &mut entry, output)?;
        if size == 0 {
            break;
        }
        let reply = player.play(&entry[..size], output)?;
        if reply.refusal == Refusal::Length.number() {
            break;
        }
    }
    output.flush()
}

/// All that the replay prints for a feed.
pub fn output(feed: &[u8]) -> Vec<u8> {
    let mut output = Vec::new();
    replay(feed, &mut output).expect("nothing can fail in memory");
    output
}

/// A set, the buffer that it is lent, and the count of entries so far.
pub struct Player {
    pub set: Set,
    buffer: Vec<u8>,
    number: u64,
}

impl Player {
    pub fn new() -> Self {
        Player {
            set: Set::new(),
            buffer: vec![0; BUFFER],
            number: 0,
        }
    }

    /// Steps the set by one entry and prints its lines.
    pub fn play(&mut self, entry: &[u8], output: &mut impl Write) -> io::Result<Reply> {
        self.number += 1;
        let reply = self.set.step(entry, &mut self.buffer);
        let Reply { refusal, count } = reply;
        writeln!(output, "E {} {refusal} {count}", self.number)?;
        for record in records::each(&self.buffer[..count]) {
            print_record(&record, output)?;
        }
        Ok(reply)
    }
}

fn print_record(record: &Record, output: &mut impl Write) -> io::Result<()> {
    match record {
        Record::Telegram { desk, telegram } => {
            write!(output, "T {desk} ")?;
            output.write_all(telegram)?;
            output.write_all(b"\n")
        }
        Record::Contact {
            desk,
            contact,
            channel,
            on,
        } => writeln!(output, "C {desk} {contact} {channel} {on}"),
    }
}

/// Reads an entry and gives its size: 0 at the end of the input, less than its
/// length says if the input breaks off. Of an entry that is too long only the
/// length is read, because it is refused for that alone.
fn read_entry(
    input: &mut BufReader<impl Read>,
    entry: &mut [u8],
    output: &mut impl Write,
) -> io::Result<usize> {
    let (length, rest) = entry.split_at_mut(LENGTH);
    let size = fill(input, length, output)?;
    let announced = usize::from(u16::from_be_bytes([length[0], length[1]]));
    if size < LENGTH || announced > LONGEST {
        return Ok(size);
    }
    Ok(size + fill(input, &mut rest[..announced], output)?)
}

/// Fills the place as far as the input goes. Whoever feeds us may wait for
/// what was printed, so it is sent on before a read that may block.
fn fill(
    input: &mut BufReader<impl Read>,
    place: &mut [u8],
    output: &mut impl Write,
) -> io::Result<usize> {
    let mut size = 0;
    while size < place.len() {
        if input.buffer().is_empty() {
            output.flush()?;
        }
        match input.read(&mut place[size..]) {
            Ok(0) => break,
            Ok(read) => size += read,
            Err(error) if error.kind() == ErrorKind::Interrupted => {}
            Err(error) => return Err(error),
        }
    }
    Ok(size)
}

/// The entries of a feed as the replay takes them, up to one of which the
/// length alone is enough for a refusal.
pub fn entries(feed: &[u8]) -> impl Iterator<Item = &[u8]> {
    let mut rest = Some(feed);
    std::iter::from_fn(move || {
        let (entry, behind) = entry::split_first(rest?)?;
        rest = (!entry::ends_feed(entry)).then_some(behind);
        Some(entry)
    })
}

#[cfg(test)]
mod tests {
    use super::*;
    use crate::feed::to_binary;
    use std::cell::RefCell;

    const LISTING: &str = "
        plan 12:00120001 / 7:0
        telegram 0 DV002900125506000078001200011
        telegram 0 DV0030001255041120240229120000
        telegram 0 DV0018001255042101
        telegram 0 DV002900125506000078001200011
        handover
    ";
    const LINES: &str = "\
E 1 0 21
T 0 DV00160012550461
E 2 11 0
E 3 0 21
T 0 DV00160012550471
E 4 0 0
E 5 0 59
T 0 DV002000125506500070
T 0 DV002900125506510078001200011
E 6 0 34
T 0 DV002900125506510078001200010
";

    fn listing() -> Vec<u8> {
        to_binary(LISTING.as_bytes()).unwrap()
    }

    #[test]
    fn whole_listing() {
        assert_eq!(String::from_utf8(output(&listing())).unwrap(), LINES);
    }

    #[test]
    fn contacts() {
        let feed = "telegram 0 DV002900125506000078001200011\npress 0 7 on\nmobile-on 7 3 00990007";
        let feed = to_binary(feed.as_bytes()).unwrap();
        let start = &listing()[..listing().len() - 4];
        let lines = String::from_utf8(output(&[start, &feed].concat())).unwrap();
        assert!(lines.contains("\nC 0 1 7 1\n"), "{lines}");
        assert!(lines.contains("\nC 0 2 7 1\n"), "{lines}");
    }

    #[test]
    fn feeds_that_break_off() {
        let listing = listing();
        let plan = listing.len() - entries(&listing).skip(1).map(<[u8]>::len).sum::<usize>();
        assert_eq!(output(b""), b"");
        for end in 1..plan {
            assert_eq!(output(&listing[..end]), b"E 1 1 0\n");
        }
        for end in plan + 1..listing.len() {
            let lines = String::from_utf8(output(&listing[..end])).unwrap();
            let broken = !lines.starts_with(LINES) && lines.ends_with(" 1 0\n");
            let whole = LINES.starts_with(&lines);
            assert!(broken || whole, "{end}: {lines}");
        }
    }

    #[test]
    fn nothing_is_read_after_a_refusal_1() {
        for start in [&b"\x2e\xe1"[..], b"\xff\xff", b"\0\0", b"\0\x01\x01"] {
            assert_eq!(output(&[start, &listing()].concat()), b"E 1 1 0\n");
        }
    }

    /// Gives one byte at a time and wants to see all that is known by then.
    struct Slow<'a> {
        feed: &'a [u8],
        read: usize,
        flushed: &'a RefCell<Vec<u8>>,
    }

    impl Read for Slow<'_> {
        fn read(&mut self, place: &mut [u8]) -> io::Result<usize> {
            let so_far = &self.feed[..self.read];
            let whole: usize = entries(so_far)
                .filter(|entry| entry::is_whole(entry))
                .map(<[u8]>::len)
                .sum();
            assert_eq!(*self.flushed.borrow(), output(&so_far[..whole]));
            let Some(&byte) = self.feed.get(self.read) else {
                return Ok(0);
            };
            place[0] = byte;
            self.read += 1;
            Ok(1)
        }
    }

    /// Shows what was written only once it is flushed.
    struct Shown<'a> {
        waiting: Vec<u8>,
        flushed: &'a RefCell<Vec<u8>>,
    }

    impl Write for Shown<'_> {
        fn write(&mut self, bytes: &[u8]) -> io::Result<usize> {
            self.waiting.extend_from_slice(bytes);
            Ok(bytes.len())
        }

        fn flush(&mut self) -> io::Result<()> {
            self.flushed.borrow_mut().append(&mut self.waiting);
            Ok(())
        }
    }

    #[test]
    fn output_comes_before_more_is_read() {
        let feed = listing();
        let flushed = RefCell::new(Vec::new());
        let input = Slow {
            feed: &feed,
            read: 0,
            flushed: &flushed,
        };
        let mut shown = Shown {
            waiting: Vec::new(),
            flushed: &flushed,
        };
        replay(input, &mut shown).unwrap();
        assert_eq!(*flushed.borrow(), LINES.as_bytes());
    }
}
