//! A set of the library's beside one of the independent program's: each step
//! is taken by both, and all that can be seen of it is compared.

use crate::lent::Lent;
use crate::library;
use independent::set::{Reply, Set};

/// 01: the longest buffer that the replay program lends.
const LARGEST: usize = 32_768;

const NO_ROOM: u8 = 16;

pub struct Pair {
    library: Lent,
    independent: Set,
    pub seen: Seen,
}

/// What the steps of a group were.
#[derive(Default)]
pub struct Seen {
    pub accepted: usize,
    pub refused: usize,
    pub no_room: usize,
    pub bytes: usize,
}

impl Pair {
    pub fn new() -> Self {
        Pair {
            library: library::new_set(0),
            independent: Set::new(),
            seen: Seen::default(),
        }
    }

    /// How many bytes the entry sends where there is room enough.
    pub fn need(&self, entry: &[u8]) -> usize {
        self.independent
            .clone()
            .step(entry, &mut vec![0; LARGEST])
            .count
    }

    /// The bytes of the library's set.
    pub fn saved(&self) -> &[u8] {
        self.library.bytes()
    }

    /// The library's set goes on in other memory.
    pub fn move_set(&mut self) {
        self.library = Lent::new(self.library.bytes());
    }

    pub fn step(&mut self, entry: &[u8], room: usize) -> Result<Reply, String> {
        // Another filler at each step, so that what an earlier one wrote does not pass for this one's.
        let filler = (self.seen.accepted * 7 + self.seen.refused * 3) as u8;
        let mut expected_bytes = vec![filler; room];
        let mut buffer = Lent::new(&expected_bytes);
        let lent = Lent::new(entry);
        let before = self.library.bytes().to_vec();
        let expected = self.independent.step(entry, &mut expected_bytes);
        let Some(reply) = library::step(&mut self.library, lent.bytes(), buffer.bytes_mut()) else {
            return Err("something beside the count was written".into());
        };
        if reply != expected {
            return Err(format!("{reply:?} where {expected:?} is expected"));
        }
        if buffer.bytes() != expected_bytes {
            return Err("other bytes in the buffer".into());
        }
        if lent.bytes() != entry || !lent.is_guarded() {
            return Err("the entry was written".into());
        }
        if !buffer.is_guarded() {
            return Err("something beside the buffer was written".into());
        }
        if !self.library.is_guarded() {
            return Err("something beside the set was written".into());
        }
        if reply.refusal != 0 && self.library.bytes() != before {
            return Err(format!(
                "refused with {}, and the set is another",
                reply.refusal
            ));
        }
        self.seen.add(reply);
        Ok(reply)
    }
}

impl Seen {
    fn add(&mut self, reply: Reply) {
        self.bytes += reply.count;
        if reply.refusal == 0 {
            self.accepted += 1;
        } else {
            self.refused += 1;
        }
        self.no_room += usize::from(reply.refusal == NO_ROOM);
    }
}
