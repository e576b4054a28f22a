//! Memory that is lent to the library, between guard bytes that must stay as
//! they are.

const GUARD: usize = 64;

/// An address that is a multiple of 4 and of nothing more: what the library
/// says a set needs.
const PLACE: usize = 8;
const PLACE_REST: usize = 4;

pub struct Lent {
    all: Vec<u8>,
    from: usize,
    length: usize,
}

impl Lent {
    pub fn new(bytes: &[u8]) -> Self {
        let mut all = vec![0; GUARD + PLACE + bytes.len() + GUARD];
        let from = (GUARD..GUARD + PLACE)
            .find(|&from| (all.as_ptr() as usize + from) % PLACE == PLACE_REST)
            .expect("eight addresses in a row have one of each rest");
        for (place, byte) in all.iter_mut().enumerate() {
            *byte = guard(place);
        }
        all[from..from + bytes.len()].copy_from_slice(bytes);
        Lent {
            all,
            from,
            length: bytes.len(),
        }
    }

    pub fn bytes(&self) -> &[u8] {
        &self.all[self.from..self.from + self.length]
    }

    pub fn bytes_mut(&mut self) -> &mut [u8] {
        &mut self.all[self.from..self.from + self.length]
    }

    pub fn is_guarded(&self) -> bool {
        let lent = self.from..self.from + self.length;
        let mut guards = self.all.iter().enumerate();
        guards.all(|(place, &byte)| lent.contains(&place) || byte == guard(place))
    }
}

fn guard(place: usize) -> u8 {
    (place * 37 + 11) as u8
}
