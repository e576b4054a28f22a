//! Desks, and sets of them by their places in the plan.

/// How far a desk's link has come.
#[derive(Clone, Copy, Debug, PartialEq, Eq)]
pub enum Phase {
    AwaitsTime,
    AwaitsOperation,
    Running,
}

#[derive(Clone, Debug, PartialEq, Eq)]
pub struct Desk {
    pub code: u16,
    pub number: u32,
    pub phase: Phase,
}

/// One bit a desk, bit 0 for desk 0.
#[derive(Clone, Copy, Debug, PartialEq, Eq)]
pub struct Desks(pub u8);

impl Desks {
    pub fn only(desk: u8) -> Self {
        Desks(1 << desk)
    }

    pub fn running(desks: &[Desk]) -> Self {
        let running = |desk: &Desk| desk.phase == Phase::Running;
        let bits = desks.iter().enumerate();
        Desks(bits.fold(0, |bits, (place, desk)| {
            bits | u8::from(running(desk)) << place
        }))
    }

    pub fn count(self) -> usize {
        self.0.count_ones() as usize
    }

    pub fn contains(self, desk: u8) -> bool {
        self.0 >> desk & 1 == 1
    }

    pub fn and(self, other: Desks) -> Self {
        Desks(self.0 & other.0)
    }

    /// Lowest desk first.
    pub fn iter(self) -> impl Iterator<Item = u8> {
        let mut left = self.0;
        std::iter::from_fn(move || {
            let lowest = left.trailing_zeros() as u8;
            left &= left.wrapping_sub(1);
            (lowest < 8).then_some(lowest)
        })
    }
}
