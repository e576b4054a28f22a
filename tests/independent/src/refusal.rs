//! The refusals, in the order they are checked.

/// Why an entry, a telegram or a message is refused.
#[derive(Clone, Copy, Debug, PartialEq, Eq)]
#[repr(u8)]
pub enum Refusal {
    Length = 1,
    Version,
    Shape,
    NoPlan,
    PlanPresent,
    Plan,
    Desk,
    Header,
    Identifier,
    Body,
    Phase,
    Channel,
    Number,
    NotHolder,
    NoChange,
    /// Nobody to ring, no room for a ring, or none to cancel.
    Ring = 17,
    Space = 16,
}

impl Refusal {
    pub fn number(self) -> u8 {
        self as u8
    }
}

#[cfg(test)]
mod tests {
    use super::Refusal;

    #[test]
    fn numbers() {
        assert_eq!(Refusal::Length.number(), 1);
        assert_eq!(Refusal::Header.number(), 8);
        assert_eq!(Refusal::Body.number(), 10);
        assert_eq!(Refusal::NoChange.number(), 15);
        assert_eq!(Refusal::Ring.number(), 17);
        assert_eq!(Refusal::Space.number(), 16);
    }
}
