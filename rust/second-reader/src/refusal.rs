use std::fmt;

/// A refusal: its number in the table of refusals, and where.
#[derive(Clone, Copy, Debug, PartialEq, Eq, Hash)]
pub struct Refusal {
    /// 1 to 18, 20 or 21.
    pub number: u8,
    /// Where in the stream or formula; 0 where the rules name no place.
    pub offset: usize,
}

impl Refusal {
    pub(crate) const fn new(number: u8, offset: usize) -> Self {
        Refusal { number, offset }
    }

    /// Refusals about what was asked for carry no place.
    pub(crate) const fn of_question(number: u8) -> Self {
        Refusal { number, offset: 0 }
    }
}

impl fmt::Display for Refusal {
    fn fmt(&self, f: &mut fmt::Formatter<'_>) -> fmt::Result {
        write!(f, "refused {} at {}", self.number, self.offset)
    }
}

impl std::error::Error for Refusal {}
