//! Refusals: a number of paper 01's table and a place.

use std::fmt;

/// Why something was refused.
#[derive(Clone, Copy, Debug, PartialEq, Eq, Hash, PartialOrd, Ord)]
pub struct Refusal {
    /// The number in the paper's table, never 0.
    pub number: u32,
    /// A byte offset in the file; for a segment or an entry that of its first byte.
    pub place: u64,
}

impl Refusal {
    /// The refusal of that number at that place.
    pub fn new(number: u32, place: u64) -> Refusal {
        Refusal { number, place }
    }
}

impl fmt::Display for Refusal {
    fn fmt(&self, f: &mut fmt::Formatter<'_>) -> fmt::Result {
        write!(f, "refused {} at {}", self.number, self.place)
    }
}

/// `Err` of that number and place where `given`, as a row of the table reads.
pub(crate) fn refuse_if(given: bool, number: u32, place: u64) -> Result<(), Refusal> {
    if given {
        Err(Refusal::new(number, place))
    } else {
        Ok(())
    }
}
