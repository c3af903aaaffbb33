//! The second program: the three operations once more, to compare the library with.
//!
//! It is written from the rules alone and in another shape: vectors, sorting, longest chains found depth
//! first, open sequences counted as they are defined. It is meant to be read, not to be fast.

mod expand;
mod normalise;
pub mod records;
mod schedule;

pub use expand::expand;
pub use normalise::{normal_form, normalise, Normal};
pub use schedule::schedule;

/// One of the refusals' numbers 1 to 9.
pub type Refusal = u32;

/// What a call gives back: the number, the bytes for the front of the output, the openings.
#[derive(Clone, Debug, PartialEq, Eq)]
pub struct Answer {
    pub number: u32,
    pub output: Vec<u8>,
    pub openings: u32,
}

impl Answer {
    /// Done, with these records and so many openings.
    fn done(records: &[records::Record], openings: u32) -> Answer {
        Answer { number: 0, output: records.concat(), openings }
    }

    /// Refused with a number; the output stays as it was.
    fn refused(number: u32, openings: u32) -> Answer {
        Answer { number, output: Vec::new(), openings }
    }

    /// The answer of a call without a search: the records if there is room for them.
    fn of(records: Result<Vec<records::Record>, Refusal>, room: usize) -> Answer {
        match records {
            Err(number) => Answer::refused(number, 0),
            Ok(records) if 12 * records.len() > room => Answer::refused(9, 0),
            Ok(records) => Answer::done(&records, 0),
        }
    }
}
