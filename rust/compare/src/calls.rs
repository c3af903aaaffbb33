//! The three calls: the library's, where its feature is on, beside the second program's.

use second::Answer;

/// What the library gave back; 0 openings where a call has none.
#[derive(Clone, Copy, Debug, PartialEq, Eq)]
pub struct Seen {
    pub number: u32,
    pub written: u32,
    pub openings: u32,
}

/// A call on both sides, with the numbers that it may give back.
/// The budget is used by scheduling alone; the library is lent an output, the second program a room.
#[derive(Clone, Copy)]
pub struct Call {
    pub name: &'static str,
    pub numbers: &'static [usize],
    pub library: Option<fn(&[u8], u32, &mut [u8]) -> Seen>,
    pub second: fn(&[u8], u32, usize) -> Answer,
}

/// The library's call if its feature is on.
macro_rules! library {
    ($feature:tt, $call:expr) => {{
        #[cfg(feature = $feature)]
        {
            Some($call)
        }
        #[cfg(not(feature = $feature))]
        {
            None
        }
    }};
}

pub const EXPAND: Call = Call {
    name: "expand",
    numbers: &[0, 1, 2, 3, 4, 5, 6, 9],
    library: library!("expand", |table, _, out| {
        let answer = argilosco::expand(table, out);
        Seen { number: answer.number, written: answer.written, openings: 0 }
    }),
    second: |table, _, room| second::expand(table, room),
};

pub const NORMALISE: Call = Call {
    name: "normalise",
    numbers: &[0, 1, 2, 3, 4, 5, 7, 8, 9],
    library: library!("normalise", |table, _, out| {
        let answer = argilosco::normalise(table, out);
        Seen { number: answer.number, written: answer.written, openings: 0 }
    }),
    second: |table, _, room| second::normalise(table, room),
};

pub const SCHEDULE: Call = Call {
    name: "schedule",
    numbers: &[0, 1, 2, 3, 4, 5, 7, 8, 9, 10, 11],
    library: library!("schedule", |table, budget, out| {
        let answer = argilosco::schedule(table, budget, out);
        Seen { number: answer.number, written: answer.written, openings: answer.openings }
    }),
    second: second::schedule,
};

impl Call {
    /// Whether the call is compared; `selftest` compares those that are not switched on with themselves.
    pub fn is_on(&self) -> bool {
        self.library.is_some() || cfg!(feature = "selftest")
    }

    /// Asks the library, or the second program in the place of a call that is not switched on.
    pub fn ask(&self, table: &[u8], budget: u32, out: &mut [u8]) -> Seen {
        let Some(library) = self.library else {
            let answer = (self.second)(table, budget, out.len());
            out[..answer.output.len()].copy_from_slice(&answer.output);
            return answer.into();
        };
        library(table, budget, out)
    }
}

impl From<Answer> for Seen {
    fn from(answer: Answer) -> Seen {
        let Answer { number, output, openings } = answer;
        Seen { number, written: output.len() as u32, openings }
    }
}
