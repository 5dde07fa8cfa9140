//! The library's answers by what they tell, for the table of the report.

use crate::library::{Answer, Explanation, Verdict};
use second::text::Call;
use std::fmt::Debug;

/// The functions of the library, by the numbers of their calls.
pub const CALLS: [Call; 4] = [Call::Run, Call::Check, Call::Explain, Call::Bare];

pub fn function(call: Call) -> &'static str {
    match call {
        Call::Run => "mavistable_run",
        Call::Check => "mavistable_check",
        Call::Explain => "mavistable_explain",
        Call::Bare => "mavistable_run_bare",
    }
}

/// A row of the table is a number: a pass, an ending that is no refusal, the
/// reason of an explained abort, what the header has not, or a refusal.
pub const ROWS: usize = REFUSED + 1 + REFUSALS as usize;
const PASS: usize = 0;
const ABORT: usize = 2;
const REASONS: usize = 5;
const OTHER: usize = 8;
const REFUSED: usize = 9;
const REFUSALS: u32 = 16;
const NAMES: [&str; 9] = [
    "pass",
    "done",
    "abort",
    "no room",
    "stuck",
    "abort, no bounds",
    "abort, before base",
    "abort, past end",
    "none of the header's",
];

pub fn row_name(row: usize) -> String {
    match NAMES.get(row) {
        Some(name) => name.to_string(),
        None => format!("refused {}", row - REFUSED),
    }
}

/// What any function of the library answers.
pub trait Told: Copy + Debug + PartialEq {
    /// Whether the call was refused. A verdict is no refusal of a call, but it
    /// leaves the lists as they are all the same.
    fn is_refused(&self) -> bool;

    fn row(&self) -> usize;
}

impl Told for Verdict {
    fn is_refused(&self) -> bool {
        !self.passes()
    }

    fn row(&self) -> usize {
        match self.passes() {
            true => PASS,
            false => refused_row(self.number),
        }
    }
}

impl Told for Answer {
    fn is_refused(&self) -> bool {
        self.ending == 0
    }

    fn row(&self) -> usize {
        match self.ending {
            0 => refused_row(self.number),
            1..=4 => self.ending as usize,
            _ => OTHER,
        }
    }
}

impl Told for Explanation {
    fn is_refused(&self) -> bool {
        self.answer().is_refused()
    }

    fn row(&self) -> usize {
        match (self.answer().row(), self.reason) {
            (ABORT, reason @ 1..=3) => REASONS - 1 + reason as usize,
            (ABORT, _) => OTHER,
            (row, _) => row,
        }
    }
}

impl Explanation {
    /// What it has in common with the answer of a run.
    pub fn answer(&self) -> Answer {
        Answer {
            ending: self.ending,
            number: self.number,
            place: self.place,
            command: self.command,
            unused: self.unused,
        }
    }
}

fn refused_row(number: u32) -> usize {
    match number {
        1..=REFUSALS => REFUSED + number as usize,
        _ => OTHER,
    }
}
