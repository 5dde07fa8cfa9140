//! The two sides, and the loops that are measured. Both sides get the same
//! tables and the same lists, one after the other.

use crate::library::{self, EXPLAINS, RUNS_BARE};
use crate::rows::{Case, Row};
use second::machine;
use std::hint::black_box;

#[derive(Clone, Copy, PartialEq, Eq)]
pub enum Side {
    Library,
    Second,
}

#[derive(Clone, Copy, PartialEq, Eq)]
pub enum Act {
    Check,
    Call,
    Explain,
    Bare,
}

pub const SIDES: [Side; 2] = [Side::Library, Side::Second];
pub const ACTS: [Act; 4] = [Act::Check, Act::Call, Act::Explain, Act::Bare];

/// The acts that the library has.
pub fn acts() -> impl Iterator<Item = Act> {
    ACTS.into_iter().filter(|act| act.is_there())
}

/// One side's costs a call, by act; 0 for an act that the library has not.
pub type ActCosts = [f64; ACTS.len()];

/// Costs a call, by side, then by act.
pub type Costs = [ActCosts; 2];

/// The library's costs with the fenced run and with the bare one, each as if it
/// were a side.
pub fn fenced_and_bare([check, call, _, bare]: ActCosts) -> Costs {
    [call, bare].map(|call| [check, call, 0.0, 0.0])
}

/// What the report tells apart.
#[derive(Clone, Copy, PartialEq, Eq)]
pub enum Part {
    Check,
    Run,
    Call,
    Explain,
    Bare,
}

pub const PARTS: [Part; 5] = [
    Part::Check,
    Part::Run,
    Part::Call,
    Part::Explain,
    Part::Bare,
];

/// The parts that the library has.
pub fn parts() -> impl Iterator<Item = Part> {
    PARTS.into_iter().filter(|part| part.act().is_there())
}

impl Part {
    pub fn name(self) -> &'static str {
        match self {
            Part::Check => "check",
            Part::Run => "run",
            Part::Call => "call",
            Part::Explain => "explain",
            Part::Bare => "bare",
        }
    }

    /// The act that has it.
    fn act(self) -> Act {
        match self {
            Part::Check => Act::Check,
            Part::Run | Part::Call => Act::Call,
            Part::Explain => Act::Explain,
            Part::Bare => Act::Bare,
        }
    }

    /// The library's cost and the second's.
    pub fn of(self, costs: Costs) -> [f64; 2] {
        costs.map(|acts| self.of_side(acts))
    }

    /// One side's cost. The run alone is the whole call less the check.
    pub fn of_side(self, [check, call, explain, bare]: ActCosts) -> f64 {
        match self {
            Part::Check => check,
            Part::Run => call - check,
            Part::Call => call,
            Part::Explain => explain,
            Part::Bare => bare,
        }
    }
}

impl Side {
    pub fn name(self) -> &'static str {
        match self {
            Side::Library => "library",
            Side::Second => "second",
        }
    }
}

impl Act {
    pub fn name(self) -> &'static str {
        match self {
            Act::Check => "check",
            Act::Call => "call",
            Act::Explain => "explain",
            Act::Bare => "bare",
        }
    }

    fn is_there(self) -> bool {
        match self {
            Act::Check | Act::Call => true,
            Act::Explain => EXPLAINS,
            Act::Bare => RUNS_BARE,
        }
    }
}

/// The lent memory. A call clears it itself. A bare run has the values alone.
#[derive(PartialEq, Eq)]
pub struct Lists {
    pub values: Vec<u32>,
    pub bases: Vec<u32>,
    pub ends: Vec<u32>,
}

impl Lists {
    pub fn new(length: usize, word: u32) -> Lists {
        Lists {
            values: vec![word; length],
            bases: vec![word; length],
            ends: vec![word; length],
        }
    }
}

pub fn check(side: Side, case: &Case) -> library::Verdict {
    match side {
        Side::Library => library::check(&case.table),
        Side::Second => second_check(&case.table).into(),
    }
}

pub fn call(side: Side, case: &Case, lists: &mut Lists) -> library::Answer {
    match side {
        Side::Library => library_call(case, lists),
        Side::Second => second_call(case, lists).into(),
    }
}

pub fn explain(side: Side, case: &Case, lists: &mut Lists) -> library::Explanation {
    match side {
        Side::Library => library_explain(case, lists),
        Side::Second => second_explain(case, lists).into(),
    }
}

pub fn bare(side: Side, case: &Case, lists: &mut Lists) -> library::Answer {
    match side {
        Side::Library => library_bare(case, lists),
        Side::Second => second_bare(case, lists).into(),
    }
}

/// The act `calls` times, over the row's cases in turn.
pub fn repeat(side: Side, act: Act, row: &Row, lists: &mut Lists, calls: usize) {
    match (side, act) {
        (Side::Library, Act::Check) => each(row, calls, |case| library::check(&case.table)),
        (Side::Second, Act::Check) => each(row, calls, |case| second_check(&case.table)),
        (Side::Library, Act::Call) => each(row, calls, |case| library_call(case, lists)),
        (Side::Second, Act::Call) => each(row, calls, |case| second_call(case, lists)),
        (Side::Library, Act::Explain) => each(row, calls, |case| library_explain(case, lists)),
        (Side::Second, Act::Explain) => each(row, calls, |case| second_explain(case, lists)),
        (Side::Library, Act::Bare) => each(row, calls, |case| library_bare(case, lists)),
        (Side::Second, Act::Bare) => each(row, calls, |case| second_bare(case, lists)),
    }
}

/// A function for each side and act, so that what one loop costs does not depend
/// on which others there are.
#[inline(never)]
fn each<T>(row: &Row, calls: usize, mut act: impl FnMut(&Case) -> T) {
    for case in row.cases.iter().cycle().take(calls) {
        black_box(act(black_box(case)));
    }
}

#[inline(always)]
fn library_call(case: &Case, lists: &mut Lists) -> library::Answer {
    library::run(
        &case.table,
        &case.inputs,
        &case.registers,
        &mut lists.values,
        &mut lists.bases,
        &mut lists.ends,
    )
}

#[inline(always)]
fn library_explain(case: &Case, lists: &mut Lists) -> library::Explanation {
    library::explain(
        &case.table,
        &case.inputs,
        &case.registers,
        &mut lists.values,
        &mut lists.bases,
        &mut lists.ends,
    )
}

#[inline(always)]
fn library_bare(case: &Case, lists: &mut Lists) -> library::Answer {
    library::run_bare(
        &case.table,
        &case.inputs,
        &case.registers,
        &mut lists.values,
    )
}

// The second is a Rust crate and could melt into the loop, which a library in
// an archive can't: these four keep it a call.

#[inline(never)]
fn second_check(table: &[u32]) -> machine::Verdict {
    machine::check(table)
}

#[inline(never)]
fn second_call(case: &Case, lists: &mut Lists) -> machine::Answer {
    machine::run(
        &case.table,
        &case.inputs,
        &case.registers,
        &mut lists.values,
        &mut lists.bases,
        &mut lists.ends,
    )
}

#[inline(never)]
fn second_explain(
    case: &Case,
    lists: &mut Lists,
) -> (machine::Answer, Option<machine::Explanation>) {
    machine::explain(
        &case.table,
        &case.inputs,
        &case.registers,
        &mut lists.values,
        &mut lists.bases,
        &mut lists.ends,
    )
}

#[inline(never)]
fn second_bare(case: &Case, lists: &mut Lists) -> machine::Answer {
    machine::run_bare(
        &case.table,
        &case.inputs,
        &case.registers,
        &mut lists.values,
    )
}
