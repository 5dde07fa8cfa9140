//! The proved library, called as C calls it.
//!
//! Nothing checks these declarations against the library: they repeat
//! include/mavistable.h, and no other module has an `unsafe`.

use second::machine;

/// What the check alone answers. `refused` is 0 for a table that passes, and so
/// are number and place then.
#[repr(C)]
#[derive(Clone, Copy, Debug, Default, PartialEq, Eq)]
pub struct Verdict {
    pub refused: u32,
    pub number: u32,
    pub place: usize,
}

/// What a call answers. What an ending does not tell is 0.
#[repr(C)]
#[derive(Clone, Copy, Debug, Default, PartialEq, Eq)]
pub struct Answer {
    pub ending: u32,
    pub number: u32,
    pub place: usize,
    pub command: u32,
    pub unused: u32,
}

/// What an explained call answers. What an ending does not tell is 0, so that
/// reason 0 says that the run did not abort.
#[repr(C)]
#[derive(Clone, Copy, Debug, Default, PartialEq, Eq)]
pub struct Explanation {
    pub ending: u32,
    pub number: u32,
    pub place: usize,
    pub command: u32,
    pub unused: u32,
    pub node: u32,
    pub words: u32,
    pub wanted: u64,
    pub base: u32,
    pub end: u32,
    pub reason: u32,
    pub first: u32,
}

/// Whether there is an archive that explains, and one with the bare run;
/// build.rs has looked.
pub const EXPLAINS: bool = cfg!(explains);
pub const RUNS_BARE: bool = cfg!(runs_bare);

const REFUSED: u32 = 0;
const DONE: u32 = 1;
const ABORT: u32 = 2;
const NO_ROOM: u32 = 3;
const STUCK: u32 = 4;

extern "C" {
    fn mavistable_check(table: *const u32, length: usize) -> Verdict;

    fn mavistable_run(
        table: *const u32,
        table_length: usize,
        inputs: *const u32,
        input_count: usize,
        registers: *const u32,
        registers_length: usize,
        values: *mut u32,
        values_length: usize,
        bases: *mut u32,
        bases_length: usize,
        ends: *mut u32,
        ends_length: usize,
    ) -> Answer;

    #[cfg(explains)]
    fn mavistable_explain(
        table: *const u32,
        table_length: usize,
        inputs: *const u32,
        input_count: usize,
        registers: *const u32,
        registers_length: usize,
        values: *mut u32,
        values_length: usize,
        bases: *mut u32,
        bases_length: usize,
        ends: *mut u32,
        ends_length: usize,
    ) -> Explanation;

    #[cfg(runs_bare)]
    fn mavistable_run_bare(
        table: *const u32,
        table_length: usize,
        inputs: *const u32,
        input_count: usize,
        registers: *const u32,
        registers_length: usize,
        values: *mut u32,
        values_length: usize,
    ) -> Answer;
}

pub fn check(table: &[u32]) -> Verdict {
    // SAFETY: a slice's pointer is not null and has that many readable words.
    unsafe { mavistable_check(table.as_ptr(), table.len()) }
}

pub fn run(
    table: &[u32],
    inputs: &[u32],
    registers: &[u32],
    values: &mut [u32],
    bases: &mut [u32],
    ends: &mut [u32],
) -> Answer {
    // SAFETY: as above; slices lent as `&mut` overlap nothing.
    unsafe {
        mavistable_run(
            table.as_ptr(),
            table.len(),
            inputs.as_ptr(),
            inputs.len(),
            registers.as_ptr(),
            registers.len(),
            values.as_mut_ptr(),
            values.len(),
            bases.as_mut_ptr(),
            bases.len(),
            ends.as_mut_ptr(),
            ends.len(),
        )
    }
}

#[cfg(explains)]
pub fn explain(
    table: &[u32],
    inputs: &[u32],
    registers: &[u32],
    values: &mut [u32],
    bases: &mut [u32],
    ends: &mut [u32],
) -> Explanation {
    // SAFETY: as for the run.
    unsafe {
        mavistable_explain(
            table.as_ptr(),
            table.len(),
            inputs.as_ptr(),
            inputs.len(),
            registers.as_ptr(),
            registers.len(),
            values.as_mut_ptr(),
            values.len(),
            bases.as_mut_ptr(),
            bases.len(),
            ends.as_mut_ptr(),
            ends.len(),
        )
    }
}

/// Never called: without the symbol there is no such act.
#[cfg(not(explains))]
pub fn explain(
    _: &[u32],
    _: &[u32],
    _: &[u32],
    _: &mut [u32],
    _: &mut [u32],
    _: &mut [u32],
) -> Explanation {
    unreachable!("there is no mavistable_explain")
}

#[cfg(runs_bare)]
pub fn run_bare(table: &[u32], inputs: &[u32], registers: &[u32], values: &mut [u32]) -> Answer {
    // SAFETY: as for the run.
    unsafe {
        mavistable_run_bare(
            table.as_ptr(),
            table.len(),
            inputs.as_ptr(),
            inputs.len(),
            registers.as_ptr(),
            registers.len(),
            values.as_mut_ptr(),
            values.len(),
        )
    }
}

/// As above.
#[cfg(not(runs_bare))]
pub fn run_bare(_: &[u32], _: &[u32], _: &[u32], _: &mut [u32]) -> Answer {
    unreachable!("there is no mavistable_run_bare")
}

// The second's answers in the library's form, to be compared word by word.

impl From<machine::Verdict> for Verdict {
    fn from(verdict: machine::Verdict) -> Verdict {
        match verdict {
            machine::Verdict::Pass => Verdict::default(),
            machine::Verdict::Refused(machine::Refusal { number, place }) => Verdict {
                refused: 1,
                number,
                place,
            },
        }
    }
}

impl From<machine::Answer> for Answer {
    fn from(answer: machine::Answer) -> Answer {
        let none = Answer::default();
        match answer {
            machine::Answer::Refused(machine::Refusal { number, place }) => Answer {
                ending: REFUSED,
                number,
                place,
                ..none
            },
            machine::Answer::Done { unused } => Answer {
                ending: DONE,
                unused,
                ..none
            },
            machine::Answer::Abort { command, unused } => Answer {
                ending: ABORT,
                command,
                unused,
                ..none
            },
            machine::Answer::NoRoom { command, unused } => Answer {
                ending: NO_ROOM,
                command,
                unused,
                ..none
            },
            machine::Answer::Stuck { command, unused } => Answer {
                ending: STUCK,
                command,
                unused,
                ..none
            },
        }
    }
}

impl From<(machine::Answer, Option<machine::Explanation>)> for Explanation {
    fn from((answer, told): (machine::Answer, Option<machine::Explanation>)) -> Explanation {
        let answer = Answer::from(answer);
        let ended = Explanation {
            ending: answer.ending,
            number: answer.number,
            place: answer.place,
            command: answer.command,
            unused: answer.unused,
            ..Explanation::default()
        };
        told.map_or(ended, |told| Explanation {
            node: told.node,
            wanted: told.place,
            words: told.words,
            base: told.base,
            end: told.end,
            reason: told.reason as u32,
            first: told.first,
            ..ended
        })
    }
}

impl Verdict {
    pub fn passes(&self) -> bool {
        self.refused == 0
    }
}

impl Answer {
    pub fn is_done(&self) -> bool {
        self.ending == DONE
    }

    pub fn is_abort(&self) -> bool {
        self.ending == ABORT
    }
}
