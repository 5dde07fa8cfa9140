//! What the parent knows of its child, also after the child is dead: what was
//! counted, the case that it is at, and which call.

use crate::answers::{function, CALLS, ROWS};
use crate::memory::shared;
use second::text::{Call, Case};
use std::iter;
use std::sync::atomic::{AtomicU64, Ordering::Relaxed};

/// The limits of a recorded case.
pub const MAX_LIST: usize = 65_537;
pub const MAX_INPUTS: usize = 100;
pub const MAX_REGISTERS: usize = 70_000;
pub const MAX_TABLE: usize = 4_000;
/// A case as numbers: three lengths, then three lists after their counts.
const MAX_CASE: usize = 3 + 3 + MAX_INPUTS + MAX_REGISTERS + MAX_TABLE;

/// What is counted.
#[derive(Clone, Copy)]
pub enum Count {
    Cases,
    Fresh,
    Mutated,
    Passed,
    Differ,
    Crashes,
    Hangs,
    /// Words of lent lists.
    ChangedByRefused,
    /// Words in front of lists.
    Outside,
    /// Words of the table, the inputs and the registers.
    ReadOnly,
    /// Cases with any fault, all those saved and those that were too many.
    Findings,
}

const COUNTS: usize = Count::Findings as usize + 1;

/// Who is at work on a case.
#[derive(Clone, Copy)]
pub enum Side {
    Library,
    Second,
}

pub struct Shared {
    counts: &'static [AtomicU64],
    /// Row by row, a number for each call.
    answers: &'static [AtomicU64],
    /// The number of the case, so that one which takes too long is seen.
    turn: &'static AtomicU64,
    stage: &'static AtomicU64,
    case: &'static [AtomicU64],
}

impl Shared {
    pub fn new() -> Shared {
        let all = shared(COUNTS + CALLS.len() * ROWS + 2 + MAX_CASE);
        let (counts, rest) = all.split_at(COUNTS);
        let (answers, rest) = rest.split_at(CALLS.len() * ROWS);
        let [turn, stage, case @ ..] = rest else {
            unreachable!("there is room for both")
        };
        Shared {
            counts,
            answers,
            turn,
            stage,
            case,
        }
    }

    pub fn add(&self, count: Count, more: u64) {
        add(&self.counts[count as usize], more);
    }

    pub fn count(&self, count: Count) -> u64 {
        self.counts[count as usize].load(Relaxed)
    }

    pub fn add_answer(&self, call: Call, row: usize) {
        add(&self.answers[CALLS.len() * row + call as usize], 1);
    }

    pub fn answers(&self, call: Call, row: usize) -> u64 {
        self.answers[CALLS.len() * row + call as usize].load(Relaxed)
    }

    /// The next case is begun.
    pub fn note(&self, case: &Case) {
        let counted = |list| iter::once(length(list)).chain(words(list));
        let numbers = words(&case.lengths)
            .chain(counted(&case.inputs))
            .chain(counted(&case.registers))
            .chain(counted(&case.table));
        for (to, number) in self.case.iter().zip(numbers) {
            to.store(number, Relaxed);
        }
        add(self.turn, 1);
    }

    pub fn turn(&self) -> u64 {
        self.turn.load(Relaxed)
    }

    /// The case that was noted last.
    pub fn noted(&self) -> Case {
        let mut numbers = self.case.iter().map(|number| number.load(Relaxed) as u32);
        let mut next = || numbers.next().expect("a noted case is whole");
        let mut list = |count: u32| (0..count).map(|_| next()).collect::<Vec<u32>>();
        let lengths = [list(1)[0], list(1)[0], list(1)[0]];
        let [inputs, registers, table] = [(); 3].map(|()| {
            let count = list(1)[0];
            list(count)
        });
        Case {
            lengths,
            inputs,
            registers,
            table,
            ..Case::default()
        }
    }

    pub fn at_call(&self, call: Call, side: Side) {
        let stage = 1 + 2 * call as u64 + side as u64;
        self.stage.store(stage, Relaxed);
    }

    pub fn between_calls(&self) {
        self.stage.store(0, Relaxed);
    }

    /// Where the child is, in words.
    pub fn stage(&self) -> String {
        let Some(stage) = self.stage.load(Relaxed).checked_sub(1) else {
            return "between calls".into();
        };
        let function = function(CALLS[stage as usize / 2]);
        match stage % 2 {
            0 => format!("in {function}"),
            _ => format!("in the second implementation of {function}"),
        }
    }
}

/// Parent and child never write at the same time.
fn add(number: &AtomicU64, more: u64) {
    number.store(number.load(Relaxed) + more, Relaxed);
}

fn length(list: &[u32]) -> u64 {
    list.len() as u64
}

fn words(list: &[u32]) -> impl Iterator<Item = u64> + '_ {
    list.iter().map(|&word| u64::from(word))
}

#[cfg(test)]
mod tests {
    use super::*;

    #[test]
    fn a_noted_case_is_read_back() {
        let shared = Shared::new();
        let longest = Case {
            lengths: [1, 2, 3],
            inputs: vec![4; MAX_INPUTS],
            registers: vec![5; MAX_REGISTERS],
            table: vec![u32::MAX; MAX_TABLE],
            ..Case::default()
        };
        for case in [longest, Case::default()] {
            shared.note(&case);
            assert_eq!(shared.noted(), case);
        }
        assert_eq!(shared.turn(), 2);
    }

    #[test]
    fn stages_have_names() {
        let shared = Shared::new();
        assert_eq!(shared.stage(), "between calls");
        shared.at_call(Call::Run, Side::Library);
        assert_eq!(shared.stage(), "in mavistable_run");
        shared.at_call(Call::Bare, Side::Second);
        let name = "in the second implementation of mavistable_run_bare";
        assert_eq!(shared.stage(), name);
    }
}
