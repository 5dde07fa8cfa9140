//! The check and the run of document 01, with registers handed in, with steps
//! by records, with a reason for every abort, with whole records copied, with
//! edition 2 and with bare runs. No input or output happens here.
//!
//! [`check`] judges a table alone. [`run`] is the whole call: the check, the
//! conditions on the call (10, 11, 13 to 15), then the routine. [`explain`] is
//! the same call, and tells of an abort which check was not passed and why.
//! [`run_bare`] is the call without bounds. All work in buffers that are used
//! again from call to call; [`Machine`] lends them out one by one, so that
//! checking and executing can also be done, and timed, apart.

mod bare;
mod check;
mod declarations;
mod execute;
mod explain;
mod layout;
mod registers;

use bare::Bare;
use declarations::Declarations;
use execute::Memory;
pub use explain::{Explanation, Reason};
use explain::{Notes, Watch};
use layout::{Layout, MAX_NODES};
use registers::Registers;
use std::cell::RefCell;

/// Why a call is turned away, and where: the numbers and places of "What is
/// turned away".
#[derive(Clone, Copy, Debug, PartialEq, Eq)]
pub struct Refusal {
    pub number: u32,
    pub place: usize,
}

impl Refusal {
    #[cold]
    fn new(number: u32, place: usize) -> Refusal {
        Refusal { number, place }
    }
}

/// What the check alone answers.
#[derive(Clone, Copy, Debug, PartialEq, Eq)]
pub enum Verdict {
    Pass,
    Refused(Refusal),
}

/// What a run answers. `unused` is U, the first unused word. A run with bounds
/// is never stuck, and a bare run never aborts.
#[derive(Clone, Copy, Debug, PartialEq, Eq)]
pub enum Answer {
    Refused(Refusal),
    Done { unused: u32 },
    Abort { command: u32, unused: u32 },
    NoRoom { command: u32, unused: u32 },
    Stuck { command: u32, unused: u32 },
}

/// The type of ints. Type 1 is pointer to void, and 2 + i pointer entry i.
const INT: u8 = 0;
const VOID_POINTER: u8 = 1;
/// A target from this number on is a record.
const RECORD: u32 = 65_536;

/// The kinds of nodes: 1 to 3 are places, 4 to 11 values.
pub mod kind {
    pub const VARIABLE: u32 = 1;
    pub const DEREF: u32 = 2;
    pub const FIELD: u32 = 3;
    pub const CONSTANT: u32 = 4;
    pub const SUM: u32 = 5;
    pub const READ: u32 = 6;
    pub const ADDRESS: u32 = 7;
    pub const CAST: u32 = 8;
    pub const SIZE: u32 = 9;
    pub const MALLOC: u32 = 10;
    pub const COPY: u32 = 11;
}

/// Buffers for calls. What a call leaves in them means nothing to the next:
/// each word is written before it is looked at.
pub struct Machine {
    declarations: Declarations,
    /// Node to its type, with [`check::PLACE`] added where it is a place.
    notes: [u8; MAX_NODES],
    /// Node to 1 once it is used, else 0.
    used: [u8; MAX_NODES],
}

/// A table that passed, ready to be executed any number of times.
pub struct Checked<'m, 't> {
    layout: Layout<'t>,
    declarations: &'m Declarations,
    notes: &'m [u8; MAX_NODES],
}

thread_local! {
    static MACHINE: RefCell<Machine> = const { RefCell::new(Machine::new()) };
}

/// The check alone: refusals 1 to 9 and 16, or pass.
pub fn check(table: &[u32]) -> Verdict {
    MACHINE.with_borrow_mut(|machine| match machine.check(table) {
        Ok(_) => Verdict::Pass,
        Err(refusal) => Verdict::Refused(refusal),
    })
}

/// The whole call. "A refusal answers number and place and writes nowhere."
pub fn run(
    table: &[u32],
    inputs: &[u32],
    registers: &[u32],
    values: &mut [u32],
    bases: &mut [u32],
    ends: &mut [u32],
) -> Answer {
    MACHINE.with_borrow_mut(|machine| match machine.check(table) {
        Ok(checked) => checked.execute(inputs, registers, values, bases, ends),
        Err(refusal) => Answer::Refused(refusal),
    })
}

/// The whole call with a reason: the answer and the lists are those of [`run`],
/// and an abort, no other ending, comes with its explanation.
pub fn explain(
    table: &[u32],
    inputs: &[u32],
    registers: &[u32],
    values: &mut [u32],
    bases: &mut [u32],
    ends: &mut [u32],
) -> (Answer, Option<Explanation>) {
    MACHINE.with_borrow_mut(|machine| match machine.check(table) {
        Ok(checked) => checked.explain(inputs, registers, values, bases, ends),
        Err(refusal) => (Answer::Refused(refusal), None),
    })
}

/// The whole call of a bare run, which has one list.
pub fn run_bare(table: &[u32], inputs: &[u32], registers: &[u32], values: &mut [u32]) -> Answer {
    MACHINE.with_borrow_mut(|machine| match machine.check(table) {
        Ok(checked) => checked.execute_bare(inputs, registers, values),
        Err(refusal) => Answer::Refused(refusal),
    })
}

impl Default for Machine {
    fn default() -> Machine {
        Machine::new()
    }
}

impl Machine {
    pub const fn new() -> Machine {
        Machine {
            declarations: Declarations::new(),
            notes: [0; MAX_NODES],
            used: [0; MAX_NODES],
        }
    }

    /// The check, keeping what an execution needs to know of the table.
    pub fn check<'m, 't>(&'m mut self, table: &'t [u32]) -> Result<Checked<'m, 't>, Refusal> {
        let layout = Layout::of(table)?;
        self.declarations.check(&layout)?;
        check::nodes_and_commands(&layout, &self.declarations, &mut self.notes, &mut self.used)?;
        Ok(Checked {
            layout,
            declarations: &self.declarations,
            notes: &self.notes,
        })
    }
}

impl Checked<'_, '_> {
    /// The call's own conditions, then the run.
    pub fn execute(
        &self,
        inputs: &[u32],
        registers: &[u32],
        values: &mut [u32],
        bases: &mut [u32],
        ends: &mut [u32],
    ) -> Answer {
        self.watched(inputs, registers, values, bases, ends, ())
    }

    /// The same, and why the run aborted if it did.
    fn explain(
        &self,
        inputs: &[u32],
        registers: &[u32],
        values: &mut [u32],
        bases: &mut [u32],
        ends: &mut [u32],
    ) -> (Answer, Option<Explanation>) {
        let mut notes = Notes::new(self.layout.variables.len());
        let answer = self.watched(inputs, registers, values, bases, ends, &mut notes);
        (answer, notes.explanation)
    }

    #[inline(always)]
    fn watched(
        &self,
        inputs: &[u32],
        registers: &[u32],
        values: &mut [u32],
        bases: &mut [u32],
        ends: &mut [u32],
        mut watch: impl Watch,
    ) -> Answer {
        let lengths = [values.len(), bases.len(), ends.len()];
        match self.admit(inputs, registers, &lengths) {
            Ok(registers) => {
                bases.fill(0);
                ends.fill(0);
                let unused = begin(inputs, registers, values, |w, base, end| {
                    (bases[w], ends[w]) = (base, end);
                    watch.block(base, end - base);
                });
                let lists = [values, bases, ends];
                let commands = self.layout.commands;
                match self.layout.marked {
                    false => Memory::<_, false>::new(self, lists, unused, watch).execute(commands),
                    true => Memory::<_, true>::new(self, lists, unused, watch).execute(commands),
                }
            }
            Err(refusal) => Answer::Refused(refusal),
        }
    }

    /// The call's own conditions, "with 10 speaking of one list", then the bare
    /// run.
    fn execute_bare(&self, inputs: &[u32], registers: &[u32], values: &mut [u32]) -> Answer {
        match self.admit(inputs, registers, &[values.len()]) {
            Ok(registers) => {
                let unused = begin(inputs, registers, values, |_, _, _| ());
                Bare::new(self, values, unused).execute()
            }
            Err(refusal) => Answer::Refused(refusal),
        }
    }

    /// Conditions 10, 11 and 13 to 15, in this order, for lists of `lengths`.
    #[inline(always)]
    fn admit<'r>(
        &self,
        inputs: &[u32],
        registers: &'r [u32],
        lengths: &[usize],
    ) -> Result<Registers<'r>, Refusal> {
        let variables = self.layout.variables;
        let length = lengths[0];
        let differ = lengths.iter().any(|&other| other != length);
        // "the length isn't from 1 + variables to 65,536"
        let fits = length > variables.len() && length <= 65_536;
        if differ || !fits {
            return Err(Refusal::new(10, 0));
        }
        if inputs.len() != variables.len() {
            return Err(Refusal::new(11, variables.len()));
        }
        let mut pairs = variables.iter().zip(inputs);
        match pairs.position(|(&typ, &input)| typ != u32::from(INT) && input != 0) {
            Some(pointer) => Err(Refusal::new(11, pointer)),
            None => Registers::of(registers, variables, length),
        }
    }
}

/// Values as they are before the first command: word 0, the inputs, the
/// registers, and clear words from U on, which is given back. Each value is
/// written once. `handed_in` is told of each register that has words: the word
/// of its variable, and the base and end of its own.
#[inline(always)]
fn begin(
    inputs: &[u32],
    registers: Registers,
    values: &mut [u32],
    mut handed_in: impl FnMut(usize, u32, u32),
) -> u32 {
    let mut unused = 1 + inputs.len();
    values[0] = 0;
    values[1..unused].copy_from_slice(inputs);
    for (variable, words) in registers {
        let base = unused;
        unused += words.len();
        values[base..unused].copy_from_slice(words);
        // With no words it "starts as 0 without bounds", as its input has it.
        if !words.is_empty() {
            let w = 1 + variable as usize;
            values[w] = base as u32;
            handed_in(w, base as u32, unused as u32);
        }
    }
    values[unused..].fill(0);
    unused as u32
}
