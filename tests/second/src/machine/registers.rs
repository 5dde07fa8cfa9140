//! The registers that a call hands in: a count, then for each register a
//! variable number, a length n, and n words.

use super::{Refusal, INT};

const MAX_REGISTERS: u32 = 16;

/// A list of registers that was found right.
pub struct Registers<'r> {
    /// What comes after the count, or after the registers taken already.
    rest: &'r [u32],
}

/// The faults of single registers, with the first place of each. They are
/// told only once the whole list is known to be no 13.
#[derive(Default)]
struct Faults {
    variable: Option<usize>,
    length: Option<usize>,
}

impl<'r> Registers<'r> {
    /// Refusals 13, 14 and 15, in this order, for a table with these variables
    /// and lists of `length` words, which have room for the variables.
    ///
    /// One walk looks for all three: a register's faults are noted on the way,
    /// and count only if the list neither ends too soon nor goes on.
    #[inline(always)]
    pub fn of(list: &'r [u32], variables: &[u32], length: usize) -> Result<Registers<'r>, Refusal> {
        // "The list's length if cut short": an empty list is that too.
        let cut = || Refusal::new(13, list.len());
        let (&count, words) = list.split_first().ok_or_else(cut)?;
        if count > MAX_REGISTERS {
            return Err(Refusal::new(13, 0));
        }
        let mut faults = Faults::default();
        let mut named = 0u64;
        let mut room = length - 1 - variables.len();
        let mut rest = words;
        for _ in 0..count {
            let at = list.len() - rest.len();
            let (variable, own, after) = split(rest).ok_or_else(cut)?;
            if !names(variables, variable, &mut named) {
                faults.variable.get_or_insert(at);
            }
            if own.len() <= room {
                room -= own.len();
            } else {
                faults.length.get_or_insert(at + 1);
            }
            rest = after;
        }
        if !rest.is_empty() {
            return Err(Refusal::new(13, list.len() - rest.len()));
        }
        faults.none()?;
        Ok(Registers { rest: words })
    }
}

impl Faults {
    #[inline(always)]
    fn none(self) -> Result<(), Refusal> {
        match (self.variable, self.length) {
            (None, None) => Ok(()),
            (Some(place), _) => Err(Refusal::new(14, place)),
            (None, Some(place)) => Err(Refusal::new(15, place)),
        }
    }
}

/// The registers in order, each as its variable and its words.
impl<'r> Iterator for Registers<'r> {
    type Item = (u32, &'r [u32]);

    #[inline(always)]
    fn next(&mut self) -> Option<Self::Item> {
        let (variable, own, after) = split(self.rest)?;
        self.rest = after;
        Some((variable, own))
    }
}

/// The first register's variable and words, and what comes after it. None
/// where the list ends before the register does.
#[inline(always)]
fn split(rest: &[u32]) -> Option<(u32, &[u32], &[u32])> {
    let (&[variable, length], rest) = rest.split_first_chunk::<2>()?;
    let (own, after) = rest.split_at_checked(length as usize)?;
    Some((variable, own, after))
}

/// Whether a register may name this variable: a pointer that none named
/// before. `named` has a bit for each variable, of which there are at most 64.
#[inline(always)]
fn names(variables: &[u32], variable: u32, named: &mut u64) -> bool {
    let Some(&typ) = variables.get(variable as usize) else {
        return false;
    };
    let bit = 1 << variable;
    let before = *named & bit != 0;
    *named |= bit;
    typ != u32::from(INT) && !before
}
