//! A reason for every abort: what is noted beside the steps of a run.
//!
//! A run tells a [`Watch`] of each block and of the check that it does not
//! pass. The ordinary run has a watch that does nothing, so that it costs
//! nothing either; an explaining run has [`Notes`].

/// Why a check is not passed: the lowest of these numbers that applies.
#[derive(Clone, Copy, Debug, PartialEq, Eq)]
#[repr(u32)]
pub enum Reason {
    NoBounds = 1,
    BeforeBase = 2,
    PastEnd = 3,
}

/// The check that ended a run.
#[derive(Clone, Copy, Debug, PartialEq, Eq)]
pub struct Explanation {
    /// The follow, the field or the copy.
    pub node: u32,
    /// The place wanted, an exact sum: it may not fit in 32 bits.
    pub place: u64,
    /// How many words were wanted there.
    pub words: u32,
    pub base: u32,
    pub end: u32,
    pub reason: Reason,
    /// The first word of the variable or block in which the bounds lie, or 0
    /// where there are none.
    pub first: u32,
}

pub trait Watch {
    /// Register words handed in, or words obtained.
    fn block(&mut self, start: u32, length: u32);

    /// The check of this node is not passed: so many words at a place, with
    /// these bounds.
    fn not_passed(&mut self, node: u32, place: u64, words: u32, bounds: [u32; 2]);
}

impl Watch for () {
    #[inline(always)]
    fn block(&mut self, _: u32, _: u32) {}

    #[inline(always)]
    fn not_passed(&mut self, _: u32, _: u64, _: u32, _: [u32; 2]) {}
}

struct Block {
    start: u32,
    length: u32,
}

/// All blocks so far, and why the run ended if a check ended it.
pub struct Notes {
    variables: u32,
    blocks: Vec<Block>,
    pub explanation: Option<Explanation>,
}

impl Notes {
    pub fn new(variables: usize) -> Notes {
        Notes {
            variables: variables as u32,
            blocks: Vec::new(),
            explanation: None,
        }
    }

    /// Where the variable or block begins in which [base, end) lies.
    fn first(&self, base: u32, end: u32) -> u32 {
        if base <= self.variables {
            return base; // a variable is one word
        }
        let holds = |b: &&Block| b.start <= base && end <= b.start + b.length;
        let block = self.blocks.iter().find(holds);
        block.expect("bounds lie in a variable or a block").start
    }
}

impl Watch for &mut Notes {
    fn block(&mut self, start: u32, length: u32) {
        self.blocks.push(Block { start, length });
    }

    #[cold]
    fn not_passed(&mut self, node: u32, place: u64, words: u32, [base, end]: [u32; 2]) {
        let reason = match (base, end) {
            (0, 0) => Reason::NoBounds,
            _ if place < u64::from(base) => Reason::BeforeBase,
            _ => Reason::PastEnd,
        };
        let first = match reason {
            Reason::NoBounds => 0,
            _ => self.first(base, end),
        };
        self.explanation = Some(Explanation {
            node,
            place,
            words,
            base,
            end,
            reason,
            first,
        });
    }
}
