//! The bare run: the same steps on a list of values alone, as a controller
//! without bounds makes them.
//!
//! No place is checked, so a place may be any word of 32 bits. Only reading,
//! assigning or copying looks whether there is such a word: elsewhere the run
//! is stuck. What has no bounds has no editions either, so both are run alike.

use super::{kind, Answer, Checked};
use std::ops::Range;

enum Stop {
    NoRoom,
    Stuck,
}

type Step<T> = Result<T, Stop>;

pub struct Bare<'m, 't> {
    checked: &'m Checked<'m, 't>,
    values: &'m mut [u32],
    /// U, the first unused word. It bounds nothing but what is obtained.
    unused: u32,
}

impl<'m, 't> Bare<'m, 't> {
    pub fn new(checked: &'m Checked<'m, 't>, values: &'m mut [u32], unused: u32) -> Bare<'m, 't> {
        Bare {
            checked,
            values,
            unused,
        }
    }

    /// What a command wrote or obtained before it stopped stays.
    pub fn execute(&mut self) -> Answer {
        for (command, &[place, value]) in (0..).zip(self.checked.layout.commands) {
            let stopped = self.assign(place, value);
            let unused = self.unused;
            match stopped {
                Ok(()) => {}
                Err(Stop::NoRoom) => return Answer::NoRoom { command, unused },
                Err(Stop::Stuck) => return Answer::Stuck { command, unused },
            }
        }
        Answer::Done {
            unused: self.unused,
        }
    }

    /// "Stuck when it reads or assigns": the place alone is no reason yet, and
    /// the value is worked out after it.
    fn assign(&mut self, place: u32, value: u32) -> Step<()> {
        let w = self.place(place)?;
        let value = self.value(value)?;
        *self.word(w)? = value;
        Ok(())
    }

    /// A word of the lent memory other than word 0, below U or not.
    fn word(&mut self, w: u32) -> Step<&mut u32> {
        match w {
            0 => Err(Stop::Stuck),
            _ => self.values.get_mut(w as usize).ok_or(Stop::Stuck),
        }
    }

    fn place(&mut self, node: u32) -> Step<u32> {
        let [kind, a, b] = self.checked.layout.nodes[node as usize];
        match kind {
            kind::VARIABLE => Ok(1 + a),
            kind::DEREF => self.value(a),
            _ => {
                let v = self.value(a)?;
                Ok(v.wrapping_add(self.offset(a, b)))
            }
        }
    }

    /// The offset of field `b` of the record that the value of node `a` points
    /// to.
    fn offset(&self, a: u32, b: u32) -> u32 {
        let Checked {
            layout,
            declarations,
            notes,
        } = self.checked;
        let field = declarations.field(layout, notes[a as usize], b);
        declarations.offset(field.expect("a field that passed the check"))
    }

    /// How many words each 1 added to the value of a node moves it by: of a
    /// pointer to a record, the record's size.
    fn step(&self, node: u32) -> u32 {
        let note = self.checked.notes[node as usize];
        self.checked.declarations.step(note)
    }

    fn value(&mut self, node: u32) -> Step<u32> {
        let [kind, a, b] = self.checked.layout.nodes[node as usize];
        match kind {
            kind::CONSTANT => Ok(a),
            kind::SUM => {
                let left = self.value(a)?;
                let right = self.value(b)?;
                Ok(left.wrapping_add(right.wrapping_mul(self.step(a))))
            }
            kind::READ => {
                let w = self.place(a)?;
                self.word(w).copied()
            }
            kind::ADDRESS => self.place(a),
            kind::CAST => self.value(a),
            kind::SIZE => Ok(self.size(a)),
            kind::MALLOC => {
                let words = self.value(a)?;
                self.obtain(words)
            }
            _ => self.copy(a, b),
        }
    }

    fn size(&self, target: u32) -> u32 {
        let size = self.checked.declarations.size(&self.checked.layout, target);
        size.expect("a type or record that passed the check")
    }

    /// No room is told by U + n, "which stays exact". The new words may have
    /// been written already.
    fn obtain(&mut self, words: u32) -> Step<u32> {
        if words == 0 {
            return Ok(0);
        }
        let first = self.unused;
        let new = self.lent(first, words).ok_or(Stop::NoRoom)?;
        self.values[new].fill(0);
        self.unused += words;
        Ok(first)
    }

    /// "A copy with word 0 or a word outside is stuck and writes nothing."
    fn copy(&mut self, a: u32, b: u32) -> Step<u32> {
        let to = self.value(a)?;
        let from = self.value(b)?;
        let words = self.step(a);
        let to = self.record(to, words)?;
        let from = self.record(from, words)?;
        self.values.copy_within(from, to.start);
        Ok(words)
    }

    /// All the words of a record.
    fn record(&self, first: u32, words: u32) -> Step<Range<usize>> {
        match first {
            0 => Err(Stop::Stuck),
            _ => self.lent(first, words).ok_or(Stop::Stuck),
        }
    }

    /// So many words from a word on, where the lent memory has them all. Words
    /// that go on at word 0 have the last word of 32 bits among them, which is
    /// never lent: so an exact end is right for a record too.
    fn lent(&self, first: u32, words: u32) -> Option<Range<usize>> {
        let end = u64::from(first) + u64::from(words);
        (end <= self.values.len() as u64).then_some(first as usize..end as usize)
    }
}
