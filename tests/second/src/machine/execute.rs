//! The steps of document 01 on the lent memory.
//!
//! A value and a place are worked out by two functions that call each other,
//! each giving the value or the word, or nothing when the run has to stop.
//! The bounds that go with the latest value or place stand in `base` and
//! `end`: most nodes pass them on untouched.
//!
//! In edition 1, bounds of an int are never looked at: an int store leaves
//! bounds alone, and the one way from an int to a pointer is a cast, which
//! drops them. So they are dropped there only, and no read or constant has to.
//! In edition 2 an int has bounds like any other value: a cast drops nothing,
//! and what has no bounds must say so. `MARKED` tells the editions apart.

use super::declarations::Declarations;
use super::explain::Watch;
use super::layout::{Layout, MAX_NODES};
use super::{kind, Answer, Checked, INT};

#[derive(Clone, Copy)]
enum Stop {
    Abort,
    NoRoom,
}

pub struct Memory<'m, W, const MARKED: bool> {
    nodes: &'m [[u32; 3]],
    notes: &'m [u8; MAX_NODES],
    layout: &'m Layout<'m>,
    declarations: &'m Declarations,
    values: &'m mut [u32],
    bases: &'m mut [u32],
    ends: &'m mut [u32],
    /// U, the first unused word.
    unused: u32,
    /// Bounds of the latest value or place: [base, end), or 0 and 0.
    base: u32,
    end: u32,
    /// Why the run stops, when it does.
    stop: Stop,
    watch: W,
}

impl<'m, W: Watch, const MARKED: bool> Memory<'m, W, MARKED> {
    pub fn new(
        checked: &'m Checked,
        [values, bases, ends]: [&'m mut [u32]; 3],
        unused: u32,
        watch: W,
    ) -> Memory<'m, W, MARKED> {
        Memory {
            nodes: checked.layout.nodes,
            notes: checked.notes,
            layout: &checked.layout,
            declarations: checked.declarations,
            values,
            bases,
            ends,
            unused,
            base: 0,
            end: 0,
            stop: Stop::Abort,
            watch,
        }
    }

    pub fn execute(&mut self, commands: &[[u32; 2]]) -> Answer {
        for (i, &[place, value]) in commands.iter().enumerate() {
            if self.assign(place, value).is_none() {
                let (command, unused) = (i as u32, self.unused);
                return match self.stop {
                    Stop::Abort => Answer::Abort { command, unused },
                    Stop::NoRoom => Answer::NoRoom { command, unused },
                };
            }
        }
        Answer::Done {
            unused: self.unused,
        }
    }

    /// "A command's place before its value": the place's check is not made
    /// again after the value. "A pointer type stores value, base and end; int
    /// stores the value only, and the word's base and end stay." In edition 2
    /// "every assignment moves value, base and end".
    #[inline(always)]
    fn assign(&mut self, place: u32, node: u32) -> Option<()> {
        let w = self.word(place)?;
        let value = self.value(node)?;
        self.values[w] = value;
        if MARKED || self.notes[node as usize] != INT {
            self.bases[w] = self.base;
            self.ends[w] = self.end;
        }
        Some(())
    }

    /// The word of a place whose bounds are of no interest.
    #[inline(always)]
    fn word(&mut self, node: u32) -> Option<usize> {
        let [kind, a, _] = self.nodes[node as usize];
        let word = match kind {
            kind::VARIABLE => 1 + a,
            _ => self.place(node)?,
        };
        Some(word as usize)
    }

    fn place(&mut self, node: u32) -> Option<u32> {
        let [kind, a, b] = self.nodes[node as usize];
        match kind {
            kind::VARIABLE => {
                (self.base, self.end) = (1 + a, 2 + a);
                Some(1 + a)
            }
            kind::DEREF => {
                let v = self.value(a)?;
                // v + 1 <= end, exactly
                if self.base <= v && v < self.end {
                    Some(v)
                } else {
                    self.not_passed(node, u64::from(v), 1)
                }
            }
            _ => {
                let v = self.value(a)?;
                self.field(node, v, self.notes[a as usize], b)
            }
        }
    }

    /// The field with number `b` of the record at `v`: "it passes when b <= w
    /// and w + k <= e", in exact sums, hence in 64 bits.
    #[inline(always)]
    fn field(&mut self, node: u32, v: u32, pointer: u8, b: u32) -> Option<u32> {
        let field = self.declarations.field(self.layout, pointer, b)?;
        let [_, words] = self.layout.fields[field];
        let w = u64::from(v) + u64::from(self.declarations.offset(field));
        let end = w + u64::from(words);
        if u64::from(self.base) <= w && end <= u64::from(self.end) {
            (self.base, self.end) = (w as u32, end as u32);
            Some(w as u32)
        } else {
            self.not_passed(node, w, words)
        }
    }

    /// An abort. Bounds are still those of the pointer followed.
    #[inline(always)]
    fn not_passed(&mut self, node: u32, place: u64, words: u32) -> Option<u32> {
        let bounds = [self.base, self.end];
        self.watch.not_passed(node, place, words, bounds);
        None
    }

    fn value(&mut self, node: u32) -> Option<u32> {
        let [kind, a, b] = self.nodes[node as usize];
        match kind {
            kind::CONSTANT => self.number(a),
            kind::SUM => self.sum(a, b),
            kind::READ => self.read(a),
            kind::ADDRESS => self.place(a),
            kind::CAST => self.cast(a),
            kind::SIZE => {
                let words = self.declarations.size(self.layout, a)?;
                self.number(words)
            }
            kind::MALLOC => {
                let words = self.value(a)?;
                self.malloc(words)
            }
            _ => self.copy(node, a, b),
        }
    }

    /// A number without bounds.
    #[inline(always)]
    fn number(&mut self, number: u32) -> Option<u32> {
        if MARKED {
            (self.base, self.end) = (0, 0);
        }
        Some(number)
    }

    /// The sum has the bounds of its first part, whose type tells how long a
    /// step is. All the steps together are taken modulo 2^32 too, so that a
    /// number near 2^32 leads back. A constant has no bounds that could be
    /// taken in place of none.
    #[inline(always)]
    fn sum(&mut self, a: u32, b: u32) -> Option<u32> {
        let left = self.value(a)?;
        let step = self.declarations.step(self.notes[a as usize]);
        let [kind, number, _] = self.nodes[b as usize];
        match kind {
            kind::CONSTANT => Some(left.wrapping_add(number.wrapping_mul(step))),
            _ => self.sum_of(left, step, b),
        }
    }

    /// The same for a right part that isn't a constant. "A sum takes the left
    /// bounds if the left end isn't 0, else the right ones", in edition 2.
    /// Apart, so that not every call of `value` has to save what this one keeps.
    #[inline(never)]
    fn sum_of(&mut self, left: u32, step: u32, b: u32) -> Option<u32> {
        let bounds = (self.base, self.end);
        let right = self.value(b)?;
        if !MARKED || bounds.1 != 0 {
            (self.base, self.end) = bounds;
        }
        Some(left.wrapping_add(right.wrapping_mul(step)))
    }

    #[inline(always)]
    fn read(&mut self, a: u32) -> Option<u32> {
        let w = self.word(a)?;
        (self.base, self.end) = (self.bases[w], self.ends[w]);
        Some(self.values[w])
    }

    /// "Pointer to pointer keeps everything; from int, or to int, the value is
    /// kept without bounds." To int, nobody looks at them. In edition 2 "a cast
    /// changes nothing".
    #[inline(always)]
    fn cast(&mut self, a: u32) -> Option<u32> {
        let v = self.value(a)?;
        if !MARKED && self.notes[a as usize] == INT {
            (self.base, self.end) = (0, 0);
        }
        Some(v)
    }

    /// The new words are clear already: nothing above U was ever written.
    #[inline(always)]
    fn malloc(&mut self, words: u32) -> Option<u32> {
        if words == 0 {
            (self.base, self.end) = (0, 0);
            return Some(0);
        }
        if words as usize > self.values.len() - self.unused as usize {
            self.stop = Stop::NoRoom;
            return None;
        }
        self.base = self.unused;
        self.unused += words;
        self.end = self.unused;
        self.watch.block(self.base, words);
        Some(self.base)
    }

    /// "Both are evaluated, then a's place is checked for the record's size,
    /// then b's": a place is where its pointer points, and nothing is written
    /// before both have passed. Apart, for the same reason as `sum_of`.
    #[inline(never)]
    fn copy(&mut self, node: u32, a: u32, b: u32) -> Option<u32> {
        let words = self.declarations.step(self.notes[a as usize]);
        let to = self.value(a)?;
        let bounds_of_to = (self.base, self.end);
        let from = self.value(b)?;
        let bounds_of_from = (self.base, self.end);
        (self.base, self.end) = bounds_of_to;
        self.record(node, to, words)?;
        (self.base, self.end) = bounds_of_from;
        self.record(node, from, words)?;
        self.move_words(from as usize, to as usize, words as usize);
        self.number(words)
    }

    /// The check for a whole record at `v`, in exact sums as for a field.
    #[inline(always)]
    fn record(&mut self, node: u32, v: u32, words: u32) -> Option<()> {
        let end = u64::from(v) + u64::from(words);
        if self.base <= v && end <= u64::from(self.end) {
            return Some(());
        }
        self.not_passed(node, u64::from(v), words);
        None
    }

    /// Words go "with value, base and end, as they were before the copy, even
    /// where the two overlap".
    #[inline(always)]
    fn move_words(&mut self, from: usize, to: usize, words: usize) {
        for list in [&mut *self.values, &mut *self.bases, &mut *self.ends] {
            list.copy_within(from..from + words, to);
        }
    }
}
