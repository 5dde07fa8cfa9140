//! Pointers with a number added, which step by words or by records.

use super::expression::Expressions;
use super::random::Random;
use super::routine::Wanted;
use crate::machine::kind;

impl Expressions<'_> {
    /// A variable's pointer moved to somewhere in its bounds, or next to them.
    /// It steps as a `typ`, as what it is, or as any other pointer, and casts
    /// stand before and after that where they have to.
    pub(super) fn moved(&mut self, typ: u32) -> u32 {
        let Some(variable) = self.bounded_variable(typ) else {
            return self.fresh(typ);
        };
        let own = self.routine.types.variables[variable as usize];
        let stepping = match self.random.weighted(&[50, 30, 20]) {
            0 => typ,
            1 => own,
            _ => self.any_pointer_type(),
        };
        let moved = self.stepped(variable, stepping);
        self.cast_from(stepping, moved, typ)
    }

    /// A walk along a row: `p = p + n` for a variable that points to one of
    /// several records. None where there is no such variable.
    pub(super) fn walk(&mut self) -> Option<[u32; 2]> {
        let types = &self.routine.types;
        let [_, bases, ends] = &self.routine.memory;
        let words = ends.iter().zip(bases).map(|(end, base)| end - base);
        let variables = (0..).zip(types.variables.iter().zip(words.skip(1)));
        let rows = variables.filter_map(|(variable, (&typ, words))| {
            let step = types.step(typ);
            (step > 1 && words >= 2 * step).then_some((variable, typ))
        });
        let rows: Vec<(u32, u32)> = rows.collect();
        if rows.is_empty() {
            return None;
        }
        let (variable, typ) = self.random.pick(&rows);
        let place = self.node(kind::VARIABLE, variable, 0);
        Some([place, self.stepped(variable, typ)])
    }

    /// A variable's pointer that steps as a pointer of `typ` does.
    fn stepped(&mut self, variable: u32, typ: u32) -> u32 {
        let words = self.way(variable, typ);
        let value = self.read_as(variable, typ);
        self.step_by(value, typ, words)
    }

    /// A value moved by so many words, in steps of a pointer of `typ`.
    pub(super) fn step_by(&mut self, value: u32, typ: u32, words: u32) -> u32 {
        let step = self.routine.types.step(typ);
        let number = steps(self.random, words, step);
        let b = self.number(number);
        self.node(kind::SUM, value, b)
    }

    /// How many words it is from where a variable points to somewhere in its
    /// bounds, gladly to the first or the last record there, or next to them.
    fn way(&mut self, variable: u32, typ: u32) -> u32 {
        let w = 1 + variable as usize;
        let [value, base, end] = [0, 1, 2].map(|list| self.routine.memory[list][w]);
        let outside = match self.wanted {
            Wanted::Abort(_) | Wanted::Stuck => 100,
            Wanted::Done | Wanted::NoRoom => 8,
        };
        let words = end.saturating_sub(base).max(1);
        let last = words.saturating_sub(self.routine.types.step(typ));
        let offset = self.some_offset(typ);
        let goal = match self.random.weighted(&[outside, 50, 50]) {
            0 => self.random.pick(&[
                base.wrapping_sub(1),
                end,
                end.wrapping_add(1),
                base.wrapping_sub(offset),
            ]),
            1 if value == base => base + last,
            1 => base,
            _ => base + self.random.below(words),
        };
        goal.wrapping_sub(value)
    }

    /// The offset of a field of the record that `typ` points to, if it does: a
    /// pointer as far below its base has that field at its base, and below
    /// word 0 only a sum modulo 2^32 would find it there.
    fn some_offset(&mut self, typ: u32) -> u32 {
        let Some(record) = self.routine.types.record(typ) else {
            return 1;
        };
        let fields = self.routine.types.records[record].len();
        let b = self.random.index(fields);
        self.routine.types.offset(record, b)
    }

    /// A value that is this number: a constant, or now and then a sum, which
    /// may have a copy in it or have bounds.
    fn number(&mut self, number: u32) -> u32 {
        if self.routine.marked && self.left > 0 && self.random.percent(15) {
            self.left -= 1;
            return self.carried_number(number);
        }
        if !self.random.percent(18) {
            return self.constant(number);
        }
        if self.random.percent(30) {
            if let Some(sum) = self.number_by_a_copy(number) {
                return sum;
            }
        }
        let part = self.random.number();
        let a = self.constant(part);
        let b = self.constant(number.wrapping_sub(part));
        self.node(kind::SUM, a, b)
    }
}

/// How many steps to take for so many words, which may count as negative: as
/// many as go into them, or any number whose product is right modulo 2^32, or
/// as many as if a step were a word.
fn steps(random: &mut Random, words: u32, step: u32) -> u32 {
    let whole = words as i32 / step as i32;
    match random.weighted(&[60, 28, 12]) {
        0 if whole != 0 => whole as u32,
        0 | 1 => round(random, words, step),
        _ => words,
    }
}

/// A number that times `step` is `words` modulo 2^32, one of all there are.
/// An even step has none for words that aren't doubled as often as it is; then
/// the next lower words that are take their place.
fn round(random: &mut Random, words: u32, step: u32) -> u32 {
    let twos = step.trailing_zeros();
    let number = (words >> twos).wrapping_mul(inverse(step >> twos));
    // So many steps more make a product that is 2^32 more, or some of them.
    let turn = (1u64 << (32 - twos)) as u32;
    number.wrapping_add(random.below(1 << twos).wrapping_mul(turn))
}

/// The number whose product with an odd one is 1 modulo 2^32. Each repetition
/// makes twice as many bits right, and three are to begin with.
fn inverse(odd: u32) -> u32 {
    (0..4).fold(odd, |inverse, _| {
        let product = odd.wrapping_mul(inverse);
        inverse.wrapping_mul(2u32.wrapping_sub(product))
    })
}
