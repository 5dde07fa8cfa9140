//! Commands of routines that are all about copies: words worth copying, copies,
//! and pointers followed after it.

use super::expression::Expressions;
use super::routine::Wanted;
use super::types::INT;
use crate::machine::kind;

impl Expressions<'_> {
    /// A command of a routine that is all about copies.
    pub(super) fn copying(&mut self) -> Option<[u32; 2]> {
        let abort = matches!(self.wanted, Wanted::Abort(_));
        let weights = match abort {
            true => [0, 70, 10, 20],
            false => [33, 34, 5, 28],
        };
        match self.random.weighted(&weights) {
            0 => self.fill(),
            1 => self.copy_command(),
            2 => self.overwritten(),
            _ => self.through_a_word(),
        }
    }

    /// A copy whose result is assigned, alone or in a sum.
    pub(super) fn copy_command(&mut self) -> Option<[u32; 2]> {
        let place = self.ordinary_place(INT)?;
        let copy = self.copy()?;
        if self.random.percent(80) {
            return Some([place, copy]);
        }
        let other = self.int();
        let [a, b] = self.random.pick(&[[copy, other], [other, copy]]);
        Some([place, self.node(kind::SUM, a, b)])
    }

    /// Something worth copying: a number or a pointer with bounds for a word of
    /// a block.
    fn fill(&mut self) -> Option<[u32; 2]> {
        let rows = self.rows(2);
        let types = &self.routine.types;
        let pointers = (1..types.count()).filter_map(|t| Some([types.pointer_to(t)?, t]));
        let pointers: Vec<[u32; 2]> = pointers.collect();
        let number = types.pointer_to(INT).map(|pointer| [pointer, INT]);
        let [by, typ] = match number {
            Some(number) if pointers.is_empty() || self.random.percent(30) => number,
            _ if pointers.is_empty() => return None,
            _ => self.random.pick(&pointers),
        };
        if rows.is_empty() {
            return None;
        }
        let (variable, [base, end]) = self.random.pick(&rows);
        let goal = self.random.between(base, end - 1);
        let known = self.of(variable);
        let pointer = self.led_to(known, goal, by);
        let place = self.node(kind::DEREF, pointer, 0);
        if typ == INT {
            let word = self.random.between(1, 99);
            return Some([place, self.constant(word)]);
        }
        let known = self.known();
        Some([place, self.cast_from(known.typ, known.node, typ)])
    }

    /// A number assigned or read by way of a pointer that stands in a block,
    /// where a copy may have brought it.
    fn through_a_word(&mut self) -> Option<[u32; 2]> {
        let int_pointer = self.routine.types.pointer_to(INT)?;
        let known = match self.brought() {
            Some((variable, w)) => self.fetch(variable, w)?,
            None => self.fetched()?,
        };
        let inside = match self.wanted {
            Wanted::Abort(_) => 40,
            Wanted::Done | Wanted::NoRoom | Wanted::Stuck => 95,
        };
        let goal = match self.random.percent(inside) {
            true => self.random.between(known.base, known.end - 1),
            false => self.random.pick(&[known.base - 1, known.end]),
        };
        let pointer = self.led_to(known, goal, int_pointer);
        let followed = self.node(kind::DEREF, pointer, 0);
        let ints = self.routine.types.variables_of(INT);
        if ints.is_empty() || self.random.percent(50) {
            let word = self.random.between(1, 99);
            return Some([followed, self.constant(word)]);
        }
        let variable = self.random.pick(&ints);
        let place = self.node(kind::VARIABLE, variable, 0);
        Some([place, self.node(kind::READ, followed, 0)])
    }

    /// A word that holds the same pointer as another word of a block, which it
    /// may have from there.
    fn brought(&mut self) -> Option<(u32, u32)> {
        let held = self.held();
        let same = |w: u32, other: u32| w != other && self.word(w) == self.word(other);
        let twice = held
            .iter()
            .filter(|(_, w)| held.iter().any(|&(_, other)| same(*w, other)));
        let twice: Vec<(u32, u32)> = twice.copied().collect();
        (!twice.is_empty()).then(|| self.random.pick(&twice))
    }

    /// A copy onto the very pointer that led to the place it is assigned to.
    fn overwritten(&mut self) -> Option<[u32; 2]> {
        let int_pointer = self.routine.types.pointer_to(INT)?;
        let record = self.some_record()?;
        let held = self.held().into_iter().filter(|&(variable, _)| {
            let [_, base, end] = self.word(1 + variable);
            end - base >= record.words
        });
        let held: Vec<(u32, u32)> = held.collect();
        if held.is_empty() {
            return None;
        }
        let (variable, w) = self.random.pick(&held);
        let known = self.fetch(variable, w)?;
        let goal = self.random.between(known.base, known.end - 1);
        let pointer = self.led_to(known, goal, int_pointer);
        let place = self.node(kind::DEREF, pointer, 0);
        let [_, base, end] = self.word(1 + variable);
        let first = (w + 1).saturating_sub(record.words).max(base);
        let onto = self.random.between(first, w.min(end - record.words));
        let known = self.of(variable);
        let to = self.led_to(known, onto, record.typ);
        let from = self.whole(record);
        Some([place, self.node(kind::COPY, to, from)])
    }
}
