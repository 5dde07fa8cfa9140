//! Pointers of all origins, and in edition 2 ints too, each with its word and
//! its bounds foreseen.

use super::expression::Expressions;
use super::types::{Way, VOID_POINTER};
use crate::machine::kind;

/// A value whose word and bounds are foreseen from what the memory holds.
pub(super) struct Known {
    pub node: u32,
    pub typ: u32,
    pub at: u32,
    pub base: u32,
    pub end: u32,
}

impl Expressions<'_> {
    pub(super) fn known(&mut self) -> Known {
        let sums = if self.routine.marked { 25 } else { 0 };
        let known = match self.random.weighted(&[28, 20, 28, 11, 13, sums]) {
            0 => self.of_variable(),
            1 => self.address_of_variable(),
            2 => self.address_of_field(),
            3 => self.fetched(),
            4 => None,
            _ => self.summed(),
        };
        known.unwrap_or_else(|| self.new_block())
    }

    /// Variables with bounds, each with its word: value, base and end.
    pub(super) fn bounded(&self) -> Vec<(u32, [u32; 3])> {
        let variables = (0..).zip(&self.routine.types.variables);
        let bounded = variables.filter(|&(_, &typ)| self.routine.has_bounds(typ));
        let words = bounded.map(|(variable, _)| (variable, self.word(1 + variable)));
        words.filter(|&(_, [.., end])| end != 0).collect()
    }

    pub(super) fn word(&self, word: u32) -> [u32; 3] {
        [0, 1, 2].map(|list| self.routine.memory[list][word as usize])
    }

    /// A variable's value, with the bounds of a register or of any block.
    fn of_variable(&mut self) -> Option<Known> {
        let bounded = self.bounded();
        if bounded.is_empty() {
            return None;
        }
        let (variable, _) = self.random.pick(&bounded);
        Some(self.of(variable))
    }

    /// The value of this variable.
    pub(super) fn of(&mut self, variable: u32) -> Known {
        let [at, base, end] = self.word(1 + variable);
        let typ = self.routine.types.variables[variable as usize];
        Known {
            node: self.read_as(variable, typ),
            typ,
            at,
            base,
            end,
        }
    }

    pub(super) fn address_of_variable(&mut self) -> Option<Known> {
        let types = &self.routine.types;
        let variables = (0..).zip(&types.variables);
        let found = variables.filter_map(|(variable, &typ)| {
            let pointer = types.pointer_to(typ)?;
            Some((variable, pointer))
        });
        let found: Vec<(u32, u32)> = found.collect();
        if found.is_empty() {
            return None;
        }
        let (variable, typ) = self.random.pick(&found);
        let place = self.node(kind::VARIABLE, variable, 0);
        Some(Known {
            node: self.node(kind::ADDRESS, place, 0),
            typ,
            at: 1 + variable,
            base: 1 + variable,
            end: 2 + variable,
        })
    }

    /// The address of a field of the record that a variable points to: its
    /// bounds lie within those of the variable.
    fn address_of_field(&mut self) -> Option<Known> {
        let fields = self.fields_within();
        if fields.is_empty() {
            return None;
        }
        let (variable, base, way) = self.random.pick(&fields);
        let typ = self.routine.types.pointer_to(way.typ)?;
        let record = self.read_as(variable, way.pointer);
        let place = self.node(kind::FIELD, record, way.field?);
        Some(Known {
            node: self.node(kind::ADDRESS, place, 0),
            typ,
            at: base,
            base,
            end: base + way.words,
        })
    }

    /// Variables and fields that are in the bounds of what they point to, each
    /// with the field's place.
    pub(super) fn fields_within(&self) -> Vec<(u32, u32, Way)> {
        let types = &self.routine.types;
        let bounded = self.bounded();
        let mut found = Vec::new();
        for way in types.ways() {
            if way.field.is_none() || types.pointer_to(way.typ).is_none() {
                continue;
            }
            for &(variable, [value, base, end]) in &bounded {
                let place = u64::from(value) + u64::from(way.offset);
                let after = place + u64::from(way.words);
                if u64::from(base) <= place && after <= u64::from(end) {
                    found.push((variable, place as u32, way));
                }
            }
        }
        found
    }

    pub(super) fn new_block(&mut self) -> Known {
        let words = self.random.between(1, 5);
        let unused = self.routine.unused;
        let count = self.constant(words);
        Known {
            node: self.node(kind::MALLOC, count, 0),
            typ: VOID_POINTER,
            at: unused,
            base: unused,
            end: unused + words,
        }
    }

    /// A value that stands in a block, read by way of a variable.
    pub(super) fn fetched(&mut self) -> Option<Known> {
        let held = self.held();
        if held.is_empty() {
            return None;
        }
        let (variable, w) = self.random.pick(&held);
        self.fetch(variable, w)
    }

    /// Words with bounds in the blocks that variables point to.
    pub(super) fn held(&self) -> Vec<(u32, u32)> {
        let mut found = Vec::new();
        for (variable, [_, base, end]) in self.bounded() {
            let held = (base..end).filter(|&w| self.word(w)[2] != 0);
            found.extend(held.map(|w| (variable, w)));
        }
        found
    }

    /// The value in word `w`, which is in this variable's bounds.
    pub(super) fn fetch(&mut self, variable: u32, w: u32) -> Option<Known> {
        let types = &self.routine.types;
        let bounded = (0..types.count()).filter(|&typ| self.routine.has_bounds(typ));
        let ways = bounded.filter_map(|typ| Some([typ, types.pointer_to(typ)?]));
        let ways: Vec<[u32; 2]> = ways.collect();
        if ways.is_empty() {
            return None;
        }
        let [value, ..] = self.word(1 + variable);
        let [typ, pointer] = self.random.pick(&ways);
        let from = self.read_as(variable, pointer);
        let from = self.step_by(from, pointer, w.wrapping_sub(value));
        let place = self.node(kind::DEREF, from, 0);
        let [at, base, end] = self.word(w);
        Some(Known {
            node: self.node(kind::READ, place, 0),
            typ,
            at,
            base,
            end,
        })
    }
}
