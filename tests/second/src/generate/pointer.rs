//! Pointers chosen with an eye on what the memory holds so far.

use super::expression::Expressions;
use super::types::{INT, RECORD};
use crate::machine::kind;

impl Expressions<'_> {
    /// A read of a variable, cast to `typ` where it has another type.
    /// Those that have bounds are taken first.
    pub(super) fn variable_with_bounds(&mut self, typ: u32) -> u32 {
        match self.bounded_variable(typ) {
            Some(variable) => self.read_as(variable, typ),
            None => self.fresh(typ),
        }
    }

    pub(super) fn bounded_variable(&mut self, typ: u32) -> Option<u32> {
        let routine = &self.routine;
        let types = &routine.types.variables;
        let bounded = |&n: &u32| routine.memory[2][1 + n as usize] != 0;
        let all = (0..types.len() as u32).filter(|&n| routine.has_bounds(types[n as usize]));
        let mut good: Vec<u32> = all.clone().filter(bounded).collect();
        if self.random.percent(70) {
            let same = |&n: &u32| types[n as usize] == typ;
            let of_type: Vec<u32> = good.iter().copied().filter(same).collect();
            good = if of_type.is_empty() { good } else { of_type };
        }
        if good.is_empty() || self.random.percent(5) {
            good = all.collect();
        }
        (!good.is_empty()).then(|| self.random.pick(&good))
    }

    pub(super) fn read_as(&mut self, variable: u32, typ: u32) -> u32 {
        let place = self.node(kind::VARIABLE, variable, 0);
        let value = self.node(kind::READ, place, 0);
        let own = self.routine.types.variables[variable as usize];
        self.cast_from(own, value, typ)
    }

    /// A value of type `from` as one of `typ`.
    pub(super) fn cast_from(&mut self, from: u32, value: u32, typ: u32) -> u32 {
        match from == typ {
            true => value,
            false => self.node(kind::CAST, value, typ),
        }
    }

    /// The address of a place, cast where no such pointer is at hand.
    pub(super) fn address(&mut self, typ: u32) -> u32 {
        let types = &self.routine.types;
        let own = types.target(typ).filter(|&target| target < RECORD);
        let choices: Vec<u32> = (0..types.count())
            .filter(|&t| types.pointer_to(t).is_some())
            .collect();
        let target = match own {
            Some(target) if self.random.percent(60) => target,
            _ if choices.is_empty() => return self.fresh(typ),
            _ => self.random.pick(&choices),
        };
        let pointer = self.routine.types.pointer_to(target);
        let (Some(pointer), Some(place)) = (pointer, self.place(target)) else {
            return self.fresh(typ);
        };
        let a = self.node(kind::ADDRESS, place, 0);
        self.cast_from(pointer, a, typ)
    }

    /// A number made a pointer: of a word that exists, or of none.
    pub(super) fn forged(&mut self, typ: u32) -> u32 {
        let unused = self.routine.unused;
        let a = match self.random.below(4) {
            0 => {
                let word = self.random.below(unused + 2);
                self.constant(word)
            }
            1 => self.int(),
            2 => {
                let a = self.any_pointer();
                self.node(kind::CAST, a, INT)
            }
            _ => {
                let word = self.random.number();
                self.constant(word)
            }
        };
        self.node(kind::CAST, a, typ)
    }
}
