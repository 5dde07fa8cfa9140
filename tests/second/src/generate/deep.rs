//! Deep trees: one value of up to some hundred nodes over a few commands.

use super::random::Random;
use super::routine::Routine;
use super::types::{Types, INT, RECORD, VOID_POINTER};
use crate::machine::kind;

/// The pointer entries of a deep routine: to int, and to a record of two ints.
const POINTER: u32 = 2;
const ROW: u32 = 3;

pub fn routine(random: &mut Random) -> Routine {
    let types = Types {
        records: vec![vec![[INT, 1], [INT, 1]]],
        pointers: vec![INT, RECORD],
        variables: vec![POINTER, INT, VOID_POINTER, ROW],
    };
    let room = random.below(37);
    let routine = Routine::new(random, types, room, 33);
    let goal = random.pick(&[40, 100, 300, 480, 505]);
    let mut deep = Deep { routine, random };
    if !deep.has_register() || deep.random.percent(30) {
        deep.block();
    }
    deep.chain(goal);
    deep.routine
}

struct Deep<'r> {
    routine: Routine,
    random: &'r mut Random,
}

impl Deep<'_> {
    fn node(&mut self, kind: u32, a: u32, b: u32) -> u32 {
        self.routine.nodes.push([kind, a, b]);
        self.routine.nodes.len() as u32 - 1
    }

    fn constant(&mut self, word: u32) -> u32 {
        self.node(kind::CONSTANT, word, 0)
    }

    fn read(&mut self, variable: u32) -> u32 {
        let place = self.node(kind::VARIABLE, variable, 0);
        self.node(kind::READ, place, 0)
    }

    /// Whether the pointer starts at a register.
    fn has_register(&self) -> bool {
        let [_, _, ends] = &self.routine.memory;
        ends[1] != 0
    }

    /// A block for the pointer.
    fn block(&mut self) {
        let words = self.random.between(1, 6);
        let first = self.constant(words);
        let first = self.node(kind::MALLOC, first, 0);
        let value = self.node(kind::CAST, first, POINTER);
        self.assign(0, value);
    }

    /// The nodes of the place are made last, and the place is still worked
    /// out first: the order of numbers is not the order of steps.
    fn assign(&mut self, variable: u32, value: u32) {
        let place = self.node(kind::VARIABLE, variable, 0);
        self.routine.commands.push([place, value]);
    }

    /// A value that wraps another again and again, then its assignment.
    fn chain(&mut self, goal: u32) {
        let style = self.random.below(4);
        let (mut value, mut typ) = self.innermost();
        while (self.routine.nodes.len() as u32) < goal {
            (value, typ) = match typ {
                INT => self.around_int(value, style),
                VOID_POINTER => self.cast(value, &[POINTER, ROW]),
                ROW => self.around_row(value),
                _ => self.around_pointer(value, style),
            };
        }
        let variable = match typ {
            POINTER => 0,
            INT => 1,
            VOID_POINTER => 2,
            _ => 3,
        };
        self.assign(variable, value);
    }

    /// The pointer; or a word next to its block, or far from it, so that the
    /// run ends there and all the nodes around it are never worked out.
    fn innermost(&mut self) -> (u32, u32) {
        let value = self.read(0);
        if self.random.percent(80) {
            return (value, POINTER);
        }
        let value = self.step(value, &[u32::MAX, u32::MAX, 6, 1 << 31]);
        let place = self.node(kind::DEREF, value, 0);
        match self.random.percent(50) {
            true => (self.node(kind::READ, place, 0), INT),
            false => (self.node(kind::ADDRESS, place, 0), POINTER),
        }
    }

    fn around_int(&mut self, value: u32, style: u32) -> (u32, u32) {
        let to_pointer = if style == 0 { 2 } else { 15 };
        match self.random.weighted(&[30, 30, 20, 6, to_pointer]) {
            0 => {
                let word = self.random.number();
                let b = self.constant(word);
                (self.node(kind::SUM, value, b), INT)
            }
            1 => {
                let word = self.random.number();
                let a = self.constant(word);
                (self.node(kind::SUM, a, value), INT)
            }
            2 => (self.node(kind::CAST, value, INT), INT),
            3 => {
                let a = self.read(1);
                (self.node(kind::SUM, a, value), INT)
            }
            _ if style == 1 => (self.node(kind::MALLOC, value, 0), VOID_POINTER),
            // It may have bounds.
            _ if self.routine.marked && self.random.percent(60) => {
                self.cast(value, &[VOID_POINTER, POINTER, ROW])
            }
            // Off to where the block is: the number becomes an offset.
            _ => {
                let a = self.read(0);
                (self.node(kind::SUM, a, value), POINTER)
            }
        }
    }

    fn around_pointer(&mut self, value: u32, style: u32) -> (u32, u32) {
        let to_int = if style == 2 { 1 } else { 8 };
        let made_int = if self.routine.marked { 15 } else { 3 };
        match self.random.weighted(&[25, 25, 20, to_int, made_int]) {
            0 => {
                let place = self.node(kind::DEREF, value, 0);
                (self.node(kind::ADDRESS, place, 0), POINTER)
            }
            1 => (self.step(value, &[0, 0, 1, u32::MAX]), POINTER),
            2 => self.cast(value, &[VOID_POINTER, POINTER, ROW]),
            3 => {
                let place = self.node(kind::DEREF, value, 0);
                (self.node(kind::READ, place, 0), INT)
            }
            _ => (self.node(kind::CAST, value, INT), INT),
        }
    }

    /// A step is two words here, and 2^31 steps lead nowhere. A copy is of the
    /// pointer's first two words, or onto them.
    fn around_row(&mut self, value: u32) -> (u32, u32) {
        match self.random.weighted(&[55, 5, 40, 8]) {
            0 => (self.step(value, &[0, 1 << 31, 1, u32::MAX]), ROW),
            1 => {
                let field = self.random.below(2);
                let place = self.node(kind::FIELD, value, field);
                (self.node(kind::ADDRESS, place, 0), POINTER)
            }
            2 => self.cast(value, &[VOID_POINTER, POINTER]),
            _ => {
                let other = self.read(0);
                let other = self.node(kind::CAST, other, ROW);
                let [a, b] = self.random.pick(&[[value, other], [other, value]]);
                (self.node(kind::COPY, a, b), INT)
            }
        }
    }

    fn step(&mut self, value: u32, numbers: &[u32]) -> u32 {
        let word = self.random.pick(numbers);
        let b = self.constant(word);
        self.node(kind::SUM, value, b)
    }

    fn cast(&mut self, value: u32, types: &[u32]) -> (u32, u32) {
        let typ = self.random.pick(types);
        (self.node(kind::CAST, value, typ), typ)
    }
}
