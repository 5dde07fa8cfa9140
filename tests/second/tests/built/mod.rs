//! Routines built node by node, so that the number of each is known.

#![allow(dead_code)] // Not every test needs all kinds of nodes.

use crate::ran::words;

/// Routine A's record, of two fields of two ints each. Pointer types: to it,
/// to int, and to a pointer to int. Variables p and q, pointers to int; r, to
/// a record; s, to a pointer to int; and x, int. Blocks begin at word 6.
const HEAD: &str = "1 2 | 2 0 2 0 2 | 3 65536 0 3 | 5 3 3 2 4 0 |";
pub const INT: u32 = 0;
pub const VOID_POINTER: u32 = 1;
pub const RECORD_POINTER: u32 = 2;
pub const INT_POINTER: u32 = 3;
pub const POINTER_POINTER: u32 = 4;
pub const P: u32 = 0;
pub const Q: u32 = 1;
pub const R: u32 = 2;
pub const S: u32 = 3;
pub const X: u32 = 4;

#[derive(Default)]
pub struct Routine {
    nodes: Vec<u32>,
    commands: Vec<u32>,
}

/// Nodes; each function gives the number of the last one that it makes.
impl Routine {
    pub fn node(&mut self, kind: u32, a: u32, b: u32) -> u32 {
        self.nodes.extend([kind, a, b]);
        self.nodes.len() as u32 / 3 - 1
    }

    pub fn variable(&mut self, variable: u32) -> u32 {
        self.node(1, variable, 0)
    }

    pub fn follow(&mut self, value: u32) -> u32 {
        self.node(2, value, 0)
    }

    pub fn field(&mut self, value: u32, field: u32) -> u32 {
        self.node(3, value, field)
    }

    pub fn number(&mut self, word: u32) -> u32 {
        self.node(4, word, 0)
    }

    pub fn sum(&mut self, a: u32, b: u32) -> u32 {
        self.node(5, a, b)
    }

    pub fn read(&mut self, place: u32) -> u32 {
        self.node(6, place, 0)
    }

    pub fn address(&mut self, place: u32) -> u32 {
        self.node(7, place, 0)
    }

    pub fn cast(&mut self, value: u32, typ: u32) -> u32 {
        self.node(8, value, typ)
    }

    pub fn obtain(&mut self, words: u32) -> u32 {
        let words = self.number(words);
        self.node(10, words, 0)
    }

    pub fn copy(&mut self, to: u32, from: u32) -> u32 {
        self.node(11, to, from)
    }

    /// The value of a variable.
    pub fn get(&mut self, variable: u32) -> u32 {
        let place = self.variable(variable);
        self.read(place)
    }

    /// `value + n`
    pub fn plus(&mut self, value: u32, n: u32) -> u32 {
        let n = self.number(n);
        self.sum(value, n)
    }

    /// `*(variable + n)`
    pub fn word_of(&mut self, variable: u32, n: u32) -> u32 {
        let pointer = self.get(variable);
        let pointer = self.plus(pointer, n);
        self.follow(pointer)
    }

    /// `*(int*)number`, with no bounds.
    pub fn forged(&mut self, number: u32) -> u32 {
        let number = self.number(number);
        let pointer = self.cast(number, INT_POINTER);
        self.follow(pointer)
    }

    /// `(record*)((void*)variable + n)`: n counts words.
    pub fn record_at(&mut self, variable: u32, n: u32) -> u32 {
        let pointer = self.get(variable);
        let pointer = self.cast(pointer, VOID_POINTER);
        let pointer = self.plus(pointer, n);
        self.cast(pointer, RECORD_POINTER)
    }

    /// `((record*)((void*)variable + n))->field`: n counts words.
    pub fn field_of(&mut self, variable: u32, n: u32, field: u32) -> u32 {
        let pointer = self.record_at(variable, n);
        self.field(pointer, field)
    }
}

/// Commands.
impl Routine {
    pub fn assign(&mut self, place: u32, value: u32) {
        self.commands.extend([place, value]);
    }

    /// `variable = value`
    pub fn set(&mut self, variable: u32, value: u32) {
        let place = self.variable(variable);
        self.assign(place, value);
    }

    /// `place = 5`
    pub fn store(&mut self, place: u32) {
        let five = self.number(5);
        self.assign(place, five);
    }

    /// `variable = (typ)malloc(words)`
    pub fn block(&mut self, variable: u32, typ: u32, words: u32) {
        let block = self.obtain(words);
        let block = self.cast(block, typ);
        self.set(variable, block);
    }
}

impl Routine {
    /// The words of the table.
    pub fn table(&self) -> Vec<u32> {
        let mut table = words(HEAD);
        table.push(self.nodes.len() as u32 / 3);
        table.extend(&self.nodes);
        table.push(self.commands.len() as u32 / 2);
        table.extend(&self.commands);
        table
    }
}
