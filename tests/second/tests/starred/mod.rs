//! The starred runs of document 01 that have commands: routines over one
//! variable p, pointer to int, in memory of 4 words.

#![allow(dead_code)] // Not every test runs them with bounds.

use crate::ran::Ran;

#[derive(Default)]
pub struct Routine {
    nodes: Vec<u32>,
    commands: Vec<u32>,
}

/// Pointer entries: to int, and to a pointer to int, which `&p` needs.
const HEAD: [u32; 7] = [0, 0, 2, INT, POINTER, 1, POINTER];
const INT: u32 = 0;
const POINTER: u32 = 2;

impl Routine {
    fn node(&mut self, kind: u32, a: u32, b: u32) -> u32 {
        self.nodes.extend([kind, a, b]);
        self.nodes.len() as u32 / 3 - 1
    }

    fn number(&mut self, word: u32) -> u32 {
        self.node(4, word, 0)
    }

    fn variable(&mut self) -> u32 {
        self.node(1, 0, 0)
    }

    fn p(&mut self) -> u32 {
        let variable = self.variable();
        self.node(6, variable, 0)
    }

    /// `p + n`
    fn p_plus(&mut self, n: u32) -> u32 {
        let p = self.p();
        let n = self.number(n);
        self.node(5, p, n)
    }

    fn deref(&mut self, value: u32) -> u32 {
        self.node(2, value, 0)
    }

    fn cast(&mut self, value: u32, typ: u32) -> u32 {
        self.node(8, value, typ)
    }

    fn malloc(&mut self, n: u32) -> u32 {
        let n = self.number(n);
        self.node(10, n, 0)
    }

    fn assign(&mut self, place: u32, value: u32) {
        self.commands.extend([place, value]);
    }

    /// `*(p + n) = word`
    pub fn store(mut self, n: u32, word: u32) -> Routine {
        let pointer = self.p_plus(n);
        let place = self.deref(pointer);
        let value = self.number(word);
        self.assign(place, value);
        self
    }

    /// The words of the table, in the edition of those that stand before the
    /// sections.
    pub fn table(&self, front: &[u32]) -> Vec<u32> {
        let mut table = [front, &HEAD].concat();
        table.push(self.nodes.len() as u32 / 3);
        table.extend(&self.nodes);
        table.push(self.commands.len() as u32 / 2);
        table.extend(&self.commands);
        table
    }

    /// A run in that edition.
    pub fn run(&self, front: &[u32]) -> Ran {
        Ran::new(&self.table(front), &[0], &[0], 4)
    }
}

/// `p = (int*)malloc(n)`
pub fn block(n: u32) -> Routine {
    let mut routine = Routine::default();
    let place = routine.variable();
    let block = routine.malloc(n);
    let block = routine.cast(block, POINTER);
    routine.assign(place, block);
    routine
}

pub fn m() -> Routine {
    block(2)
}

/// m; `p = (int*)2`; `*p = 5`
pub fn forged_pointer() -> Routine {
    let mut routine = m();
    let place = routine.variable();
    let two = routine.number(2);
    let two = routine.cast(two, POINTER);
    routine.assign(place, two);
    routine.store(0, 5)
}

/// m; `p = &*(p+1)`; `*(p+4294967295) = 7`
pub fn address_of_an_element() -> Routine {
    let mut routine = m();
    let place = routine.variable();
    let element = routine.p_plus(1);
    let element = routine.deref(element);
    let address = routine.node(7, element, 0);
    routine.assign(place, address);
    routine.store(u32::MAX, 7)
}

/// m; `*(int*)&p = 3`; `*p = 8`
pub fn int_store_over_a_pointer() -> Routine {
    let mut routine = m();
    let variable = routine.variable();
    let address = routine.node(7, variable, 0);
    let address = routine.cast(address, POINTER);
    let place = routine.deref(address);
    let three = routine.number(3);
    routine.assign(place, three);
    routine.store(0, 8)
}

/// m; `*(p+2) = (int)malloc(9)`
pub fn place_before_value() -> Routine {
    let mut routine = m();
    let pointer = routine.p_plus(2);
    let place = routine.deref(pointer);
    let block = routine.malloc(9);
    let value = routine.cast(block, INT);
    routine.assign(place, value);
    routine
}

/// `*((int*)malloc(1)+1) = 0`
pub fn block_of_an_aborted_command() -> Routine {
    let mut routine = Routine::default();
    let block = routine.malloc(1);
    let block = routine.cast(block, POINTER);
    let one = routine.number(1);
    let past = routine.node(5, block, one);
    let place = routine.deref(past);
    let zero = routine.number(0);
    routine.assign(place, zero);
    routine
}
