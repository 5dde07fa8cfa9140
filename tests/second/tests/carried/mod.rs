//! What a begun run of edition 2 does with bounds that ints have, and with
//! bounds in sums.

use crate::plain::Table;
use crate::plain_run::{Assign, Called, Cell, Event};
use second::machine::kind;
use second::text::Case;
use std::collections::BTreeSet;

type Names = BTreeSet<&'static str>;

/// Names for a run of a table with the mark.
pub fn names(case: &Case, table: &Table, called: &Called) -> Names {
    let mut names = Names::new();
    let region = |word: usize| region(case, table, word);
    for event in &called.events {
        match event {
            Event::Sum(typ, left, right, step) => names.extend(sum(*typ, *left, *right, *step)),
            Event::Cast(types, cell) => names.extend(cast(*types, *cell)),
            Event::Read(0, word) => names.extend(["read", region(*word)[0]]),
            Event::Assign(assign) if assign.typ == 0 => {
                names.extend(assigned(table, assign, region(assign.word)[1]));
            }
            Event::Obtain(words) => names.extend(obtained(*words)),
            _ => {}
        }
    }
    names
}

/// Names for reading from a word and for keeping an int there.
fn region(case: &Case, table: &Table, word: usize) -> [&'static str; 2] {
    let variables = table.counts[3];
    let registers = case.registers.len() - 1 - 2 * case.registers[0] as usize;
    match word {
        w if w <= variables => ["read from a variable", "kept in a variable"],
        w if w <= variables + registers => ["read from a register", "kept in a register"],
        _ => ["read from a block", "kept in a block"],
    }
}

fn sum(typ: u32, [_, _, left]: Cell, [_, _, right]: Cell, step: u64) -> Names {
    let mut names = Names::new();
    match (left != 0, right != 0) {
        (true, true) if typ == 0 => names.extend(["both have bounds", "both, two ints"]),
        (true, true) => names.extend(["both have bounds", "both, a pointer and an int"]),
        (true, false) if typ == 0 => names.extend(["left bounds, an int's"]),
        (false, true) if typ == 0 => names.extend(["right bounds", "right bounds, two ints"]),
        (false, true) => names.extend(["right bounds", "right bounds, a pointer and an int"]),
        (false, false) => names.extend(["neither has bounds"]),
        (true, false) => {}
    }
    if left == 0 && right != 0 && step > 1 {
        names.insert("right bounds, by records");
    }
    names
}

/// A cast of a value that has bounds.
fn cast([from, to]: [u32; 2], [_, _, end]: Cell) -> Option<&'static str> {
    match (from, to) {
        _ if end == 0 => None,
        (0, 0) => Some("int made int"),
        (0, _) => Some("int made pointer"),
        (_, 0) => Some("pointer made int"),
        _ => None,
    }
}

fn obtained(words: Cell) -> Option<&'static str> {
    match words {
        [_, _, 0] => None,
        [0, ..] => Some("none by a 0 with bounds"),
        _ => Some("a block by a number with bounds"),
    }
}

/// An int assigned, with bounds or over bounds.
fn assigned(table: &Table, assign: &Assign, kept: &'static str) -> Names {
    let [_, before @ ..] = assign.before;
    let [_, after @ ..] = assign.value;
    let [field, ..] = table.node(assign.node);
    let mut names = Names::new();
    if after[1] != 0 {
        names.extend(["kept", kept]);
    }
    if after[1] != 0 && field == kind::FIELD {
        names.insert("kept in a field");
    }
    if before[1] != 0 && before != after {
        names.insert(match after[1] {
            0 => "over bounds, without any",
            _ => "over other bounds",
        });
    }
    names
}
