//! What is special about an abort: the check not passed, the bounds it had, and
//! where in its command it stands.

use crate::plain::Table;
use second::machine::{self, kind, Answer, Explanation};
use second::text::Case;
use std::collections::BTreeSet;

/// The command of an abort and its explanation. None for other endings.
pub fn explained(case: &Case) -> Option<(u32, Explanation)> {
    let [mut values, mut bases, mut ends] = case.lengths.map(|length| vec![7; length as usize]);
    let (answer, explanation) = machine::explain(
        &case.table,
        &case.inputs,
        &case.registers,
        &mut values,
        &mut bases,
        &mut ends,
    );
    match answer {
        Answer::Abort { command, .. } => Some((command, explanation?)),
        _ => None,
    }
}

/// Names for an abort.
pub fn names(case: &Case, command: u32, told: &Explanation) -> BTreeSet<&'static str> {
    let table = Table::check(&case.table).expect("a begun run");
    let mut names = BTreeSet::from([kind_and_reason(&table, told)]);
    names.extend(place(told));
    names.extend(origin(&table, &case.registers, told));
    names.extend(position(&table, command, told.node));
    names
}

fn kind_and_reason(table: &Table, told: &Explanation) -> &'static str {
    let [kind, ..] = table.node(told.node as usize);
    match (kind, told.reason as u32) {
        (kind::DEREF, 1) => "follow, no bounds",
        (kind::DEREF, 2) => "follow, before the base",
        (kind::DEREF, _) => "follow, past the end",
        (kind::COPY, 1) => "copy, no bounds",
        (kind::COPY, 2) => "copy, before the base",
        (kind::COPY, _) => "copy, past the end",
        (_, 1) => "field, no bounds",
        (_, 2) => "field, before the base",
        _ => "field, past the end",
    }
}

/// How the words wanted lie to the bounds, where there are some.
fn place(told: &Explanation) -> Option<&'static str> {
    const ALL: u64 = 1 << 32;
    let [base, end] = [told.base, told.end].map(u64::from);
    let after = told.place + u64::from(told.words);
    match told.place {
        _ if end == 0 => None,
        w if w < base && base < after => Some("across the base"),
        w if w < base => Some("wholly before the base"),
        w if w < end => Some("across the end"),
        w if w >= ALL + base && after <= ALL + end => {
            Some("above 32 bits, and in bounds modulo 2^32")
        }
        w if w >= ALL => Some("above 32 bits"),
        w if w >= 1 << 31 => Some("far past the end"),
        _ => Some("past the end"),
    }
}

/// In what the bounds lie, where there are some.
fn origin(table: &Table, list: &[u32], told: &Explanation) -> Vec<&'static str> {
    let variables = table.counts[3] as u32;
    let registers = list.len() as u32 - 1 - 2 * list[0];
    let first_block = 1 + variables + registers;
    let of = match told.first {
        0 => return Vec::new(),
        first if first <= variables => "of a variable",
        first if first == 1 + variables && registers > 0 => "of the first register",
        first if first < first_block => "of a later register",
        first if first == first_block => "of the first block",
        _ => "of a later block",
    };
    match told.base == told.first {
        true => vec![of],
        false => vec![of, "of a field within"],
    }
}

/// What stands above and below the check in its command, and after that.
fn position(table: &Table, command: u32, node: u32) -> BTreeSet<&'static str> {
    let [_, value] = [0, 1].map(|word| table.word(5, command as usize, word));
    let mut names = BTreeSet::new();
    let mut at = node;
    while let Some(parent) = parent(table, at) {
        names.insert(match table.node(parent as usize) {
            [kind::DEREF | kind::FIELD, ..] => "in the pointer of another place",
            [kind::SUM, a, _] if a == at => "on the left of a sum",
            [kind::SUM, ..] => "on the right of a sum",
            [kind::CAST, ..] => "below a cast",
            [kind::MALLOC, ..] => "in a count of words",
            [kind::COPY, ..] => "in an operand of a copy",
            _ => "read, or its address taken",
        });
        at = parent;
    }
    names.insert(match at == value {
        true => "in a command's value",
        false => "in a command's place",
    });
    if has_check_below(table, node) {
        names.insert("after a check in its own pointer");
    }
    if command as usize + 1 < table.counts[5] {
        names.insert("before the last command");
    }
    names
}

fn children([kind, a, b]: [u32; 3]) -> Vec<u32> {
    match kind {
        kind::VARIABLE | kind::CONSTANT | kind::SIZE => Vec::new(),
        kind::SUM | kind::COPY => vec![a, b],
        _ => vec![a],
    }
}

pub fn parent(table: &Table, node: u32) -> Option<u32> {
    let above = node + 1..table.counts[4] as u32;
    let mut parents = above.filter(|&p| children(table.node(p as usize)).contains(&node));
    parents.next()
}

fn has_check_below(table: &Table, node: u32) -> bool {
    children(table.node(node as usize))
        .into_iter()
        .any(|child| {
            let [kind, ..] = table.node(child as usize);
            matches!(kind, kind::DEREF | kind::FIELD | kind::COPY) || has_check_below(table, child)
        })
}
