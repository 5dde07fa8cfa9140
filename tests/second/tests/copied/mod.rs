//! What the copies of a begun run are like, and which wrong ways to copy the
//! run would tell apart.

use crate::aborts::parent;
use crate::plain::Table;
use crate::plain_run::{as_they_were, call, Called, Cell, Copy, Copying, Event, Rules, RIGHT};
use second::machine::kind;
use second::text::{Call, Case};
use std::collections::BTreeSet;

type Names = BTreeSet<&'static str>;

/// Names for the copies of a case.
pub fn names(case: &Case, right: &Called) -> Names {
    let table = Table::check(&case.table).expect("a begun run");
    let mut names = Names::new();
    for event in &right.events {
        if let Event::Copy(copy) = event {
            names.extend(of(copy, &table, case));
        }
    }
    if names.contains("completed") {
        names.extend(onto_its_way(&right.events));
        names.extend(told_apart(case, right));
    }
    names
}

/// A name for a refusal that is about a copy.
pub fn refused(case: &Case) -> Option<&'static str> {
    let (table, found) = Table::read(&case.table);
    let refusal = found
        .err()
        .filter(|refusal| matches!(refusal.number, 7 | 8))?;
    let at = refusal.place.checked_sub(table.place(4, 0, 0))?;
    // The node at fault is the first without a type.
    let node = table.nodes.len();
    if node == table.counts[4] || table.node(node)[0] != kind::COPY {
        return None;
    }
    let [_, a, b] = table.node(node);
    let typ = |child: u32| table.nodes[child as usize].1;
    let known = |child: u32| (child as usize) < node;
    match (refusal.number, at % 3) {
        (7, 1) if known(a) => Some("refused, a is a place"),
        (7, 1) => Some("refused, a is unknown"),
        (7, 2) if known(b) => Some("refused, b is a place"),
        (7, 2) => Some("refused, b is unknown"),
        (8, 0) => Some(misfit(&table, typ(a), typ(b))),
        _ => None,
    }
}

/// Why two types are no two pointers to one record.
fn misfit(table: &Table, a: u32, b: u32) -> &'static str {
    let record = |typ: u32| table.target(typ).is_some_and(|target| target >= 65_536);
    match (record(a), record(b)) {
        (true, true) => "refused, two records",
        (true, false) => "refused, b points to no record",
        (false, true) => "refused, a points to no record",
        _ if a != b => "refused, two types and no record",
        _ if a == 0 => "refused, two ints",
        _ if a == 1 => "refused, two pointers to void",
        _ => "refused, two pointers to a type",
    }
}

fn of(copy: &Copy, table: &Table, case: &Case) -> Names {
    let passes = |[v, base, end]: Cell| base <= v && v + copy.words <= end;
    let mut names = match (passes(copy.to), passes(copy.from)) {
        (true, true) => completed(copy, table, case),
        (true, false) => Names::from(["b's check", reason(copy.from)]),
        (false, true) => Names::from(["a's check", reason(copy.to)]),
        (false, false) => Names::from(["both checks", reason(copy.to)]),
    };
    if names.contains("completed") {
        names.extend(position(table, copy.node as u32));
        return names;
    }
    let failed = if passes(copy.to) { copy.from } else { copy.to };
    names.extend(not_passed(copy, failed));
    if case.call == Call::Explain {
        names.insert("explained");
    }
    names
}

fn reason([v, base, end]: Cell) -> &'static str {
    match end {
        0 => "no bounds",
        _ if v < base => "before the base",
        _ => "past the end",
    }
}

/// What is special about a check that is not passed.
fn not_passed(copy: &Copy, [v, base, end]: Cell) -> Names {
    let mut names = Names::new();
    let after = v + copy.words;
    if v < end && after > end && v >= base {
        names.insert("only the first words in bounds");
    }
    if v < base && after > base {
        names.insert("only the last words in bounds");
    }
    if v >= base && after >= 1 << 32 && after % (1 << 32) <= end {
        names.insert("in bounds modulo 2^32");
    }
    if copy.obtained > 0 {
        names.insert("after a block was obtained");
    }
    names
}

fn completed(copy: &Copy, table: &Table, case: &Case) -> Names {
    let ([to, ..], [from, ..]) = (copy.to, copy.from);
    let mut names = Names::from(["completed"]);
    names.insert(match to.abs_diff(from) {
        0 => "onto itself",
        d if d >= copy.words => "apart",
        _ if to < from => "a below b, overlapping",
        _ => "a above b, overlapping",
    });
    names.insert(match copy.words {
        1 => "of one word",
        2..1_000 => "of some words",
        _ => "of thousands of words",
    });
    let variables = table.counts[3] as u64;
    let registers = case.registers.len() as u64 - 1 - 2 * u64::from(case.registers[0]);
    for place in [to, from] {
        names.insert(match place {
            w if w <= variables => "over a variable",
            w if w <= variables + registers => "in a register",
            _ => "in a block",
        });
    }
    if by_records(table, copy.node) {
        names.insert("by steps of records");
    }
    names
}

/// Whether one of the pointers is a sum that goes by records.
fn by_records(table: &Table, node: usize) -> bool {
    let [_, a, b] = table.node(node);
    [a, b].into_iter().any(|child| {
        let [kind, ..] = table.node(child as usize);
        let (_, typ) = table.nodes[child as usize];
        kind == kind::SUM && table.step(typ) > 1
    })
}

/// What the copy's number is for.
fn position(table: &Table, node: u32) -> Names {
    let Some(above) = parent(table, node) else {
        return Names::from(["assigned"]);
    };
    let mut names = Names::new();
    let [kind, a, _] = table.node(above as usize);
    let (_, left) = table.nodes[a as usize];
    names.insert(match kind {
        kind::SUM if left == 0 => "in a sum",
        kind::SUM => "in an index",
        kind::MALLOC => "in a count of words",
        _ => "below a cast",
    });
    let mut at = Some(above);
    while let Some(node) = at {
        if table.node(node as usize)[0] == kind::COPY {
            names.insert("in an operand of a copy");
        }
        at = parent(table, node);
    }
    names
}

/// Whether a copy in a command's value changes what was read, with bounds, on
/// the way to the command's place.
fn onto_its_way(events: &[Event]) -> Option<&'static str> {
    let mut way = Vec::new();
    let mut placed = false;
    for event in events {
        match event {
            Event::Command => (placed, way) = (false, Vec::new()),
            Event::Placed => placed = true,
            Event::Read(_, word) if !placed => way.push(*word),
            Event::Copy(copy) if placed && way.iter().any(|w| copy.changed.contains(w)) => {
                return Some("onto a pointer that led to the place");
            }
            _ => {}
        }
    }
    None
}

/// Wrong ways to copy that give another answer. Where no bounds are moved and
/// the run then ends elsewhere, it followed some that were.
fn told_apart(case: &Case, right: &Called) -> Names {
    let wrong: [(&'static str, Copying); 3] = [
        ("not the first word first", first_word_first),
        ("not the last word first", last_word_first),
        ("not values alone", values_alone),
    ];
    let mut names = Names::new();
    for (name, copying) in wrong {
        let rules = Rules { copying, ..RIGHT };
        let other = call(case, &rules);
        let ending = other.ends_apart(right);
        if ending || other.cells != right.cells {
            names.insert(name);
        }
        if ending && name == "not values alone" {
            names.insert("moved bounds are followed");
        }
    }
    names
}

fn first_word_first(cells: &mut [Cell], from: usize, to: usize, words: usize) {
    (0..words).for_each(|i| cells[to + i] = cells[from + i]);
}

fn last_word_first(cells: &mut [Cell], from: usize, to: usize, words: usize) {
    (0..words)
        .rev()
        .for_each(|i| cells[to + i] = cells[from + i]);
}

fn values_alone(cells: &mut [Cell], from: usize, to: usize, words: usize) {
    let before = cells[to..to + words].to_vec();
    as_they_were(cells, from, to, words);
    for (cell, [_, base, end]) in cells[to..].iter_mut().zip(before) {
        *cell = [cell[0], base, end];
    }
}
