//! What is added to what in a case whose run is begun.

use crate::plain::Table;
use second::text::Case;
use std::collections::BTreeSet;

/// All sums of a pointer to a record of more than one word have this name.
pub const BY_RECORDS: &str = "by records";

/// Names for the sums of a case, as far as records have to do with them.
pub fn names(case: &Case) -> BTreeSet<&'static str> {
    let mut names = BTreeSet::new();
    let table = Table::check(&case.table).expect("a begun run");
    let sums = (0..table.counts[4]).map(|i| table.node(i));
    for [_, a, b] in sums.filter(|&[kind, ..]| kind == 5) {
        let (_, left) = table.nodes[a as usize];
        let step = table.step(left);
        if step == 1 {
            names.extend(by_words(&table, a, left));
            continue;
        }
        names.extend([BY_RECORDS, by_records(&table, b, step)]);
        if handed_in(&table, a, &case.registers) >= 2 * step {
            names.insert("along a register");
        }
    }
    names
}

/// Where steps by records lead: near in one of three ways, or not.
fn by_records(table: &Table, b: u32, step: u64) -> &'static str {
    const NEAR: u64 = 65_536;
    const ALL: u64 = 1 << 32;
    let [4, number, _] = table.node(b as usize) else {
        return "no constant";
    };
    let number = u64::from(number);
    let words = number * step % ALL;
    match number {
        0 => "nowhere",
        _ if number * step < NEAR => "on",
        _ if (ALL - number) * step < NEAR => "back",
        _ if words < NEAR || ALL - words < NEAR => "round",
        _ => "far",
    }
}

/// A sum that goes by words next to records.
fn by_words(table: &Table, a: u32, left: u32) -> Option<&'static str> {
    let [kind, from, _] = table.node(a as usize);
    let cast = kind == 8 && table.step(table.nodes[from as usize].1) > 1;
    match (left, table.target(left)) {
        (0, _) if cast => Some("record pointer made int"),
        (1, _) if cast => Some("record pointer made void pointer"),
        (_, Some(0)) if cast => Some("record pointer made int pointer"),
        (_, Some(to)) if to < 65_536 && table.step(to) > 1 => Some("pointer to record pointer"),
        _ => None,
    }
}

/// How long the register is that value `a`, a variable read, starts at.
fn handed_in(table: &Table, a: u32, list: &[u32]) -> u64 {
    let [6, place, _] = table.node(a as usize) else {
        return 0;
    };
    let [1, variable, _] = table.node(place as usize) else {
        return 0;
    };
    let mut rest = &list[1..];
    while let [named, length, after @ ..] = rest {
        if *named == variable {
            return u64::from(*length);
        }
        rest = &after[*length as usize..];
    }
    0
}
