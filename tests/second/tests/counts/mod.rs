//! Random cases counted by name.

use second::text::{Answerer, Case};
use std::collections::BTreeMap;

/// How many cases there are of each name.
pub type Counts = BTreeMap<String, u32>;

pub fn count(counts: &mut Counts, name: impl ToString) {
    *counts.entry(name.to_string()).or_default() += 1;
}

pub fn more_than(counts: &Counts, least: &[(&str, u32)]) {
    for &(name, least) in least {
        let found = counts.get(name).copied().unwrap_or(0);
        assert!(found > least, "{name}: {found}");
    }
}

pub fn answer(line: &[u8]) -> String {
    let mut answer = Vec::new();
    Answerer::default().answer(line, &mut answer);
    String::from_utf8_lossy(&answer).into_owned()
}

pub fn answer_to(case: &Case) -> String {
    let mut line = Vec::new();
    case.write(&mut line);
    answer(line.strip_suffix(b"\n").expect("a line"))
}
