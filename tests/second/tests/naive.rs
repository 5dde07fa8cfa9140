//! The machine once more, as plainly as document 01 and requests 1, 2, 4, 6, 8
//! and 9 say it and as slow as that is, against the fast one on random cases.

mod plain;
mod plain_bare;
mod plain_call;
mod plain_run;

use plain::Table;
use plain_run::{call, Cell, Event, RIGHT};
use second::generate;
use second::machine::{self, Verdict};
use second::text::{Call, Case};

/// Compares a case, and tells how many copies its run makes.
fn compare(case: &Case, line: &str) -> usize {
    if case.call == Call::Check {
        let verdict = match Table::check(&case.table) {
            Ok(_) => Verdict::Pass,
            Err(refusal) => Verdict::Refused(refusal),
        };
        assert_eq!(machine::check(&case.table), verdict, "{line}");
        return 0;
    }
    // All three calls, whichever of them the case has.
    compare_bare(case, line);
    let called = call(case, &RIGHT);
    let mut lists = lists(case);
    let [values, bases, ends] = &mut lists;
    let ran = machine::run(
        &case.table,
        &case.inputs,
        &case.registers,
        values,
        bases,
        ends,
    );
    assert_eq!(ran, called.answer, "{line}");
    left(&lists, &called.cells, line);
    let mut lists = self::lists(case);
    let [values, bases, ends] = &mut lists;
    let explained = machine::explain(
        &case.table,
        &case.inputs,
        &case.registers,
        values,
        bases,
        ends,
    );
    assert_eq!(explained, (called.answer, called.told), "{line}");
    left(&lists, &called.cells, line);
    let copies = called.events.iter().filter(|e| matches!(e, Event::Copy(_)));
    copies.count()
}

fn compare_bare(case: &Case, line: &str) {
    let called = plain_bare::call(case, &plain_bare::RIGHT);
    let mut values = vec![7; case.lengths[0] as usize];
    let ran = machine::run_bare(&case.table, &case.inputs, &case.registers, &mut values);
    assert_eq!(ran, called.answer, "{line}");
    match called.words.is_empty() {
        true => assert!(values.iter().all(|&word| word == 7), "{line}"),
        false => assert!(values.into_iter().map(u64::from).eq(called.words), "{line}"),
    }
}

fn lists(case: &Case) -> [Vec<u32>; 3] {
    case.lengths.map(|length| vec![7; length as usize])
}

/// The lists are what a begun run leaves, or what they were.
fn left(lists: &[Vec<u32>; 3], cells: &[Cell], line: &str) {
    for (word, cell) in cells.iter().enumerate() {
        let found = [0, 1, 2].map(|list| u64::from(lists[list][word]));
        assert_eq!(found, *cell, "word {word} of {line}");
    }
    if cells.is_empty() {
        assert!(lists.iter().flatten().all(|&word| word == 7), "{line}");
    }
}

/// As many cases as CASES says (5,000 unless said), from the seed SEED (1).
#[test]
fn random_cases_agree() {
    let number = |name: &str, default: u64| match std::env::var(name) {
        Ok(text) => text.parse().expect(name),
        Err(_) => default,
    };
    let (seed, count) = (number("SEED", 1), number("CASES", 5_000));
    let mut out = Vec::new();
    let mut case = Case::default();
    let (mut compared, mut copies) = (0, 0);
    for index in 0..count {
        out.clear();
        generate::line(seed, index, &mut out);
        let line = out.strip_suffix(b"\n").expect("a line");
        if case.read(line).is_some() {
            copies += compare(&case, &String::from_utf8_lossy(line));
            compared += 1;
        }
    }
    println!("{compared} of {count} lines are cases with {copies} copies, and all agree");
}
