//! About a third of random cases is marked, their marks are damaged in every
//! way, their ints carry bounds everywhere, and each wrong rule for edition 2 is
//! told apart by many.

mod carried;
mod counts;
mod plain;
mod plain_call;
mod plain_run;
mod wrongly;

use counts::{answer_to, count, more_than, Counts};
use plain::Table;
use plain_run::{call, RIGHT};
use second::generate;
use second::text::{Call, Case};

const COUNT: u64 = 10_000;
const MARK: u32 = u32::MAX;
/// The most words of a table, the mark and its edition among them.
const LARGEST: usize = 2_472;

#[derive(Default)]
struct Spread {
    cases: u32,
    marked: u32,
    /// What tables begin with, and other things about marks.
    marks: Counts,
    /// Answers to marked cases.
    answers: Counts,
    /// Explanations of marked cases.
    explanations: Counts,
    /// What marked runs do with bounds.
    carried: Counts,
    /// Wrong rules told apart, and by another ending.
    wrong: Counts,
    endings: Counts,
    /// Routines in both editions.
    both: Counts,
}

fn spread() -> Spread {
    let mut spread = Spread::default();
    let mut before = None;
    for index in 0..COUNT {
        let mut line = Vec::new();
        generate::line(1, index, &mut line);
        let mut case = Case::default();
        let found = case.read(line.strip_suffix(b"\n").expect("a line"));
        let case = found.map(|()| case);
        if let Some(case) = &case {
            spread.add(case);
        }
        if index % 10 == 9 {
            spread.pair(before, case.as_ref());
        }
        before = case;
    }
    spread
}

impl Spread {
    fn add(&mut self, case: &Case) {
        self.cases += 1;
        for name in fronts(&case.table) {
            count(&mut self.marks, name);
        }
        let marked = case.table.first() == Some(&MARK);
        self.marked += u32::from(marked);
        if case.call == Call::Bare {
            return; // What a bare run does is the same in both editions.
        }
        let answer = answer_to(case);
        let mut words = answer.split_whitespace();
        let (first, number) = (words.next(), words.next());
        let ending = first.expect("a word");
        let begun = matches!(ending, "done" | "abort" | "noroom");
        if begun {
            self.run(case, marked);
        }
        if !marked {
            return;
        }
        match (ending, number) {
            ("refused", Some(number)) => self.refused(case, number),
            _ => count(&mut self.answers, ending),
        }
        if begun && case.call == Call::Explain {
            let told = answer.split(" ; ").nth(2).expect("an explanation");
            let reason = told.rsplit(' ').nth(1).unwrap_or("none");
            count(&mut self.explanations, reason);
        }
    }

    fn run(&mut self, case: &Case, marked: bool) {
        let right = call(case, &RIGHT);
        let table = Table::check(&case.table).expect("a begun run");
        if marked {
            for name in carried::names(case, &table, &right) {
                count(&mut self.carried, name);
            }
        }
        for (name, ending) in wrongly::told_apart(case, marked, &right) {
            count(&mut self.wrong, name);
            if ending {
                count(&mut self.endings, name);
            }
        }
    }

    /// A marked case that is turned away.
    fn refused(&mut self, case: &Case, number: &str) {
        count(&mut self.answers, format!("refused {number}"));
        match number.parse() {
            Ok(1) if case.table == [MARK] => count(&mut self.wrong, "the mark alone is no 1"),
            Ok(1..=9) => count(&mut self.wrong, "a place leaves the mark out"),
            Ok(10..=15) => count(&mut self.wrong, "a place of the call counts the mark"),
            Ok(16) => {
                if wrongly::sixteen_hides_another(&case.table) {
                    count(&mut self.wrong, "16 after another refusal");
                }
                if case.call == Call::Check {
                    count(&mut self.wrong, "the check alone gives no 16");
                }
            }
            other => panic!("refused {other:?}"),
        }
    }

    /// Two cases that differ in their editions alone.
    fn pair(&mut self, before: Option<Case>, case: Option<&Case>) {
        let (Some(before), Some(case)) = (before, case) else {
            return;
        };
        let marked = |case: &Case| case.table.first() == Some(&MARK);
        if marked(&before) == marked(case) {
            return;
        }
        count(&mut self.both, "in both editions");
        let answers = [&before, case].map(answer_to);
        if !answers.iter().all(|answer| answer.contains(" ; ")) {
            return;
        }
        if case.call == Call::Bare {
            count(&mut self.both, "run bare in both editions");
            assert_eq!(answers[0], answers[1]);
            return;
        }
        count(&mut self.both, "run in both editions");
        if answers[0] != answers[1] {
            count(&mut self.both, "run differently");
        }
    }
}

/// What a table begins with, and where else it has a mark.
fn fronts(table: &[u32]) -> Vec<&'static str> {
    let mut names = vec![match table {
        [MARK] => "M alone",
        [MARK, 2] => "M 2 alone",
        [MARK, 2, MARK, 2, ..] => "M 2 M 2",
        [MARK, 2, MARK, ..] => "M 2 M",
        [MARK, 2, ..] => "M 2",
        [MARK, 0, ..] => "M 0",
        [MARK, 1, ..] => "M 1",
        [MARK, 3, ..] => "M 3",
        [MARK, MARK, ..] => "M M",
        [MARK, ..] => "M and any number",
        [2, MARK, ..] => "2 M",
        _ => "no mark",
    }];
    if table.get(2..).is_some_and(|rest| rest.contains(&MARK)) {
        names.push("a mark elsewhere");
    }
    if table.len() == LARGEST && table.starts_with(&[MARK, 2]) {
        names.push("2,472 words");
    }
    names
}

#[test]
fn editions_get_everywhere() {
    let spread = spread();
    let share = f64::from(spread.marked) / f64::from(spread.cases);
    println!("{} of {} cases are marked", spread.marked, spread.cases);
    assert!((0.3..0.4).contains(&share), "{share}");
    let counted = [
        ("tables", &spread.marks, &MARKS[..]),
        ("answers", &spread.answers, &ANSWERS),
        ("explanations", &spread.explanations, &EXPLANATIONS),
        ("bounds", &spread.carried, &CARRIED),
        ("routines", &spread.both, &BOTH),
        ("wrong rules", &spread.wrong, &WRONG),
        ("wrong rules, by another ending", &spread.endings, &ENDINGS),
    ];
    for (name, counts, _) in counted {
        println!("{name}: {counts:#?}");
    }
    for (_, counts, least) in counted {
        more_than(counts, least);
    }
}

/// At least so many tables.
const MARKS: [(&str, u32); 13] = [
    ("no mark", 5_500),
    ("M 2", 2_500),
    ("M alone", 10),
    ("M 2 alone", 8),
    ("M 0", 10),
    ("M 1", 15),
    ("M 3", 8),
    ("M M", 8),
    ("M and any number", 40),
    ("M 2 M", 30),
    ("M 2 M 2", 18),
    ("2 M", 8),
    ("2,472 words", 4),
];

/// At least so many answers to marked cases. Of a mark elsewhere, most are
/// constants, and refusal 3 is for the others.
const ANSWERS: [(&str, u32); 19] = [
    ("done", 350),
    ("abort", 400),
    ("noroom", 250),
    ("pass", 220),
    ("refused 1", 70),
    ("refused 2", 45),
    ("refused 3", 75),
    ("refused 4", 65),
    ("refused 5", 35),
    ("refused 6", 25),
    ("refused 7", 130),
    ("refused 8", 70),
    ("refused 9", 20),
    ("refused 10", 20),
    ("refused 11", 15),
    ("refused 13", 70),
    ("refused 14", 45),
    ("refused 15", 35),
    ("refused 16", 90),
];

/// At least so many explanations of marked runs, by reason.
const EXPLANATIONS: [(&str, u32); 4] = [("none", 300), ("1", 70), ("2", 80), ("3", 75)];

/// At least so many marked runs in which this happens to bounds.
const CARRIED: [(&str, u32); 25] = [
    ("pointer made int", 700),
    ("int made pointer", 500),
    ("int made int", 25),
    ("kept", 600),
    ("kept in a variable", 500),
    ("kept in a block", 170),
    ("kept in a register", 250),
    ("kept in a field", 160),
    ("read", 350),
    ("read from a variable", 300),
    ("read from a block", 30),
    ("read from a register", 90),
    ("over bounds, without any", 350),
    ("over other bounds", 220),
    ("both have bounds", 450),
    ("both, two ints", 200),
    ("both, a pointer and an int", 400),
    ("left bounds, an int's", 380),
    ("right bounds", 550),
    ("right bounds, two ints", 480),
    ("right bounds, a pointer and an int", 350),
    ("right bounds, by records", 120),
    ("neither has bounds", 480),
    ("a block by a number with bounds", 260),
    ("none by a 0 with bounds", 120),
];

/// At least so many routines.
const BOTH: [(&str, u32); 4] = [
    ("in both editions", 800),
    ("run bare in both editions", 80),
    ("run in both editions", 300),
    ("run differently", 120),
];

/// At least so many cases by which a wrong rule is told apart.
const WRONG: [(&str, u32); 24] = [
    ("an int store keeps the old bounds", 600),
    ("an int store without bounds keeps the old ones", 300),
    ("an int read drops the bounds", 330),
    ("a cast to or from int drops the bounds", 700),
    ("a cast to int drops the bounds", 700),
    ("a cast from int drops the bounds", 500),
    ("a sum always takes the left bounds", 450),
    ("a sum always takes the right bounds", 850),
    ("a sum takes the right bounds where both have some", 350),
    ("a pointer takes no right bounds", 280),
    ("two ints take no right bounds", 350),
    ("a sum of two ints has no bounds", 450),
    ("a sum with right bounds steps by words", 130),
    ("a constant has the bounds of the value before", 600),
    ("a size has the bounds of the value before", 50),
    ("a copy's result has the bounds of its pointer", 250),
    ("malloc(0) has the bounds of its 0", 100),
    ("marked tables run by edition 1", 700),
    ("all tables run by edition 2", 650),
    ("16 after another refusal", 70),
    ("the check alone gives no 16", 15),
    ("the mark alone is no 1", 10),
    ("a place leaves the mark out", 600),
    ("a place of the call counts the mark", 200),
];

/// At least so many of them end otherwise by it, or for another reason.
const ENDINGS: [(&str, u32); 11] = [
    ("an int store keeps the old bounds", 280),
    ("an int store without bounds keeps the old ones", 20),
    ("an int read drops the bounds", 280),
    ("a cast to int drops the bounds", 550),
    ("a cast from int drops the bounds", 500),
    ("a sum always takes the left bounds", 380),
    ("a sum always takes the right bounds", 750),
    ("a sum takes the right bounds where both have some", 250),
    ("a pointer takes no right bounds", 240),
    ("a sum with right bounds steps by words", 100),
    ("all tables run by edition 2", 200),
];
