//! Random cases are worth something only if they get everywhere: to each
//! refusal and each ending, to runs with registers, to steps of all kinds, to
//! aborts for each reason, of all bounds and all over a command, and to copies
//! of all kinds. Bare runs are counted apart from these.

mod aborts;
mod by_words;
mod copied;
mod counts;
mod plain;
mod plain_call;
mod plain_run;
mod sums;

use by_words::by_words;
use counts::{answer, answer_to, count, more_than, Counts};
use plain_run::{call, RIGHT};
use second::generate;
use second::text::{Call, Case};
use sums::BY_RECORDS;

const COUNT: u64 = 10_000;

#[derive(Default)]
struct Spread {
    /// Answers by their first word, refusals with their number.
    answers: Counts,
    begun: u32,
    with_registers: u32,
    /// What happens in runs with steps by records.
    steps: Counts,
    /// Explanations: `none`, or what is special about the abort.
    explanations: Counts,
    /// What the copies of begun runs are like, and refusals of copies.
    copies: Counts,
}

fn spread() -> Spread {
    let mut spread = Spread::default();
    let mut case = Case::default();
    let mut line = Vec::new();
    for index in 0..COUNT {
        line.clear();
        generate::line(1, index, &mut line);
        let line = line.strip_suffix(b"\n").expect("a line");
        if case.read(line).is_some() && case.call == Call::Bare {
            continue;
        }
        let answer = answer(line);
        let mut words = answer.split_whitespace();
        let first = words.next().expect("a word");
        match first {
            "refused" => {
                let number = words.next().expect("a number");
                count(&mut spread.answers, format!("{first} {number}"));
                let names = copied::refused(&case).into_iter();
                names.for_each(|name| count(&mut spread.copies, name));
            }
            _ => count(&mut spread.answers, first),
        }
        if matches!(first, "done" | "abort" | "noroom") {
            spread.begun += 1;
            spread.with_registers += u32::from(case.registers[0] > 0);
            spread.explanation_of(&case);
            spread.copies_of(&case);
            spread.steps_of(&mut case);
        }
    }
    spread
}

impl Spread {
    fn explanation_of(&mut self, case: &Case) {
        if case.call != Call::Explain {
            return;
        }
        match aborts::explained(case) {
            Some((command, told)) => {
                let names = aborts::names(case, command, &told);
                names
                    .iter()
                    .for_each(|name| count(&mut self.explanations, name));
            }
            None => count(&mut self.explanations, "none"),
        }
    }

    fn copies_of(&mut self, case: &Case) {
        let names = copied::names(case, &call(case, &RIGHT));
        names.iter().for_each(|name| count(&mut self.copies, name));
    }

    /// Counts a begun run by its sums. Its steps by records are telling where
    /// it would have another answer if they went by words. The answer is that
    /// of the run: an explanation has other numbers of nodes then.
    fn steps_of(&mut self, case: &mut Case) {
        let names = sums::names(case);
        if !names.contains(BY_RECORDS) {
            return;
        }
        case.call = Call::Run;
        let answer = answer_to(case);
        let ending = answer.split(' ').next().expect("a word");
        count(&mut self.steps, ending);
        if by_words(case).is_some_and(|line| counts::answer(&line) != answer) {
            count(&mut self.steps, format!("telling {ending}"));
        }
        // Only in a run that is done each sum is worked out.
        if ending == "done" {
            names.iter().for_each(|name| count(&mut self.steps, name));
        }
    }
}

#[test]
fn cases_get_everywhere() {
    let spread = spread();
    for (name, counts) in [
        ("answers", &spread.answers),
        ("runs with steps by records", &spread.steps),
        ("copies", &spread.copies),
        ("explanations", &spread.explanations),
    ] {
        println!("{name}: {counts:#?}");
    }
    let endings = [("done", 1_000), ("abort", 1_000), ("noroom", 1_000)];
    more_than(&spread.answers, &endings);
    more_than(&spread.answers, &[("pass", 500), ("case", 5)]);
    refusals_are_given(&spread.answers);
    assert!(spread.begun > 4_000 && spread.with_registers > spread.begun / 2);
    steps_lead_everywhere(&spread.steps);
    more_than(&spread.copies, &COPIES);
    more_than(&spread.explanations, &EXPLANATIONS);
}

/// Each number of a refusal comes often, and no other: 12 is not used.
fn refusals_are_given(answers: &Counts) {
    let numbers: Vec<u32> = (1..=11).chain(13..=16).collect();
    for number in &numbers {
        more_than(answers, &[(&format!("refused {number}"), 60)]);
    }
    let given = answers.keys().filter(|name| name.starts_with("refused "));
    assert_eq!(given.count(), numbers.len());
}

/// At least so many cases with copies of each name.
const COPIES: [(&str, u32); 45] = [
    ("completed", 1_000),
    ("a above b, overlapping", 250),
    ("a below b, overlapping", 250),
    ("onto itself", 150),
    ("apart", 700),
    ("of one word", 200),
    ("of some words", 800),
    ("of thousands of words", 8),
    ("in a register", 600),
    ("in a block", 600),
    ("over a variable", 70),
    ("by steps of records", 200),
    ("onto a pointer that led to the place", 70),
    // What the copy's number is for.
    ("assigned", 800),
    ("in a sum", 400),
    ("in an index", 30),
    ("in a count of words", 15),
    ("below a cast", 20),
    ("in an operand of a copy", 60),
    // Wrong ways to copy that are told apart.
    ("not the first word first", 200),
    ("not the last word first", 200),
    ("not values alone", 250),
    ("moved bounds are followed", 45),
    // Checks not passed.
    ("a's check", 50),
    ("b's check", 80),
    ("both checks", 70),
    ("no bounds", 90),
    ("before the base", 60),
    ("past the end", 45),
    ("only the first words in bounds", 15),
    ("only the last words in bounds", 35),
    ("in bounds modulo 2^32", 8),
    ("after a block was obtained", 70),
    ("explained", 120),
    // Copies turned away.
    ("refused, a is a place", 12),
    ("refused, b is a place", 10),
    ("refused, a is unknown", 6),
    ("refused, b is unknown", 5),
    ("refused, two records", 3),
    ("refused, a points to no record", 18),
    ("refused, b points to no record", 20),
    ("refused, two types and no record", 40),
    ("refused, two ints", 15),
    ("refused, two pointers to void", 4),
    ("refused, two pointers to a type", 8),
];

/// At least so many explanations of each name.
const EXPLANATIONS: [(&str, u32); 31] = [
    ("none", 1_000),
    ("follow, no bounds", 100),
    ("follow, before the base", 150),
    ("follow, past the end", 100),
    ("field, no bounds", 40),
    ("field, before the base", 100),
    ("field, past the end", 80),
    ("copy, no bounds", 50),
    ("copy, before the base", 40),
    ("copy, past the end", 25),
    ("in an operand of a copy", 20),
    ("across the base", 30),
    ("across the end", 15),
    ("far past the end", 15),
    ("above 32 bits", 10),
    ("above 32 bits, and in bounds modulo 2^32", 1),
    ("of a variable", 80),
    ("of the first register", 80),
    ("of a later register", 60),
    ("of the first block", 80),
    ("of a later block", 100),
    ("of a field within", 25),
    ("in a command's place", 300),
    ("in a command's value", 200),
    ("before the last command", 200),
    ("after a check in its own pointer", 100),
    ("in the pointer of another place", 100),
    ("below a cast", 150),
    ("on the left of a sum", 80),
    ("on the right of a sum", 50),
    ("in a count of words", 20),
];

fn steps_lead_everywhere(steps: &Counts) {
    more_than(steps, &[("done", 400), ("abort", 400), ("noroom", 250)]);
    let telling = [
        ("telling done", 250),
        ("telling abort", 200),
        ("telling noroom", 150),
    ];
    more_than(steps, &telling);
    let of_runs_done = [
        ("on", 150),
        ("back", 80),
        ("round", 150),
        ("no constant", 100),
        ("along a register", 120),
        ("pointer to record pointer", 80),
        ("record pointer made void pointer", 20),
        ("record pointer made int pointer", 25),
        ("record pointer made int", 5),
    ];
    more_than(steps, &of_runs_done);
}
