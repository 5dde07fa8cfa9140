//! About a fifth of random cases are bare runs: they are stuck everywhere, go
//! round, write above U and obtain the same words, go on where bounds would end
//! them, and each wrong rule for them is told apart by many.

mod counts;
mod plain;
mod plain_bare;
mod plain_call;
mod wild;
mod wrongly_bare;

use counts::{answer_to, count, more_than, Counts};
use plain_bare::{call, RIGHT};
use second::generate;
use second::text::{Call, Case};

const COUNT: u64 = 10_000;

#[derive(Default)]
struct Spread {
    cases: u32,
    bare: u32,
    /// Answers to bare runs by their first word, refusals with their number.
    answers: Counts,
    /// What bare runs do.
    happens: Counts,
    /// Endings of bare runs, each with that of the run with bounds.
    endings: Counts,
    /// What lists bare runs are lent.
    lists: Counts,
    /// Runs that come again as bare runs.
    pairs: Counts,
    /// Wrong rules told apart.
    wrong: Counts,
}

fn spread() -> Spread {
    let mut spread = Spread::default();
    let mut before = None;
    for index in 0..COUNT {
        let mut line = Vec::new();
        generate::line(1, index, &mut line);
        let mut case = Case::default();
        let found = case.read(line.strip_suffix(b"\n").expect("a line"));
        let case = found.map(|()| case);
        if let Some(case) = &case {
            spread.add(case);
        }
        if let (4, Some(before), Some(case)) = (index % 10, before, &case) {
            spread.pair(before, case);
        }
        before = case;
    }
    spread
}

impl Spread {
    fn add(&mut self, case: &Case) {
        self.cases += 1;
        if case.call != Call::Bare {
            return;
        }
        self.bare += 1;
        let ending = ending(case);
        count(&mut self.answers, &ending);
        let right = call(case, &RIGHT);
        for name in wrongly_bare::told_apart(case, &right) {
            count(&mut self.wrong, name);
        }
        if !ending.starts_with("refused") {
            self.begun(case, &ending);
            for name in wild::names(&right, case.lengths[0]) {
                count(&mut self.happens, name);
            }
        }
    }

    /// A bare run that is begun, beside the run with lists of its length.
    fn begun(&mut self, case: &Case, ending: &str) {
        let [length, bases, ends] = case.lengths;
        let with_bounds = Case {
            call: Call::Run,
            lengths: [length; 3],
            ..case.clone()
        };
        let other = self::ending(&with_bounds);
        count(&mut self.endings, format!("{ending}, {other} with bounds"));
        if bases != length || ends != length {
            count(&mut self.lists, "others of another length");
        }
        if bases < length && ends < length {
            count(&mut self.lists, "others too short");
        }
        if bases == 0 && ends == 0 {
            count(&mut self.lists, "others empty");
        }
    }

    /// A run, and the very same case as a bare run.
    fn pair(&mut self, before: Case, case: &Case) {
        assert_eq!((before.call, case.call), (Call::Run, Call::Bare));
        let again = Case {
            call: Call::Bare,
            ..before.clone()
        };
        assert_eq!(again, *case);
        count(&mut self.pairs, "in all");
        let endings = [ending(&before), ending(case)];
        let refused = endings.each_ref().map(|e| e.starts_with("refused"));
        count(
            &mut self.pairs,
            match refused {
                [false, false] => "run both ways",
                [true, false] => "refused with bounds alone",
                [true, true] => "refused both ways",
                [false, true] => panic!("{endings:?}"),
            },
        );
    }
}

/// The first word of an answer, of a refusal with its number.
fn ending(case: &Case) -> String {
    let answer = answer_to(case);
    let words: Vec<&str> = answer.split_whitespace().take(2).collect();
    match words[0] {
        "refused" => words.join(" "),
        first => first.to_string(),
    }
}

#[test]
fn bare_runs_get_everywhere() {
    let spread = spread();
    let share = f64::from(spread.bare) / f64::from(spread.cases);
    println!("{} of {} cases are bare runs", spread.bare, spread.cases);
    assert!((0.17..0.23).contains(&share), "{share}");
    let counted = [
        ("answers", &spread.answers, &ANSWERS[..]),
        ("bare runs", &spread.happens, &HAPPENS),
        ("endings", &spread.endings, &ENDINGS),
        ("lists", &spread.lists, &LISTS),
        ("pairs", &spread.pairs, &PAIRS),
        ("wrong rules", &spread.wrong, &WRONG),
    ];
    for (name, counts, _) in counted {
        println!("{name}: {counts:#?}");
    }
    for (_, counts, least) in counted {
        more_than(counts, least);
    }
}

/// At least so many answers to bare runs.
const ANSWERS: [(&str, u32); 18] = [
    ("done", 450),
    ("noroom", 300),
    ("stuck", 370),
    ("refused 1", 22),
    ("refused 2", 20),
    ("refused 3", 14),
    ("refused 4", 25),
    ("refused 5", 10),
    ("refused 6", 10),
    ("refused 7", 50),
    ("refused 8", 30),
    ("refused 9", 7),
    ("refused 10", 35),
    ("refused 11", 10),
    ("refused 13", 30),
    ("refused 14", 19),
    ("refused 15", 24),
    ("refused 16", 11),
];

/// At least so many bare runs in which this happens.
const HAPPENS: [(&str, u32); 33] = [
    ("stuck at a read", 95),
    ("stuck at a read, far away", 22),
    ("stuck at a read, just past the end", 21),
    ("stuck at a read, of word 0", 35),
    ("stuck at a read, soon after the end", 14),
    ("stuck at an assignment", 140),
    ("stuck at an assignment, after its value did something", 65),
    ("stuck at an assignment, far away", 40),
    ("stuck at an assignment, just past the end", 30),
    ("stuck at an assignment, of word 0", 50),
    ("stuck at an assignment, soon after the end", 12),
    ("stuck in a copy", 130),
    ("stuck in a copy, after words that are there", 45),
    ("stuck in a copy, by a", 70),
    ("stuck in a copy, by b", 55),
    ("stuck in a copy, far away", 27),
    ("stuck in a copy, just past the end", 65),
    ("stuck in a copy, of word 0", 30),
    ("stuck in a copy, soon after the end", 5),
    ("stuck, after words were obtained", 75),
    ("a field's sum goes round", 130),
    ("a pointer's sum goes round", 600),
    ("an address of no word", 160),
    ("an int's sum goes round", 380),
    ("assigns a word from U on", 410),
    ("assigns the last word", 230),
    ("copies from a word from U on", 170),
    ("copies the last word", 85),
    ("copies to a word from U on", 180),
    ("no room, for the value of a place that is no word", 70),
    ("obtains words written before", 280),
    ("reads a word from U on", 180),
    ("reads the last word", 65),
];

/// At least so many bare runs that end so, and so with bounds.
const ENDINGS: [(&str, u32); 5] = [
    ("done, abort with bounds", 260),
    ("done, done with bounds", 190),
    ("noroom, abort with bounds", 180),
    ("noroom, noroom with bounds", 120),
    ("stuck, abort with bounds", 370),
];

/// At least so many bare runs begun beside such lists of bases and ends.
const LISTS: [(&str, u32); 3] = [
    ("others empty", 19),
    ("others of another length", 220),
    ("others too short", 40),
];

/// At least so many runs that come again as bare runs.
const PAIRS: [(&str, u32); 4] = [
    ("in all", 700),
    ("run both ways", 500),
    ("refused both ways", 220),
    ("refused with bounds alone", 5),
];

/// At least so many cases by which a wrong rule is told apart.
const WRONG: [(&str, u32); 27] = [
    ("memory isn't cleared at the start", 850),
    ("a field's sum is exact", 140),
    ("a pointer's sum is exact", 370),
    ("a step is a word", 360),
    ("U + n is taken modulo 2^32", 60),
    ("an obtain clears nothing", 250),
    ("obtaining no words gives U", 180),
    ("word 0 can be read", 35),
    ("word 0 can be assigned", 50),
    ("word 0 can be copied", 25),
    ("the word past the end can be read", 21),
    ("the word past the end can be assigned", 30),
    ("the word past the end can be copied", 45),
    ("the last word is outside", 300),
    ("words from U on can't be read", 180),
    ("words from U on can't be assigned", 410),
    ("words from U on can't be copied", 240),
    ("an address of no word is stuck", 140),
    ("child b goes before child a", 30),
    ("a value goes before its place", 120),
    ("a store is stuck before its value", 130),
    ("a stuck copy writes its first words", 30),
    ("a copy goes first word first", 110),
    ("a copy goes last word first", 90),
    ("room is given back when stuck", 75),
    ("a stuck command leaves none of its writes", 45),
    ("10 speaks of three lists", 240),
];
