//! Request 8: what a table of edition 2 begins with, and what is turned away.

mod edition;
mod ran;

use edition::{marked, FRONT, MARK};
use ran::{abort, done, words, Ran};
use second::generate;
use second::machine::{check, explain, Answer, Refusal, Verdict};
use second::text::Case;

fn refusal(number: u32, place: usize) -> Refusal {
    Refusal { number, place }
}

/// The check refuses the table so, and the run and the explained run too.
fn refused(table: &[u32], number: u32, place: usize) {
    let refusal = refusal(number, place);
    assert_eq!(check(table), Verdict::Refused(refusal), "{table:?}");
    let ran = Ran::new(table, &[], &[0], 8);
    assert_eq!(ran.answer, Answer::Refused(refusal), "{table:?}");
    assert!(ran.untouched(), "{table:?}");
    let mut lists = [[7; 8]; 3];
    let [values, bases, ends] = &mut lists;
    let explained = explain(table, &[], &[0], values, bases, ends);
    assert_eq!(explained, (Answer::Refused(refusal), None), "{table:?}");
    assert_eq!(lists, [[7; 8]; 3], "{table:?}");
}

const ROUTINE_A: &str = "1 2 | 2 0 2 0 2 | 2 65536 0 | 2 2 3 | 22 1 0 0 9 65536 0 10 1 0 \
    8 2 2 1 1 0 1 0 0 6 5 0 3 6 0 7 7 0 1 1 0 6 9 0 2 10 0 4 9 0 1 1 0 1 1 0 6 14 0 4 2 0 \
    5 15 16 1 1 0 6 18 0 2 19 0 4 9 0 | 5 0 3 4 8 11 12 13 17 20 21";

/// "An edition 2 table starts with the word 4,294,967,295 and the word 2; the
/// sections follow." Routine A ends alike in both editions.
#[test]
fn the_sections_follow() {
    let table = marked(&[0; 6]);
    assert_eq!(check(&table), Verdict::Pass);
    assert_eq!(Ran::new(&table, &[], &[0], 1).answer, done(1));
    let table = marked(&words(ROUTINE_A));
    assert_eq!(check(&table), Verdict::Pass);
    let ran = Ran::new(&table, &[0, 0], &[0], 16);
    assert_eq!(ran.answer, abort(4, 7));
    let memory = [1, 2, 3, 4].map(|word| ran.word(word));
    assert_eq!(memory, [[3, 3, 7], [5, 3, 5], [9, 0, 0], [0; 3]]);
}

/// The four marked tables: "1 at place 1 if the table ends with the mark", "16
/// when another edition follows", and "3 no longer for the mark", but for a
/// second one.
#[test]
fn four_marked_tables() {
    refused(&[MARK], 1, 1);
    refused(&[MARK, 1], 16, 1);
    refused(&[MARK, 2], 1, 2);
    refused(&[MARK, 2, MARK], 3, 2);
}

/// Edition 1 has no mark, and some of these end as 2 does in few bits.
const OTHER_EDITIONS: [u32; 11] = [0, 1, 3, 4, 33, 258, 65_536, 65_538, 1 << 31, MARK - 1, MARK];

/// Sections that pass, that end too soon, that go on, and that are wrong in all
/// the other ways.
const SECTIONS: [&str; 12] = [
    "0 0 0 0 0 0",
    "2 0 0 0 0 0 0",
    "0 0 0",
    "0 0 0 0 0 0 9",
    "33",
    "1 0 0 0 0 0 0",
    "0 0 0 1 2 0 0",
    "0 0 2 0 0 0 0 0",
    "0 0 0 0 1 99 0 0 0",
    "0 0 0 1 1 3 1 0 0 6 0 0 2 1 0 0",
    "0 0 0 0 1 4 7 0 0",
    "4294967295 2 0 0 0 0 0 0",
];

/// "16 when another edition follows the mark, place 1, before all others".
#[test]
fn other_editions() {
    for edition in OTHER_EDITIONS {
        refused(&[MARK, edition], 16, 1);
        for sections in SECTIONS {
            refused(&[&[MARK, edition], &words(sections)[..]].concat(), 16, 1);
        }
        // Before 10, 11 and 13 too.
        let table = [&[MARK, edition], &words(ROUTINE_A)[..]].concat();
        let ran = Ran::new(&table, &[5], &[], 0);
        assert_eq!(ran.answer, Answer::Refused(refusal(16, 1)));
    }
}

/// A second mark is a count of records, and too large.
#[test]
fn two_marks() {
    refused(&[MARK, 2, MARK, 2], 3, 2);
    refused(&marked(&marked(&[0; 6])), 3, 2);
    refused(&marked(&[MARK, 1, 0, 0, 0, 0, 0, 0]), 3, 2);
}

/// A mark that isn't word 0 is an ordinary word, in a table of either edition.
#[test]
fn a_mark_elsewhere() {
    refused(&[0, MARK], 3, 1);
    refused(&[2, MARK], 1, 2);
    refused(&[0, 0, 0, 0, 0, MARK], 3, 5);
    refused(&[0, 0, 0, 0, 0, 0, MARK, 2], 2, 6);
    for (sections, number, place) in [
        ("0 0 0 1 4294967295 0 0", 5, 4),
        ("0 0 0 0 1 4294967295 0 0 0", 7, 5),
        ("0 0 0 0 1 6 4294967295 0 0", 7, 6),
        ("0 0 0 0 1 4 0 4294967295 0", 7, 7),
    ] {
        refused(&words(sections), number, place);
        refused(&marked(&words(sections)), number, place + 2);
    }
    // As a constant, as an input and as a word of a register it is a number.
    let sections = words("0 | 0 | 0 | 3 0 0 1 | 2 1 0 0 4 4294967295 0 | 1 0 1");
    for table in [sections.clone(), marked(&sections)] {
        let ran = Ran::new(&table, &[1, MARK, 0], &[1, 2, 1, MARK], 5);
        assert_eq!(ran.answer, done(5));
        assert_eq!(ran.values, [0, MARK, MARK, 4, MARK]);
    }
}

/// "Places count the mark and the 2": the examples of document 01, and others
/// all over a table.
#[test]
fn places_count_the_mark() {
    let examples = [
        ("", 1, 0),
        ("0 0 0", 1, 3),
        ("1", 1, 1),
        ("32 1 1", 1, 3),
        ("0 0 0 0 0 0 9", 2, 6),
        ("33", 3, 0),
        ("0 129", 3, 1),
        ("0 0 65", 3, 2),
        ("0 0 0 65", 3, 3),
        ("0 0 0 0 513", 3, 4),
        ("0 0 0 0 0 257", 3, 5),
        ("1 0 0 0 0 0 0", 4, 1),
        ("2 1 0 1 9 0 0 0 0 0", 4, 2),
        ("2 1 1 1 9 0 0 0 0 0", 4, 3),
        ("1 1 1 0 4097 0 0 0 0", 4, 4),
        ("1 1 1 9 0 0 0 0 0", 5, 3),
        ("0 0 3 0 9 0 0 0 0", 5, 4),
        ("0 0 0 1 2 0 0", 5, 4),
        ("0 0 0 0 1 9 2 0 0", 5, 6),
        ("0 0 0 0 2 4 1 0 8 0 2 0", 5, 10),
        ("0 0 2 0 0 0 0 0", 6, 4),
        ("0 0 0 0 1 99 0 0 0", 7, 5),
        ("0 0 0 0 1 1 0 0 0", 7, 6),
        ("0 0 0 0 1 4 0 1 0", 7, 7),
        ("0 0 0 0 1 4 0 0 1 0 0", 7, 9),
        ("0 0 0 1 1 3 1 0 0 6 0 0 2 1 0 0", 8, 12),
        ("0 0 0 1 1 2 1 0 0 4 0 0 1 0 1", 8, 13),
        ("0 0 0 0 1 4 7 0 0", 9, 5),
    ];
    for (sections, number, place) in examples {
        refused(&words(sections), number, place);
        refused(&marked(&words(sections)), number, place + 2);
    }
}

/// Places that are not in the table don't count them.
#[test]
fn places_of_the_call() {
    let calls: [(&[u32], &str, usize, Refusal); 8] = [
        (&[0, 0], "0", 2, refusal(10, 0)),
        (&[0], "0", 16, refusal(11, 2)),
        (&[0, 9], "0", 16, refusal(11, 1)),
        (&[0, 0], "", 16, refusal(13, 0)),
        (&[0, 0], "17", 16, refusal(13, 0)),
        (&[0, 0], "0 0", 16, refusal(13, 1)),
        (&[0, 0], "1 2 0", 16, refusal(14, 1)),
        (&[0, 0], "1 0 2 8 9", 4, refusal(15, 2)),
    ];
    let sections = words(ROUTINE_A);
    for (inputs, list, length, refusal) in calls {
        for table in [sections.clone(), marked(&sections)] {
            let ran = Ran::new(&table, inputs, &words(list), length);
            assert_eq!(ran.answer, Answer::Refused(refusal));
            assert!(ran.untouched());
        }
    }
}

/// "Types are checked as before", and all else: the check of any sections is
/// the same after the mark, but for places.
#[test]
fn random_sections_are_checked_as_before() {
    let mut case = Case::default();
    let mut passed = 0;
    for index in 0..4_000 {
        let mut line = Vec::new();
        generate::line(8, index, &mut line);
        let read = case.read(line.strip_suffix(b"\n").expect("a line"));
        let sections = case.table.strip_prefix(&FRONT).unwrap_or(&case.table);
        if read.is_none() || sections.first() == Some(&MARK) {
            continue;
        }
        let expected = match check(sections) {
            Verdict::Pass => Verdict::Pass,
            Verdict::Refused(Refusal { number, place }) => {
                Verdict::Refused(refusal(number, place + 2))
            }
        };
        passed += u32::from(expected == Verdict::Pass);
        assert_eq!(check(&marked(sections)), expected);
    }
    assert!((1_500..3_500).contains(&passed), "{passed}");
}

/// Every section at its limit: 2,472 words with the mark.
#[test]
fn the_largest_table() {
    let mut sections = vec![32];
    sections.extend([4; 32]);
    sections.push(128);
    sections.extend([0, 1].repeat(128));
    sections.push(64);
    sections.extend((0..32).chain((0..32).map(|record| 65_536 + record)));
    sections.push(64);
    sections.extend([0; 64]);
    sections.push(512);
    (0..256).for_each(|i| sections.extend([1, i % 64, 0, 4, i, 0]));
    sections.push(256);
    sections.extend(0..512);
    let mut table = marked(&sections);
    assert_eq!(table.len(), 2_472);
    for table in [&sections, &table] {
        assert_eq!(check(table), Verdict::Pass);
        let ran = Ran::new(table, &[9; 64], &[0], 65);
        assert_eq!((ran.answer, ran.word(64)), (done(65), [255, 0, 0]));
    }
    table.push(0);
    assert_eq!(check(&table), Verdict::Refused(refusal(2, 2_472)));
    table.truncate(2_471);
    assert_eq!(check(&table), Verdict::Refused(refusal(1, 2_471)));
}
