//! The examples of document 01: "What is turned away", "Routine A" and "Runs
//! to compare".

mod ran;
mod starred;

use ran::{abort, done, no_room, words, Ran};
use second::machine::{check, run, Answer, Refusal, Verdict};
use starred::*;

/// A run with the list `0`.
fn without_registers(table: &[u32], inputs: &[u32], length: usize) -> Ran {
    Ran::new(table, inputs, &[0], length)
}

/// The check refuses the table so, and a run of it does too.
fn refused(text: &str, number: u32, place: usize) {
    let table = words(text);
    let refusal = Refusal { number, place };
    assert_eq!(check(&table), Verdict::Refused(refusal), "{text}");
    let ran = without_registers(&table, &[], 8);
    assert_eq!(ran.answer, Answer::Refused(refusal), "{text}");
    assert!(ran.untouched(), "{text}");
}

#[test]
fn refusals_of_the_check() {
    refused("0 0 0", 1, 3);
    refused("0 0 0 0 0 0 9", 2, 6);
    refused("33", 3, 0);
    refused("1 0 0 0 0 0 0", 4, 1);
    refused("0 0 0 1 2 0 0", 5, 4);
    refused("0 0 2 0 0 0 0 0", 6, 4);
    refused("0 0 0 0 1 99 0 0 0", 7, 5);
    refused("0 0 0 1 1 3 1 0 0 6 0 0 2 1 0 0", 8, 12);
    refused("0 0 0 0 1 4 7 0 0", 9, 5);
}

#[test]
fn refusals_of_the_call() {
    let none = words("0 0 0 0 0 0");
    let ten = Answer::Refused(Refusal {
        number: 10,
        place: 0,
    });
    assert_eq!(check(&none), Verdict::Pass);
    assert_eq!(without_registers(&none, &[], 0).answer, ten);
    let one = words("0 0 0 1 1 0 0");
    let ran = without_registers(&one, &[5], 4);
    let eleven = |place| Answer::Refused(Refusal { number: 11, place });
    assert_eq!(ran.answer, eleven(0));
    assert!(ran.untouched());
    assert_eq!(without_registers(&one, &[], 4).answer, eleven(1));
    assert_eq!(without_registers(&one, &[0, 0], 4).answer, eleven(1));
    assert_eq!(without_registers(&one, &[5], 1).answer, ten);
    assert_eq!(without_registers(&one, &[0], 65_536).answer, done(2));
    assert_eq!(without_registers(&one, &[0], 65_537).answer, ten);
}

#[test]
fn lists_of_differing_length() {
    let none = words("0 0 0 0 0 0");
    for lengths in [[2, 3, 3], [3, 2, 3], [3, 3, 2], [3, 3, 0]] {
        let [mut values, mut bases, mut ends] = lengths.map(|length| vec![7; length]);
        let answer = run(&none, &[], &[0], &mut values, &mut bases, &mut ends);
        let refusal = Refusal {
            number: 10,
            place: 0,
        };
        assert_eq!(answer, Answer::Refused(refusal));
        let lists = [values, bases, ends];
        assert!(lists.iter().flatten().all(|&word| word == 7));
    }
}

/// Order and places that the table of refusals tells in words only.
#[test]
fn order_of_refusals() {
    refused("", 1, 0);
    refused("1", 1, 1);
    refused("0 0 0 0 1 4 7 0", 1, 8);
    // Extent of section 1 before the count of section 2.
    refused("32 1 1", 1, 3);
    // A count above its maximum before the contents of earlier sections.
    refused("1 0 129", 3, 2);
    // A wrong sum after all records' own words, before the fields.
    refused("2 1 0 1 9 0 0 0 0 0", 4, 2);
    refused("2 1 1 1 9 0 0 0 0 0", 4, 3);
    refused("2 4294967295 2 1 9 0 0 0 0 0", 4, 3);
    refused("1 1 1 9 0 0 0 0 0", 5, 3);
    refused("1 1 1 0 0 0 0 0 0", 4, 4);
    // An unknown target before a second one: word by word.
    refused("0 0 3 0 9 0 0 0 0", 5, 4);
    // A place where a value belongs, and the reverse.
    refused("0 0 0 1 0 2 1 0 0 10 0 0 0", 7, 10);
    refused("0 0 0 0 2 4 1 0 6 0 0 0", 7, 9);
    // No such field is an 8, at the kind word, even for a huge b.
    let field = "1 1 1 0 1 1 65536 1 2 3 1 0 0 6 0 0 3 1 4294967295 0";
    refused(field, 8, 16);
    // 9 names the lowest node, used twice or never.
    refused("0 0 0 0 3 4 1 0 4 1 0 5 1 1 0", 9, 5);
}

const ROUTINE_A: &str = "1 2 | 2 0 2 0 2 | 2 65536 0 | 2 2 3 | 22 1 0 0 9 65536 0 10 1 0 \
    8 2 2 1 1 0 1 0 0 6 5 0 3 6 0 7 7 0 1 1 0 6 9 0 2 10 0 4 9 0 1 1 0 1 1 0 6 14 0 4 2 0 \
    5 15 16 1 1 0 6 18 0 2 19 0 4 9 0 | 5 0 3 4 8 11 12 13 17 20 21";

#[test]
fn routine_a() {
    let ran = without_registers(&words(ROUTINE_A), &[0, 0], 16);
    assert_eq!(ran.answer, abort(4, 7));
    let memory: Vec<_> = (1..7).map(|word| ran.word(word)).collect();
    let expected = [
        [3, 3, 7],
        [5, 3, 5],
        [9, 0, 0],
        [0, 0, 0],
        [0, 0, 0],
        [0, 0, 0],
    ];
    assert_eq!(memory, expected);
    assert!((7..16).chain([0]).all(|word| ran.word(word) == [0; 3]));
}

/// A starred run with commands.
fn starred(routine: Routine) -> Ran {
    routine.run(&[])
}

#[test]
fn nothing_at_all() {
    let ran = without_registers(&[0; 6], &[], 1);
    assert_eq!(ran.answer, done(1));
    assert_eq!(ran.word(0), [0; 3]);
}

#[test]
fn blocks() {
    let ran = starred(m());
    assert_eq!((ran.answer, ran.word(1)), (done(4), [2, 2, 4]));
    assert_eq!(starred(block(3)).answer, no_room(0, 2));
    let ran = starred(block(0));
    assert_eq!((ran.answer, ran.word(1)), (done(2), [0, 0, 0]));
}

#[test]
fn stores_in_and_out_of_bounds() {
    let ran = starred(m().store(1, 5));
    assert_eq!((ran.answer, ran.values[3]), (done(4), 5));
    assert_eq!(starred(m().store(2, 5)).answer, abort(1, 4));
    assert_eq!(starred(m().store(u32::MAX, 5)).answer, abort(1, 4));
}

#[test]
fn a_forged_pointer() {
    assert_eq!(starred(forged_pointer()).answer, abort(2, 4));
}

#[test]
fn address_of_an_element_keeps_the_bounds() {
    let ran = starred(address_of_an_element());
    assert_eq!((ran.answer, ran.values[2]), (done(4), 7));
}

#[test]
fn int_store_over_a_pointer_keeps_its_bounds() {
    let ran = starred(int_store_over_a_pointer());
    assert_eq!((ran.answer, ran.values[3]), (done(4), 8));
    assert_eq!(ran.word(1), [3, 2, 4]);
}

#[test]
fn a_place_before_its_value() {
    assert_eq!(starred(place_before_value()).answer, abort(1, 4));
}

#[test]
fn blocks_of_an_aborted_command_stay() {
    assert_eq!(starred(block_of_an_aborted_command()).answer, abort(0, 3));
}

/// "Routine A's record type over a block of two words: the snapshot passes,
/// the queue aborts."
#[test]
fn record_over_a_short_block() {
    let head = "1 2 | 2 0 2 0 2 | 2 65536 0 | 2 2 3 |";
    let block = "1 0 0 4 2 0 10 1 0 8 2 2";
    for (field, answer) in [(0, done(5)), (1, abort(1, 5))] {
        let text = format!("{head} 9 {block} 1 1 0 1 0 0 6 5 0 3 6 {field} 7 7 0 | 2 0 3 4 8");
        let ran = without_registers(&words(&text), &[0, 0], 8);
        assert_eq!(ran.answer, answer);
        if field == 0 {
            assert_eq!(ran.word(2), [3, 3, 5]);
        }
    }
}

#[test]
fn limits() {
    let records = |n: usize| {
        let mut table = vec![n as u32];
        table.extend(vec![1; n]);
        table.push(n as u32);
        table.extend([0, 1].repeat(n));
        table.extend([0; 4]);
        check(&table)
    };
    assert_eq!(records(32), Verdict::Pass);
    let too_many = Refusal {
        number: 3,
        place: 0,
    };
    assert_eq!(records(33), Verdict::Refused(too_many));
    let field = |words| check(&[1, 1, 1, 0, words, 0, 0, 0, 0]);
    assert_eq!(field(4_096), Verdict::Pass);
    let too_long = Refusal {
        number: 4,
        place: 4,
    };
    assert_eq!(field(4_097), Verdict::Refused(too_long));
}

/// "Adding the size in 32 bits, so that a value near the top passes."
#[test]
fn sums_of_checks_are_exact() {
    let head = "1 2 | 2 0 4 0 4096 | 2 65536 0 | 1 2 |";
    let block = "1 0 0 4 4 0 10 1 0 8 2 2";
    // ((record*)((void*)p + n))->field, p at 2 with bounds [2, 6)
    for (n, field) in [(u32::MAX, 0), (u32::MAX - 2, 0), (u32::MAX - 5, 1)] {
        let moved = format!("1 0 0 6 4 0 8 5 1 4 {n} 0 5 6 7 8 8 2");
        let text = format!("{head} 12 {block} {moved} 3 9 {field} 4 1 0 | 2 0 3 10 11");
        let ran = without_registers(&words(&text), &[0], 8);
        assert_eq!(ran.answer, abort(1, 6));
    }
}
