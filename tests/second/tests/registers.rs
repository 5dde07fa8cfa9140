//! Examples of request 1, registers handed in.

mod ran;

use ran::{abort, done, no_room, words, Ran};
use second::machine::{Answer, Refusal};

/// Variables p and q, pointers to int; v, pointer to void; and x, int. The
/// first register begins at word 5.
const HEAD: &str = "0 | 0 | 1 0 | 4 2 2 1 0 |";
const INPUTS: [u32; 4] = [0, 0, 0, 9];
const LENGTH: usize = 16;

/// A run of nodes and commands over these variables, in 16 words.
fn run(routine: &str, list: &str) -> Ran {
    let table = words(&format!("{HEAD} {routine}"));
    Ran::new(&table, &INPUTS, &words(list), LENGTH)
}

/// A call with no commands is refused so.
fn refused(list: &str, number: u32, place: usize) {
    let ran = run("0 | 0", list);
    let refusal = Refusal { number, place };
    assert_eq!(ran.answer, Answer::Refused(refusal), "{list}");
    assert!(ran.untouched(), "{list}");
}

/// So many words of a register.
fn some(count: usize) -> String {
    vec!["8"; count].join(" ")
}

#[test]
fn too_many() {
    refused("17", 13, 0);
    refused("17 0 0", 13, 0);
    refused("4294967295", 13, 0);
    let seventeen = format!("17 {}", "0 1 8 ".repeat(17));
    refused(&seventeen, 13, 0);
}

#[test]
fn cut_short() {
    refused("", 13, 0);
    refused("1", 13, 1);
    refused("1 0", 13, 2);
    refused("1 0 1", 13, 3);
    refused("1 0 3 8 8", 13, 5);
    refused("2 0 1 8", 13, 4);
    refused("2 0 1 8 1", 13, 5);
    refused("16 0 0 1 0", 13, 5);
    // However large the length is: an end worked out modulo 2^32 would lie
    // within the list.
    for length in [4294967295u32, 4294967294, 4294967293, 1 << 31, 1 << 30] {
        refused(&format!("1 0 {length}"), 13, 3);
        refused(&format!("1 0 {length} 8 8"), 13, 5);
        refused(&format!("2 0 1 8 1 {length}"), 13, 6);
    }
}

#[test]
fn words_over() {
    refused("0 0", 13, 1);
    refused("0 0 0", 13, 1);
    refused("1 0 1 8 8", 13, 4);
    refused("1 0 0 1 0", 13, 3);
    refused("2 0 1 8 1 0 8 8", 13, 6);
}

#[test]
fn variables_at_fault() {
    // Unknown.
    refused("1 4 0", 14, 1);
    refused("1 64 1 8", 14, 1);
    refused("1 4294967295 1 8", 14, 1);
    // Not a pointer.
    refused("1 3 1 8", 14, 1);
    refused("1 3 0", 14, 1);
    // Named before, even by a register of no words.
    refused("2 0 1 8 0 1 8", 14, 4);
    refused("2 0 0 0 0", 14, 3);
    refused("3 0 1 8 1 0 0 0", 14, 6);
    // The first at fault.
    refused("3 0 1 8 4 0 3 0", 14, 4);
}

#[test]
fn no_room_for_registers() {
    // 11 words are left beside word 0 and the variables.
    refused(&format!("1 0 12 {}", some(12)), 15, 2);
    refused(&format!("2 0 6 {} 1 6 {}", some(6), some(6)), 15, 10);
    refused(&format!("2 0 12 {} 1 0", some(12)), 15, 2);
    refused(&format!("2 0 0 1 12 {}", some(12)), 15, 4);
    // The second is too long, and so is all that comes after it.
    let three = format!("3 0 1 8 1 11 {} 2 1 8", some(11));
    refused(&three, 15, 5);
    refused(&format!("1 0 69997 {}", some(69_997)), 15, 2);
}

#[test]
fn registers_that_just_fit() {
    let ran = run("0 | 0", &format!("1 0 11 {}", some(11)));
    assert_eq!((ran.answer, ran.word(1)), (done(16), [5, 5, 16]));
    let ran = run("0 | 0", &format!("3 0 5 {} 1 6 {} 2 0", some(5), some(6)));
    assert_eq!((ran.answer, ran.word(2)), (done(16), [10, 10, 16]));
    let zero = run("0 | 0", "0");
    assert_eq!(zero.answer, done(5));
    // Memory for the variables alone.
    let table = words(&format!("{HEAD} 0 | 0"));
    let ran = Ran::new(&table, &INPUTS, &words("2 1 0 2 0"), 5);
    assert_eq!(ran.answer, done(5));
}

#[test]
fn order() {
    let long = some(12);
    refused(&format!("1 3 12 {long} 8"), 13, 15);
    refused(&format!("2 3 12 {long} 4 1"), 13, 17);
    refused(&format!("1 3 12 {long}"), 14, 1);
    refused(&format!("2 0 12 {long} 3 0"), 14, 15);
    // 10, then 11, then the list.
    let table = words(&format!("{HEAD} 0 | 0"));
    let call = |inputs: &[u32], length| match Ran::new(&table, inputs, &[], length).answer {
        Answer::Refused(Refusal { number, place }) => (number, place),
        other => panic!("{other:?}"),
    };
    assert_eq!(call(&[5], 4), (10, 0));
    assert_eq!(call(&[0], 5), (11, 4));
    assert_eq!(call(&[0, 0, 5, 0], 5), (11, 2));
    assert_eq!(call(&INPUTS, 5), (13, 0));
}

/// The input of a variable that a register names is 0 all the same.
#[test]
fn inputs_of_named_variables() {
    let table = words(&format!("{HEAD} 0 | 0"));
    let ran = Ran::new(&table, &[5, 0, 0, 9], &words("1 0 1 8"), LENGTH);
    let refusal = Refusal {
        number: 11,
        place: 0,
    };
    assert_eq!(ran.answer, Answer::Refused(refusal));
    assert!(ran.untouched());
}

#[test]
fn memory_at_the_start() {
    let ran = run("0 | 0", "3 | 1 2 21 22 | 2 0 | 0 1 31");
    assert_eq!(ran.answer, done(8));
    let memory: Vec<_> = (0..LENGTH).map(|word| ran.word(word)).collect();
    let mut expected = vec![[0; 3]; LENGTH];
    expected[1] = [7, 7, 8];
    expected[2] = [5, 5, 7];
    // v, whose register has no words, is 0 without bounds.
    expected[4] = [9, 0, 0];
    expected[5] = [21, 0, 0];
    expected[6] = [22, 0, 0];
    expected[7] = [31, 0, 0];
    assert_eq!(memory, expected);
}

#[test]
fn sixteen_registers() {
    let table = words(&format!("0 | 0 | 0 | 16 {} | 0 | 0", "1 ".repeat(16)));
    let list: String = (0..16).map(|v| format!(" {} 1 {v}", 15 - v)).collect();
    let ran = Ran::new(&table, &[0; 16], &words(&format!("16 {list}")), 33);
    assert_eq!(ran.answer, done(33));
    assert_eq!(ran.word(16), [17, 17, 18]);
    assert_eq!(ran.word(1), [32, 32, 33]);
    assert_eq!(ran.word(32), [15, 0, 0]);
}

/// `x = *p + *(p + 1)`
#[test]
fn sum_of_two_words() {
    let routine = "12 1 3 0 1 0 0 6 1 0 2 2 0 6 3 0 1 0 0 6 5 0 4 1 0 5 6 7 2 8 0 6 9 0 5 4 10 \
        | 1 0 11";
    let ran = run(routine, "1 0 2 30 12");
    assert_eq!((ran.answer, ran.values[4]), (done(7), 42));
    // With one word there is no second, though a register comes after it.
    let ran = run(routine, "2 0 1 30 1 1 12");
    assert_eq!((ran.answer, ran.values[4]), (abort(0, 7), 9));
    // With none there is not even a first.
    assert_eq!(run(routine, "1 0 0").answer, abort(0, 5));
}

/// `*(p + n) = 5`, with a neighbour on either side.
#[test]
fn a_step_to_the_neighbour() {
    let list = "3 | 1 2 1 2 | 0 2 3 4 | 2 2 5 6";
    let step = |n: u32| {
        let routine = format!("6 1 0 0 6 0 0 4 {n} 0 5 1 2 2 3 0 4 5 0 | 1 4 5");
        run(&routine, list)
    };
    let changed = |ran: &Ran| {
        let words = (5..11).zip(1..);
        let changed = words.filter(|&(word, value)| ran.word(word) != [value, 0, 0]);
        changed.map(|(word, _)| word).collect::<Vec<_>>()
    };
    for (n, word) in [(0, 7), (1, 8)] {
        let ran = step(n);
        assert_eq!((ran.answer, changed(&ran)), (done(11), vec![word]));
        assert_eq!(ran.values[word], 5);
    }
    for n in [2, 3, u32::MAX, u32::MAX - 1] {
        let ran = step(n);
        assert_eq!((ran.answer, changed(&ran)), (abort(0, 11), vec![]));
    }
}

/// `v = malloc(n)`: blocks come after the registers.
#[test]
fn blocks_after_registers() {
    let routine = |n: u32| format!("3 1 2 0 4 {n} 0 10 1 0 | 1 0 2");
    let ran = run(&routine(4), "1 1 7 8 8 8 8 8 8 8");
    assert_eq!((ran.answer, ran.word(3)), (done(16), [12, 12, 16]));
    assert_eq!(ran.word(12), [0; 3]);
    let ran = run(&routine(5), "1 1 7 8 8 8 8 8 8 8");
    assert_eq!(ran.answer, no_room(0, 12));
}

/// `**p = 1`: a word of a register is no pointer, though it has the number of
/// a word that is there.
#[test]
fn words_of_registers_have_no_bounds() {
    let table = words("0 | 0 | 2 0 2 | 1 3 | 6 1 0 0 6 0 0 2 1 0 6 2 0 2 3 0 4 1 0 | 1 4 5");
    let ran = Ran::new(&table, &[0], &words("1 0 1 2"), 4);
    assert_eq!(ran.answer, abort(0, 3));
    assert_eq!(ran.word(2), [2, 0, 0]);
}

/// A record of two fields of two words over a register: `p->field = 1`.
#[test]
fn a_record_over_a_register() {
    for (field, length, answer) in [(0, 2, done(4)), (1, 3, abort(0, 5)), (1, 4, done(6))] {
        let text =
            format!("1 2 | 2 0 2 0 2 | 1 65536 | 1 2 | 4 1 0 0 6 0 0 3 1 {field} 4 1 0 | 1 2 3");
        let list = format!("1 0 {length} {}", some(length));
        let ran = Ran::new(&words(&text), &[0], &words(&list), 8);
        assert_eq!(ran.answer, answer);
    }
}
