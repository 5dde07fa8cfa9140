//! Examples of request 6, whole records copied.

mod built;
mod ran;

use built::*;
use ran::{abort, done, no_room, words, Ran};
use second::machine::{check, Answer, Refusal, Verdict};

const INPUTS: [u32; 5] = [0; 5];
const LENGTH: usize = 32;
/// -1, as a number to add.
const BACK: u32 = u32::MAX;

fn run(routine: &Routine, list: &str) -> Ran {
    Ran::new(&routine.table(), &INPUTS, &words(list), LENGTH)
}

/// `x = copy(r + to, r + from)`, both counted in words.
fn copy_within(to: u32, from: u32) -> Routine {
    let mut routine = Routine::default();
    let to = routine.record_at(R, to);
    let from = routine.record_at(R, from);
    let copy = routine.copy(to, from);
    routine.set(X, copy);
    routine
}

/// A row of nine words in a register, [6, 15): every copy of four of them onto
/// four of them, apart, overlapping either way and onto itself.
#[test]
fn overlapping() {
    const ROW: [u32; 9] = [1, 2, 3, 4, 5, 6, 7, 8, 9];
    for to in 0..=5 {
        for from in 0..=5 {
            let ran = run(&copy_within(to, from), "1 2 9 1 2 3 4 5 6 7 8 9");
            let mut expected = ROW;
            for i in 0..4 {
                expected[to as usize + i] = ROW[from as usize + i];
            }
            assert_eq!(ran.answer, done(15));
            assert_eq!(ran.values[6..15], expected, "{to} {from}");
            assert_eq!(ran.word(5), [4, 0, 0]);
        }
    }
}

/// The first and the last word are checked, of a's place and of b's, and no
/// word is written where either is not passed.
#[test]
fn out_of_bounds() {
    let outside = [6, 7, 9, BACK, BACK - 1, BACK - 6, BACK - 7, BACK - 8];
    let pairs = outside.into_iter().flat_map(|n| [(n, 0), (0, n), (n, n)]);
    for (to, from) in pairs {
        let ran = run(&copy_within(to, from), "1 2 9 1 2 3 4 5 6 7 8 9");
        assert_eq!(ran.answer, abort(0, 15));
        assert_eq!(ran.values[5..15], [0, 1, 2, 3, 4, 5, 6, 7, 8, 9]);
    }
}

/// Adding the size in 32 bits would let these pass: from 4,294,967,295 on,
/// four words end at word 3.
#[test]
fn sums_are_exact() {
    for n in [BACK - 6, BACK - 7, BACK - 9] {
        assert_eq!(
            run(&copy_within(n, 0), "1 2 4 1 2 3 4").answer,
            abort(0, 10)
        );
        assert_eq!(
            run(&copy_within(0, n), "1 2 4 1 2 3 4").answer,
            abort(0, 10)
        );
    }
}

/// A block of 8 words, [6, 14), with r at its start and p at `&x` in its
/// second word: p's word has bounds, though the record says int.
fn with_a_pointer_inside() -> Routine {
    let mut routine = Routine::default();
    routine.block(R, RECORD_POINTER, 8);
    let pointer = routine.get(R);
    let pointer = routine.cast(pointer, POINTER_POINTER);
    let pointer = routine.plus(pointer, 1);
    let place = routine.follow(pointer);
    let x = routine.variable(X);
    let address = routine.address(x);
    routine.assign(place, address);
    routine
}

#[test]
fn bounds_go_along() {
    let mut routine = with_a_pointer_inside();
    let to = routine.record_at(R, 4);
    let from = routine.get(R);
    let copy = routine.copy(to, from);
    routine.set(X, copy);
    let ran = run(&routine, "0");
    assert_eq!((ran.answer, ran.word(5)), (done(14), [4, 0, 0]));
    assert_eq!([ran.word(7), ran.word(11)], [[5, 5, 6]; 2]);
    // What was copied is followed: `**(int**)(r + 5 words) = 5`.
    let pointer = routine.get(R);
    let pointer = routine.cast(pointer, POINTER_POINTER);
    let pointer = routine.plus(pointer, 5);
    let place = routine.follow(pointer);
    let pointer = routine.read(place);
    let place = routine.follow(pointer);
    routine.store(place);
    assert_eq!(run(&routine, "0").word(5), [5, 0, 0]);
}

/// Words without bounds take away those that were there.
#[test]
fn bounds_are_overwritten() {
    let mut routine = with_a_pointer_inside();
    let to = routine.get(R);
    let from = routine.record_at(R, 4);
    let copy = routine.copy(to, from);
    routine.set(X, copy);
    let ran = run(&routine, "0");
    assert_eq!((ran.answer, ran.word(7)), (done(14), [0; 3]));
}

/// Bounds overlap as values do.
#[test]
fn bounds_of_overlapping_words() {
    for (to, expected) in [
        (1, [[0; 3], [0; 3], [5, 5, 6]]),
        (0, [[0; 3], [5, 5, 6], [0; 3]]),
    ] {
        let mut routine = with_a_pointer_inside();
        let to = routine.record_at(R, to);
        let from = routine.get(R);
        let copy = routine.copy(to, from);
        routine.set(X, copy);
        let ran = run(&routine, "0");
        assert_eq!([6, 7, 8].map(|w| ran.word(w)), expected);
    }
    let mut routine = with_a_pointer_inside();
    let to = routine.get(R);
    let from = routine.record_at(R, 1);
    let copy = routine.copy(to, from);
    routine.set(X, copy);
    let ran = run(&routine, "0");
    assert_eq!([6, 7].map(|w| ran.word(w)), [[5, 5, 6], [0; 3]]);
}

/// "The result is the number of words, without bounds."
#[test]
fn the_result() {
    // `x = 3 + copy`, and `x = copy + 3`
    for left in [true, false] {
        let mut routine = Routine::default();
        let [to, from] = [0, 1].map(|n| routine.record_at(R, n));
        let sum = match left {
            true => {
                let copy = routine.copy(to, from);
                routine.plus(copy, 3)
            }
            false => {
                let three = routine.number(3);
                let copy = routine.copy(to, from);
                routine.sum(three, copy)
            }
        };
        routine.set(X, sum);
        let ran = run(&routine, "1 2 5 1 2 3 4 5");
        assert_eq!((ran.answer, ran.word(5)), (done(11), [7, 0, 0]));
        assert_eq!(ran.values[6..11], [2, 3, 4, 5, 5]);
    }
    // `p = (int*)malloc(copy)`: four words
    let mut routine = Routine::default();
    let [to, from] = [0, 1].map(|n| routine.record_at(R, n));
    let copy = routine.copy(to, from);
    let block = routine.node(10, copy, 0);
    let block = routine.cast(block, INT_POINTER);
    routine.set(P, block);
    let ran = run(&routine, "1 2 5 1 2 3 4 5");
    assert_eq!((ran.answer, ran.word(1)), (done(15), [11, 11, 15]));
    // `p = (int*)copy`, and `x = *p`
    let mut routine = Routine::default();
    let [to, from] = [0, 1].map(|n| routine.record_at(R, n));
    let copy = routine.copy(to, from);
    let pointer = routine.cast(copy, INT_POINTER);
    routine.set(P, pointer);
    let ran = run(&routine, "1 2 5 1 2 3 4 5");
    assert_eq!((ran.answer, ran.word(1)), (done(11), [4, 0, 0]));
}

/// `*(p + copy) = 5`, where p is at r's block: the fifth word.
#[test]
fn an_index() {
    let mut routine = Routine::default();
    let p = routine.get(R);
    let p = routine.cast(p, INT_POINTER);
    let [to, from] = [0, 1].map(|n| routine.record_at(R, n));
    let copy = routine.copy(to, from);
    let p = routine.sum(p, copy);
    let place = routine.follow(p);
    routine.store(place);
    let ran = run(&routine, "1 2 5 1 2 3 4 9");
    assert_eq!(ran.answer, done(11));
    assert_eq!(ran.values[6..11], [2, 3, 4, 9, 5]);
}

/// `x = copy((record*)malloc(to), (record*)malloc(from))`: both blocks are
/// there before the first check, and stay.
#[test]
fn blocks_of_the_operands() {
    let copy = |to: u32, from: u32| {
        let mut routine = Routine::default();
        let [to, from] = [to, from].map(|words| {
            let block = routine.obtain(words);
            routine.cast(block, RECORD_POINTER)
        });
        let copy = routine.copy(to, from);
        routine.set(X, copy);
        run(&routine, "0").answer
    };
    assert_eq!(copy(4, 4), done(14));
    assert_eq!(copy(5, 20), done(31));
    assert_eq!(copy(3, 4), abort(0, 13));
    assert_eq!(copy(4, 3), abort(0, 13));
    assert_eq!(copy(0, 4), abort(0, 10));
    assert_eq!(copy(4, 0), abort(0, 10));
    // No room for the second, though the first is too short.
    assert_eq!(copy(1, 26), no_room(0, 7));
    assert_eq!(copy(27, 1), no_room(0, 6));
}

/// The operands are worked out before a word is copied: `copy(r, r + c words)`
/// where c is itself a copy, of four words, and copies them first.
#[test]
fn a_copy_in_an_operand() {
    let mut routine = Routine::default();
    let to = routine.record_at(R, 0);
    let [inner_to, inner_from] = [5, 1].map(|n| routine.record_at(R, n));
    let inner = routine.copy(inner_to, inner_from);
    let base = routine.get(R);
    let base = routine.cast(base, VOID_POINTER);
    let from = routine.sum(base, inner);
    let from = routine.cast(from, RECORD_POINTER);
    let copy = routine.copy(to, from);
    routine.set(X, copy);
    let ran = run(&routine, "1 2 9 1 2 3 4 5 6 7 8 9");
    assert_eq!(ran.answer, done(15));
    assert_eq!(ran.values[6..15], [5, 2, 3, 4, 5, 2, 3, 4, 5]);
}

/// `**s = copy(onto the word that s points to)`: the place is worked out before
/// the value, and its check isn't made again.
#[test]
fn a_place_by_way_of_a_pointer_overwritten() {
    let mut routine = Routine::default();
    // s at the block [6, 10), whose first word is `&x`
    routine.block(S, POINTER_POINTER, 4);
    let pointer = routine.get(S);
    let place = routine.follow(pointer);
    let x = routine.variable(X);
    let address = routine.address(x);
    routine.assign(place, address);
    // r at clear words
    routine.block(R, RECORD_POINTER, 4);
    let pointer = routine.get(S);
    let place = routine.follow(pointer);
    let pointer = routine.read(place);
    let place = routine.follow(pointer);
    let to = routine.record_at(S, 0);
    let from = routine.get(R);
    let copy = routine.copy(to, from);
    routine.assign(place, copy);
    let ran = run(&routine, "0");
    assert_eq!((ran.answer, ran.word(6)), (done(14), [0; 3]));
    assert_eq!(ran.word(5), [4, 0, 0]);
}

/// Two pointers to int, p at a register of two words and q without bounds, and
/// a record of one word over each variable: `x = copy((one*)&q, (one*)&p)`.
#[test]
fn a_record_of_one_word_over_a_variable() {
    let head = "1 1 | 1 0 1 | 3 65536 0 3 | 3 3 3 0 |";
    let nodes = "8 1 2 0 1 1 0 7 1 0 8 2 2 1 0 0 7 4 0 8 5 2 11 3 6 | 1 0 7";
    let table = words(&format!("{head} {nodes}"));
    let ran = Ran::new(&table, &[0; 3], &words("1 0 2 8 9"), 6);
    assert_eq!(ran.answer, done(6));
    assert_eq!([1, 2].map(|w| ran.word(w)), [[4, 4, 6]; 2]);
    assert_eq!(ran.word(3), [1, 0, 0]);
}

/// 32,000 words in 8 fields, copied one word on in a block one word longer.
#[test]
fn a_long_record() {
    let fields = "0 4000 ".repeat(8);
    let head = format!("1 8 | 8 {fields} | 1 65536 | 2 2 0 |");
    let moved = "1 1 0 1 0 0 6 1 0 8 2 1 4 1 0 5 3 4 8 5 2";
    let table = words(&format!("{head} 10 {moved} 1 0 0 6 7 0 11 6 8 | 1 0 9"));
    let row: Vec<u32> = (1..=32_001).collect();
    let mut list = vec![1, 0, 32_001];
    list.extend(&row);
    let ran = Ran::new(&table, &[0; 2], &list, 32_004);
    assert_eq!((ran.answer, ran.word(2)), (done(32_004), [32_000, 0, 0]));
    assert_eq!(ran.values[3], 1);
    assert_eq!(ran.values[4..], row[..32_000]);
}

/// Records of two ints and of one, pointers to both, to int and to the first
/// of these; variables of each of the types, in order.
const TYPES: &str = "2 2 1 | 3 0 1 0 1 0 1 | 4 65536 65537 0 2 | 6 0 1 2 3 4 5 |";
/// The place of the first node of such a table.
const NODES: usize = 23;

/// The check of nodes and commands over these types.
fn checked(routine: &str) -> Verdict {
    check(&words(&format!("{TYPES} {routine}")))
}

fn refused(number: u32, place: usize) -> Verdict {
    Verdict::Refused(Refusal { number, place })
}

/// `x = copy(a, b)` for the values of two variables.
#[test]
fn types_of_the_pointers() {
    for a in 0..6 {
        for b in 0..6 {
            let copy = "6 1 0 0 1 A 0 6 1 0 1 B 0 6 3 0 11 2 4 | 1 0 5";
            let copy = copy.replace('A', &a.to_string());
            let expected = match a == b && (a == 2 || a == 3) {
                true => Verdict::Pass,
                false => refused(8, NODES + 15),
            };
            let copy = copy.replace('B', &b.to_string());
            assert_eq!(checked(&copy), expected, "{a} {b}");
        }
    }
}

/// An unknown child or a place, in a before b, and all that before 8.
#[test]
fn children() {
    let copy = |a: u32, b: u32| {
        checked(&format!(
            "6 1 0 0 1 2 0 6 1 0 1 2 0 6 3 0 11 {a} {b} | 1 0 5"
        ))
    };
    assert_eq!(copy(2, 4), Verdict::Pass);
    assert_eq!(copy(4, 2), Verdict::Pass);
    for wrong in [0, 1, 3, 5, 6, u32::MAX] {
        assert_eq!(copy(wrong, 4), refused(7, NODES + 16));
        assert_eq!(copy(2, wrong), refused(7, NODES + 17));
        assert_eq!(copy(wrong, wrong), refused(7, NODES + 16));
    }
    // One node for both is used twice, and the other never.
    assert_eq!(copy(2, 2), refused(9, NODES + 6));
    assert_eq!(copy(4, 4), refused(9, NODES + 6));
    // A place as b before an int as a.
    let nodes = "4 4 1 0 1 2 0 1 0 0 11 0 1 | 1 2 3";
    assert_eq!(checked(nodes), refused(7, NODES + 11));
}

/// The result is an int, and a value.
#[test]
fn the_type_of_the_result() {
    let with = |rest: &str| checked(&format!("6 1 2 0 6 0 0 1 2 0 6 2 0 11 1 3 {rest}"));
    assert_eq!(with("1 0 0 | 1 5 4"), Verdict::Pass);
    for variable in 1..6 {
        let command = format!("1 {variable} 0 | 1 5 4");
        assert_eq!(with(&command), refused(8, NODES + 19));
    }
    // Read, or assigned to: it is no place.
    assert_eq!(with("6 4 0 | 0"), refused(7, NODES + 16));
    assert_eq!(with("1 0 0 | 1 4 5"), refused(7, NODES + 19));
    // Never used.
    assert_eq!(with("1 0 0 | 0"), refused(9, NODES + 12));
}

/// "Kind 11 is no longer unknown": 0 and 12 are.
#[test]
fn kinds() {
    for kind in [0, 12, 13, 99, u32::MAX] {
        let table = [0, 0, 0, 0, 1, kind, 0, 0, 0];
        assert_eq!(check(&table), refused(7, 5));
    }
    assert_eq!(check(&words("0 0 0 0 1 11 0 0 0")), refused(7, 6));
}

/// A call is refused before a word is written.
#[test]
fn a_refused_call() {
    let table = copy_within(0, 1).table();
    let ran = Ran::new(&table, &INPUTS, &words("1 2 5 1 2 3 4 5"), 10);
    let refusal = Refusal {
        number: 15,
        place: 2,
    };
    assert_eq!(ran.answer, Answer::Refused(refusal));
    assert!(ran.untouched());
}
