//! Request 8: the steps of edition 2, sentence by sentence.

mod built;
mod edition;
mod ran;
mod starred;

use built::*;
use edition::{marked, FRONT};
use ran::{abort, done, no_room, words, Ran};
use second::machine::{explain, Answer, Explanation, Reason};

const INPUTS: [u32; 5] = [0; 5];
const LENGTH: usize = 32;
/// -1, as a number to add.
const BACK: u32 = u32::MAX;

/// A run by edition 2.
fn run(routine: &Routine, list: &str) -> Ran {
    Ran::new(&marked(&routine.table()), &INPUTS, &words(list), LENGTH)
}

/// The same by edition 1.
fn run_unmarked(routine: &Routine, list: &str) -> Ran {
    Ran::new(&routine.table(), &INPUTS, &words(list), LENGTH)
}

/// `p = (int*)malloc(2); q = (int*)malloc(3)`: bounds [6, 8) and [8, 11).
fn two_blocks() -> Routine {
    let mut routine = Routine::default();
    routine.block(P, INT_POINTER, 2);
    routine.block(Q, INT_POINTER, 3);
    routine
}

/// `(int)variable`
fn int_of(routine: &mut Routine, variable: u32) -> u32 {
    let value = routine.get(variable);
    routine.cast(value, INT)
}

// "In edition 2 a cast changes nothing, so an int may have bounds."

/// `x = (int)p; q = (int*)x; *q = 5`
#[test]
fn casts_to_int_and_back() {
    let mut routine = Routine::default();
    routine.block(P, INT_POINTER, 2);
    let int = int_of(&mut routine, P);
    routine.set(X, int);
    let x = routine.get(X);
    let pointer = routine.cast(x, INT_POINTER);
    routine.set(Q, pointer);
    let place = routine.word_of(Q, 0);
    routine.store(place);
    let ran = run(&routine, "0");
    assert_eq!(ran.answer, done(8));
    assert_eq!([1, 2, 5].map(|w| ran.word(w)), [[6, 6, 8]; 3]);
    assert_eq!(ran.word(6), [5, 0, 0]);
    let ran = run_unmarked(&routine, "0");
    assert_eq!(ran.answer, abort(3, 8));
    assert_eq!([2, 5].map(|w| ran.word(w)), [[6, 0, 0]; 2]);
}

/// Through any types in turn, a value with bounds and one without.
#[test]
fn a_cast_changes_nothing() {
    let types = [
        INT,
        VOID_POINTER,
        RECORD_POINTER,
        INT_POINTER,
        POINTER_POINTER,
    ];
    for first in types {
        for second in types {
            let mut routine = two_blocks();
            let value = routine.get(Q);
            let value = routine.cast(value, first);
            let value = routine.cast(value, second);
            let value = routine.cast(value, INT_POINTER);
            routine.set(P, value);
            let number = routine.number(8);
            let number = routine.cast(number, first);
            let number = routine.cast(number, second);
            let number = routine.cast(number, INT);
            routine.set(X, number);
            let ran = run(&routine, "0");
            assert_eq!((ran.answer, ran.word(1)), (done(11), [8, 8, 11]));
            assert_eq!(ran.word(5), [8, 0, 0]);
        }
    }
}

/// Document 000, section 6.1: with x = 17 and w another pointer, `z = &x;
/// a = (int)z; *(int*)a = 42; w = (int*)4096; *w = 42`.
#[test]
fn the_example_of_the_board() {
    let nodes = "1 1 0 1 0 0 7 1 0 | 1 2 0 1 1 0 6 4 0 8 5 0 | 1 2 0 6 7 0 8 8 2 2 9 0 4 42 0 \
        | 1 3 0 4 4096 0 8 13 2 | 1 3 0 6 15 0 2 16 0 4 42 0";
    let commands = "0 2 3 6 10 11 12 14 17 18";
    let sections = words(&format!(
        "0 | 0 | 1 0 | 4 0 2 0 2 | 19 {nodes} | 5 {commands}"
    ));
    let ran = Ran::new(&marked(&sections), &[17, 0, 0, 0], &[0], 5);
    assert_eq!(ran.answer, abort(4, 5));
    let memory = [1, 2, 3, 4].map(|word| ran.word(word));
    assert_eq!(memory, [[42, 0, 0], [1, 1, 2], [1, 1, 2], [4_096, 0, 0]]);
}

// "Every read and every assignment moves value, base and end."

/// `*p = (int)p; *((int*)*p + 1) = 5`, p at a block or at a register.
#[test]
fn ints_keep_bounds_in_words() {
    for register in [false, true] {
        let mut routine = Routine::default();
        if !register {
            routine.block(P, INT_POINTER, 2);
        }
        let place = routine.word_of(P, 0);
        let int = int_of(&mut routine, P);
        routine.assign(place, int);
        let place = routine.word_of(P, 0);
        let int = routine.read(place);
        let pointer = routine.cast(int, INT_POINTER);
        let pointer = routine.plus(pointer, 1);
        let place = routine.follow(pointer);
        routine.store(place);
        let (list, last) = if register { ("1 0 2 8 9", 1) } else { ("0", 2) };
        let ran = run(&routine, list);
        assert_eq!((ran.answer, ran.word(6)), (done(8), [6, 6, 8]));
        assert_eq!(ran.word(7), [5, 0, 0]);
        let ran = run_unmarked(&routine, list);
        assert_eq!((ran.answer, ran.word(6)), (abort(last, 8), [6, 0, 0]));
    }
}

/// `r->queue = (int)&x; *(int*)r->queue = 5`, r at a block or at a register.
#[test]
fn ints_keep_bounds_in_fields() {
    for register in [false, true] {
        let mut routine = Routine::default();
        if !register {
            routine.block(R, RECORD_POINTER, 4);
        }
        let place = routine.field_of(R, 0, 1);
        let x = routine.variable(X);
        let address = routine.address(x);
        let int = routine.cast(address, INT);
        routine.assign(place, int);
        let place = routine.field_of(R, 0, 1);
        let int = routine.read(place);
        let pointer = routine.cast(int, INT_POINTER);
        let place = routine.follow(pointer);
        routine.store(place);
        let (list, last) = if register {
            ("1 2 4 1 2 3 4", 1)
        } else {
            ("0", 2)
        };
        let ran = run(&routine, list);
        assert_eq!((ran.answer, ran.word(8)), (done(10), [5, 5, 6]));
        assert_eq!(ran.word(5), [5, 0, 0]);
        let ran = run_unmarked(&routine, list);
        assert_eq!((ran.answer, ran.word(8)), (abort(last, 10), [5, 0, 0]));
    }
}

/// `x = (int)p; x = 7`, and `*(int*)&p = n` with and without bounds.
#[test]
fn an_int_store_overwrites_bounds() {
    let mut routine = two_blocks();
    let int = int_of(&mut routine, P);
    routine.set(X, int);
    let seven = routine.number(7);
    routine.set(X, seven);
    assert_eq!(run(&routine, "0").word(5), [7, 0, 0]);
    for with_bounds in [false, true] {
        let mut routine = two_blocks();
        let p = routine.variable(P);
        let address = routine.address(p);
        let address = routine.cast(address, INT_POINTER);
        let place = routine.follow(address);
        let int = match with_bounds {
            false => routine.number(7),
            true => int_of(&mut routine, Q),
        };
        routine.assign(place, int);
        let place = routine.word_of(P, 0);
        routine.store(place);
        let ran = run(&routine, "0");
        match with_bounds {
            false => assert_eq!((ran.answer, ran.word(1)), (abort(3, 11), [7, 0, 0])),
            true => assert_eq!((ran.answer, ran.word(1)), (done(11), [8, 8, 11])),
        }
        // p's own bounds, [6, 8), stay in edition 1: 7 is in them, 8 is not.
        let ran = run_unmarked(&routine, "0");
        match with_bounds {
            false => assert_eq!((ran.answer, ran.word(1)), (done(11), [7, 6, 8])),
            true => assert_eq!((ran.answer, ran.word(1)), (abort(3, 11), [8, 6, 8])),
        }
    }
}

/// A pointer's word read as an int: `x = *(int*)&q`.
#[test]
fn an_int_read_of_a_pointer_word() {
    let mut routine = two_blocks();
    let q = routine.variable(Q);
    let address = routine.address(q);
    let address = routine.cast(address, INT_POINTER);
    let place = routine.follow(address);
    let int = routine.read(place);
    routine.set(X, int);
    assert_eq!(run(&routine, "0").word(5), [8, 8, 11]);
    assert_eq!(run_unmarked(&routine, "0").word(5), [8, 0, 0]);
}

// "A sum takes the left bounds if the left end isn't 0, else the right ones."

/// One side of a sum: a number, or a variable's pointer made an int.
#[derive(Clone, Copy)]
enum Side {
    Number(u32),
    Of(u32),
}
use Side::{Number, Of};

impl Side {
    fn int(self, routine: &mut Routine) -> u32 {
        match self {
            Number(word) => routine.number(word),
            Of(variable) => int_of(routine, variable),
        }
    }
}

/// `x = (int)((typ)left + right)`: the word of x.
fn sum_as(typ: u32, left: Side, right: Side) -> [u32; 3] {
    let mut routine = two_blocks();
    let left = left.int(&mut routine);
    let left = routine.cast(left, typ);
    let right = right.int(&mut routine);
    let sum = routine.sum(left, right);
    let sum = routine.cast(sum, INT);
    routine.set(X, sum);
    let ran = run(&routine, "0");
    assert_eq!(ran.answer, done(11));
    ran.word(5)
}

#[test]
fn sums_of_ints_and_pointers() {
    for typ in [INT, VOID_POINTER, INT_POINTER, POINTER_POINTER] {
        // Both have bounds: the left ones.
        assert_eq!(sum_as(typ, Of(P), Of(Q)), [14, 6, 8]);
        assert_eq!(sum_as(typ, Of(Q), Of(P)), [14, 8, 11]);
        assert_eq!(sum_as(typ, Of(P), Of(P)), [12, 6, 8]);
        // One has.
        assert_eq!(sum_as(typ, Of(P), Number(1)), [7, 6, 8]);
        assert_eq!(sum_as(typ, Number(1), Of(P)), [7, 6, 8]);
        assert_eq!(sum_as(typ, Number(0), Of(Q)), [8, 8, 11]);
        assert_eq!(sum_as(typ, Number(BACK), Of(Q)), [7, 8, 11]);
        // A pointer variable never set has none, and so has its word.
        assert_eq!(sum_as(typ, Of(S), Of(Q)), [8, 8, 11]);
        assert_eq!(sum_as(typ, Of(Q), Of(S)), [8, 8, 11]);
        // Neither has.
        assert_eq!(sum_as(typ, Number(1), Number(2)), [3, 0, 0]);
        assert_eq!(sum_as(typ, Of(S), Number(2)), [2, 0, 0]);
        // The number is taken modulo 2^32, as before.
        assert_eq!(sum_as(typ, Number(BACK - 7), Of(Q)), [0, 8, 11]);
    }
}

/// A step is a record, whichever side the bounds are of.
#[test]
fn sums_by_records() {
    assert_eq!(sum_as(RECORD_POINTER, Of(P), Of(Q)), [6 + 8 * 4, 6, 8]);
    assert_eq!(sum_as(RECORD_POINTER, Of(P), Number(2)), [14, 6, 8]);
    assert_eq!(sum_as(RECORD_POINTER, Number(2), Of(Q)), [34, 8, 11]);
    assert_eq!(sum_as(RECORD_POINTER, Number(2), Number(3)), [14, 0, 0]);
    // 8 * 4 less than 9, so that the pointer is in q's bounds.
    let rest = 9u32.wrapping_sub(32);
    assert_eq!(sum_as(RECORD_POINTER, Number(rest), Of(Q)), [9, 8, 11]);
}

/// `((record*)rest + (int)q)->snapshot = 5`: two words of [8, 11), from `first`
/// on. A step is four words.
#[test]
fn a_record_followed_by_right_bounds() {
    for (first, answer) in [(9u32, done(11)), (8, done(11)), (10, abort(2, 11))] {
        let mut routine = two_blocks();
        let rest = routine.number(first.wrapping_sub(8 * 4));
        let rest = routine.cast(rest, RECORD_POINTER);
        let int = int_of(&mut routine, Q);
        let pointer = routine.sum(rest, int);
        let place = routine.field(pointer, 0);
        routine.store(place);
        let ran = run(&routine, "0");
        assert_eq!(ran.answer, answer);
        assert_eq!(run_unmarked(&routine, "0").answer, abort(2, 11));
    }
}

/// `(1 + (int)p) + (int)q`, and `1 + (2 + (int)q)`, and `(x + 1) + (int)q`.
#[test]
fn sums_of_sums() {
    let mut routine = two_blocks();
    let one = routine.number(1);
    let p = int_of(&mut routine, P);
    let left = routine.sum(one, p);
    let q = int_of(&mut routine, Q);
    let sum = routine.sum(left, q);
    routine.set(X, sum);
    assert_eq!(run(&routine, "0").word(5), [15, 6, 8]);

    let mut routine = two_blocks();
    let one = routine.number(1);
    let two = routine.number(2);
    let q = int_of(&mut routine, Q);
    let right = routine.sum(two, q);
    let sum = routine.sum(one, right);
    routine.set(X, sum);
    assert_eq!(run(&routine, "0").word(5), [11, 8, 11]);

    let mut routine = two_blocks();
    let x = routine.get(X);
    let left = routine.plus(x, 1);
    let q = int_of(&mut routine, Q);
    let sum = routine.sum(left, q);
    routine.set(X, sum);
    assert_eq!(run(&routine, "0").word(5), [9, 8, 11]);
}

/// `x = x + 1` where x has no bounds takes none from a command before.
#[test]
fn a_sum_without_bounds() {
    let mut routine = two_blocks();
    let x = routine.get(X);
    let sum = routine.plus(x, 1);
    routine.set(X, sum);
    assert_eq!(run(&routine, "0").word(5), [1, 0, 0]);
    // `*p = *p + 1`: the place has bounds, and what stands there has none.
    let mut routine = two_blocks();
    let place = routine.word_of(P, 0);
    let word = routine.word_of(P, 0);
    let word = routine.read(word);
    let sum = routine.plus(word, 1);
    routine.assign(place, sum);
    assert_eq!(run(&routine, "0").word(6), [1, 0, 0]);
}

/// Both have bounds: `x = (int)q; *(int*)(x + ((int)p + n - 6)) = 5`.
#[test]
fn a_pointer_made_of_two_ints() {
    let rebuilt = |n: u32| {
        let mut routine = two_blocks();
        let q = int_of(&mut routine, Q);
        routine.set(X, q);
        let x = routine.get(X);
        // p is at 6, so that this is n, with p's bounds.
        let p = int_of(&mut routine, P);
        let p = routine.plus(p, n.wrapping_sub(6));
        let sum = routine.sum(x, p);
        let pointer = routine.cast(sum, INT_POINTER);
        let place = routine.follow(pointer);
        routine.store(place);
        run(&routine, "0")
    };
    for n in 0..3 {
        let ran = rebuilt(n);
        assert_eq!(
            (ran.answer, ran.word(8 + n as usize)),
            (done(11), [5, 0, 0])
        );
    }
    // p's words are out of q's bounds, and so is the word after these.
    for n in [3, BACK, BACK - 1] {
        assert_eq!(rebuilt(n).answer, abort(3, 11));
    }
}

// Constants, sizes, the results of copies and malloc(0) have no bounds.

/// `*p = value`, whose place had bounds: the word at p.
fn at_p(value: fn(&mut Routine) -> u32) -> [u32; 3] {
    let mut routine = two_blocks();
    let place = routine.word_of(P, 0);
    let value = value(&mut routine);
    routine.assign(place, value);
    let ran = run(&routine, "1 2 4 1 2 3 4");
    assert_eq!(ran.answer, done(15));
    ran.word(10)
}

#[test]
fn numbers_have_no_bounds() {
    assert_eq!(at_p(|routine| routine.number(9)), [9, 0, 0]);
    assert_eq!(at_p(|routine| routine.node(9, 65_536, 0)), [4, 0, 0]);
    assert_eq!(at_p(|routine| routine.node(9, INT_POINTER, 0)), [1, 0, 0]);
    let copied = at_p(|routine| {
        let [to, from] = [0, 0].map(|n| routine.record_at(R, n));
        routine.copy(to, from)
    });
    assert_eq!(copied, [4, 0, 0]);
    let none = at_p(|routine| {
        let block = routine.obtain(0);
        routine.cast(block, INT)
    });
    assert_eq!(none, [0; 3]);
    // Beside these, a variable's address does have some.
    let address = at_p(|routine| {
        let x = routine.variable(X);
        let address = routine.address(x);
        routine.cast(address, INT)
    });
    assert_eq!(address, [5, 5, 6]);
}

/// `s = malloc((int)p + n)`: the value alone counts.
#[test]
fn a_block_by_a_number_with_bounds() {
    let block = |n: u32| {
        let mut routine = two_blocks();
        let p = int_of(&mut routine, P);
        let words = routine.plus(p, n);
        let block = routine.node(10, words, 0);
        let block = routine.cast(block, POINTER_POINTER);
        routine.set(S, block);
        run(&routine, "0")
    };
    let ran = block(0);
    assert_eq!((ran.answer, ran.word(4)), (done(17), [11, 11, 17]));
    let ran = block(BACK - 4);
    assert_eq!((ran.answer, ran.word(4)), (done(12), [11, 11, 12]));
    // None at all.
    let ran = block(BACK - 5);
    assert_eq!((ran.answer, ran.word(4)), (done(11), [0; 3]));
    assert_eq!(block(15).answer, done(32));
    assert_eq!(block(16).answer, no_room(2, 11));
}

// "Tables without the mark run as they did." The starred runs of document 01
// end alike in both editions, but for one.

#[test]
fn starred_runs() {
    use starred::*;
    let clear = [0; 3];
    let new = [2, 2, 4];
    let runs = [
        (m(), done(4), [new, clear, clear]),
        (block(3), no_room(0, 2), [clear; 3]),
        (block(0), done(2), [clear; 3]),
        (m().store(1, 5), done(4), [new, clear, [5, 0, 0]]),
        (m().store(2, 5), abort(1, 4), [new, clear, clear]),
        (m().store(BACK, 5), abort(1, 4), [new, clear, clear]),
        (forged_pointer(), abort(2, 4), [[2, 0, 0], clear, clear]),
        (
            address_of_an_element(),
            done(4),
            [[3, 2, 4], [7, 0, 0], clear],
        ),
        (place_before_value(), abort(1, 4), [new, clear, clear]),
        (block_of_an_aborted_command(), abort(0, 3), [clear; 3]),
    ];
    for (routine, answer, memory) in runs {
        for front in [&[][..], &FRONT] {
            let ran = routine.run(front);
            assert_eq!(ran.answer, answer);
            assert_eq!([1, 2, 3].map(|word| ran.word(word)), memory);
        }
    }
    // And six zeros in memory of one word.
    for table in [vec![0; 6], marked(&[0; 6])] {
        assert_eq!(Ran::new(&table, &[], &[0], 1).answer, done(1));
    }
}

/// m; `*(int*)&p = 3`; `*p = 8`
#[test]
fn the_starred_run_that_differs() {
    let routine = starred::int_store_over_a_pointer();
    let ran = routine.run(&[]);
    assert_eq!((ran.answer, ran.word(1)), (done(4), [3, 2, 4]));
    assert_eq!(ran.word(3), [8, 0, 0]);
    let ran = routine.run(&FRONT);
    assert_eq!((ran.answer, ran.word(1)), (abort(2, 4), [3, 0, 0]));
    assert_eq!(ran.word(3), [0; 3]);
}

// The explaining tool, registers and copies in edition 2.

fn explained(routine: &Routine, list: &str) -> (Answer, Option<Explanation>) {
    let table = marked(&routine.table());
    let mut lists = [[7; LENGTH]; 3];
    let [values, bases, ends] = &mut lists;
    let explained = explain(&table, &INPUTS, &words(list), values, bases, ends);
    let ran = run(routine, list);
    assert_eq!(explained.0, ran.answer);
    let [values, bases, ends] = &lists;
    for (word, value) in values.iter().enumerate() {
        assert_eq!([*value, bases[word], ends[word]], ran.word(word));
    }
    explained
}

fn told(
    node: u32,
    place: u64,
    [base, end]: [u32; 2],
    reason: Reason,
    first: u32,
) -> Option<Explanation> {
    Some(Explanation {
        node,
        place,
        words: 1,
        base,
        end,
        reason,
        first,
    })
}

/// `*(int*)(left + right) = 5`, over a register of three words at q.
fn explained_sum(left: Side, right: Side) -> (u32, (Answer, Option<Explanation>)) {
    let mut routine = Routine::default();
    routine.block(P, INT_POINTER, 2);
    let left = left.int(&mut routine);
    let right = right.int(&mut routine);
    let sum = routine.sum(left, right);
    let pointer = routine.cast(sum, INT_POINTER);
    let node = routine.follow(pointer);
    routine.store(node);
    (node, explained(&routine, "1 1 3 1 2 3"))
}

/// q at [6, 9), p at [9, 11).
#[test]
fn explanations() {
    use Reason::{BeforeBase, NoBounds, PastEnd};
    let sums = [
        (Of(P), Number(2), 11, [9, 11], PastEnd),
        (Of(P), Number(BACK), 8, [9, 11], BeforeBase),
        (Number(3), Of(Q), 9, [6, 9], PastEnd),
        (Number(BACK), Of(Q), 5, [6, 9], BeforeBase),
        (Of(P), Of(Q), 15, [9, 11], PastEnd),
        (Of(Q), Of(P), 15, [6, 9], PastEnd),
        (Number(4), Number(5), 9, [0, 0], NoBounds),
        (Of(S), Number(6), 6, [0, 0], NoBounds),
    ];
    for (left, right, place, bounds, reason) in sums {
        let (node, explained) = explained_sum(left, right);
        let expected = told(node, place, bounds, reason, bounds[0]);
        assert_eq!(explained, (abort(1, 11), expected));
    }
    for (left, right) in [(Of(S), Of(P)), (Number(1), Of(Q)), (Of(P), Number(1))] {
        assert_eq!(explained_sum(left, right).1, (done(11), None));
    }
}

/// `x = (int)&x; *(int*)(1 + x) = 5`
#[test]
fn bounds_of_a_variable_explained() {
    let mut routine = Routine::default();
    let x = routine.variable(X);
    let address = routine.address(x);
    let int = routine.cast(address, INT);
    routine.set(X, int);
    let one = routine.number(1);
    let x = routine.get(X);
    let sum = routine.sum(one, x);
    let pointer = routine.cast(sum, INT_POINTER);
    let node = routine.follow(pointer);
    routine.store(node);
    let expected = told(node, 6, [5, 6], Reason::PastEnd, 5);
    assert_eq!(explained(&routine, "0"), (abort(1, 6), expected));
}

/// A pointer overwritten by an int has no bounds any more.
#[test]
fn an_overwritten_pointer_explained() {
    let mut routine = two_blocks();
    let p = routine.variable(P);
    let address = routine.address(p);
    let address = routine.cast(address, INT_POINTER);
    let place = routine.follow(address);
    let twenty = routine.number(20);
    routine.assign(place, twenty);
    let node = routine.word_of(P, 0);
    routine.store(node);
    let expected = told(node, 20, [0, 0], Reason::NoBounds, 0);
    assert_eq!(explained(&routine, "0"), (abort(3, 11), expected));
}

/// Words handed in have no bounds, and their variables have, as before.
#[test]
fn registers() {
    let list = "3 | 1 2 21 22 | 3 0 | 0 1 6";
    let ran = run(&Routine::default(), list);
    assert_eq!(ran.answer, done(9));
    let memory = [1, 2, 4, 6, 7, 8].map(|word| ran.word(word));
    let expected = [
        [8, 8, 9],
        [6, 6, 8],
        [0; 3],
        [21, 0, 0],
        [22, 0, 0],
        [6, 0, 0],
    ];
    assert_eq!(memory, expected);
    // `*(int*)*p = 5`: the word at p is the number of a word of q's register.
    let mut routine = Routine::default();
    let word = routine.word_of(P, 0);
    let word = routine.read(word);
    let pointer = routine.cast(word, INT_POINTER);
    let place = routine.follow(pointer);
    routine.store(place);
    assert_eq!(run(&routine, list).answer, abort(0, 9));
}

/// Ints with bounds are copied with them, and over them: r at [6, 14).
#[test]
fn copies() {
    let mut routine = Routine::default();
    let place = routine.field_of(R, 0, 1);
    let int = int_of(&mut routine, R);
    routine.assign(place, int);
    let place = routine.field_of(R, 4, 0);
    let int = int_of(&mut routine, R);
    routine.assign(place, int);
    let [to, from] = [4, 0].map(|n| routine.record_at(R, n));
    let copy = routine.copy(to, from);
    routine.set(X, copy);
    let list = "1 2 8 1 2 3 4 5 6 7 8";
    let ran = run(&routine, list);
    assert_eq!((ran.answer, ran.word(5)), (done(14), [4, 0, 0]));
    assert_eq!([8, 12].map(|w| ran.word(w)), [[6, 6, 14]; 2]);
    assert_eq!(ran.word(10), [1, 0, 0]);
    // The copied int is followed: `*((int*)*(r + 6 words) + 1) = 5`.
    let place = routine.field_of(R, 4, 1);
    let int = routine.read(place);
    let pointer = routine.cast(int, INT_POINTER);
    let pointer = routine.plus(pointer, 1);
    let place = routine.follow(pointer);
    routine.store(place);
    let ran = run(&routine, list);
    assert_eq!((ran.answer, ran.word(7)), (done(14), [5, 0, 0]));
    assert_eq!(run_unmarked(&routine, list).answer, abort(3, 14));
}

/// A copy by way of ints made pointers, in bounds and out of them.
#[test]
fn copies_by_ints() {
    let copy = |to: u32, from: u32| {
        let mut routine = Routine::default();
        let [to, from] = [to, from].map(|n| {
            let n = routine.number(n);
            let int = int_of(&mut routine, R);
            let sum = routine.sum(n, int);
            routine.cast(sum, RECORD_POINTER)
        });
        let node = routine.copy(to, from);
        routine.set(X, node);
        (node, explained(&routine, "1 2 6 1 2 3 4 5 6"))
    };
    assert_eq!(copy(0, 2).1, (done(12), None));
    assert_eq!(copy(2, 0).1, (done(12), None));
    for (to, from) in [(3, 0), (0, 3)] {
        let (node, explained) = copy(to, from);
        let expected = told(node, 9, [6, 12], Reason::PastEnd, 6);
        let expected = expected.map(|told| Explanation { words: 4, ..told });
        assert_eq!(explained, (abort(0, 12), expected));
    }
}
