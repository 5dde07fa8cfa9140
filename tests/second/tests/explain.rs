//! Examples of request 4, a reason for every abort.

mod built;
mod ran;

use built::*;
use ran::{abort, done, no_room, words, Ran};
use second::machine::{self, Answer, Explanation, Reason, Refusal};
use Reason::{BeforeBase, NoBounds, PastEnd};

const INPUTS: [u32; 5] = [0; 5];
const LENGTH: usize = 32;
/// -1, as a number to add.
const BACK: u32 = u32::MAX;

/// What is explained, after a look at the run: its answer and the words that
/// it leaves are the same.
fn explain(
    table: &[u32],
    inputs: &[u32],
    list: &[u32],
    length: usize,
) -> (Answer, Option<Explanation>) {
    let ran = Ran::new(table, inputs, list, length);
    let lent = || vec![7; length];
    let (mut values, mut bases, mut ends) = (lent(), lent(), lent());
    let (answer, told) = machine::explain(table, inputs, list, &mut values, &mut bases, &mut ends);
    assert_eq!(answer, ran.answer);
    for word in 0..length {
        assert_eq!([values[word], bases[word], ends[word]], ran.word(word));
    }
    (answer, told)
}

fn explained(routine: &Routine, list: &str) -> (Answer, Option<Explanation>) {
    explain(&routine.table(), &INPUTS, &words(list), LENGTH)
}

/// Node, place wanted, words wanted, bounds, reason, first word.
fn told(
    node: u32,
    place: u64,
    words: u32,
    [base, end]: [u32; 2],
    reason: Reason,
    first: u32,
) -> Option<Explanation> {
    Some(Explanation {
        node,
        place,
        words,
        base,
        end,
        reason,
        first,
    })
}

/// `p = (int*)malloc(2)`: bounds [6, 8).
fn m() -> Routine {
    let mut routine = Routine::default();
    routine.block(P, INT_POINTER, 2);
    routine
}

#[test]
fn reasons_have_their_numbers() {
    let numbers = [NoBounds, BeforeBase, PastEnd].map(|reason| reason as u32);
    assert_eq!(numbers, [1, 2, 3]);
}

#[test]
fn no_bounds() {
    // A pointer never set, a number made a pointer, and malloc(0).
    let mut routine = Routine::default();
    let place = routine.word_of(P, 0);
    routine.store(place);
    let expected = told(place, 0, 1, [0, 0], NoBounds, 0);
    assert_eq!(explained(&routine, "0"), (abort(0, 6), expected));

    let mut routine = m();
    let place = routine.forged(6);
    routine.store(place);
    let expected = told(place, 6, 1, [0, 0], NoBounds, 0);
    assert_eq!(explained(&routine, "0"), (abort(1, 8), expected));

    let mut routine = Routine::default();
    routine.block(P, INT_POINTER, 0);
    let place = routine.word_of(P, 3);
    routine.store(place);
    let expected = told(place, 3, 1, [0, 0], NoBounds, 0);
    assert_eq!(explained(&routine, "0"), (abort(1, 6), expected));
}

#[test]
fn follow_before_the_base() {
    for (n, place) in [(BACK, 5), (BACK - 4, 1), (BACK - 5, 0)] {
        let mut routine = m();
        let node = routine.word_of(P, n);
        routine.store(node);
        let expected = told(node, place, 1, [6, 8], BeforeBase, 6);
        assert_eq!(explained(&routine, "0"), (abort(1, 8), expected));
    }
}

/// One step more below word 0 is the highest word there is.
#[test]
fn follow_past_the_end() {
    for (n, place) in [(2, 8), (3, 9), (BACK - 6, 4_294_967_295)] {
        let mut routine = m();
        let node = routine.word_of(P, n);
        routine.store(node);
        let expected = told(node, place, 1, [6, 8], PastEnd, 6);
        assert_eq!(explained(&routine, "0"), (abort(1, 8), expected));
    }
}

/// The fields of a record over three words, [6, 9).
#[test]
fn fields() {
    let field = |n: u32, field: u32| {
        let mut routine = Routine::default();
        routine.block(R, RECORD_POINTER, 3);
        let node = routine.field_of(R, n, field);
        routine.store(node);
        (node, explained(&routine, "0"))
    };
    let outside = |n: u32, b: u32, place: u64, reason: Reason| {
        let (node, explained) = field(n, b);
        let expected = told(node, place, 2, [6, 9], reason, 6);
        assert_eq!(explained, (abort(1, 9), expected));
    };
    assert_eq!(field(0, 0).1, (done(9), None));
    assert_eq!(field(1, 0).1, (done(9), None));
    // The first word is in bounds, the second is not.
    outside(0, 1, 8, PastEnd);
    outside(2, 0, 8, PastEnd);
    outside(1, 1, 9, PastEnd);
    // The second word is in bounds, the first is not.
    outside(BACK, 0, 5, BeforeBase);
    outside(BACK - 2, 1, 5, BeforeBase);
    outside(BACK - 5, 1, 2, BeforeBase);
    assert_eq!(field(BACK, 1).1, (done(9), None));
}

/// "The place wanted is the exact sum": modulo 2^32 it would be in bounds.
#[test]
fn places_above_32_bits() {
    // r at 6, and the queue two words on: 4,294,967,295 + 2
    let mut routine = Routine::default();
    routine.block(R, RECORD_POINTER, 4);
    let node = routine.field_of(R, BACK - 6, 1);
    routine.store(node);
    let expected = told(node, 4_294_967_297, 2, [6, 10], PastEnd, 6);
    assert_eq!(explained(&routine, "0"), (abort(1, 10), expected));

    // Without bounds that is the lowest reason.
    let mut routine = Routine::default();
    let top = routine.number(4_294_967_294);
    let top = routine.cast(top, RECORD_POINTER);
    let node = routine.field(top, 1);
    routine.store(node);
    let expected = told(node, 4_294_967_296, 2, [0, 0], NoBounds, 0);
    assert_eq!(explained(&routine, "0"), (abort(0, 6), expected));
}

/// The farthest place: the last of 128 fields of 4,096 words, for a pointer to
/// word 4,294,967,295.
#[test]
fn the_farthest_place() {
    let fields = "0 4096 ".repeat(128);
    let nodes = format!("4 4 {} 0 8 0 2 3 1 127 4 5 0", u32::MAX);
    let table = words(&format!(
        "1 128 | 128 {fields} | 1 65536 | 0 | {nodes} | 1 2 3"
    ));
    let place = 4_294_967_295 + 127 * 4_096;
    let expected = told(2, place, 4_096, [0, 0], NoBounds, 0);
    assert_eq!(explain(&table, &[], &[0], 1), (abort(0, 1), expected));
}

/// Of a field that begins before the base and ends past the end, the base is
/// told.
#[test]
fn the_lowest_reason() {
    // p at the one word 6, and a record's queue of words 5 and 6, or 6 and 7.
    for (n, place, reason) in [(BACK - 2, 5, BeforeBase), (BACK - 1, 6, PastEnd)] {
        let mut routine = Routine::default();
        routine.block(P, INT_POINTER, 1);
        let node = routine.field_of(P, n, 1);
        routine.store(node);
        let expected = told(node, place, 2, [6, 7], reason, 6);
        assert_eq!(explained(&routine, "0"), (abort(1, 7), expected));
    }
    // Two ints, the second at word 2, and four words from word 1 on: a record's
    // second field, whose pointer is `(void*)&second - 2`.
    let table = words(
        "1 2 | 2 0 1 0 4 | 2 65536 0 | 2 0 0 | \
         8 1 1 0 7 0 0 8 1 1 4 4294967294 0 5 2 3 8 4 2 3 5 1 4 5 0 | 1 6 7",
    );
    let expected = told(6, 1, 4, [2, 3], BeforeBase, 2);
    let explained = explain(&table, &[0, 0], &[0], 8);
    assert_eq!(explained, (abort(0, 3), expected));
}

/// `*(&x + n)`: the bounds of a variable.
#[test]
fn bounds_of_a_variable() {
    for (n, place, reason) in [(1, 6, PastEnd), (BACK, 4, BeforeBase)] {
        let mut routine = m();
        let x = routine.variable(X);
        let address = routine.address(x);
        let moved = routine.plus(address, n);
        let node = routine.follow(moved);
        routine.store(node);
        let expected = told(node, place, 1, [5, 6], reason, 5);
        assert_eq!(explained(&routine, "0"), (abort(1, 8), expected));
    }
}

/// Three registers of 3, 2 and 1 words, one of no words between them: q has the
/// words [9, 11).
#[test]
fn bounds_of_a_register() {
    let list = "4 | 0 3 1 2 3 | 3 0 | 1 2 4 5 | 2 1 6";
    for (n, place, reason) in [(2, 11, PastEnd), (BACK, 8, BeforeBase)] {
        let mut routine = Routine::default();
        let node = routine.word_of(Q, n);
        routine.store(node);
        let expected = told(node, place, 1, [9, 11], reason, 9);
        assert_eq!(explained(&routine, list), (abort(0, 12), expected));
    }
    // The first and the last one.
    for (variable, bounds) in [(P, [6, 9]), (R, [11, 12])] {
        let mut routine = Routine::default();
        let node = routine.field_of(variable, 2, 0);
        routine.store(node);
        let expected = told(
            node,
            u64::from(bounds[0]) + 2,
            2,
            bounds,
            PastEnd,
            bounds[0],
        );
        assert_eq!(explained(&routine, list), (abort(0, 12), expected));
    }
    // A register of no words has no bounds.
    let mut routine = Routine::default();
    let pointer = routine.get(S);
    let node = routine.follow(pointer);
    let value = routine.get(P);
    routine.assign(node, value);
    let expected = told(node, 0, 1, [0, 0], NoBounds, 0);
    assert_eq!(explained(&routine, list), (abort(0, 12), expected));
}

/// Three blocks, of 2, 3 and 4 words, after a register of 1.
#[test]
fn bounds_of_one_of_three_blocks() {
    let blocks = [(Q, [7, 9]), (R, [9, 12]), (S, [12, 16])];
    for (variable, [base, end]) in blocks {
        for (n, place, reason) in [(end - base, end, PastEnd), (BACK, base - 1, BeforeBase)] {
            let mut routine = Routine::default();
            routine.block(Q, INT_POINTER, 2);
            routine.block(R, RECORD_POINTER, 3);
            routine.block(S, POINTER_POINTER, 4);
            let pointer = routine.get(variable);
            let pointer = routine.cast(pointer, INT_POINTER);
            let pointer = routine.plus(pointer, n);
            let node = routine.follow(pointer);
            routine.store(node);
            let expected = told(node, u64::from(place), 1, [base, end], reason, base);
            assert_eq!(explained(&routine, "1 0 1 8"), (abort(3, 16), expected));
        }
    }
}

/// A block obtained in the very command that aborts.
#[test]
fn bounds_of_the_newest_block() {
    let mut routine = m();
    let block = routine.obtain(3);
    let block = routine.cast(block, INT_POINTER);
    let past = routine.plus(block, 3);
    let node = routine.follow(past);
    routine.store(node);
    let expected = told(node, 11, 1, [8, 11], PastEnd, 8);
    assert_eq!(explained(&routine, "0"), (abort(1, 11), expected));
}

/// `q = &r->queue; *(q + n) = 5`: the bounds are the field's, [10, 12), and
/// the first word is that of the block, [8, 12).
#[test]
fn bounds_of_a_field_within_a_block() {
    for (n, place, reason) in [(2, 12, PastEnd), (BACK, 9, BeforeBase)] {
        let mut routine = m();
        routine.block(R, RECORD_POINTER, 4);
        let queue = routine.field_of(R, 0, 1);
        let address = routine.address(queue);
        routine.set(Q, address);
        let node = routine.word_of(Q, n);
        routine.store(node);
        let expected = told(node, place, 1, [10, 12], reason, 8);
        assert_eq!(explained(&routine, "0"), (abort(3, 12), expected));
    }
    // A field within a register.
    let mut routine = Routine::default();
    let queue = routine.field_of(R, 0, 1);
    let address = routine.address(queue);
    let moved = routine.plus(address, BACK);
    let node = routine.follow(moved);
    routine.store(node);
    let list = "2 | 0 2 1 2 | 2 5 3 4 5 6 7";
    let expected = told(node, 9, 1, [10, 12], BeforeBase, 8);
    assert_eq!(explained(&routine, list), (abort(0, 13), expected));
}

/// `*(int*)&p = 20; *p = 5`: p keeps its bounds, and so its block.
#[test]
fn bounds_of_a_pointer_overwritten() {
    let mut routine = m();
    let p = routine.variable(P);
    let address = routine.address(p);
    let address = routine.cast(address, INT_POINTER);
    let place = routine.follow(address);
    let twenty = routine.number(20);
    routine.assign(place, twenty);
    let node = routine.word_of(P, 0);
    routine.store(node);
    let expected = told(node, 20, 1, [6, 8], PastEnd, 6);
    assert_eq!(explained(&routine, "0"), (abort(2, 8), expected));
}

/// `s = (int**)malloc(1); *s = p; *(*(s + n) + k) = 5`
#[test]
fn nested_places() {
    let nested = |n: u32, k: u32| {
        let mut routine = m();
        routine.block(S, POINTER_POINTER, 1);
        let pointer = routine.get(S);
        let place = routine.follow(pointer);
        let p = routine.get(P);
        routine.assign(place, p);
        let first = routine.word_of(S, n);
        let pointer = routine.read(first);
        let pointer = routine.plus(pointer, k);
        let second = routine.follow(pointer);
        routine.store(second);
        (first, second, explained(&routine, "0"))
    };
    let (_, _, explained) = nested(0, 1);
    assert_eq!(explained, (done(9), None));
    let (_, second, explained) = nested(0, 2);
    let expected = told(second, 8, 1, [6, 8], PastEnd, 6);
    assert_eq!(explained, (abort(3, 9), expected));
    let (_, second, explained) = nested(0, BACK);
    let expected = told(second, 5, 1, [6, 8], BeforeBase, 6);
    assert_eq!(explained, (abort(3, 9), expected));
    // The first of them, though the second would not pass either.
    let (first, _, explained) = nested(1, 2);
    let expected = told(first, 9, 1, [8, 9], PastEnd, 8);
    assert_eq!(explained, (abort(3, 9), expected));
}

/// The check's own node and bounds are told, whatever stands above it.
#[test]
fn below_other_nodes() {
    type Above = fn(&mut Routine, u32) -> u32;
    let above: [Above; 6] = [
        |_, value| value,
        |routine, value| {
            let pointer = routine.cast(value, INT_POINTER);
            routine.cast(pointer, INT)
        },
        |routine, value| routine.plus(value, 1),
        |routine, value| {
            let one = routine.number(1);
            routine.sum(one, value)
        },
        |routine, value| {
            // On the right of a pointer that has bounds.
            let q = routine.get(Q);
            let sum = routine.sum(q, value);
            routine.cast(sum, INT)
        },
        |routine, value| {
            let block = routine.node(10, value, 0);
            routine.cast(block, INT)
        },
    ];
    for around in above {
        let mut routine = m();
        routine.block(Q, INT_POINTER, 3);
        let node = routine.word_of(P, 2);
        let value = routine.read(node);
        let value = around(&mut routine, value);
        routine.set(X, value);
        let expected = told(node, 8, 1, [6, 8], PastEnd, 6);
        assert_eq!(explained(&routine, "0"), (abort(2, 11), expected));
    }
}

/// `q = &*(p + 2)`: nothing is read, and the check is made all the same.
#[test]
fn an_address() {
    let mut routine = m();
    let node = routine.word_of(P, 2);
    let address = routine.address(node);
    routine.set(Q, address);
    let expected = told(node, 8, 1, [6, 8], PastEnd, 6);
    assert_eq!(explained(&routine, "0"), (abort(1, 8), expected));
}

/// A command's place before its value, though its nodes may come after.
#[test]
fn the_first_check_not_passed() {
    let mut routine = m();
    let in_value = routine.word_of(P, 3);
    let value = routine.read(in_value);
    let in_place = routine.word_of(P, 2);
    routine.assign(in_place, value);
    let expected = told(in_place, 8, 1, [6, 8], PastEnd, 6);
    assert_eq!(explained(&routine, "0"), (abort(1, 8), expected));

    let mut routine = m();
    let value = routine.word_of(P, BACK);
    let read = routine.read(value);
    let place = routine.word_of(P, 1);
    routine.assign(place, read);
    let expected = told(value, 5, 1, [6, 8], BeforeBase, 6);
    assert_eq!(explained(&routine, "0"), (abort(1, 8), expected));
}

/// `x = copy(r + to words, r + from words)`, r at a record of four words,
/// [6, 10): the copy's own node, the pointer's value and the whole record.
#[test]
fn copies() {
    let copy = |to: u32, from: u32| {
        let mut routine = Routine::default();
        let to = routine.record_at(R, to);
        let from = routine.record_at(R, from);
        let node = routine.copy(to, from);
        routine.set(X, node);
        (node, explained(&routine, "1 2 4 1 2 3 4"))
    };
    assert_eq!(copy(0, 0).1, (done(10), None));
    let outside = [
        (1, 7, PastEnd),
        (4, 10, PastEnd),
        (BACK, 5, BeforeBase),
        (BACK - 5, 0, BeforeBase),
        // Four words more are words 1 and 2, modulo 2^32.
        (BACK - 6, 4_294_967_295, PastEnd),
    ];
    for (n, place, reason) in outside {
        for (to, from) in [(n, 0), (0, n)] {
            let (node, explained) = copy(to, from);
            let expected = told(node, place, 4, [6, 10], reason, 6);
            assert_eq!(explained, (abort(0, 10), expected));
        }
    }
    // Both: the place copied to comes first.
    let (node, explained) = copy(2, BACK);
    let expected = told(node, 8, 4, [6, 10], PastEnd, 6);
    assert_eq!(explained, (abort(0, 10), expected));
    let (node, explained) = copy(BACK, 2);
    let expected = told(node, 5, 4, [6, 10], BeforeBase, 6);
    assert_eq!(explained, (abort(0, 10), expected));
}

/// The bounds are those of the pointer whose place is not passed.
#[test]
fn copies_between_blocks() {
    // p at [6, 8), and blocks [8, 12) and [12, 15) obtained by the copy itself
    let copy = |to: u32, from: u32| {
        let mut routine = m();
        let [to, from] = [to, from].map(|words| {
            let block = routine.obtain(words);
            routine.cast(block, RECORD_POINTER)
        });
        let node = routine.copy(to, from);
        routine.set(X, node);
        (node, explained(&routine, "0"))
    };
    let (node, explained) = copy(4, 3);
    let expected = told(node, 12, 4, [12, 15], PastEnd, 12);
    assert_eq!(explained, (abort(1, 15), expected));
    let (node, explained) = copy(3, 4);
    let expected = told(node, 8, 4, [8, 11], PastEnd, 8);
    assert_eq!(explained, (abort(1, 15), expected));
    let (node, explained) = copy(3, 3);
    let expected = told(node, 8, 4, [8, 11], PastEnd, 8);
    assert_eq!(explained, (abort(1, 14), expected));
    // malloc(0), after which the other is no question
    let (node, explained) = copy(0, 3);
    let expected = told(node, 0, 4, [0, 0], NoBounds, 0);
    assert_eq!(explained, (abort(1, 11), expected));
    let (node, explained) = copy(4, 0);
    let expected = told(node, 0, 4, [0, 0], NoBounds, 0);
    assert_eq!(explained, (abort(1, 12), expected));
    assert_eq!(copy(4, 4).1, (done(16), None));
    assert_eq!(copy(1, 24).1, (no_room(1, 9), None));
}

/// A check in an operand comes before those of the copy, in b too.
#[test]
fn operands_of_a_copy() {
    let mut routine = m();
    let to = routine.number(20);
    let to = routine.cast(to, RECORD_POINTER);
    let node = routine.word_of(P, 2);
    let from = routine.address(node);
    let from = routine.cast(from, RECORD_POINTER);
    let copy = routine.copy(to, from);
    routine.set(X, copy);
    let expected = told(node, 8, 1, [6, 8], PastEnd, 6);
    assert_eq!(explained(&routine, "0"), (abort(1, 8), expected));
    // A place before the copy in its value, and a copy's check before a place
    // that needs its result.
    let mut routine = m();
    let [to, from] = [0, 1].map(|n| routine.record_at(P, n));
    let copy = routine.copy(to, from);
    let node = routine.word_of(P, 2);
    routine.assign(node, copy);
    let expected = told(node, 8, 1, [6, 8], PastEnd, 6);
    assert_eq!(explained(&routine, "0"), (abort(1, 8), expected));
    let mut routine = m();
    let p = routine.get(P);
    let [to, from] = [0, 1].map(|n| routine.record_at(P, n));
    let copy = routine.copy(to, from);
    let p = routine.sum(p, copy);
    let place = routine.follow(p);
    routine.store(place);
    let expected = told(copy, 6, 4, [6, 8], PastEnd, 6);
    assert_eq!(explained(&routine, "0"), (abort(1, 8), expected));
}

/// Bounds that a copy has moved are those of their own block still: p, at
/// [6, 8), goes into one record and by a copy into the next.
#[test]
fn bounds_that_were_copied() {
    let mut routine = m();
    routine.block(R, RECORD_POINTER, 8);
    let pointer = routine.get(R);
    let pointer = routine.cast(pointer, POINTER_POINTER);
    let place = routine.follow(pointer);
    let p = routine.get(P);
    routine.assign(place, p);
    let [to, from] = [4, 0].map(|n| routine.record_at(R, n));
    let copy = routine.copy(to, from);
    routine.set(X, copy);
    let pointer = routine.get(R);
    let pointer = routine.cast(pointer, POINTER_POINTER);
    let pointer = routine.plus(pointer, 4);
    let place = routine.follow(pointer);
    let pointer = routine.read(place);
    let pointer = routine.plus(pointer, 2);
    let node = routine.follow(pointer);
    routine.store(node);
    let expected = told(node, 8, 1, [6, 8], PastEnd, 6);
    assert_eq!(explained(&routine, "0"), (abort(4, 16), expected));
}

/// The largest record fits nowhere: 2^19 words.
#[test]
fn a_copy_of_the_largest_record() {
    let fields = "0 4096 ".repeat(128);
    let nodes = format!("6 1 0 0 1 1 0 6 1 0 4 {} 0 8 3 2 11 2 4", u32::MAX);
    let table = words(&format!(
        "1 128 | 128 {fields} | 1 65536 | 2 0 2 | {nodes} | 1 0 5"
    ));
    let expected = told(5, 3, 524_288, [3, 4], PastEnd, 3);
    let explained = explain(&table, &[0, 0], &words("1 1 1 8"), 4);
    assert_eq!(explained, (abort(0, 4), expected));
    // The other way round, the number made a pointer comes first.
    let table = words(&format!(
        "1 128 | 128 {fields} | 1 65536 | 2 0 2 | {} | 1 0 5",
        nodes.replace("11 2 4", "11 4 2")
    ));
    let expected = told(5, 4_294_967_295, 524_288, [0, 0], NoBounds, 0);
    let explained = explain(&table, &[0, 0], &words("1 1 1 8"), 4);
    assert_eq!(explained, (abort(0, 4), expected));
}

#[test]
fn before_the_last_command() {
    let mut routine = m();
    let node = routine.word_of(P, 2);
    routine.store(node);
    // What would pass, and what would not.
    let place = routine.word_of(P, 1);
    routine.store(place);
    let place = routine.word_of(Q, 7);
    routine.store(place);
    let expected = told(node, 8, 1, [6, 8], PastEnd, 6);
    assert_eq!(explained(&routine, "0"), (abort(1, 8), expected));
}

#[test]
fn not_aborted() {
    assert_eq!(explain(&[0; 6], &[], &[0], 1), (done(1), None));
    let mut routine = m();
    let place = routine.word_of(P, 1);
    routine.store(place);
    assert_eq!(explained(&routine, "0"), (done(8), None));
    // No room is no abort, whether or not a check would have been next.
    let mut routine = m();
    routine.block(Q, INT_POINTER, 25);
    assert_eq!(explained(&routine, "0"), (no_room(1, 8), None));
    let mut routine = m();
    let block = routine.obtain(25);
    let block = routine.cast(block, INT);
    let place = routine.word_of(P, 2);
    let read = routine.read(place);
    let sum = routine.sum(block, read);
    routine.set(X, sum);
    assert_eq!(explained(&routine, "0"), (no_room(1, 8), None));
    // The other way round, the check is first.
    let mut routine = m();
    let node = routine.word_of(P, 2);
    let block = routine.obtain(25);
    let block = routine.cast(block, INT);
    routine.assign(node, block);
    let expected = told(node, 8, 1, [6, 8], PastEnd, 6);
    assert_eq!(explained(&routine, "0"), (abort(1, 8), expected));
}

/// "The run's own numbers, in their order", with every word left as it was.
#[test]
fn refused() {
    let refused = |table: &[u32], inputs: &[u32], list: &str, length, number, place| {
        let explained = explain(table, inputs, &words(list), length);
        let refusal = Refusal { number, place };
        assert_eq!(explained, (Answer::Refused(refusal), None));
        assert!(Ran::new(table, inputs, &words(list), length).untouched());
    };
    refused(&words("0 0 0"), &[], "0", 4, 1, 3);
    refused(&words("33"), &[], "0", 4, 3, 0);
    refused(&words("0 0 0 0 1 4 7 0 0"), &[], "0", 4, 9, 5);
    // Over a routine that would abort.
    let mut routine = Routine::default();
    let place = routine.word_of(P, 0);
    routine.store(place);
    let table = routine.table();
    refused(&table, &INPUTS, "0", 5, 10, 0);
    refused(&table, &[0; 4], "0", LENGTH, 11, 5);
    refused(&table, &[0, 0, 9, 0, 0], "0", LENGTH, 11, 2);
    refused(&table, &INPUTS, "", LENGTH, 13, 0);
    refused(&table, &INPUTS, "1 4 0", LENGTH, 14, 1);
    refused(&table, &INPUTS, "1 0 2 8 9", 7, 15, 2);
    // 10 before 11, and 13 before 14 and 15.
    refused(&table, &[0; 4], "", 5, 10, 0);
    refused(&table, &INPUTS, "1 4 2 8 9 7", 7, 13, 5);
}

#[test]
fn lists_of_differing_length() {
    let table = m().table();
    for lengths in [[31, 32, 32], [32, 31, 32], [32, 32, 31]] {
        let [mut values, mut bases, mut ends] = lengths.map(|length| vec![7; length]);
        let explained = machine::explain(&table, &INPUTS, &[0], &mut values, &mut bases, &mut ends);
        let refusal = Refusal {
            number: 10,
            place: 0,
        };
        assert_eq!(explained, (Answer::Refused(refusal), None));
        let lists = [values, bases, ends];
        assert!(lists.iter().flatten().all(|&word| word == 7));
    }
}

/// "`abort 4`": the last store, through a pointer to the snapshot, [3, 5), of
/// the record at 3.
#[test]
fn routine_a() {
    let table = words(
        "1 2 | 2 0 2 0 2 | 2 65536 0 | 2 2 3 | 22 1 0 0 9 65536 0 10 1 0 8 2 2 1 1 0 1 0 0 6 5 0 \
         3 6 0 7 7 0 1 1 0 6 9 0 2 10 0 4 9 0 1 1 0 1 1 0 6 14 0 4 2 0 5 15 16 1 1 0 6 18 0 2 19 0 \
         4 9 0 | 5 0 3 4 8 11 12 13 17 20 21",
    );
    let expected = told(20, 5, 1, [3, 5], PastEnd, 3);
    let explained = explain(&table, &[0, 0], &[0], 16);
    assert_eq!(explained, (abort(4, 7), expected));
}
