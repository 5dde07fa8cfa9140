//! Request 9, the bare run, sentence by sentence.

mod built;
mod edition;
mod ran;
mod starred;

use built::*;
use edition::{marked, FRONT, MARK};
use ran::{abort, bare, done, no_room, stuck, words, Ran};
use second::machine::{Answer, Refusal};

/// x, word 5, begins as 9. U begins at 6.
const INPUTS: [u32; 5] = [0, 0, 0, 0, 9];
const LENGTH: usize = 12;
/// -1, as a number to add.
const BACK: u32 = u32::MAX;
/// Words that there are none of.
const OUTSIDE: [u32; 9] = [
    0,
    12,
    13,
    31,
    65_535,
    65_536,
    1 << 31,
    u32::MAX - 1,
    u32::MAX,
];

/// A bare run in both editions, which are alike.
fn run(routine: &Routine, list: &str) -> (Answer, Vec<u32>) {
    let (table, list) = (routine.table(), words(list));
    let ran = bare(&table, &INPUTS, &list, LENGTH);
    assert_eq!(bare(&marked(&table), &INPUTS, &list, LENGTH), ran);
    ran
}

/// Memory with these words, and 0 in the others.
fn memory(words: &[(usize, u32)]) -> Vec<u32> {
    let mut memory = vec![0; LENGTH];
    words.iter().for_each(|&(word, value)| memory[word] = value);
    memory
}

/// `(record*)n`
fn record(routine: &mut Routine, n: u32) -> u32 {
    let n = routine.number(n);
    routine.cast(n, RECORD_POINTER)
}

/// `*(int*)n = 5`, for each of some.
fn stores(words: &[u32]) -> Routine {
    let mut routine = Routine::default();
    store_at(&mut routine, words);
    routine
}

fn store_at(routine: &mut Routine, words: &[u32]) {
    for &n in words {
        let place = routine.forged(n);
        routine.store(place);
    }
}

/// `(int)malloc(words)`
fn obtained(routine: &mut Routine, words: u32) -> u32 {
    let block = routine.obtain(words);
    routine.cast(block, INT)
}

/// `copy((record*)to, (record*)from)`: four words.
fn copied(routine: &mut Routine, to: u32, from: u32) -> u32 {
    let [to, from] = [to, from].map(|n| record(routine, n));
    routine.copy(to, from)
}

// "The same steps without checks and without the two bounds lists".

/// The starred runs of document 01 in four words: p is word 1, and U begins at
/// 2. With bounds, five of them abort.
#[test]
fn starred_runs() {
    use starred::{address_of_an_element, forged_pointer, int_store_over_a_pointer};
    use starred::{block, block_of_an_aborted_command, m, place_before_value};
    let runs = [
        (m(), done(4), [0, 2, 0, 0]),
        (block(3), no_room(0, 2), [0; 4]),
        (block(0), done(2), [0; 4]),
        (m().store(1, 5), done(4), [0, 2, 0, 5]),
        // Word 4 is the first there isn't.
        (m().store(2, 5), stuck(1, 4), [0, 2, 0, 0]),
        // Word 1 is p.
        (m().store(BACK, 5), done(4), [0, 5, 0, 0]),
        (forged_pointer(), done(4), [0, 2, 5, 0]),
        (address_of_an_element(), done(4), [0, 3, 7, 0]),
        (int_store_over_a_pointer(), done(4), [0, 3, 0, 8]),
        // The value is worked out before the store is stuck at word 4.
        (place_before_value(), no_room(1, 4), [0, 2, 0, 0]),
        // Word 3, which is not below U, becomes 0.
        (block_of_an_aborted_command(), done(3), [0; 4]),
    ];
    for (routine, answer, memory) in runs {
        for front in [&[][..], &FRONT] {
            let ran = bare(&routine.table(front), &[0], &[0], 4);
            assert_eq!(ran, (answer, memory.to_vec()));
        }
    }
    assert_eq!(bare(&[0; 6], &[], &[0], 1), (done(1), vec![0]));
}

const ROUTINE_A: &str = "1 2 | 2 0 2 0 2 | 2 65536 0 | 2 2 3 | 22 1 0 0 9 65536 0 10 1 0 \
    8 2 2 1 1 0 1 0 0 6 5 0 3 6 0 7 7 0 1 1 0 6 9 0 2 10 0 4 9 0 1 1 0 1 1 0 6 14 0 4 2 0 \
    5 15 16 1 1 0 6 18 0 2 19 0 4 9 0 | 5 0 3 4 8 11 12 13 17 20 21";

/// The live queue is written by way of the snapshot's pointer.
#[test]
fn routine_a() {
    let table = words(ROUTINE_A);
    let (answer, memory) = bare(&table, &[0, 0], &[0], 16);
    assert_eq!(answer, done(7));
    assert_eq!(memory[..8], [0, 3, 5, 9, 0, 9, 0, 0]);
    let ran = Ran::new(&table, &[0, 0], &[0], 16);
    assert_eq!(ran.answer, abort(4, 7));
}

/// Variables, constants, sizes, casts, sums and reads: `x = x + sizeof(record)`.
#[test]
fn values() {
    let mut routine = Routine::default();
    let x = routine.get(X);
    let size = routine.node(9, 65_536, 0);
    let sum = routine.sum(x, size);
    routine.set(X, sum);
    let size = routine.node(9, INT_POINTER, 0);
    let size = routine.cast(size, INT_POINTER);
    routine.set(Q, size);
    assert_eq!(run(&routine, "0"), (done(6), memory(&[(5, 13), (2, 1)])));
}

// "Stuck when it reads or assigns outside the lent memory or at word 0."

/// `x = *(int*)n`
#[test]
fn reads() {
    let read = |n: u32| {
        let mut routine = Routine::default();
        let place = routine.forged(n);
        let value = routine.read(place);
        routine.set(X, value);
        run(&routine, "1 0 2 21 22")
    };
    // p is at the register's first word, 6.
    let start = memory(&[(1, 6), (5, 9), (6, 21), (7, 22)]);
    for n in 1..12 {
        let mut after = start.clone();
        after[5] = start[n];
        assert_eq!(read(n as u32), (done(8), after));
    }
    for n in OUTSIDE {
        assert_eq!(read(n), (stuck(0, 8), start.clone()));
    }
}

/// `*(int*)n = 5`
#[test]
fn assignments() {
    for n in 1..12 {
        let mut after = memory(&[(5, 9)]);
        after[n] = 5;
        assert_eq!(run(&stores(&[n as u32]), "0"), (done(6), after));
    }
    for n in OUTSIDE {
        assert_eq!(run(&stores(&[n]), "0"), (stuck(0, 6), memory(&[(5, 9)])));
    }
}

/// `((record*)n)->snapshot = 5`: only the word assigned matters, though the
/// field has two.
#[test]
fn one_word_of_a_field() {
    let field = |n: u32| {
        let mut routine = Routine::default();
        let pointer = record(&mut routine, n);
        let place = routine.field(pointer, 0);
        routine.store(place);
        run(&routine, "0")
    };
    assert_eq!(field(11), (done(6), memory(&[(5, 9), (11, 5)])));
    for n in OUTSIDE {
        assert_eq!(field(n), (stuck(0, 6), memory(&[(5, 9)])));
    }
}

/// Pointers that are wrong in more than one way are stuck all the same: `**s`
/// with s 0, and with s at a word that holds 0.
#[test]
fn pointers_to_pointers() {
    for s in [0, 4, 11] {
        let mut routine = Routine::default();
        let s = routine.number(s);
        let s = routine.cast(s, POINTER_POINTER);
        let place = routine.follow(s);
        let pointer = routine.read(place);
        let place = routine.follow(pointer);
        routine.store(place);
        assert_eq!(run(&routine, "0"), (stuck(0, 6), memory(&[(5, 9)])));
    }
}

/// Words from U on are there: `*(int*)11 = 5; x = *(int*)11`.
#[test]
fn words_from_u_on() {
    for n in 6..12 {
        let mut routine = stores(&[n]);
        let place = routine.forged(n);
        let value = routine.read(place);
        routine.set(X, value);
        let after = memory(&[(5, 5), (n as usize, 5)]);
        assert_eq!(run(&routine, "0"), (done(6), after));
    }
}

/// Memory of the variables alone, and of all the words there can be.
#[test]
fn the_shortest_and_the_longest_memory() {
    let table = stores(&[5]).table();
    let ran = bare(&table, &INPUTS, &[0], 6);
    assert_eq!(ran, (done(6), vec![0, 0, 0, 0, 0, 5]));
    let table = stores(&[65_535]).table();
    assert_eq!(bare(&table, &INPUTS, &[0], 65_535).0, stuck(0, 6));
    let (answer, memory) = bare(&table, &INPUTS, &[0], 65_536);
    assert_eq!((answer, memory[65_535]), (done(6), 5));
    let table = stores(&[65_536]).table();
    assert_eq!(bare(&table, &INPUTS, &[0], 65_536).0, stuck(0, 6));
}

// "Its sums are all modulo 4,294,967,296, except U + n, which stays exact."

/// `((record*)n)->queue = 5`: two words on.
#[test]
fn fields_go_round() {
    let queue = |n: u32| {
        let mut routine = Routine::default();
        let pointer = record(&mut routine, n);
        let place = routine.field(pointer, 1);
        routine.store(place);
        run(&routine, "0")
    };
    assert_eq!(queue(BACK), (done(6), memory(&[(1, 5), (5, 9)])));
    assert_eq!(queue(0), (done(6), memory(&[(2, 5), (5, 9)])));
    assert_eq!(queue(9), (done(6), memory(&[(5, 9), (11, 5)])));
    // Word 0, the word before it, and the first past the end.
    for n in [BACK - 1, BACK - 2, 10] {
        assert_eq!(queue(n), (stuck(0, 6), memory(&[(5, 9)])));
    }
}

/// A field as far on as there can be: 127 fields of 4,096 words are before it.
#[test]
fn a_far_field_goes_round() {
    let fields = "0 4096 ".repeat(128);
    let sum = 127 * 4_096;
    for (word, answer) in [
        (0, stuck(0, 1)),
        (1, done(1)),
        (2, done(1)),
        (3, stuck(0, 1)),
    ] {
        let pointer = 0u32.wrapping_sub(sum).wrapping_add(word);
        let nodes = format!("4 4 {pointer} 0 8 0 2 3 1 127 4 5 0");
        let table = words(&format!(
            "1 128 | 128 {fields} | 1 65536 | 0 | {nodes} | 1 2 3"
        ));
        assert_eq!(bare(&table, &[], &[0], 3).0, answer);
    }
}

/// `*((typ)a + n) = 5`, by words and by records of four.
#[test]
fn sums_go_round() {
    let sum = |typ: u32, a: u32, n: u32| {
        let mut routine = Routine::default();
        let a = routine.number(a);
        let a = routine.cast(a, typ);
        let pointer = routine.plus(a, n);
        let pointer = routine.cast(pointer, INT_POINTER);
        let place = routine.follow(pointer);
        routine.store(place);
        run(&routine, "0")
    };
    let at = |word: usize| (done(6), memory(&[(5, 9), (word, 5)]));
    for typ in [INT, VOID_POINTER, INT_POINTER, POINTER_POINTER] {
        assert_eq!(sum(typ, BACK, 8), at(7));
        assert_eq!(sum(typ, 8, BACK), at(7));
        assert_eq!(sum(typ, 1 << 31, (1 << 31) + 7), at(7));
        assert_eq!(sum(typ, BACK, 1).0, stuck(0, 6));
        assert_eq!(sum(typ, BACK, 13).0, stuck(0, 6));
    }
    assert_eq!(sum(RECORD_POINTER, 7, 1), at(11));
    assert_eq!(sum(RECORD_POINTER, 11, BACK), at(7));
    // 2^30 steps lead nowhere.
    assert_eq!(sum(RECORD_POINTER, 7, 1 << 30), at(7));
    assert_eq!(sum(RECORD_POINTER, 7, (1 << 30) + 1), at(11));
    assert_eq!(sum(RECORD_POINTER, BACK, 3 * (1 << 30) + 2), at(7));
    assert_eq!(sum(RECORD_POINTER, 8, 1).0, stuck(0, 6));
    assert_eq!(sum(RECORD_POINTER, 4, BACK).0, stuck(0, 6));
}

/// `p = (int*)malloc(n)`: U is 6, and there are 12 words.
#[test]
fn room_is_told_exactly() {
    let block = |n: u32| {
        let mut routine = Routine::default();
        routine.block(P, INT_POINTER, n);
        run(&routine, "0")
    };
    assert_eq!(block(6), (done(12), memory(&[(1, 6), (5, 9)])));
    // Modulo 2^32, the last three would end at 0, 1 and 5.
    for n in [7, 8, 1 << 31, BACK - 5, BACK - 4, BACK] {
        assert_eq!(block(n), (no_room(0, 6), memory(&[(5, 9)])));
    }
    assert_eq!(block(0), (done(6), memory(&[(5, 9)])));
}

// "An obtain sets its new words to 0, as a bare run may have written there."

#[test]
fn new_words_are_clear() {
    // Words 6 to 11 written; of them, 6 to 8 obtained, then 9 and 10.
    let mut routine = stores(&[6, 7, 8, 9, 10, 11]);
    routine.block(P, INT_POINTER, 3);
    let after = memory(&[(1, 6), (5, 9), (9, 5), (10, 5), (11, 5)]);
    assert_eq!(run(&routine, "0"), (done(9), after));
    routine.block(Q, INT_POINTER, 2);
    let after = memory(&[(1, 6), (2, 9), (5, 9), (11, 5)]);
    assert_eq!(run(&routine, "0"), (done(11), after));
    // `x = *(q + 1)`, which is word 10.
    let place = routine.word_of(Q, 1);
    let value = routine.read(place);
    routine.set(X, value);
    let after = memory(&[(1, 6), (2, 9), (11, 5)]);
    assert_eq!(run(&routine, "0"), (done(11), after));
}

/// None is obtained for 0 words, nor where there is no room.
#[test]
fn other_words_stay() {
    let mut routine = stores(&[6, 7]);
    routine.block(P, INT_POINTER, 0);
    let after = memory(&[(5, 9), (6, 5), (7, 5)]);
    assert_eq!(run(&routine, "0"), (done(6), after.clone()));
    routine.block(P, INT_POINTER, 7);
    assert_eq!(run(&routine, "0"), (no_room(3, 6), after));
}

/// `*(int*)7 = (int)malloc(3)`: the place is worked out first, its word is
/// cleared, and then it is assigned.
#[test]
fn a_place_obtained_by_its_value() {
    let mut routine = stores(&[6, 7]);
    let place = routine.forged(7);
    let block = obtained(&mut routine, 3);
    routine.assign(place, block);
    let after = memory(&[(5, 9), (7, 6)]);
    assert_eq!(run(&routine, "0"), (done(9), after));
}

/// `*(int*)7 = *(int*)7 + malloc(3)`: read before it is cleared. And the other
/// way round: after.
#[test]
fn words_read_before_they_are_obtained() {
    for (before, word) in [(true, 11), (false, 6)] {
        let mut routine = stores(&[7]);
        let place = routine.forged(7);
        let sum = match before {
            true => {
                let word = routine.forged(7);
                let word = routine.read(word);
                let block = obtained(&mut routine, 3);
                routine.sum(word, block)
            }
            false => {
                let block = obtained(&mut routine, 3);
                let word = routine.forged(7);
                let word = routine.read(word);
                routine.sum(block, word)
            }
        };
        routine.assign(place, sum);
        let after = memory(&[(5, 9), (7, word)]);
        assert_eq!(run(&routine, "0"), (done(9), after));
    }
}

// Addresses, follows and fields read nothing and assign nothing.

/// `p = &*(int*)n; q = &((record*)n)->queue`
#[test]
fn addresses_of_no_word() {
    for n in OUTSIDE {
        let mut routine = Routine::default();
        let place = routine.forged(n);
        let address = routine.address(place);
        routine.set(P, address);
        let pointer = record(&mut routine, n);
        let queue = routine.field(pointer, 1);
        let address = routine.address(queue);
        routine.set(Q, address);
        let after = memory(&[(1, n), (2, n.wrapping_add(2)), (5, 9)]);
        assert_eq!(run(&routine, "0"), (done(6), after));
    }
}

/// `*(&*(int*)n + 7 - n) = 5`: out of memory and back.
#[test]
fn there_and_back() {
    for n in OUTSIDE {
        let mut routine = Routine::default();
        let place = routine.forged(n);
        let address = routine.address(place);
        let pointer = routine.plus(address, 7u32.wrapping_sub(n));
        let place = routine.follow(pointer);
        routine.store(place);
        assert_eq!(run(&routine, "0"), (done(6), memory(&[(5, 9), (7, 5)])));
    }
}

// The value is worked out before its store is stuck.

/// `*(int*)n = (int)malloc(words)`
#[test]
fn a_value_that_obtains() {
    for n in OUTSIDE {
        for (words, answer) in [(0, stuck(2, 6)), (2, stuck(2, 8)), (7, no_room(2, 6))] {
            let mut routine = stores(&[7, 8]);
            let place = routine.forged(n);
            let block = obtained(&mut routine, words);
            routine.assign(place, block);
            let first = if words == 2 { 0 } else { 5 };
            let after = memory(&[(5, 9), (7, first), (8, 5)]);
            assert_eq!(run(&routine, "0"), (answer, after));
        }
    }
}

/// `*(int*)n = copy((record*)8, (record*)5)`: words 5 to 8 go to words 8 to 11.
#[test]
fn a_value_that_copies() {
    for n in OUTSIDE {
        let mut routine = stores(&[8]);
        let place = routine.forged(n);
        let copy = copied(&mut routine, 8, 5);
        routine.assign(place, copy);
        let after = memory(&[(5, 9), (8, 9), (11, 5)]);
        assert_eq!(run(&routine, "0"), (stuck(1, 6), after));
    }
}

/// What the place itself reads comes before the value: `**(int**)n =
/// (int)malloc(2)`.
#[test]
fn a_read_on_the_way_to_the_place() {
    for n in OUTSIDE {
        let mut routine = Routine::default();
        let s = routine.number(n);
        let s = routine.cast(s, POINTER_POINTER);
        let place = routine.follow(s);
        let pointer = routine.read(place);
        let place = routine.follow(pointer);
        let block = obtained(&mut routine, 2);
        routine.assign(place, block);
        assert_eq!(run(&routine, "0"), (stuck(0, 6), memory(&[(5, 9)])));
    }
}

// "A stuck bare run stops there, answers the command and U, and leaves its
// writes so far".

#[test]
fn earlier_writes_stay() {
    for n in OUTSIDE {
        let mut routine = stores(&[7, 8]);
        routine.block(P, INT_POINTER, 1);
        store_at(&mut routine, &[n, 9]);
        let after = memory(&[(1, 6), (5, 9), (7, 5), (8, 5)]);
        assert_eq!(run(&routine, "0"), (stuck(3, 7), after));
    }
}

/// `x = copy(8, 5) + (int)malloc(1) + *(int*)n`: what the command itself did
/// stays as well. The copy is of words 9 0 0 5; the obtain clears word 6.
#[test]
fn writes_of_the_same_command_stay() {
    for n in OUTSIDE {
        let mut routine = stores(&[6, 8]);
        let copy = copied(&mut routine, 8, 5);
        let block = obtained(&mut routine, 1);
        let sum = routine.sum(copy, block);
        let place = routine.forged(n);
        let value = routine.read(place);
        let sum = routine.sum(sum, value);
        routine.set(X, sum);
        let after = memory(&[(5, 9), (8, 9), (9, 5), (11, 5)]);
        assert_eq!(run(&routine, "0"), (stuck(2, 7), after));
    }
}

// "A copy with word 0 or a word outside is stuck and writes nothing."

/// `x = copy((record*)to, (record*)from)`, for all words there are and others:
/// four words fit from word 1 to word 8. r is at a register of five words.
#[test]
fn copies() {
    let start = memory(&[(3, 6), (5, 9), (6, 1), (7, 2), (8, 3), (9, 4), (10, 5)]);
    let all = || (0..14).chain(BACK - 6..=BACK);
    for to in all() {
        for from in all() {
            let mut routine = Routine::default();
            let copy = copied(&mut routine, to, from);
            routine.set(X, copy);
            let ran = run(&routine, "1 2 5 1 2 3 4 5");
            let within = |n: u32| (1..=8).contains(&n);
            if !within(to) || !within(from) {
                assert_eq!(ran, (stuck(0, 11), start.clone()), "{to} {from}");
                continue;
            }
            let (to, from) = (to as usize, from as usize);
            let mut after = start.clone();
            after[to..to + 4].copy_from_slice(&start[from..from + 4]);
            after[5] = 4;
            assert_eq!(ran, (done(11), after), "{to} {from}");
        }
    }
}

/// A record of more words than memory has, and one of all but word 0.
#[test]
fn a_copy_of_all_words() {
    for (fields, answer) in [("2 0 2 0 3", done(2)), ("2 0 2 0 4", stuck(0, 2))] {
        let nodes = "6 1 0 0 4 1 0 8 1 2 4 1 0 8 3 2 11 2 4";
        let table = words(&format!("1 2 | {fields} | 1 65536 | 1 0 | {nodes} | 1 0 5"));
        let (ran, memory) = bare(&table, &[9], &[0], 6);
        let x = if ran == done(2) { 5 } else { 9 };
        assert_eq!((ran, memory), (answer, vec![0, x, 0, 0, 0, 0]));
    }
}

/// Both operands are worked out before the copy is stuck: `x = copy((record*)0,
/// (record*)malloc(n))`, and the other way round.
#[test]
fn operands_of_a_stuck_copy() {
    for swapped in [false, true] {
        for (words, answer) in [(4, stuck(1, 10)), (7, no_room(1, 6))] {
            let mut routine = stores(&[6]);
            let zero = record(&mut routine, 0);
            let block = routine.obtain(words);
            let block = routine.cast(block, RECORD_POINTER);
            let copy = match swapped {
                false => routine.copy(zero, block),
                true => routine.copy(block, zero),
            };
            routine.set(X, copy);
            let first = if words == 4 { 0 } else { 5 };
            assert_eq!(run(&routine, "0"), (answer, memory(&[(5, 9), (6, first)])));
        }
    }
}

// Registers.

#[test]
fn registers() {
    let ran = run(&Routine::default(), "3 | 1 2 21 22 | 3 0 | 0 1 31");
    let after = memory(&[(1, 8), (2, 6), (5, 9), (6, 21), (7, 22), (8, 31)]);
    assert_eq!(ran, (done(9), after));
    // `*(p - 1) = 5` is the register before p's.
    let mut routine = Routine::default();
    let place = routine.word_of(P, BACK);
    routine.store(place);
    let ran = run(&routine, "2 | 1 2 21 22 | 0 1 31");
    let after = memory(&[(1, 8), (2, 6), (5, 9), (6, 21), (7, 5), (8, 31)]);
    assert_eq!(ran, (done(9), after));
    // `**s = 5`: a word of a register is followed, as it has no bounds to miss.
    let mut routine = Routine::default();
    let place = routine.word_of(S, 0);
    let pointer = routine.read(place);
    let place = routine.follow(pointer);
    routine.store(place);
    let ran = run(&routine, "1 3 1 11");
    assert_eq!(ran, (done(7), memory(&[(4, 6), (5, 9), (6, 11), (11, 5)])));
}

// "Refused: the run's numbers, with 10 speaking of one list."

/// A refusal leaves the list as it was.
fn refused(table: &[u32], inputs: &[u32], list: &str, length: usize, number: u32, place: usize) {
    let (answer, values) = bare(table, inputs, &words(list), length);
    assert_eq!(answer, Answer::Refused(Refusal { number, place }));
    assert!(values.iter().all(|&word| word == 7));
}

#[test]
fn refusals_of_the_check() {
    for (text, number, place) in [
        ("0 0 0", 1, 3),
        ("0 0 0 0 0 0 9", 2, 6),
        ("33", 3, 0),
        ("1 0 0 0 0 0 0", 4, 1),
        ("0 0 0 1 2 0 0", 5, 4),
        ("0 0 2 0 0 0 0 0", 6, 4),
        ("0 0 0 0 1 99 0 0 0", 7, 5),
        ("0 0 0 1 1 3 1 0 0 6 0 0 2 1 0 0", 8, 12),
        ("0 0 0 0 1 4 7 0 0", 9, 5),
    ] {
        refused(&words(text), &[], "0", 8, number, place);
        refused(&marked(&words(text)), &[], "0", 8, number, place + 2);
    }
    refused(&[MARK, 3], &[], "0", 8, 16, 1);
    refused(&[MARK], &[], "0", 8, 1, 1);
}

#[test]
fn refusals_of_the_call() {
    let table = stores(&[7]).table();
    for length in [0, 1, 5, 65_537] {
        refused(&table, &INPUTS, "0", length, 10, 0);
        // Before all others.
        refused(&table, &[], "17", length, 10, 0);
    }
    refused(&table, &INPUTS[..4], "0", LENGTH, 11, 5);
    refused(&table, &[0; 6], "17", LENGTH, 11, 5);
    refused(&table, &[0, 8, 8, 0, 9], "17", LENGTH, 11, 1);
    refused(&table, &INPUTS, "17", LENGTH, 13, 0);
    refused(&table, &INPUTS, "", LENGTH, 13, 0);
    refused(&table, &INPUTS, "1 4 2 8", LENGTH, 13, 4);
    refused(&table, &INPUTS, "1 4 1 8", LENGTH, 14, 1);
    refused(&table, &INPUTS, "2 0 1 8 0 1 8", LENGTH, 14, 4);
    refused(&table, &INPUTS, "2 0 1 8 1 6 1 2 3 4 5 6", LENGTH, 15, 5);
}
