//! Examples of request 2, a step is a record.

mod ran;

use ran::{abort, done, no_room, words, Ran};
use second::machine::{Answer, Refusal};

/// Records: routine A's, of four words; one of one word; one of three words.
/// Pointer types: to each of them, to int, and to a pointer to the first.
/// Variables: p and v, pointers to void, and x, int.
const HEAD: &str = "3 2 1 2 | 5 0 2 0 2 0 1 1 1 0 2 | 5 65536 65537 65538 0 2 | 3 1 1 0 |";
const INT: u32 = 0;
const VOID_POINTER: u32 = 1;
const FOUR: u32 = 2;
const ONE: u32 = 3;
const THREE: u32 = 4;
const INT_POINTER: u32 = 5;
const POINTER_TO_FOUR: u32 = 6;

/// A run with p at a register of twelve words: bounds [4, 16).
fn run(routine: &str, x: u32) -> Ran {
    let table = words(&format!("{HEAD} {routine}"));
    let mut list = vec![1, 0, 12];
    list.extend([8; 12]);
    Ran::new(&table, &[0, 0, x], &list, 20)
}

/// `v = (void*)((typ)p + n)`: the value and bounds of v.
fn step(typ: u32, n: u32) -> [u32; 3] {
    let routine = format!("7 1 1 0 1 0 0 6 1 0 8 2 {typ} 4 {n} 0 5 3 4 8 5 1 | 1 0 6");
    let ran = run(&routine, 0);
    assert_eq!(ran.answer, done(16));
    ran.word(2)
}

#[test]
fn by_records() {
    for (n, word) in [(0, 4), (1, 8), (2, 12), (3, 16), (4, 20)] {
        assert_eq!(step(FOUR, n), [word, 4, 16]);
    }
    for (n, word) in [(1, 7), (2, 10), (5, 19)] {
        assert_eq!(step(THREE, n), [word, 4, 16]);
    }
}

#[test]
fn back() {
    assert_eq!(step(FOUR, u32::MAX), [0, 4, 16]);
    assert_eq!(step(THREE, u32::MAX), [1, 4, 16]);
    // 4 - 2 * 4, and 4 - 2 * 3
    assert_eq!(step(FOUR, u32::MAX - 1), [4_294_967_292, 4, 16]);
    assert_eq!(step(THREE, u32::MAX - 1), [4_294_967_294, 4, 16]);
}

/// The product is one modulo 2^32 as well.
#[test]
fn all_the_way_round() {
    for n in [1 << 30, 1 << 31, 3 << 30] {
        assert_eq!(step(FOUR, n), [4, 4, 16]);
        assert_eq!(step(FOUR, n + 1), [8, 4, 16]);
        assert_eq!(step(FOUR, n - 1), [0, 4, 16]);
    }
    // Three times this is 2 * 2^32 + 1.
    assert_eq!(step(THREE, 2_863_311_531), [5, 4, 16]);
}

#[test]
fn by_words() {
    for typ in [VOID_POINTER, ONE, INT_POINTER, POINTER_TO_FOUR] {
        assert_eq!(step(typ, 1), [5, 4, 16]);
        assert_eq!(step(typ, 3), [7, 4, 16]);
        assert_eq!(step(typ, u32::MAX), [3, 4, 16]);
        assert_eq!(step(typ, 1 << 30), [4 + (1 << 30), 4, 16]);
    }
    // An int is no pointer, and has no bounds.
    assert_eq!(step(INT, 3), [7, 0, 0]);
}

/// `v = (void*)((second)((first)p + n) + m)`: each sum goes by the type that
/// its own left side has.
#[test]
fn the_left_side_decides() {
    let both = |first: u32, n: u32, second: u32, m: u32| {
        let inner = format!("1 1 0 1 0 0 6 1 0 8 2 {first} 4 {n} 0 5 3 4");
        let routine = format!("10 {inner} 8 5 {second} 4 {m} 0 5 6 7 8 8 1 | 1 0 9");
        run(&routine, 0).word(2)
    };
    assert_eq!(both(FOUR, 1, INT_POINTER, 1), [9, 4, 16]);
    assert_eq!(both(INT_POINTER, 1, FOUR, 2), [13, 4, 16]);
    assert_eq!(both(FOUR, 1, VOID_POINTER, 2), [10, 4, 16]);
    assert_eq!(both(VOID_POINTER, 1, THREE, 2), [11, 4, 16]);
    assert_eq!(both(FOUR, 2, THREE, u32::MAX), [9, 4, 16]);
    assert_eq!(both(POINTER_TO_FOUR, 2, FOUR, 1), [10, 4, 16]);
    assert_eq!(both(FOUR, 1, INT, 1), [9, 0, 0]);
}

/// `v = (void*)((four*)p + x)`: the number need not be a constant.
#[test]
fn a_number_read() {
    let routine = "8 1 1 0 1 0 0 6 1 0 8 2 2 1 2 0 6 4 0 5 3 5 8 6 1 | 1 0 7";
    for (x, word) in [(0, 4), (2, 12), (u32::MAX, 0), ((1 << 30) + 1, 8)] {
        assert_eq!(run(routine, x).word(2), [word, 4, 16]);
    }
}

/// `v = (void*)((four*)p + (int)malloc(n))`: the bounds are those of p.
#[test]
fn a_number_with_a_block_of_its_own() {
    let block = |n: u32| {
        let number = format!("4 {n} 0 10 4 0 8 5 0");
        let routine = format!("9 1 1 0 1 0 0 6 1 0 8 2 2 {number} 5 3 6 8 7 1 | 1 0 8");
        run(&routine, 0)
    };
    // 4 + 16 * 4
    let ran = block(2);
    assert_eq!((ran.answer, ran.word(2)), (done(18), [68, 4, 16]));
    let ran = block(5);
    assert_eq!((ran.answer, ran.word(2)), (no_room(0, 16), [0; 3]));
}

/// "Refused: nothing is added." A pointer is no number, as before.
#[test]
fn refusals() {
    for left in ["8 2 2", "4 1 0"] {
        let routine = format!("7 1 1 0 1 0 0 6 1 0 {left} 1 0 0 6 4 0 5 3 5 | 0");
        let ran = run(&routine, 0);
        let refusal = Refusal {
            number: 8,
            place: 44,
        };
        assert_eq!(ran.answer, Answer::Refused(refusal));
        assert!(ran.untouched());
    }
}

/// `((four*)p + n)->queue = 9`, in a row of three records.
#[test]
fn fields_of_a_row() {
    let store = |n: u32| {
        let routine = format!("7 1 0 0 6 0 0 8 1 2 4 {n} 0 5 2 3 3 4 1 4 9 0 | 1 5 6");
        run(&routine, 0)
    };
    for (n, word) in [(0, 6), (1, 10), (2, 14), ((1 << 30) + 2, 14)] {
        let ran = store(n);
        assert_eq!(ran.answer, done(16));
        let changed: Vec<usize> = (4..16).filter(|&w| ran.word(w) != [8, 0, 0]).collect();
        assert_eq!((changed, ran.values[word]), (vec![word], 9));
    }
    for n in [3, 4, u32::MAX, u32::MAX - 1, 1 << 29] {
        assert_eq!(store(n).answer, abort(0, 16));
    }
}

/// `p->queue = 1; p = p + 1; p->queue = 2; ...` past the end of the row.
#[test]
fn a_walk() {
    let mut nodes = String::new();
    let mut commands = String::new();
    for i in 0..4 {
        let at = 9 * i;
        let [a, b, c, d] = [at + 4, at + 5, at + 6, at + 7];
        let n = i + 1;
        nodes += &format!("1 0 0 6 {at} 0 3 {} 1 4 {n} 0 ", at + 1);
        nodes += &format!("1 0 0 1 0 0 6 {b} 0 4 1 0 5 {c} {d} ");
        commands += &format!("{} {} {a} {} ", at + 2, at + 3, at + 8);
    }
    let table = format!("1 2 | 2 0 2 0 2 | 1 65536 | 1 2 | 36 {nodes} | 8 {commands}");
    let list = words("1 0 12 0 0 0 0 0 0 0 0 0 0 0 0");
    let ran = Ran::new(&words(&table), &[0], &list, 14);
    // The third step leads to the end, where there is no fourth record.
    assert_eq!((ran.answer, ran.word(1)), (abort(6, 14), [14, 2, 14]));
    assert_eq!(ran.values[2..], [0, 0, 1, 0, 0, 0, 2, 0, 0, 0, 3, 0]);
}

/// The largest record there can be: 128 fields of 4,096 words, 2^19 in all.
#[test]
fn the_largest_record() {
    let fields = "0 4096 ".repeat(128);
    for (n, word) in [(1, 524_290), (8_192, 2), (8_193, 524_290)] {
        let nodes = format!("5 1 0 0 1 0 0 6 1 0 4 {n} 0 5 2 3");
        let table = format!("1 128 | 128 {fields} | 1 65536 | 1 2 | {nodes} | 1 0 4");
        let ran = Ran::new(&words(&table), &[0], &words("1 0 1 8"), 3);
        assert_eq!((ran.answer, ran.word(1)), (done(3), [word, 2, 3]));
    }
}
