//! Routines to measure. Each passes the check, and each run is done, so that
//! each node is worked out exactly once, or aborts at its last command, so that
//! nearly all are.

use crate::routine::{entry, Routine, INT, RECORD, VOID_POINTER};

/// 16 nodes in 3 commands that have each kind but the copy:
/// `p = (record*)malloc(sizeof(record)); q = &p->field 1; *(q + 1) = x`.
fn group(r: &mut Routine, p: [u32; 2], q: u32, x: u32, record: u32) {
    new_field(r, p, q, record);
    put(r, q, 1, x);
}

/// `p = (record*)malloc(sizeof(record)); q = &p->field 1`, in 9 nodes.
fn new_field(r: &mut Routine, [p, typ]: [u32; 2], q: u32, record: u32) {
    r.new_record(p, typ, record);
    take_field(r, q, p, 1);
}

/// `*(q + n) = x`, in 7 nodes.
fn put(r: &mut Routine, q: u32, n: u32, x: u32) {
    let place = r.word_of(q, n);
    let value = r.get(x);
    r.assign(place, value);
}

/// `q = &p->field`, in 5 nodes.
fn take_field(r: &mut Routine, q: u32, p: u32, field: u32) {
    let place = r.variable(q);
    let field = r.field_of(p, field);
    let value = r.address(field);
    r.assign(place, value);
}

/// `*q = word`, in 4 nodes.
fn store(r: &mut Routine, q: u32, word: u32) {
    let place = r.at(q);
    let value = r.constant(word);
    r.assign(place, value);
}

/// Variables p, q and x, and a record of two fields of two ints.
fn declarations() -> Routine {
    Routine {
        records: vec![vec![[INT, 2]; 2]],
        pointers: vec![RECORD, INT],
        variables: vec![[entry(0), 0], [entry(1), 0], [INT, 9]],
        ..Routine::default()
    }
}

/// The routine that grows: 16 nodes a group.
pub fn family(groups: usize) -> Routine {
    let mut r = declarations();
    for _ in 0..groups {
        group(&mut r, [0, entry(0)], 1, 2, 0);
    }
    r
}

/// The same with its last store a word further on, past the end of the field of
/// two words: the run aborts there, and only the 2 nodes of x are left.
pub fn family_that_aborts(groups: usize) -> Routine {
    let mut r = family(groups - 1);
    new_field(&mut r, [0, entry(0)], 1, 0);
    put(&mut r, 1, 2, 2);
    r
}

/// The scope's routine A, with its last step within the snapshot.
pub fn small() -> Routine {
    let mut r = declarations();
    r.variables.truncate(2);
    r.new_record(0, entry(0), 0);
    take_field(&mut r, 1, 0, 0);
    store(&mut r, 1, 9);
    let place = r.variable(1);
    let pointer = r.get(1);
    let one = r.constant(1);
    let value = r.sum(pointer, one);
    r.assign(place, value);
    store(&mut r, 1, 9);
    r
}

/// `n` records of four fields, as many pointers to records as others, as many
/// variables that point to records as others. With 32 these four sections are
/// at their limits.
fn declare(n: u32) -> Routine {
    let others = [INT, VOID_POINTER].into_iter().chain((0..).map(entry));
    let pointers = (0..n).map(|i| RECORD + i).chain(others.take(n as usize));
    let variables = (0..n).map(|i| [entry(i), 0]);
    let to_ints = (0..n / 2).map(|_| [entry(n), 0]);
    let ints = (0..n / 2).map(|i| [INT, i]);
    Routine {
        records: vec![vec![[INT, 2]; 4]; n as usize],
        pointers: pointers.collect(),
        variables: variables.chain(to_ints).chain(ints).collect(),
        ..Routine::default()
    }
}

/// These declarations, and a group for each record.
pub fn declared(n: u32) -> Routine {
    let mut r = declare(n);
    for i in 0..n {
        let q = n + i % (n / 2);
        group(&mut r, [i, entry(i)], q, q + n / 2, i);
    }
    r
}

/// Every section at its limit, 2,470 words. With two nodes a command, a place
/// can only be a variable and a value only a constant or a size.
pub fn largest() -> Routine {
    let mut r = declare(32);
    let ints = 48..64;
    for (i, variable) in (0..256).zip(ints.cycle()) {
        let place = r.variable(variable);
        let value = match i % 2 {
            0 => r.constant(i),
            _ => r.size(RECORD + i % 32),
        };
        r.assign(place, value);
    }
    r
}

/// A variable x, and a pointer to int.
fn one_int() -> Routine {
    Routine {
        pointers: vec![INT],
        variables: vec![[INT, 9], [entry(0), 0]],
        ..Routine::default()
    }
}

/// `x = (int)(int)..x`, 509 casts.
pub fn deep_casts() -> Routine {
    let mut r = one_int();
    let place = r.variable(0);
    let mut value = r.get(0);
    for _ in 0..509 {
        value = r.cast(value, INT);
    }
    r.assign(place, value);
    r
}

/// `p = &*&*..&x`: places and values by turns.
pub fn deep_places() -> Routine {
    let mut r = one_int();
    let place = r.variable(1);
    let x = r.variable(0);
    let mut value = r.address(x);
    for _ in 0..254 {
        let followed = r.follow(value);
        value = r.address(followed);
    }
    r.assign(place, value);
    r
}

/// `x = ((x + 1) + 1) + ..`.
pub fn deep_sums_left() -> Routine {
    let mut r = one_int();
    let place = r.variable(0);
    let mut value = r.get(0);
    for _ in 0..254 {
        let one = r.constant(1);
        value = r.sum(value, one);
    }
    r.assign(place, value);
    r
}

/// `x = 1 + (1 + (.. + x))`.
pub fn deep_sums_right() -> Routine {
    let mut r = one_int();
    let place = r.variable(0);
    let mut value = r.get(0);
    for _ in 0..254 {
        let one = r.constant(1);
        value = r.sum(one, value);
    }
    r.assign(place, value);
    r
}

/// `*p = *p`, 72 times.
pub fn dereferences() -> Routine {
    let mut r = one_int();
    r.block(1, entry(0), 2);
    for _ in 0..72 {
        let place = r.at(1);
        let from = r.at(1);
        let value = r.read(from);
        r.assign(place, value);
    }
    r
}

/// A pointer to itself, then `p = ****p`, 45 times: each read has bounds.
pub fn pointer_chain() -> Routine {
    let mut r = Routine {
        pointers: vec![entry(0)],
        variables: vec![[entry(0), 0]],
        ..Routine::default()
    };
    r.block(0, entry(0), 1);
    let place = r.at(0);
    let value = r.get(0);
    r.assign(place, value);
    for _ in 0..45 {
        let place = r.variable(0);
        let mut value = r.get(0);
        for _ in 0..4 {
            let followed = r.follow(value);
            value = r.read(followed);
        }
        r.assign(place, value);
    }
    r
}

/// One record of so many fields of one int, and a variable that points to it.
fn one_record(fields: usize) -> Routine {
    Routine {
        records: vec![vec![[INT, 1]; fields]],
        pointers: vec![RECORD],
        variables: vec![[entry(0), 0]],
        ..Routine::default()
    }
}

/// That record, then `p->i = p->j`, 72 times: each field's offset is asked.
pub fn fields(count: usize) -> Routine {
    let mut r = one_record(count);
    r.new_record(0, entry(0), 0);
    let number = |i: usize| (i % count) as u32;
    for i in 0..72 {
        let place = r.field_of(0, number(i * 29));
        let from = r.field_of(0, number(i * 53 + 7));
        let value = r.read(from);
        r.assign(place, value);
    }
    r
}

/// That record, and `p = p + 1; x = sizeof(record)`, 72 times: its size is
/// asked.
pub fn sizes(fields: usize) -> Routine {
    let mut r = one_record(fields);
    r.variables.push([INT, 0]);
    for _ in 0..72 {
        let place = r.variable(0);
        let pointer = r.get(0);
        let one = r.constant(1);
        let value = r.sum(pointer, one);
        r.assign(place, value);
        let place = r.variable(1);
        let value = r.size(RECORD);
        r.assign(place, value);
    }
    r
}

/// Eight records in a row, then `(p + n)->field = n`, 72 times.
pub fn records() -> Routine {
    let mut r = declarations();
    r.block(0, entry(0), 32);
    for i in 0..72 {
        let pointer = r.get(0);
        let steps = r.constant((i * 5) % 8);
        let moved = r.sum(pointer, steps);
        let place = r.field(moved, i % 2);
        let value = r.constant(i);
        r.assign(place, value);
    }
    r
}

/// `p = malloc(1)`, 170 times.
pub fn allocations() -> Routine {
    let mut r = Routine {
        variables: vec![[VOID_POINTER, 0]],
        ..Routine::default()
    };
    for _ in 0..170 {
        one_word(&mut r, 0);
    }
    r
}

/// `variable = malloc(1)`, in 3 nodes.
fn one_word(r: &mut Routine, variable: u32) {
    let place = r.variable(variable);
    let words = r.constant(1);
    let value = r.obtain(words);
    r.assign(place, value);
}

/// `p = (int*)malloc(1)`, `void = malloc(1)` 160 times, then `*(p + 1) = x`: the
/// run aborts past the end of the first of 161 blocks.
pub fn many_blocks() -> Routine {
    let [p, void, x] = [0, 1, 2];
    let mut r = Routine {
        pointers: vec![INT],
        variables: vec![[entry(0), 0], [VOID_POINTER, 0], [INT, 9]],
        ..Routine::default()
    };
    r.block(p, entry(0), 1);
    for _ in 0..160 {
        one_word(&mut r, void);
    }
    put(&mut r, p, 1, x);
    r
}

/// So many registers of so many words, at least 16 each, and over them
/// `x = x + *(p + n); *(p + n) = x`, 16 times with another word each time.
pub fn registers(count: u32, length: u32) -> Routine {
    let x = count;
    let pointers = (0..count).map(|_| [entry(0), 0]);
    let mut r = Routine {
        pointers: vec![INT],
        variables: pointers.chain([[INT, 9]]).collect(),
        registers: (0..count).map(|p| (p, (0..length).collect())).collect(),
        ..Routine::default()
    };
    for i in 0..16 {
        let (p, n) = (i % count, i * (length / 16));
        let place = r.variable(x);
        let sum = r.get(x);
        let from = r.word_of(p, n);
        let from = r.read(from);
        let value = r.sum(sum, from);
        r.assign(place, value);
        let place = r.word_of(p, n);
        let value = r.get(x);
        r.assign(place, value);
    }
    r
}

/// A block p and a register q of so many words, a pointer with bounds in the
/// first word of q, and so often `x = copy(p, q)` of a record of so many words.
pub fn copies(block: u32, count: u32, words: u32) -> Routine {
    const MOST: u32 = 4_096; // of a field
    let [p, q, x] = [0, 1, 2];
    let fields = words.div_ceil(MOST);
    let mut r = Routine {
        records: vec![vec![[INT, words / fields]; fields as usize]],
        pointers: vec![RECORD, entry(0)],
        variables: vec![[entry(0), 0], [entry(0), 0], [INT, 9]],
        registers: vec![(q, (0..block).collect())],
        copied: count * words,
        ..Routine::default()
    };
    r.block(p, entry(0), block);
    let first = r.get(q);
    let first = r.cast(first, entry(1));
    let place = r.follow(first);
    let value = r.get(q);
    r.assign(place, value);
    for _ in 0..count {
        let place = r.variable(x);
        let [to, from] = [p, q].map(|pointer| r.get(pointer));
        let value = r.copy(to, from);
        r.assign(place, value);
    }
    r
}

/// A block of eight words, `x = (int)p`, then `*(int*)x = x; x = *(int*)x`, 42
/// times: in edition 2 each of these moves bounds.
pub fn ints_in_memory() -> Routine {
    let mut r = int_with_bounds();
    for _ in 0..42 {
        let place = by_int(&mut r, None);
        let value = r.get(0);
        r.assign(place, value);
        let place = r.variable(0);
        let from = by_int(&mut r, None);
        let value = r.read(from);
        r.assign(place, value);
    }
    r
}

/// The same block and int, then `*(int*)(n + x) = n`, 72 times: in edition 2
/// each sum takes the right bounds.
pub fn right_bounds() -> Routine {
    let mut r = int_with_bounds();
    for i in 0..72 {
        let place = by_int(&mut r, Some(i * 5 % 8));
        let value = r.constant(i);
        r.assign(place, value);
    }
    r
}

/// `p = (int*)malloc(8); x = (int)p`, in 8 nodes.
fn int_with_bounds() -> Routine {
    let mut r = one_int();
    r.block(1, entry(0), 8);
    let place = r.variable(0);
    let pointer = r.get(1);
    let value = r.cast(pointer, INT);
    r.assign(place, value);
    r
}

/// `*(int*)x`, or `*(int*)(n + x)`.
fn by_int(r: &mut Routine, n: Option<u32>) -> u32 {
    let n = n.map(|n| r.constant(n));
    let x = r.get(0);
    let int = n.map_or(x, |n| r.sum(n, x));
    let pointer = r.cast(int, entry(0));
    r.follow(pointer)
}

/// Routines that differ, so that the processor can't foresee their branches
/// as it does those of one table that comes again and again.
pub fn mixed(count: usize) -> Vec<Routine> {
    let mut random = Random(2_470);
    (0..count).map(|_| statements(&mut random)).collect()
}

/// Four to sixteen statements in random order; p and q always point to words.
fn statements(random: &mut Random) -> Routine {
    let mut r = declarations();
    r.variables.push([VOID_POINTER, 0]);
    r.new_record(0, entry(0), 0);
    take_field(&mut r, 1, 0, 0);
    for _ in 0..4 + random.below(13) {
        let number = random.below(8);
        statement(&mut r, random.below(8), number);
    }
    r
}

/// A statement over p (a record's start), q (two ints), x and the void pointer.
fn statement(r: &mut Routine, form: u32, number: u32) {
    let [p, q, x, void] = [0, 1, 2, 3];
    match form {
        0 => group(r, [p, entry(0)], q, x, 0),
        1 => take_field(r, q, p, number % 2),
        2 => store(r, q, number),
        3 => r.block(q, entry(1), 2),
        4 => {
            // x = p->field + number
            let place = r.variable(x);
            let from = r.field_of(p, number % 2);
            let from = r.read(from);
            let number = r.constant(number);
            let value = r.sum(from, number);
            r.assign(place, value);
        }
        5 => {
            // p->field = x
            let place = r.field_of(p, number % 2);
            let value = r.get(x);
            r.assign(place, value);
        }
        6 => {
            // void = (void*)p
            let place = r.variable(void);
            let pointer = r.get(p);
            let value = r.cast(pointer, VOID_POINTER);
            r.assign(place, value);
        }
        _ => {
            // x = sizeof(record) + *q
            let place = r.variable(x);
            let size = r.size(RECORD);
            let from = r.at(q);
            let from = r.read(from);
            let value = r.sum(size, from);
            r.assign(place, value);
        }
    }
}

/// Numbers that are the same on every machine (splitmix64).
struct Random(u64);

impl Random {
    fn below(&mut self, limit: u32) -> u32 {
        self.0 = self.0.wrapping_add(0x9e37_79b9_7f4a_7c15);
        let mut z = self.0;
        z = (z ^ (z >> 30)).wrapping_mul(0xbf58_476d_1ce4_e5b9);
        z = (z ^ (z >> 27)).wrapping_mul(0x94d0_49bb_1331_11eb);
        z ^= z >> 31;
        (((z >> 32) * u64::from(limit)) >> 32) as u32
    }
}
