//! Harm done to a right list of registers: refusals 13, 14 and 15, alone and
//! together, and lists that only just have none of them.

use crate::generate::random::Random;
use crate::generate::registers::{heads, push, words};
use crate::text::Case;

/// Damages the list once, or two or three times. `types` are those of the
/// variables.
pub fn damage(random: &mut Random, case: &mut Case, types: &[u32]) {
    let times = 1 + random.weighted(&[55, 30, 15]);
    // What makes the list unreadable comes last: the others have to read it.
    let mut unreadable = false;
    for _ in 0..times {
        match random.weighted(&[32, 24, 44]) {
            0 => unreadable = true,
            1 => names(random, case, types),
            _ => room(random, case, types.len() as u32),
        }
    }
    if unreadable {
        shape(random, &mut case.registers, types.len() as u32);
    }
}

/// A register more at the end, if there are 15 at most.
fn one_more(random: &mut Random, list: &mut Vec<u32>, variable: u32) {
    if list[0] < 16 {
        list[0] += 1;
        let length = random.between(1, 4);
        push(random, list, variable, length);
    }
}

/// Unknown variables, ints, and variables named by another register.
fn names(random: &mut Random, case: &mut Case, types: &[u32]) {
    let variables = types.len() as u32;
    let list = &mut case.registers;
    if list[0] == 0 || random.percent(15) {
        let variable = random.below(variables + 1);
        one_more(random, list, variable);
    }
    let heads = heads(list);
    let ints = (0..).zip(types).filter(|&(_, &typ)| typ == 0);
    let ints: Vec<u32> = ints.map(|(variable, _)| variable).collect();
    for _ in 0..random.pick(&[1, 1, 1, 2]) {
        let at = random.pick(&heads);
        let other = random.pick(&heads);
        match random.below(4) {
            0 if !ints.is_empty() => list[at] = random.pick(&ints),
            1 if other != at => list[at] = list[other],
            2 => one_more(random, list, list[at]),
            _ => list[at] = unknown(random, variables, list[at]),
        }
    }
}

/// A number that no variable has, or one that equals `variable` modulo 32 or
/// 64.
fn unknown(random: &mut Random, variables: u32, variable: u32) -> u32 {
    random.pick(&[
        variables,
        variables + 1,
        variable.wrapping_add(32),
        variable.wrapping_add(64),
        65_536,
        u32::MAX,
    ])
}

/// Memory too short for the registers by one word or by many, or just not.
fn room(random: &mut Random, case: &mut Case, variables: u32) {
    let list = &mut case.registers;
    if words(list) == 0 {
        let variable = random.below(variables + 1);
        one_more(random, list, variable);
    }
    if random.below(150) == 0 {
        longest(random, list);
    }
    let least = 1 + variables;
    let full = least + words(list);
    let length = match random.weighted(&[35, 15, 10, 40]) {
        0 => full - 1,
        1 => full,
        2 => least,
        _ => random.between(least, full),
    };
    // Lists longer than that are a 10, which would hide the 15.
    case.lengths = [length.min(65_536); 3];
}

/// The last register made so long that the list has as many words as a case
/// may have, or one more, which makes the line no case.
fn longest(random: &mut Random, list: &mut Vec<u32>) {
    let Some(&last) = heads(list).last() else {
        return;
    };
    let length = random.pick(&[69_999, 70_000, 70_001]);
    list.resize(length, 0);
    list[last + 1] = (length - last - 2) as u32;
}

/// Lists that are cut short, have words over or count too many registers.
fn shape(random: &mut Random, list: &mut Vec<u32>, variables: u32) {
    let heads = heads(list);
    let head = heads.get(random.index(heads.len().max(1)));
    match (random.below(12), head) {
        (0, _) => list[0] = random.pick(&[17, 17, 18, 32, 65_536, u32::MAX]),
        (1, _) => {
            while list[0] < 16 {
                let variable = random.below(variables + 1);
                one_more(random, list, variable);
            }
            list[0] += 1;
            push(random, list, 0, 1);
        }
        (2, _) => list.clear(),
        (3, _) => list.truncate(random.index(list.len())),
        (4, _) => list.truncate(list.len() - 1),
        (5, _) => list[0] += 1,
        (6, _) => list[0] = list[0].saturating_sub(1),
        // Before or after the variable, or after the length.
        (7 | 8, Some(head)) => list.truncate(head + random.index(3)),
        (9 | 10, Some(head)) => length(random, list, head + 1),
        _ => {
            let more = random.between(1, 3);
            list.extend((0..more).map(|_| random.number()));
        }
    }
}

/// Another length word: a little off, huge, or such that the end of the words,
/// worked out modulo 2^32, lies before them.
fn length(random: &mut Random, list: &mut [u32], at: usize) {
    let length = list[at];
    let back = random.below(at as u32 + 3);
    list[at] = random.pick(&[
        length.wrapping_add(1),
        length.wrapping_sub(1),
        0u32.wrapping_sub(back),
        0u32.wrapping_sub(at as u32),
        1 << 30,
        1 << 31,
        u32::MAX,
        u32::MAX,
    ]);
}
