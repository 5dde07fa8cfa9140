//! Right lists of registers for given types, with words to work on.

use super::random::Random;
use super::types::{Types, INT};
use std::iter::successors;

/// The most registers of a list, and the longest lists of memory.
const MAX_REGISTERS: u32 = 16;
const MAX_MEMORY: u32 = 65_536;

/// A list of registers that names pointer variables in any order, each once.
pub fn list(random: &mut Random, types: &Types) -> Vec<u32> {
    let pointers = (0..).zip(&types.variables).filter(|&(_, &typ)| typ != INT);
    let mut pointers: Vec<u32> = pointers.map(|(variable, _)| variable).collect();
    let count = count(random, pointers.len() as u32);
    let mut list = vec![count];
    for _ in 0..count {
        let at = random.index(pointers.len());
        let variable = pointers.swap_remove(at);
        let length = length(random, types, variable);
        push(random, &mut list, variable, length);
    }
    if count > 0 && random.below(1_500) == 0 {
        lengthen(random, &mut list, types.variables.len() as u32);
    }
    list
}

/// How many registers there are, where that many pointers can be named.
fn count(random: &mut Random, pointers: u32) -> u32 {
    let most = pointers.min(MAX_REGISTERS);
    match random.weighted(&[20, 50, 30]) {
        0 => 0,
        1 => random.between(1, 3).min(most),
        _ => most,
    }
}

/// Often as long as the record that the variable points to, or as several of
/// them in a row, or one word off, so that the last field just fits or just
/// does not.
fn length(random: &mut Random, types: &Types, variable: u32) -> u32 {
    let record = types.record(types.variables[variable as usize]);
    let size = record.map_or(0, |record| types.size(record));
    let size = match random.percent(5) {
        true => size.min(10_000),
        false => size.min(60),
    };
    match random.weighted(&[8, 17, 40, 12, if size > 0 { 60 } else { 0 }, 1]) {
        0 => 0,
        1 => 1,
        2 => random.between(2, 5),
        3 => random.between(4, 20),
        4 => {
            let row = size * random.pick(&[1, 2, 2, 3, 4]);
            random.pick(&[row, row, row, row + 1, row - 1])
        }
        _ => random.pick(&[100, 255, 256, 600]),
    }
}

/// Adds a register. Its words are numbers as ints have them, or of words near
/// by, which would be pointers if words of registers had bounds.
pub fn push(random: &mut Random, list: &mut Vec<u32>, variable: u32, length: u32) {
    list.extend([variable, length]);
    list.extend((0..length).map(|_| match random.percent(25) {
        true => random.below(24),
        false => random.number(),
    }));
}

/// Makes the last register long: mostly so that the longest memory there is has
/// no word left after it, or one, or one too few.
fn lengthen(random: &mut Random, list: &mut Vec<u32>, variables: u32) {
    let last = *heads(list).last().expect("a register");
    let before = 1 + variables + words(list) - list[last + 1];
    let full = MAX_MEMORY - before;
    let length = random.pick(&[4_096 - before % 4_096, full - 1, full, full, full + 1]);
    list[last + 1] = length;
    list.resize(last + 2 + length as usize, 0);
    *list.last_mut().expect("a count") = random.number();
}

/// Places of the variable words of a right list.
pub fn heads(list: &[u32]) -> Vec<usize> {
    let next = |&at: &usize| Some(at + 2 + list[at + 1] as usize);
    successors(Some(1), next).take(list[0] as usize).collect()
}

/// How many words of memory the registers of a right list take.
pub fn words(list: &[u32]) -> u32 {
    list.len() as u32 - 1 - 2 * list[0]
}

/// The length of memory with registers and so much room more: all there can be
/// where that is too much.
pub fn memory(variables: u32, list: &[u32], room: u32) -> u32 {
    (1 + variables + words(list) + room).min(MAX_MEMORY)
}
