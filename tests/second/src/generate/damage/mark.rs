//! Harm done to the mark of a table, and marks where none belongs.

use crate::generate::edition::{sections_at, FRONT, MARK};
use crate::generate::random::Random;

/// What comes after goes on, is cut off, or is written over.
pub fn damage(random: &mut Random, table: &mut Vec<u32>) {
    let at = sections_at(table);
    if random.percent(15) {
        return elsewhere(random, table, at);
    }
    let front = front(random);
    let over = match random.percent(20) {
        true => (at + 1).min(table.len()),
        false => at,
    };
    let length = front.len();
    table.splice(..over, front);
    if random.percent(40) {
        table.truncate(length);
    }
}

/// The mark alone, before another edition, before another mark, before itself,
/// and after the edition. Of other editions some end as 2 does in few bits.
fn front(random: &mut Random) -> Vec<u32> {
    let other = random.pick(&[0, 0, 1, 1, 3, 3, 4, MARK, MARK, 258, 65_538, MARK - 1]);
    match random.weighted(&[19, 32, 7, 12, 11, 11, 4, 6]) {
        0 => vec![MARK],
        1 => vec![MARK, other],
        2 => vec![MARK, random.word()],
        3 => FRONT.to_vec(),
        4 => vec![MARK, 2, MARK],
        5 => FRONT.repeat(2),
        6 => vec![2, MARK],
        _ => vec![MARK, other, MARK, 2],
    }
}

/// A mark that isn't word 0 is an ordinary word, and mostly a wrong one.
fn elsewhere(random: &mut Random, table: &mut Vec<u32>, at: usize) {
    let place = at + random.index(table.len() + 1 - at);
    match (random.below(3), table.get_mut(place)) {
        (0, Some(word)) if place > 0 => *word = MARK,
        (1, _) => table.splice(place..place, FRONT).for_each(drop),
        _ => table.extend(FRONT),
    }
}
