//! Cases of bare runs, which take no notice of the lists of bases and ends.

use super::random::Random;
use crate::text::{Call, Case};

/// The longest list of a case.
const MAX_LIST: u32 = 65_537;

/// Makes a case one of a bare run, now and then with lists of any lengths.
pub fn make(random: &mut Random, case: &mut Case) {
    case.call = Call::Bare;
    match random.weighted(&[60, 34, 6]) {
        0 => {}
        1 => other_lists(random, &mut case.lengths),
        _ => own_list(random, case),
    }
}

/// The lists that a bare run hasn't: none, one word off, or anything.
fn other_lists(random: &mut Random, lengths: &mut [u32; 3]) {
    let [length, others @ ..] = lengths;
    for other in others {
        let any = random.below(MAX_LIST + 1);
        let near = [*length + 1, length.saturating_sub(1)];
        let picked = random.pick(&[0, 0, near[0], near[1], any, MAX_LIST, *length]);
        *other = picked.min(MAX_LIST);
    }
}

/// The list that it has: too short by a word or by all, just long enough for
/// the variables, or too long, whatever the others are.
fn own_list(random: &mut Random, case: &mut Case) {
    let variables = case.inputs.len() as u32;
    case.lengths[0] = random.pick(&[0, variables, variables, 1 + variables, MAX_LIST]);
}
