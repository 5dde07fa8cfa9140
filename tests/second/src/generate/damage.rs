//! Harm done to good cases, so that each refusal is met often, and often
//! together with another, which tells the order in which they are looked for.

mod list;
mod mark;

use super::edition;
use super::random::Random;
use super::types::RECORD;
use crate::machine::kind;
use crate::text::Case;

/// Where the sections of a good table begin: the places of their counts.
struct Sections {
    starts: [usize; 6],
    counts: [u32; 6],
}

const WIDTHS: [usize; 6] = [1, 2, 1, 1, 3, 2];
const MAXIMA: [u32; 6] = [32, 128, 64, 64, 512, 256];

impl Sections {
    fn of(table: &[u32]) -> Sections {
        let mut at = edition::sections_at(table);
        let mut sections = Sections {
            starts: [0; 6],
            counts: [0; 6],
        };
        for (i, width) in WIDTHS.into_iter().enumerate() {
            sections.starts[i] = at;
            sections.counts[i] = table[at];
            at += 1 + width * table[at] as usize;
        }
        sections
    }

    /// The types of the variables.
    fn variables(&self, table: &[u32]) -> Vec<u32> {
        table[self.starts[3] + 1..][..self.counts[3] as usize].to_vec()
    }

    /// The place of one word of a random entry, or none in an empty section.
    fn word(&self, random: &mut Random, section: usize, word: usize) -> Option<usize> {
        let count = self.counts[section];
        if count == 0 {
            return None;
        }
        let entry = random.below(count) as usize;
        Some(self.starts[section] + 1 + WIDTHS[section] * entry + word)
    }
}

/// Damages a good case once, or two or three times.
pub fn damage(random: &mut Random, case: &mut Case) {
    let sections = Sections::of(&case.table);
    let times = 1 + random.weighted(&[60, 28, 12]);
    // Changes that move words come last: others rely on the places.
    let mut cut = false;
    let mut list = false;
    for _ in 0..times {
        match random.weighted(&[38, 44, 20, 10, 42, 24, 12]) {
            0 => declarations(random, case, &sections),
            1 => nodes(random, case, &sections),
            2 => commands(random, case, &sections),
            3 => anywhere(random, case),
            4 => call(random, case, &sections),
            5 => cut = true,
            _ => list = true,
        }
    }
    if list {
        list::damage(random, case, &sections.variables(&case.table));
    }
    if cut {
        lengths(random, case, &sections);
    }
}

/// Damages the mark of a good table or gives it one, half of the time after
/// other damage.
pub fn mark(random: &mut Random, case: &mut Case) {
    if random.percent(50) {
        damage(random, case);
    }
    mark::damage(random, &mut case.table);
}

/// Damages the registers of a good case, and now and then the call's other
/// conditions with them.
pub fn registers(random: &mut Random, case: &mut Case) {
    let sections = Sections::of(&case.table);
    list::damage(random, case, &sections.variables(&case.table));
    if random.percent(15) {
        call(random, case, &sections);
    }
}

/// Sets a word of a section, where that has one.
fn set(random: &mut Random, case: &mut Case, at: Option<usize>, choices: &[u32]) {
    if let Some(at) = at {
        case.table[at] = random.pick(choices);
    }
}

fn declarations(random: &mut Random, case: &mut Case, sections: &Sections) {
    let [records, _, pointers, ..] = sections.counts;
    let types = 2 + pointers;
    let unknown = [types, types + 1, 65_535, RECORD, RECORD + records, u32::MAX];
    let known = random.below(types);
    match random.below(9) {
        0 => {
            let at = sections.word(random, 0, 0);
            set(random, case, at, &[0, 0, 1, 2, 3, 129, u32::MAX]);
        }
        1 | 2 => {
            let at = sections.word(random, 1, 1);
            set(random, case, at, &[0, 4_097, 4_096, u32::MAX]);
        }
        3 => {
            let at = sections.word(random, 1, 0);
            set(random, case, at, &unknown);
        }
        4 => {
            let at = sections.word(random, 2, 0);
            set(random, case, at, &unknown);
        }
        5 | 6 => {
            let from = sections.word(random, 2, 0);
            let target = from.map_or(known, |from| case.table[from]);
            let at = sections.word(random, 2, 0);
            set(random, case, at, &[target, target, known]);
        }
        7 => {
            let at = sections.word(random, 3, 0);
            set(random, case, at, &unknown);
        }
        _ => {
            let at = sections.word(random, 3, 0);
            set(random, case, at, &[known]);
        }
    }
}

fn nodes(random: &mut Random, case: &mut Case, sections: &Sections) {
    let [_, _, pointers, variables, nodes, _] = sections.counts;
    let Some(at) = sections.word(random, 4, 0) else {
        return;
    };
    let i = ((at - sections.starts[4]) / 3) as u32;
    let types = 2 + pointers;
    let kind = case.table[at];
    match random.below(11) {
        0 => case.table[at] = random.pick(&[0, 12, 13, 99, u32::MAX]),
        1 => case.table[at] = random.between(1, 11),
        2 => case.table[at + 1] = random.pick(&[i, i + 1, nodes, variables, u32::MAX]),
        3 | 4 => case.table[at + 1] = random.below(i + 1),
        5 if kind == kind::CAST || kind == kind::FIELD => {
            case.table[at + 2] = random.below(types + 1);
        }
        5 => case.table[at + 2] = random.pick(&[1, 2, types, u32::MAX]),
        6 => swap_nodes(random, case, sections, at),
        7 => {
            case.table[at + 1] = random.pick(&[i, nodes, u32::MAX, i / 2]);
            case.table[at + 2] = random.pick(&[1, i, types, u32::MAX]);
        }
        8 => case.table[at + 2] = random.pick(&[i / 2, i, 128, u32::MAX]),
        9 => copy(random, case, sections, at),
        _ => retype(random, case, sections, types),
    }
}

/// The next copy from here on becomes a sum or gets another child, known or
/// not; a sum becomes a copy.
fn copy(random: &mut Random, case: &mut Case, sections: &Sections, at: usize) {
    let nodes = sections.counts[4];
    let mut from_here = (at..sections.starts[5]).step_by(3);
    let two_children = |at: &usize| matches!(case.table[*at], kind::SUM | kind::COPY);
    let Some(at) = from_here.find(two_children) else {
        return;
    };
    let i = ((at - sections.starts[4]) / 3) as u32;
    match case.table[at] {
        kind::SUM => case.table[at] = kind::COPY,
        _ if random.percent(30) => case.table[at] = kind::SUM,
        _ => {
            let child = random.pick(&[i, i + 1, nodes, u32::MAX, i / 2, 0]);
            case.table[at + 1 + random.index(2)] = child;
        }
    }
}

fn swap_nodes(random: &mut Random, case: &mut Case, sections: &Sections, at: usize) {
    if let Some(other) = sections.word(random, 4, 0) {
        for word in 0..3 {
            case.table.swap(at + word, other + word);
        }
    }
}

/// Another type in a cast or a size, known or not; another field.
fn retype(random: &mut Random, case: &mut Case, sections: &Sections, types: u32) {
    let records = sections.counts[0];
    let unknown = random.pick(&[types, 65_535, RECORD + records, u32::MAX]);
    let typ = match random.percent(50) {
        true => unknown,
        false => random.below(types),
    };
    let start = sections.starts[4] + 1;
    let end = sections.starts[5];
    let Some(at) = sections.word(random, 4, 0) else {
        return;
    };
    let from_here = (at..end).step_by(3).chain((start..at).step_by(3));
    for at in from_here {
        match case.table[at] {
            kind::CAST => case.table[at + 2] = typ,
            kind::SIZE => case.table[at + 1] = typ,
            kind::FIELD => case.table[at + 2] = random.pick(&[0, 1, 2, 3, 5, 200, u32::MAX]),
            _ => continue,
        }
        return;
    }
}

fn commands(random: &mut Random, case: &mut Case, sections: &Sections) {
    let nodes = sections.counts[4];
    let Some(at) = sections.word(random, 5, 0) else {
        return;
    };
    let word = random.below(2) as usize;
    match random.below(5) {
        0 => case.table.swap(at, at + 1),
        1 => case.table[at + word] = random.pick(&[nodes, nodes + 1, u32::MAX]),
        2 => case.table[at + word] = random.below(nodes.max(1)),
        _ => {
            let other = sections.word(random, 5, word).unwrap_or(at + word);
            case.table[at + word] = case.table[other];
        }
    }
}

fn anywhere(random: &mut Random, case: &mut Case) {
    let at = random.index(case.table.len());
    let word = case.table[at];
    case.table[at] = match random.below(6) {
        0 => word.wrapping_add(1),
        1 => word.wrapping_sub(1),
        2 => random.below(12),
        3 => RECORD + random.below(4),
        4 => random.word(),
        _ => random.number(),
    };
}

/// Lists and inputs: conditions 10 and 11.
fn call(random: &mut Random, case: &mut Case, sections: &Sections) {
    let variables = sections.counts[3];
    match random.below(8) {
        0 | 1 => {
            let list = random.below(3) as usize;
            let length = case.lengths[list];
            case.lengths[list] = random.pick(&[length + 1, length.saturating_sub(1), 0, variables]);
        }
        2 => case.lengths = [random.pick(&[variables, 0, variables.saturating_sub(1)]); 3],
        3 => case.lengths = [1 + variables; 3],
        4 => {
            let length = random.pick(&[65_537, 65_537, 65_536, 65_535]);
            case.lengths = [length; 3];
        }
        5 => {
            case.inputs.pop();
        }
        6 => {
            let more = random.pick(&[1, 1, 1, 2, 30]);
            case.inputs.extend((0..more).map(|_| random.number()));
        }
        _ => {
            let types = sections.variables(&case.table);
            for (input, typ) in case.inputs.iter_mut().zip(types) {
                if typ != 0 && random.percent(50) {
                    *input = random.number();
                }
            }
        }
    }
}

/// Cut, lengthened, or with counts that are not so.
fn lengths(random: &mut Random, case: &mut Case, sections: &Sections) {
    let section = random.below(6) as usize;
    let start = sections.starts[section];
    let maximum = MAXIMA[section];
    let count = &mut case.table[start];
    match random.below(11) {
        0 | 1 => {
            let length = random.below(case.table.len() as u32 + 1);
            case.table.truncate(length as usize);
        }
        2 => case.table.truncate(start + random.below(2) as usize),
        3 | 4 => {
            let more = random.between(1, 3);
            case.table.extend((0..more).map(|_| random.number()));
        }
        5 => *count = count.wrapping_add(1),
        6 => *count = count.wrapping_sub(1),
        7 => *count = random.pick(&[maximum, maximum + 1, maximum + 1, 0]),
        8 | 9 => unused_node(random, case, sections),
        _ => again(random, case, sections),
    }
}

/// A command once more at the end: its nodes are used twice, and none never.
fn again(random: &mut Random, case: &mut Case, sections: &Sections) {
    let Some(at) = sections.word(random, 5, 0) else {
        return;
    };
    let count = &mut case.table[sections.starts[5]];
    *count = count.wrapping_add(1);
    case.table.extend_from_within(at..at + 2);
}

/// One more node that nothing uses.
fn unused_node(random: &mut Random, case: &mut Case, sections: &Sections) {
    let [.., nodes, commands] = sections.starts;
    case.table[nodes] = case.table[nodes].wrapping_add(1);
    let word = random.number();
    case.table
        .splice(commands..commands, [kind::CONSTANT, word, 0]);
}
