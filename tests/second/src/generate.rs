//! Random cases, the same ones for the same seed and index.

mod bare;
mod carried;
mod copies;
mod copying;
mod damage;
mod deep;
mod edition;
mod expression;
mod known;
mod pointer;
mod random;
mod registers;
mod routine;
mod soup;
mod steps;
mod stray;
mod types;
mod wild;

use crate::text::{Call, Case};
use random::Random;
use routine::Routine;
use types::Types;

/// Appends the line of case `index` of a seed, its byte 10 included. Of each
/// ten, the fifth is the run before it as a bare run, and the last is the case
/// before it in the other edition.
pub fn line(seed: u64, index: u64, out: &mut Vec<u8>) {
    let of_ten = index % 10;
    let again = matches!(of_ten, 4 | 9);
    let mut random = Random::new(seed, index - u64::from(again));
    let start = out.len();
    let mut case = match of_ten {
        3 | 4 => wild_or_mixed(&mut random, 25),
        _ => case(&mut random),
    };
    match of_ten {
        4 => case.call = Call::Bare,
        9 => edition::change(&mut case.table),
        _ => {}
    }
    case.write(out);
    if random.below(400) == 0 {
        spoil(&mut random, out, start);
    }
}

/// A case of any call.
fn case(random: &mut Random) -> Case {
    if random.percent(13) {
        let mut case = wild_or_mixed(random, 75);
        bare::make(random, &mut case);
        return case;
    }
    let mut case = mixed(random);
    case.call = match random.weighted(&[25, 15, 60]) {
        0 => Call::Run,
        1 => Call::Check,
        _ => Call::Explain,
    };
    case
}

/// A run. Of a hundred, so many go where only a bare run can.
fn wild_or_mixed(random: &mut Random, wild: u32) -> Case {
    match random.percent(wild) {
        true => shuffled(random, Routine::wild).case(),
        false => mixed(random),
    }
}

/// The mixture of cases, in thousandths. All are runs.
fn mixed(random: &mut Random) -> Case {
    let mut case = match random.weighted(&[555, 240, 90, 50, 30, 15, 20]) {
        0 => well_formed(random).case(),
        1 => damaged(random),
        2 => {
            let mut case = well_formed(random).case();
            damage::registers(random, &mut case);
            case
        }
        3 => soup::sections(random),
        4 => soup::words(random),
        5 => large(random),
        _ => shuffled(random, deep::routine).case(),
    };
    if random.percent(5) {
        case.blocks = random.below(201);
    }
    case
}

fn well_formed(random: &mut Random) -> Routine {
    match random.weighted(&[56, 21, 23]) {
        0 => shuffled(random, Routine::small),
        1 => shuffled(random, Routine::copying),
        _ => shuffled(random, Routine::carrying),
    }
}

/// A good case with something wrong about it, and now and then a copy of which
/// only the types are wrong.
fn damaged(random: &mut Random) -> Case {
    let mut routine = well_formed(random);
    let wrong_copy = random.percent(18) && routine.add_wrong_copy(random);
    let mut case = routine.case();
    if wrong_copy && random.percent(75) {
        return case;
    }
    match random.percent(24) {
        true => damage::mark(random, &mut case),
        false => damage::damage(random, &mut case),
    }
    case
}

/// A routine whose nodes stand, half of the time, in another order.
fn shuffled(random: &mut Random, make: fn(&mut Random) -> Routine) -> Routine {
    let mut routine = make(random);
    if random.percent(50) {
        routine.shuffle(random);
    }
    routine
}

/// A routine up to the limits of the table, sometimes damaged.
fn large(random: &mut Random) -> Case {
    let routine = match random.percent(25) {
        true => full(random),
        false => nearly_full(random),
    };
    let mut case = routine.case();
    if random.percent(30) {
        damage::damage(random, &mut case);
    }
    case
}

/// Every section at its limit. With two nodes a command, these can only be the
/// shortest.
fn full(random: &mut Random) -> Routine {
    let types = Types::full(random);
    let mut routine = Routine::new(random, types, 8, 50);
    routine.fill(random, 256);
    routine
}

fn nearly_full(random: &mut Random) -> Routine {
    let types = Types::large(random);
    let room = random.between(20, 400);
    let mut routine = Routine::new(random, types, room, 33);
    let count = random.pick(&[40, 100, 256]);
    routine.grow(random, count);
    if random.percent(40) {
        routine.end(random);
    }
    routine.fill(random, count);
    if random.percent(50) {
        routine.shuffle(random);
    }
    routine
}

/// Makes the line that begins at `start` no case, or almost none, in a way that
/// stays so whatever requests land later.
fn spoil(random: &mut Random, out: &mut Vec<u8>, start: usize) {
    let at = start + random.index(out.len() - 1 - start);
    match random.below(8) {
        0 => out.truncate(out.len() - 1 - random.index(3)),
        1 => out.insert(at, b'x'),
        2 => out.splice(start..start, *b" ").for_each(drop),
        3 => out.splice(start..=start, *b"4").for_each(drop),
        4 => out.insert(out.len() - 1, b' '),
        5 => out.splice(out.len() - 1.., *b" 7\n").for_each(drop),
        6 => out.truncate(start),
        _ => out
            .splice(out.len() - 1.., *b"99999999999\n")
            .for_each(drop),
    }
    if out.last() != Some(&b'\n') || out.len() == start {
        out.push(b'\n');
    }
}
