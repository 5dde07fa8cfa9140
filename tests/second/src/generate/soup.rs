//! Tables made with little or no regard for the check.

use super::edition;
use super::random::Random;
use super::registers;
use crate::machine::kind;
use crate::text::{Call, Case};

/// Random small words.
pub fn words(random: &mut Random) -> Case {
    let length = random.below(40);
    let most = random.pick(&[2, 3, 5, 12]);
    let table = (0..length).map(|_| match random.below(40) {
        0 => 65_536 + random.below(3),
        1 => random.word(),
        _ => random.below(most),
    });
    let table = table.collect();
    case(random, table)
}

/// Six sections that fit, of words that need not.
pub fn sections(random: &mut Random) -> Case {
    let counts = [2, 4, 4, 4, 12, 5].map(|most| random.below(most));
    let [_, fields, pointers, variables, nodes, commands] = counts;
    let records = if fields == 0 {
        0
    } else {
        counts[0].min(fields)
    };
    let mut table = vec![records];
    for i in 0..records {
        let rest = fields - (records - 1);
        table.push(if i == 0 { rest } else { 1 });
    }
    let types = 2 + pointers;
    table.push(fields);
    for _ in 0..fields {
        table.extend([some_type(random, types), random.between(1, 3)]);
    }
    table.push(pointers);
    table.extend((0..pointers).map(|_| target(random, types, records)));
    table.push(variables);
    table.extend((0..variables).map(|_| some_type(random, types)));
    table.push(nodes);
    for i in 0..nodes {
        let b = random.pick(&[0, 0, 0, 0, 1]);
        table.extend(node(random, i, [types, records, variables], b));
    }
    table.push(commands);
    for _ in 0..2 * commands {
        table.push(random.below(nodes.max(1)));
    }
    case(random, table)
}

fn case(random: &mut Random, mut table: Vec<u32>) -> Case {
    if random.percent(30) {
        edition::mark(&mut table);
    }
    let length = random.below(20);
    let inputs = (0..random.below(4)).map(|_| random.pick(&[0, 0, 0, 5]));
    Case {
        call: Call::Run,
        lengths: [length; 3],
        blocks: 0,
        inputs: inputs.collect(),
        registers: list(random),
        table,
    }
}

/// No registers, some whose variables may not be there, or any small words.
fn list(random: &mut Random) -> Vec<u32> {
    match random.weighted(&[60, 25, 15]) {
        0 => vec![0],
        1 => {
            let mut list = vec![random.between(1, 2)];
            for _ in 0..list[0] {
                let (variable, length) = (random.below(3), random.below(4));
                registers::push(random, &mut list, variable, length);
            }
            list
        }
        _ => (0..random.below(8)).map(|_| random.below(4)).collect(),
    }
}

fn some_type(random: &mut Random, types: u32) -> u32 {
    match random.below(60) {
        0 => types,
        _ => random.below(types),
    }
}

fn target(random: &mut Random, types: u32, records: u32) -> u32 {
    match random.below(3) {
        0 if records > 0 => 65_536 + random.below(records),
        _ => some_type(random, types),
    }
}

/// A node whose child has mostly a smaller number.
fn node(random: &mut Random, i: u32, counts: [u32; 3], b: u32) -> [u32; 3] {
    let [types, records, variables] = counts;
    let child = match random.below(30) {
        0 => i + random.below(2),
        _ => i.saturating_sub(1 + random.below(3)),
    };
    let kind = match i {
        0 => random.pick(&[kind::VARIABLE, kind::VARIABLE, kind::CONSTANT, kind::SIZE]),
        _ => random.between(1, 11),
    };
    match kind {
        kind::VARIABLE => [kind, random.below(variables.max(1)), 0],
        kind::CONSTANT => [kind, random.number(), 0],
        kind::SUM | kind::COPY => [kind, child, random.below(i.max(1))],
        kind::CAST => [kind, child, some_type(random, types)],
        kind::SIZE => [kind, target(random, types, records), 0],
        kind::FIELD => [kind, child, random.below(3)],
        _ => [kind, child, if random.percent(90) { 0 } else { b }],
    }
}
