//! The conditions on a call, as plainly as document 01 and the requests say
//! them.

use crate::plain::{refuse, Found, Table};
use second::text::Case;

pub struct Register {
    /// Place of the variable word in the list; the length word is next.
    at: usize,
    pub variable: u32,
    pub words: Vec<u32>,
}

/// The registers of a case whose lent lists have these lengths: refusals 10, 11
/// and 13 to 15.
pub fn admit(case: &Case, table: &Table, lengths: &[u32]) -> Found<Vec<Register>> {
    lists(lengths, table)?;
    inputs(&case.inputs, table)?;
    let registers = registers(&case.registers)?;
    known_pointers(&registers, table)?;
    have_room(&registers, table, lengths[0])?;
    Ok(registers)
}

/// Refusal 10.
fn lists(lengths: &[u32], table: &Table) -> Found<()> {
    let least = 1 + table.counts[3] as u32;
    for &length in lengths {
        if length != lengths[0] || length < least || length > 65_536 {
            return refuse(10, 0);
        }
    }
    Ok(())
}

/// Refusal 11.
fn inputs(inputs: &[u32], table: &Table) -> Found<()> {
    let variables = table.counts[3];
    if inputs.len() != variables {
        return refuse(11, variables);
    }
    for (i, &input) in inputs.iter().enumerate() {
        if table.word(3, i, 0) != 0 && input != 0 {
            return refuse(11, i);
        }
    }
    Ok(())
}

/// The list taken apart: refusal 13.
fn registers(list: &[u32]) -> Found<Vec<Register>> {
    let length = list.len();
    if length == 0 {
        return refuse(13, length);
    }
    if list[0] > 16 {
        return refuse(13, 0);
    }
    let mut registers = Vec::new();
    let mut at = 1;
    for _ in 0..list[0] {
        if at + 2 > length {
            return refuse(13, length);
        }
        let end = at + 2 + list[at + 1] as usize;
        if end > length {
            return refuse(13, length);
        }
        registers.push(Register {
            at,
            variable: list[at],
            words: list[at + 2..end].to_vec(),
        });
        at = end;
    }
    if at < length {
        return refuse(13, at);
    }
    Ok(registers)
}

/// Refusal 14.
fn known_pointers(registers: &[Register], table: &Table) -> Found<()> {
    for (i, register) in registers.iter().enumerate() {
        let variable = register.variable as usize;
        let unknown = variable >= table.counts[3];
        let before = registers[..i].iter().map(|r| r.variable);
        let named = before.into_iter().any(|v| v == register.variable);
        if unknown || table.word(3, variable, 0) == 0 || named {
            return refuse(14, register.at);
        }
    }
    Ok(())
}

/// Refusal 15.
fn have_room(registers: &[Register], table: &Table, length: u32) -> Found<()> {
    for (i, register) in registers.iter().enumerate() {
        let words: usize = registers[..=i].iter().map(|r| r.words.len()).sum();
        if 1 + table.counts[3] + words > length as usize {
            return refuse(15, register.at + 1);
        }
    }
    Ok(())
}
