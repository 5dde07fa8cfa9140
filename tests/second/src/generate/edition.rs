//! The mark of edition 2, set before the sections of a table or taken away.

pub const MARK: u32 = u32::MAX;
const EDITION: u32 = 2;
/// What stands before the sections of a table of edition 2.
pub const FRONT: [u32; 2] = [MARK, EDITION];

/// Where the sections begin.
pub fn sections_at(table: &[u32]) -> usize {
    match table.starts_with(&FRONT) {
        true => FRONT.len(),
        false => 0,
    }
}

pub fn mark(table: &mut Vec<u32>) {
    table.splice(0..0, FRONT);
}

/// The same sections in the other edition.
pub fn change(table: &mut Vec<u32>) {
    match sections_at(table) {
        0 => mark(table),
        at => table.drain(..at).for_each(drop),
    }
}
