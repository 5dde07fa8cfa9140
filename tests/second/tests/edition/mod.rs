//! Tables of edition 2 for examples written by hand.

pub const MARK: u32 = 4_294_967_295;

/// What stands before the sections.
pub const FRONT: [u32; 2] = [MARK, 2];

pub fn marked(sections: &[u32]) -> Vec<u32> {
    [&FRONT, sections].concat()
}
