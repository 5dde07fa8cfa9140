//! A second, separately written implementation of document 01 with requests 1
//! (registers handed in), 2 (a step is a record), 4 (a reason for every abort),
//! 6 (whole records copied), 8 (edition 2 of the cast rule) and 9 (same result
//! on the old boxes): the machine, the text of recorded cases, and a generator
//! of cases.

#![forbid(unsafe_code)]

pub mod generate;
pub mod machine;
pub mod text;
