//! Runs for examples written by hand.

#![allow(dead_code)] // Not every test needs all endings.

use second::machine::{run, run_bare, Answer};

/// A run on lists of `length` words, each lent with 7 in every word.
pub struct Ran {
    pub answer: Answer,
    pub values: Vec<u32>,
    bases: Vec<u32>,
    ends: Vec<u32>,
}

impl Ran {
    pub fn new(table: &[u32], inputs: &[u32], registers: &[u32], length: usize) -> Ran {
        let lent = || vec![7; length];
        let (mut values, mut bases, mut ends) = (lent(), lent(), lent());
        let answer = run(table, inputs, registers, &mut values, &mut bases, &mut ends);
        Ran {
            answer,
            values,
            bases,
            ends,
        }
    }

    pub fn word(&self, word: usize) -> [u32; 3] {
        [self.values[word], self.bases[word], self.ends[word]]
    }

    pub fn untouched(&self) -> bool {
        let lists = [&self.values, &self.bases, &self.ends];
        lists.iter().all(|list| list.iter().all(|&word| word == 7))
    }
}

/// The answer of a bare run on a list of `length` words, lent with 7 in every
/// word, and the words that it leaves.
pub fn bare(table: &[u32], inputs: &[u32], registers: &[u32], length: usize) -> (Answer, Vec<u32>) {
    let mut values = vec![7; length];
    let answer = run_bare(table, inputs, registers, &mut values);
    (answer, values)
}

pub fn done(unused: u32) -> Answer {
    Answer::Done { unused }
}

pub fn abort(command: u32, unused: u32) -> Answer {
    Answer::Abort { command, unused }
}

pub fn no_room(command: u32, unused: u32) -> Answer {
    Answer::NoRoom { command, unused }
}

pub fn stuck(command: u32, unused: u32) -> Answer {
    Answer::Stuck { command, unused }
}

/// The numbers of a text; bars are only for the eye.
pub fn words(text: &str) -> Vec<u32> {
    let numbers = text.split_whitespace().filter(|&word| word != "|");
    numbers.map(|word| word.parse().unwrap()).collect()
}
