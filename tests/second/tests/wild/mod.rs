//! What a bare run does that only a bare run can do.

use crate::plain_bare::{Access, Called, Event, Extent, ALL};
use second::machine::Answer;
use std::collections::BTreeSet;

type Names = BTreeSet<&'static str>;

/// Names for a bare run on memory of so many words.
pub fn names(called: &Called, length: u32) -> Names {
    let memory = Extent {
        length: u64::from(length),
        unused: 0,
    };
    let mut names = Names::new();
    for event in &called.events {
        match *event {
            Event::Field(pointer, offset) => names.extend(field(pointer, offset, memory)),
            Event::Sum(typ, left, words) => names.extend(sum(typ, left, words, memory)),
            Event::Address(word) if !memory.has(word) => {
                names.insert("an address of no word");
            }
            Event::Touched(access, word, extent) => names.extend(touched(access, word, extent)),
            Event::Obtained(_, written) if written > 0 => {
                names.insert("obtains words written before");
            }
            Event::Stuck(access, word, after) => names.extend(stuck(access, word, after, length)),
            _ => {}
        }
    }
    names.extend(in_the_last_command(called, memory));
    names
}

/// A field whose sum is above 32 bits, and whose place is in memory.
fn field(pointer: u64, offset: u64, memory: Extent) -> Option<&'static str> {
    let round = pointer + offset >= ALL;
    (round && memory.has((pointer + offset) % ALL)).then_some("a field's sum goes round")
}

/// The same of a sum.
fn sum(typ: u32, left: u64, words: u64, memory: Extent) -> Option<&'static str> {
    let round = left + words >= ALL;
    match (round && memory.has((left + words) % ALL), typ) {
        (false, _) => None,
        (true, 0) => Some("an int's sum goes round"),
        (true, _) => Some("a pointer's sum goes round"),
    }
}

fn touched(access: Access, word: u64, extent: Extent) -> Names {
    let mut names = Names::new();
    if word >= extent.unused {
        names.insert(match access {
            Access::Read => "reads a word from U on",
            Access::Assign => "assigns a word from U on",
            Access::CopyTo => "copies to a word from U on",
            Access::CopyFrom => "copies from a word from U on",
        });
    }
    if word + 1 == extent.length {
        names.insert(match access {
            Access::Read => "reads the last word",
            Access::Assign => "assigns the last word",
            Access::CopyTo | Access::CopyFrom => "copies the last word",
        });
    }
    names
}

/// Where a run is stuck, in a copy after so many words that are there.
fn stuck(access: Access, word: u64, after: usize, length: u32) -> Names {
    const FAR: u64 = 1 << 20;
    let end = u64::from(length);
    let [by, at_0, past, soon_after, far] = match access {
        Access::Read => READ,
        Access::Assign => ASSIGN,
        Access::CopyTo | Access::CopyFrom => COPY,
    };
    let mut names = Names::from([by]);
    names.insert(match word {
        0 => at_0,
        _ if word == end => past,
        _ if word < FAR => soon_after,
        _ => far,
    });
    match access {
        Access::CopyTo => names.insert("stuck in a copy, by a"),
        Access::CopyFrom => names.insert("stuck in a copy, by b"),
        Access::Read | Access::Assign => false,
    };
    if after > 0 {
        names.insert("stuck in a copy, after words that are there");
    }
    names
}

const READ: [&str; 5] = [
    "stuck at a read",
    "stuck at a read, of word 0",
    "stuck at a read, just past the end",
    "stuck at a read, soon after the end",
    "stuck at a read, far away",
];

const ASSIGN: [&str; 5] = [
    "stuck at an assignment",
    "stuck at an assignment, of word 0",
    "stuck at an assignment, just past the end",
    "stuck at an assignment, soon after the end",
    "stuck at an assignment, far away",
];

const COPY: [&str; 5] = [
    "stuck in a copy",
    "stuck in a copy, of word 0",
    "stuck in a copy, just past the end",
    "stuck in a copy, soon after the end",
    "stuck in a copy, far away",
];

/// What the command that stopped did before.
fn in_the_last_command(called: &Called, memory: Extent) -> Names {
    let events = &called.events;
    let begins = events.iter().rposition(|e| matches!(e, Event::Command));
    let command = &events[begins.unwrap_or(0)..];
    let placed = command.iter().position(|e| matches!(e, Event::Placed(_)));
    let value = &command[placed.unwrap_or(command.len())..];
    let mut names = Names::new();
    match (called.answer, command.last()) {
        (Answer::Stuck { .. }, Some(Event::Stuck(access, ..))) => {
            if obtains(command) {
                names.insert("stuck, after words were obtained");
            }
            if *access == Access::Assign && (obtains(value) || copies(value)) {
                names.insert("stuck at an assignment, after its value did something");
            }
        }
        (Answer::NoRoom { .. }, _) => {
            if let Some(Event::Placed(word)) = value.first() {
                if !memory.has(*word) {
                    names.insert("no room, for the value of a place that is no word");
                }
            }
        }
        _ => {}
    }
    names
}

fn obtains(events: &[Event]) -> bool {
    events.iter().any(|e| matches!(e, Event::Obtained(..)))
}

fn copies(events: &[Event]) -> bool {
    let copied = |e: &Event| matches!(e, Event::Touched(Access::CopyTo, ..));
    events.iter().any(copied)
}
