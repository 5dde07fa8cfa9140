//! Wrong rules for the bare run, and whether a case tells them apart.

use crate::plain_bare::{call, Called, Extent, Order, Rules, ALL, RIGHT};
use second::text::Case;

const RULES: [(&str, Rules); 27] = [
    ("10 speaks of three lists", Rules { lists: 3, ..RIGHT }),
    (
        "memory isn't cleared at the start",
        Rules { start: 7, ..RIGHT },
    ),
    (
        "a field's sum is exact",
        Rules {
            field: |pointer, offset| pointer + offset,
            ..RIGHT
        },
    ),
    (
        "a pointer's sum is exact",
        Rules {
            sum: |typ, left, right, step| match typ {
                0 => (RIGHT.sum)(typ, left, right, step),
                _ => left.saturating_add(right.saturating_mul(step)),
            },
            ..RIGHT
        },
    ),
    (
        "a step is a word",
        Rules {
            sum: |typ, left, right, _| (RIGHT.sum)(typ, left, right, 1),
            ..RIGHT
        },
    ),
    (
        "U + n is taken modulo 2^32",
        Rules {
            end: |unused, words| (unused + words) % ALL,
            ..RIGHT
        },
    ),
    (
        "an obtain clears nothing",
        Rules {
            obtained: |word| word,
            ..RIGHT
        },
    ),
    (
        "obtaining no words gives U",
        Rules {
            nothing: |unused| unused,
            ..RIGHT
        },
    ),
    (
        "word 0 can be read",
        Rules {
            reads: or_word_0,
            ..RIGHT
        },
    ),
    (
        "word 0 can be assigned",
        Rules {
            assigns: or_word_0,
            ..RIGHT
        },
    ),
    (
        "word 0 can be copied",
        Rules {
            copies: or_word_0,
            ..RIGHT
        },
    ),
    (
        "the word past the end can be read",
        Rules {
            reads: or_the_next,
            ..RIGHT
        },
    ),
    (
        "the word past the end can be assigned",
        Rules {
            assigns: or_the_next,
            ..RIGHT
        },
    ),
    (
        "the word past the end can be copied",
        Rules {
            copies: or_the_next,
            ..RIGHT
        },
    ),
    (
        "the last word is outside",
        Rules {
            reads: but_the_last,
            assigns: but_the_last,
            copies: but_the_last,
            ..RIGHT
        },
    ),
    (
        "words from U on can't be read",
        Rules {
            reads: below_u,
            ..RIGHT
        },
    ),
    (
        "words from U on can't be assigned",
        Rules {
            assigns: below_u,
            ..RIGHT
        },
    ),
    (
        "words from U on can't be copied",
        Rules {
            copies: below_u,
            ..RIGHT
        },
    ),
    (
        "an address of no word is stuck",
        Rules {
            addresses: Extent::has,
            ..RIGHT
        },
    ),
    (
        "child b goes before child a",
        Rules {
            children: Order::SecondBeforeFirst,
            ..RIGHT
        },
    ),
    (
        "a value goes before its place",
        Rules {
            command: Order::SecondBeforeFirst,
            ..RIGHT
        },
    ),
    (
        "a store is stuck before its value",
        Rules {
            early: true,
            ..RIGHT
        },
    ),
    (
        "a stuck copy writes its first words",
        Rules {
            partly: |words| words,
            ..RIGHT
        },
    ),
    (
        "a copy goes first word first",
        Rules {
            moving: first_word_first,
            ..RIGHT
        },
    ),
    (
        "a copy goes last word first",
        Rules {
            moving: last_word_first,
            ..RIGHT
        },
    ),
    (
        "room is given back when stuck",
        Rules {
            kept: |before, _| before,
            ..RIGHT
        },
    ),
    (
        "a stuck command leaves none of its writes",
        Rules {
            leaves: false,
            ..RIGHT
        },
    ),
];

fn or_word_0(extent: Extent, word: u64) -> bool {
    word == 0 || extent.has(word)
}

fn or_the_next(extent: Extent, word: u64) -> bool {
    word == extent.length || extent.has(word)
}

fn but_the_last(extent: Extent, word: u64) -> bool {
    word + 1 != extent.length && extent.has(word)
}

fn below_u(extent: Extent, word: u64) -> bool {
    word < extent.unused && extent.has(word)
}

fn first_word_first(words: &mut [u64], pairs: &[[usize; 2]]) {
    pairs.iter().for_each(|&[to, from]| words[to] = words[from]);
}

fn last_word_first(words: &mut [u64], pairs: &[[usize; 2]]) {
    let backwards = pairs.iter().rev();
    backwards.for_each(|&[to, from]| words[to] = words[from]);
}

/// Wrong rules by which a bare call would have another answer. Word 0 is no
/// part of an answer.
pub fn told_apart(case: &Case, right: &Called) -> Vec<&'static str> {
    let mut names = Vec::new();
    for (name, rules) in RULES {
        let other = call(case, &rules);
        let words = [&other, right].map(|called| called.words.get(1..));
        if other.answer != right.answer || words[0] != words[1] {
            names.push(name);
        }
    }
    names
}
