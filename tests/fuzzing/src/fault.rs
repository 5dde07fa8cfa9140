//! What can be wrong with a call.

use crate::answers::{function, Told};
use crate::shared::Count;
use crate::trial::Seen;
use second::text::Call;
use std::fmt::Write;

/// So many words of a list that differs are told.
const TOLD: usize = 10;

#[derive(Clone, Copy, Debug, PartialEq, Eq)]
pub enum Kind {
    Differ,
    Crash,
    Hang,
    ChangedByRefused,
    Outside,
    ReadOnly,
}

impl Kind {
    /// The short name is for files.
    pub fn name(self) -> &'static str {
        match self {
            Kind::Differ => "differ",
            Kind::Crash => "crash",
            Kind::Hang => "hang",
            Kind::ChangedByRefused => "changed",
            Kind::Outside => "outside",
            Kind::ReadOnly => "read-only",
        }
    }

    pub fn count(self) -> Count {
        match self {
            Kind::Differ => Count::Differ,
            Kind::Crash => Count::Crashes,
            Kind::Hang => Count::Hangs,
            Kind::ChangedByRefused => Count::ChangedByRefused,
            Kind::Outside => Count::Outside,
            Kind::ReadOnly => Count::ReadOnly,
        }
    }
}

pub struct Fault {
    pub kind: Kind,
    /// How much it counts: words, or 1.
    pub weight: u64,
    pub text: String,
}

impl Fault {
    /// The library's answer or a word of its lists is not the second
    /// implementation's.
    pub fn differ<A: Told>(
        call: Call,
        got: A,
        expected: A,
        lists: [&[u32]; 3],
        own: &[Vec<u32>; 3],
    ) -> Fault {
        let name = function(call);
        let mut text = format!("{name}\n  library: {got:?}\n  second:  {expected:?}\n");
        for (list, (words, own)) in ["values", "bases", "ends"].iter().zip(lists.iter().zip(own)) {
            let pairs = words.iter().zip(own).enumerate();
            let differing = pairs.filter(|(_, (word, own))| word != own);
            for (i, (word, own)) in differing.take(TOLD) {
                writeln!(text, "  {list}[{i}]: library {word}, second {own}")
                    .expect("a text takes more");
            }
        }
        Fault::one(Kind::Differ, text)
    }

    /// A promise about several calls is broken.
    pub fn promise(call: Call, broken: &str, seen: &Seen) -> Fault {
        let Seen {
            verdict,
            answer,
            explanation,
            bare,
        } = seen;
        let text = format!(
            "{}: {broken}\n  {verdict:?}\n  run: {answer:?}\n  {explanation:?}\n  bare: {bare:?}\n",
            function(call)
        );
        Fault::one(Kind::Differ, text)
    }

    /// So many words were written that may not be.
    pub fn words(kind: Kind, call: Call, words: usize) -> Fault {
        Fault {
            kind,
            weight: words as u64,
            text: format!("{}: {words} words\n", function(call)),
        }
    }

    pub fn one(kind: Kind, text: String) -> Fault {
        Fault {
            kind,
            weight: 1,
            text,
        }
    }
}
