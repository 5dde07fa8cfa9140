//! The bare run, as plainly as request 9 says it. It tells what it meets on its
//! way, and can go about some steps wrongly on purpose: both tell what random
//! cases are worth.

use crate::plain::{Found, Table};
use crate::plain_call::{admit, Register};
use second::machine::Answer;
use second::text::Case;

/// One more than the largest word.
pub const ALL: u64 = 1 << 32;

/// The length of the lent memory, and U.
#[derive(Clone, Copy)]
pub struct Extent {
    pub length: u64,
    pub unused: u64,
}

impl Extent {
    /// "Outside the lent memory or at word 0" a run is stuck.
    pub fn has(self, word: u64) -> bool {
        word > 0 && word < self.length
    }
}

#[derive(Clone, Copy, PartialEq, Eq)]
pub enum Order {
    FirstBeforeSecond,
    #[allow(dead_code)] // Only wrong rules have it.
    SecondBeforeFirst,
}

/// How a bare run goes about what can be done wrongly.
#[derive(Clone, Copy)]
pub struct Rules {
    /// How many lists refusal 10 speaks of.
    pub lists: usize,
    /// What words are at the start, when nothing was handed in for them.
    pub start: u64,
    /// Where a field is: the pointer and the offset.
    pub field: fn(u64, u64) -> u64,
    /// A value of a type and a number of steps, each of so many words.
    pub sum: fn(u32, u64, u64, u64) -> u64,
    /// U + n.
    pub end: fn(u64, u64) -> u64,
    /// What an obtained word becomes, by what it was.
    pub obtained: fn(u64) -> u64,
    /// What obtaining no words gives, by U.
    pub nothing: fn(u64) -> u64,
    /// Whether a word can be read, be assigned or have a part in a copy.
    pub reads: fn(Extent, u64) -> bool,
    pub assigns: fn(Extent, u64) -> bool,
    pub copies: fn(Extent, u64) -> bool,
    /// Whether an address of a word can be taken.
    pub addresses: fn(Extent, u64) -> bool,
    /// The order of two children, or of a command's place and value.
    pub children: Order,
    pub command: Order,
    /// Whether a store may be stuck before its value is worked out.
    pub early: bool,
    /// Of a copy that is stuck after so many words, how many are written.
    pub partly: fn(usize) -> usize,
    /// Moves words from one place to another: each as [to, from].
    pub moving: fn(&mut [u64], &[[usize; 2]]),
    /// U when stuck, by what it was before the command and what it is now.
    pub kept: fn(u64, u64) -> u64,
    /// Whether a command that is stuck leaves what it wrote.
    pub leaves: bool,
}

pub const RIGHT: Rules = Rules {
    lists: 1,
    start: 0,
    field: |pointer, offset| (pointer + offset) % ALL,
    sum: |_, left, right, step| (left + right * step) % ALL,
    end: |unused, words| unused + words,
    obtained: |_| 0,
    nothing: |_| 0,
    reads: Extent::has,
    assigns: Extent::has,
    copies: Extent::has,
    addresses: |_, _| true,
    children: Order::FirstBeforeSecond,
    command: Order::FirstBeforeSecond,
    early: false,
    partly: |_| 0,
    moving: as_they_were,
    kept: |_, now| now,
    leaves: true,
};

/// All the words are taken before the first of them is written.
fn as_they_were(words: &mut [u64], pairs: &[[usize; 2]]) {
    let taken: Vec<u64> = pairs.iter().map(|&[_, from]| words[from]).collect();
    for (&[to, _], word) in pairs.iter().zip(taken) {
        words[to] = word;
    }
}

/// What is done with a word.
#[derive(Clone, Copy, Debug, PartialEq, Eq)]
pub enum Access {
    Read,
    Assign,
    CopyTo,
    CopyFrom,
}

/// What a bare run meets on its way.
#[allow(dead_code)] // Not every test that runs a case looks at all of it.
pub enum Event {
    /// A command begins.
    Command,
    /// The place of a command is worked out.
    Placed(u64),
    /// A pointer, and the offset of the field sought from there.
    Field(u64, u64),
    /// A value of a type, and a number of words added to it.
    Sum(u32, u64, u64),
    /// An address is taken of this word.
    Address(u64),
    /// A word is read, assigned or copied, when memory is such.
    Touched(Access, u64, Extent),
    /// So many words are obtained, of which so many were not 0.
    Obtained(u64, usize),
    /// The run is stuck at this word, in a copy after so many others.
    Stuck(Access, u64, usize),
}

enum Stop {
    NoRoom,
    Stuck,
}

type Step<T> = Result<T, Stop>;

struct Run<'t> {
    table: &'t Table<'t>,
    rules: &'t Rules,
    /// Memory and one word more, for rules by which that is there.
    words: Vec<u64>,
    extent: Extent,
    events: Vec<Event>,
}

impl Run<'_> {
    /// Whether a word may be touched so; else the run is stuck.
    fn touch(&mut self, access: Access, word: u64) -> Step<usize> {
        let may = match access {
            Access::Read => self.rules.reads,
            Access::Assign => self.rules.assigns,
            Access::CopyTo | Access::CopyFrom => self.rules.copies,
        };
        if !may(self.extent, word) {
            return self.stuck(access, word, 0);
        }
        self.events.push(Event::Touched(access, word, self.extent));
        Ok(word as usize)
    }

    fn stuck<T>(&mut self, access: Access, word: u64, after: usize) -> Step<T> {
        self.events.push(Event::Stuck(access, word, after));
        Err(Stop::Stuck)
    }

    /// The record that the value of a node points to.
    fn record(&self, node: usize) -> usize {
        let (_, pointer) = self.table.nodes[node];
        self.table.target(pointer).expect("a pointer") as usize - 65_536
    }

    fn place(&mut self, node: usize) -> Step<u64> {
        let [kind, a, b] = self.table.node(node);
        if kind == 1 {
            return Ok(1 + u64::from(a));
        }
        let pointer = self.value(a as usize)?;
        if kind == 2 {
            return Ok(pointer);
        }
        let offset = self.table.words_before(self.record(a as usize), b);
        self.events.push(Event::Field(pointer, offset));
        Ok((self.rules.field)(pointer, offset))
    }

    fn value(&mut self, node: usize) -> Step<u64> {
        let [kind, a, b] = self.table.node(node);
        let [first, second] = [a, b].map(|child| child as usize);
        match kind {
            4 => Ok(u64::from(a)),
            5 => self.sum(first, second),
            6 => {
                let word = self.place(first)?;
                let word = self.touch(Access::Read, word)?;
                Ok(self.words[word])
            }
            7 => self.address(first),
            8 => self.value(first),
            9 if a < 65_536 => Ok(1),
            9 => Ok(self.table.size(first - 65_536)),
            10 => self.obtain(first),
            _ => self.copy(first, second),
        }
    }

    fn values(&mut self, a: usize, b: usize) -> Step<[u64; 2]> {
        if self.rules.children == Order::SecondBeforeFirst {
            let second = self.value(b)?;
            return Ok([self.value(a)?, second]);
        }
        Ok([self.value(a)?, self.value(b)?])
    }

    fn sum(&mut self, a: usize, b: usize) -> Step<u64> {
        let [left, right] = self.values(a, b)?;
        let (_, typ) = self.table.nodes[a];
        let step = self.table.step(typ);
        let words = right.saturating_mul(step);
        self.events.push(Event::Sum(typ, left, words));
        Ok((self.rules.sum)(typ, left, right, step))
    }

    fn address(&mut self, a: usize) -> Step<u64> {
        let word = self.place(a)?;
        self.events.push(Event::Address(word));
        match (self.rules.addresses)(self.extent, word) {
            true => Ok(word),
            false => Err(Stop::Stuck),
        }
    }

    fn obtain(&mut self, a: usize) -> Step<u64> {
        let words = self.value(a)?;
        let first = self.extent.unused;
        if words == 0 {
            return Ok((self.rules.nothing)(first));
        }
        let end = (self.rules.end)(first, words);
        if end > self.extent.length {
            return Err(Stop::NoRoom);
        }
        let mut written = 0;
        for word in first..end {
            let word = &mut self.words[word as usize];
            written += usize::from(*word != 0);
            *word = (self.rules.obtained)(*word);
        }
        self.extent.unused = end;
        self.events.push(Event::Obtained(words, written));
        Ok(first)
    }

    fn copy(&mut self, a: usize, b: usize) -> Step<u64> {
        let [to, from] = self.values(a, b)?;
        let size = self.table.size(self.record(a));
        let mut pairs = Vec::new();
        for i in 0..size {
            let words = [
                (Access::CopyTo, (to + i) % ALL),
                (Access::CopyFrom, (from + i) % ALL),
            ];
            for (access, word) in words {
                if !(self.rules.copies)(self.extent, word) {
                    let written = (self.rules.partly)(pairs.len());
                    (self.rules.moving)(&mut self.words, &pairs[..written]);
                    return self.stuck(access, word, pairs.len());
                }
            }
            pairs.push(words.map(|(_, word)| word as usize));
        }
        for [to, from] in &pairs {
            self.touch(Access::CopyTo, *to as u64)?;
            self.touch(Access::CopyFrom, *from as u64)?;
        }
        (self.rules.moving)(&mut self.words, &pairs);
        Ok(size)
    }

    fn assign(&mut self, place: usize, value: usize) -> Step<()> {
        self.events.push(Event::Command);
        if self.rules.command == Order::SecondBeforeFirst {
            let value = self.value(value)?;
            let word = self.place(place)?;
            return self.store(word, value);
        }
        let word = self.place(place)?;
        self.events.push(Event::Placed(word));
        if self.rules.early {
            self.touch(Access::Assign, word)?;
        }
        let value = self.value(value)?;
        self.store(word, value)
    }

    fn store(&mut self, word: u64, value: u64) -> Step<()> {
        let word = self.touch(Access::Assign, word)?;
        self.words[word] = value;
        Ok(())
    }

    fn all(&mut self) -> Answer {
        for i in 0..self.table.counts[5] {
            let [place, value] = [0, 1].map(|word| self.table.word(5, i, word) as usize);
            let before = self.extent.unused;
            let unwritten = (!self.rules.leaves).then(|| self.words.clone());
            let stop = self.assign(place, value);
            let (command, unused) = (i as u32, self.extent.unused as u32);
            match stop {
                Ok(()) => {}
                Err(Stop::NoRoom) => return Answer::NoRoom { command, unused },
                Err(Stop::Stuck) => {
                    if let Some(words) = unwritten {
                        self.words = words;
                    }
                    let unused = (self.rules.kept)(before, self.extent.unused) as u32;
                    return Answer::Stuck { command, unused };
                }
            }
        }
        let unused = self.extent.unused as u32;
        Answer::Done { unused }
    }

    /// A register becomes the next block, and its variable points to it.
    fn hand_in(&mut self, register: &Register) {
        let first = self.extent.unused;
        for &word in &register.words {
            self.words[self.extent.unused as usize] = u64::from(word);
            self.extent.unused += 1;
        }
        self.words[1 + register.variable as usize] = match register.words.is_empty() {
            true => 0,
            false => first,
        };
    }
}

/// What a bare call answers, and the words a begun run leaves.
pub struct Called {
    pub answer: Answer,
    pub words: Vec<u64>,
    #[allow(dead_code)] // Not every test that runs a case looks at these.
    pub events: Vec<Event>,
}

pub fn call(case: &Case, rules: &Rules) -> Called {
    match begun(case, rules) {
        Ok(called) => called,
        Err(refusal) => Called {
            answer: Answer::Refused(refusal),
            words: Vec::new(),
            events: Vec::new(),
        },
    }
}

fn begun(case: &Case, rules: &Rules) -> Found<Called> {
    let table = Table::check(&case.table)?;
    let registers = admit(case, &table, &case.lengths[..rules.lists])?;
    let length = case.lengths[0] as usize;
    let mut run = Run {
        words: vec![rules.start; length + 1],
        extent: Extent {
            length: length as u64,
            unused: 1 + table.counts[3] as u64,
        },
        rules,
        events: Vec::new(),
        table: &table,
    };
    run.words[0] = 0;
    for (i, &input) in case.inputs.iter().enumerate() {
        run.words[1 + i] = u64::from(input);
    }
    for register in registers {
        run.hand_in(&register);
    }
    let answer = run.all();
    run.words.truncate(length);
    Ok(Called {
        answer,
        words: run.words,
        events: run.events,
    })
}
