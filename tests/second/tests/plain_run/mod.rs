//! The run, as plainly as document 01 and the requests say it. It tells what
//! it meets on its way, and can go about some steps wrongly on purpose: both
//! tell what random cases are worth.

use crate::plain::{Found, Table};
use crate::plain_call::{admit, Register};
use second::machine::{Answer, Explanation, Reason};
use second::text::Case;

/// Value or word, base, end.
pub type Cell = [u64; 3];

/// A way to copy words: memory, from, to, and how many.
pub type Copying = fn(&mut [Cell], usize, usize, usize);

/// All the words are taken before the first of them is written.
pub fn as_they_were(cells: &mut [Cell], from: usize, to: usize, words: usize) {
    let taken = cells[from..from + words].to_vec();
    cells[to..to + words].copy_from_slice(&taken);
}

/// The steps in which the editions differ.
#[derive(Clone, Copy)]
pub struct Steps {
    /// What is read from a word, by a place of a type.
    pub read: fn(u32, Cell) -> Cell,
    /// What a word becomes, by a place of a type, when a value is assigned.
    pub assign: fn(u32, Cell, Cell) -> Cell,
    /// A value cast from a type to a type.
    pub cast: fn([u32; 2], Cell) -> Cell,
    /// Two values added. The left one has a type, and the right one counts
    /// steps of so many words.
    pub sum: fn(u32, Cell, Cell, u64) -> Cell,
    /// What a node of a kind gives that tells a number. The value worked out
    /// before it must not matter.
    pub number: fn(u32, u64, Cell) -> Cell,
}

pub fn added(left: u64, right: u64, step: u64) -> u64 {
    (left + right * step) % (1 << 32)
}

pub const EDITION_1: Steps = Steps {
    read: |typ, [v, base, end]| match typ {
        0 => [v, 0, 0],
        _ => [v, base, end],
    },
    assign: |typ, [_, base, end], value| match typ {
        0 => [value[0], base, end],
        _ => value,
    },
    cast: |[from, to], [v, base, end]| match from == 0 || to == 0 {
        true => [v, 0, 0],
        false => [v, base, end],
    },
    sum: |_, [left, base, end], [right, ..], step| [added(left, right, step), base, end],
    number: |_, number, _| [number, 0, 0],
};

pub const EDITION_2: Steps = Steps {
    read: |_, cell| cell,
    assign: |_, _, value| value,
    cast: |_, cell| cell,
    sum: |_, [left, base, end], [right, right_base, right_end], step| {
        let sum = added(left, right, step);
        match end != 0 {
            true => [sum, base, end],
            false => [sum, right_base, right_end],
        }
    },
    number: EDITION_1.number,
};

/// How a run goes about what can be done wrongly.
#[derive(Clone, Copy)]
pub struct Rules {
    pub copying: Copying,
    /// The steps of tables without the mark, and of those with it.
    pub steps: [Steps; 2],
}

pub const RIGHT: Rules = Rules {
    copying: as_they_were,
    steps: [EDITION_1, EDITION_2],
};

/// What a run meets on its way.
#[allow(dead_code)] // Not every test that runs a case looks at all of it.
pub enum Event {
    /// A command begins.
    Command,
    /// A value with bounds is read from this word, by a place of a type.
    Read(u32, usize),
    /// The place of a command is worked out.
    Placed,
    Copy(Copy),
    /// Two values are added, as [`Steps::sum`] has them.
    Sum(u32, Cell, Cell, u64),
    /// A value is cast from a type to a type.
    Cast([u32; 2], Cell),
    /// So many words are asked for.
    Obtain(Cell),
    Assign(Assign),
}

/// A copy whose two pointers are known.
#[allow(dead_code)]
pub struct Copy {
    pub node: usize,
    pub to: Cell,
    pub from: Cell,
    pub words: u64,
    /// How many words its operands obtained.
    pub obtained: u64,
    /// The words that it changes, if both checks pass.
    pub changed: Vec<usize>,
}

/// An assignment by a node that is a place of a type.
#[allow(dead_code)]
pub struct Assign {
    pub node: usize,
    pub typ: u32,
    pub word: usize,
    pub before: Cell,
    pub value: Cell,
}

enum Stop {
    Abort(Explanation),
    NoRoom,
}

struct Run<'t> {
    table: &'t Table<'t>,
    cells: Vec<Cell>,
    /// Word to the first word of the variable or block that it belongs to.
    owners: Vec<u32>,
    unused: u64,
    copying: Copying,
    steps: Steps,
    /// The value worked out last.
    latest: Cell,
    events: Vec<Event>,
}

impl Run<'_> {
    fn place(&mut self, node: usize) -> Result<Cell, Stop> {
        let [kind, a, b] = self.table.node(node);
        if kind == 1 {
            let word = 1 + u64::from(a);
            return Ok([word, word, word + 1]);
        }
        let [v, base, end] = self.value(a as usize)?;
        let (offset, words, narrowed) = match kind {
            2 => (0, 1, false),
            _ => {
                let (_, pointer) = self.table.nodes[a as usize];
                let record = self.table.target(pointer).unwrap() as usize - 65_536;
                let field = self.table.field(record, b).unwrap();
                let words = u64::from(self.table.word(1, field, 1));
                (self.table.words_before(record, b), words, true)
            }
        };
        let w = v + offset;
        self.check(node, words, [w, base, end])?;
        Ok(if narrowed {
            [w, w, w + words]
        } else {
            [w, base, end]
        })
    }

    /// The check of a node that wants so many words at a place with bounds.
    fn check(&self, node: usize, words: u64, [place, base, end]: Cell) -> Result<(), Stop> {
        if base <= place && place + words <= end {
            return Ok(());
        }
        let reason = if base == 0 && end == 0 {
            Reason::NoBounds
        } else if place < base {
            Reason::BeforeBase
        } else {
            Reason::PastEnd
        };
        let first = match reason {
            Reason::NoBounds => 0,
            _ => self.owners[base as usize],
        };
        Err(Stop::Abort(Explanation {
            node: node as u32,
            place,
            words: words as u32,
            base: base as u32,
            end: end as u32,
            reason,
            first,
        }))
    }

    fn value(&mut self, node: usize) -> Result<Cell, Stop> {
        let [kind, a, b] = self.table.node(node);
        let value = match kind {
            4 => self.number(kind, u64::from(a)),
            5 => self.sum(a as usize, b as usize)?,
            6 => self.read(a as usize)?,
            7 => self.place(a as usize)?,
            8 => {
                let cell = self.value(a as usize)?;
                let (_, from) = self.table.nodes[a as usize];
                self.events.push(Event::Cast([from, b], cell));
                (self.steps.cast)([from, b], cell)
            }
            9 if a < 65_536 => self.number(kind, 1),
            9 => self.number(kind, self.table.size(a as usize - 65_536)),
            10 => {
                let words = self.value(a as usize)?;
                self.malloc(words)?
            }
            _ => self.copy(node, a as usize, b as usize)?,
        };
        self.latest = value;
        Ok(value)
    }

    fn number(&self, kind: u32, number: u64) -> Cell {
        (self.steps.number)(kind, number, self.latest)
    }

    fn sum(&mut self, a: usize, b: usize) -> Result<Cell, Stop> {
        let left = self.value(a)?;
        let right = self.value(b)?;
        let (_, typ) = self.table.nodes[a];
        let step = self.table.step(typ);
        self.events.push(Event::Sum(typ, left, right, step));
        Ok((self.steps.sum)(typ, left, right, step))
    }

    fn read(&mut self, a: usize) -> Result<Cell, Stop> {
        let [w, ..] = self.place(a)?;
        let (_, typ) = self.table.nodes[a];
        let cell = (self.steps.read)(typ, self.cells[w as usize]);
        if cell[2] != 0 {
            self.events.push(Event::Read(typ, w as usize));
        }
        Ok(cell)
    }

    fn copy(&mut self, node: usize, a: usize, b: usize) -> Result<Cell, Stop> {
        let (_, pointer) = self.table.nodes[a];
        let record = self.table.target(pointer).unwrap() as usize - 65_536;
        let words = self.table.size(record);
        let unused = self.unused;
        let to = self.value(a)?;
        let from = self.value(b)?;
        let passed = [to, from].map(|place| self.check(node, words, place));
        let changed = match &passed {
            [Ok(()), Ok(())] => self.copied(from[0] as usize, to[0] as usize, words as usize),
            _ => Vec::new(),
        };
        self.events.push(Event::Copy(Copy {
            node,
            to,
            from,
            words,
            obtained: self.unused - unused,
            changed,
        }));
        let [a_passed, b_passed] = passed;
        a_passed.and(b_passed)?;
        Ok(self.number(11, words))
    }

    /// Copies, and tells which words are changed by it.
    fn copied(&mut self, from: usize, to: usize, words: usize) -> Vec<usize> {
        for words in [from..from + words, to..to + words] {
            assert!(words.start > 0 && words.end as u64 <= self.unused, "a rule");
        }
        let before = self.cells[to..to + words].to_vec();
        (self.copying)(&mut self.cells, from, to, words);
        let after = (to..to + words).zip(before);
        let changed = after.filter(|&(w, before)| self.cells[w] != before);
        changed.map(|(w, _)| w).collect()
    }

    /// A register becomes the next block, and its variable points to it.
    fn hand_in(&mut self, register: &Register) {
        let base = self.unused;
        for &word in &register.words {
            self.cells[self.unused as usize][0] = u64::from(word);
            self.owners[self.unused as usize] = base as u32;
            self.unused += 1;
        }
        let variable = 1 + register.variable as usize;
        self.cells[variable] = match register.words.is_empty() {
            true => [0; 3],
            false => [base, base, self.unused],
        };
    }

    fn malloc(&mut self, words: Cell) -> Result<Cell, Stop> {
        self.events.push(Event::Obtain(words));
        let [n, ..] = words;
        if n == 0 {
            return Ok(self.number(10, 0));
        }
        if self.unused + n > self.cells.len() as u64 {
            return Err(Stop::NoRoom);
        }
        let base = self.unused;
        self.unused += n;
        for cell in &mut self.cells[base as usize..self.unused as usize] {
            assert_eq!(*cell, [0; 3], "the new words are clear");
        }
        self.owners[base as usize..self.unused as usize].fill(base as u32);
        Ok([base, base, self.unused])
    }

    fn assign(&mut self, place: usize, value: usize) -> Result<(), Stop> {
        self.events.push(Event::Command);
        let [w, ..] = self.place(place)?;
        self.events.push(Event::Placed);
        let value = self.value(value)?;
        assert!(w > 0 && w < self.unused, "a write has a rule");
        let (_, typ) = self.table.nodes[place];
        let word = w as usize;
        let before = self.cells[word];
        self.cells[word] = (self.steps.assign)(typ, before, value);
        self.events.push(Event::Assign(Assign {
            node: place,
            typ,
            word,
            before,
            value,
        }));
        Ok(())
    }

    fn all(&mut self) -> (Answer, Option<Explanation>) {
        for i in 0..self.table.counts[5] {
            let [place, value] = [0, 1].map(|word| self.table.word(5, i, word) as usize);
            let stop = self.assign(place, value);
            let (command, unused) = (i as u32, self.unused as u32);
            match stop {
                Ok(()) => {}
                Err(Stop::Abort(told)) => return (Answer::Abort { command, unused }, Some(told)),
                Err(Stop::NoRoom) => return (Answer::NoRoom { command, unused }, None),
            }
        }
        let unused = self.unused as u32;
        (Answer::Done { unused }, None)
    }
}

/// What an explained call answers, and the memory a begun run leaves.
pub struct Called {
    pub answer: Answer,
    pub told: Option<Explanation>,
    pub cells: Vec<Cell>,
    pub events: Vec<Event>,
}

#[allow(dead_code)] // Not every test that runs a case compares two.
impl Called {
    /// Whether two calls end otherwise, or for another reason.
    pub fn ends_apart(&self, other: &Called) -> bool {
        self.answer != other.answer || self.told != other.told
    }
}

pub fn call(case: &Case, rules: &Rules) -> Called {
    match begun(case, rules) {
        Ok(called) => called,
        Err(refusal) => Called {
            answer: Answer::Refused(refusal),
            told: None,
            cells: Vec::new(),
            events: Vec::new(),
        },
    }
}

fn begun(case: &Case, rules: &Rules) -> Found<Called> {
    let table = Table::check(&case.table)?;
    let registers = admit(case, &table, &case.lengths)?;
    let mut run = Run {
        cells: vec![[0; 3]; case.lengths[0] as usize],
        owners: (0..case.lengths[0]).collect(),
        unused: 1 + table.counts[3] as u64,
        copying: rules.copying,
        steps: rules.steps[usize::from(table.marked)],
        latest: [0; 3],
        events: Vec::new(),
        table: &table,
    };
    for (i, &input) in case.inputs.iter().enumerate() {
        run.cells[1 + i][0] = u64::from(input);
    }
    for register in registers {
        run.hand_in(&register);
    }
    let (answer, told) = run.all();
    Ok(Called {
        answer,
        told,
        cells: run.cells,
        events: run.events,
    })
}
