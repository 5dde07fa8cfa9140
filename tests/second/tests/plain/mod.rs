//! The table and its check, as plainly as document 01 and the requests say them.

use second::machine::Refusal;

pub type Found<T> = Result<T, Refusal>;

pub fn refuse<T>(number: u32, place: usize) -> Found<T> {
    Err(Refusal { number, place })
}

#[derive(Clone, Copy, PartialEq)]
pub enum Class {
    Place,
    Value,
}
use Class::{Place, Value};

/// The sections and where they begin, and of each node class and type.
pub struct Table<'t> {
    pub words: &'t [u32],
    /// Whether it is of edition 2.
    pub marked: bool,
    pub counts: [usize; 6],
    /// Place of the first word of each section's entries.
    starts: [usize; 6],
    pub nodes: Vec<(Class, u32)>,
    uses: Vec<u32>,
}

const WIDTHS: [usize; 6] = [1, 2, 1, 1, 3, 2];
const MAXIMA: [usize; 6] = [32, 128, 64, 64, 512, 256];
/// The first word of a table of edition 2.
const MARK: u32 = 4_294_967_295;

impl Table<'_> {
    pub fn check(words: &[u32]) -> Found<Table<'_>> {
        let (table, found) = Table::read(words);
        found.map(|()| table)
    }

    /// The table, as far as it is right.
    pub fn read(words: &[u32]) -> (Table<'_>, Found<()>) {
        let mut table = Table {
            words,
            marked: false,
            counts: [0; 6],
            starts: [0; 6],
            nodes: Vec::new(),
            uses: Vec::new(),
        };
        let found = table.all();
        (table, found)
    }

    fn all(&mut self) -> Found<()> {
        self.edition()?;
        self.sections()?;
        self.records()?;
        self.fields()?;
        self.pointers()?;
        self.variables()?;
        for i in 0..self.counts[4] {
            self.check_node(i)?;
        }
        for i in 0..self.counts[5] {
            self.command(i)?;
        }
        match self.uses.iter().position(|&uses| uses != 1) {
            Some(node) => refuse(9, self.starts[4] + 3 * node),
            None => Ok(()),
        }
    }

    fn edition(&mut self) -> Found<()> {
        self.marked = self.words.first() == Some(&MARK);
        if self.marked {
            match self.words.get(1) {
                None => return refuse(1, 1),
                Some(2) => {}
                Some(_) => return refuse(16, 1),
            }
        }
        Ok(())
    }

    fn sections(&mut self) -> Found<()> {
        let length = self.words.len();
        let mut at = if self.marked { 2 } else { 0 };
        for section in 0..6 {
            if at >= length {
                return refuse(1, length);
            }
            let count = self.words[at] as usize;
            if count > MAXIMA[section] {
                return refuse(3, at);
            }
            (self.counts[section], self.starts[section]) = (count, at + 1);
            at += 1 + WIDTHS[section] * count;
            if at > length {
                return refuse(1, length);
            }
        }
        if at < length {
            return refuse(2, at);
        }
        Ok(())
    }

    pub fn word(&self, section: usize, entry: usize, word: usize) -> u32 {
        self.words[self.place(section, entry, word)]
    }

    pub fn place(&self, section: usize, entry: usize, word: usize) -> usize {
        self.starts[section] + WIDTHS[section] * entry + word
    }

    /// Kind, a, b.
    pub fn node(&self, i: usize) -> [u32; 3] {
        [0, 1, 2].map(|word| self.word(4, i, word))
    }

    fn is_type(&self, word: u32) -> bool {
        (word as usize) < 2 + self.counts[2]
    }

    fn is_record(&self, word: u32) -> bool {
        word >= 65_536 && (word as usize) < 65_536 + self.counts[0]
    }

    fn records(&self) -> Found<()> {
        let mut sum = 0u128;
        for i in 0..self.counts[0] {
            if self.word(0, i, 0) == 0 {
                return refuse(4, self.place(0, i, 0));
            }
            sum += self.word(0, i, 0) as u128;
        }
        if sum != self.counts[1] as u128 {
            return refuse(4, self.starts[1] - 1);
        }
        Ok(())
    }

    fn fields(&self) -> Found<()> {
        for i in 0..self.counts[1] {
            if !self.is_type(self.word(1, i, 0)) {
                return refuse(5, self.place(1, i, 0));
            }
            if !(1..=4_096).contains(&self.word(1, i, 1)) {
                return refuse(4, self.place(1, i, 1));
            }
        }
        Ok(())
    }

    fn pointers(&self) -> Found<()> {
        for i in 0..self.counts[2] {
            let target = self.word(2, i, 0);
            if !self.is_type(target) && !self.is_record(target) {
                return refuse(5, self.place(2, i, 0));
            }
            if (0..i).any(|before| self.word(2, before, 0) == target) {
                return refuse(6, self.place(2, i, 0));
            }
        }
        Ok(())
    }

    fn variables(&self) -> Found<()> {
        for i in 0..self.counts[3] {
            if !self.is_type(self.word(3, i, 0)) {
                return refuse(5, self.place(3, i, 0));
            }
        }
        Ok(())
    }

    /// The type of node `child`, used here, that has to be of a class.
    fn used(&mut self, child: u32, class: Class, at: usize) -> Found<u32> {
        match self.nodes.get(child as usize) {
            Some(&(found, typ)) if found == class => {
                self.uses[child as usize] += 1;
                Ok(typ)
            }
            _ => refuse(7, at),
        }
    }

    pub fn target(&self, typ: u32) -> Option<u32> {
        (typ >= 2).then(|| self.word(2, typ as usize - 2, 0))
    }

    fn check_node(&mut self, i: usize) -> Found<()> {
        let [kind, a, b] = self.node(i);
        let at = self.place(4, i, 0);
        if !(1..=11).contains(&kind) {
            return refuse(7, at);
        }
        let first = self.first_child(kind, a, at)?;
        let second = self.second_child(kind, b, at)?;
        let Some(typ) = self.type_of([kind, a, b], first, second) else {
            return refuse(8, at);
        };
        let class = if kind <= 3 { Place } else { Value };
        self.nodes.push((class, typ));
        self.uses.push(0);
        Ok(())
    }

    /// Word a of a node, and the type of the child it names, if it does.
    fn first_child(&mut self, kind: u32, a: u32, at: usize) -> Found<u32> {
        match kind {
            1 if a as usize >= self.counts[3] => refuse(7, at + 1),
            9 if !self.is_type(a) && !self.is_record(a) => refuse(5, at + 1),
            1 | 4 | 9 => Ok(0),
            6 | 7 => self.used(a, Place, at + 1),
            _ => self.used(a, Value, at + 1),
        }
    }

    /// Word b of a node, and the type of the child it names, if it does.
    fn second_child(&mut self, kind: u32, b: u32, at: usize) -> Found<u32> {
        match kind {
            5 | 11 => self.used(b, Value, at + 2),
            8 if !self.is_type(b) => refuse(5, at + 2),
            3 | 8 => Ok(0),
            _ if b != 0 => refuse(7, at + 2),
            _ => Ok(0),
        }
    }

    /// The type of a node whose children have these types. None where that
    /// doesn't fit.
    fn type_of(&self, [kind, a, b]: [u32; 3], first: u32, second: u32) -> Option<u32> {
        match kind {
            1 => Some(self.word(3, a as usize, 0)),
            2 => self.target(first).filter(|&target| target < 65_536),
            3 => {
                let record = self.target(first)?.checked_sub(65_536)? as usize;
                let field = self.field(record, b)?;
                Some(self.word(1, field, 0))
            }
            4 | 9 => Some(0),
            5 => (second == 0).then_some(first),
            6 => Some(first),
            7 => {
                let entry = (0..self.counts[2]).find(|&i| self.word(2, i, 0) == first)?;
                Some(2 + entry as u32)
            }
            8 => Some(b),
            10 => (first == 0).then_some(1),
            _ => {
                let record = self.is_record(self.target(first)?);
                (record && first == second).then_some(0)
            }
        }
    }

    /// The number in section 2 of field `b` of a record.
    pub fn field(&self, record: usize, b: u32) -> Option<usize> {
        if b >= self.word(0, record, 0) {
            return None;
        }
        let before: u32 = (0..record).map(|r| self.word(0, r, 0)).sum();
        Some((before + b) as usize)
    }

    fn command(&mut self, i: usize) -> Found<()> {
        let at = self.place(5, i, 0);
        let left = self.used(self.words[at], Place, at)?;
        let right = self.used(self.words[at + 1], Value, at + 1)?;
        if left != right {
            return refuse(8, at);
        }
        Ok(())
    }

    /// The count of words of all fields of a record before field `b`.
    pub fn words_before(&self, record: usize, b: u32) -> u64 {
        let first = self.field(record, 0).expect("a record has a field");
        let fields = first..first + b as usize;
        fields.map(|f| u64::from(self.word(1, f, 1))).sum()
    }

    /// How many words a record has.
    pub fn size(&self, record: usize) -> u64 {
        self.words_before(record, self.word(0, record, 0))
    }

    /// How many words each 1 added to a value of this type moves it by.
    pub fn step(&self, typ: u32) -> u64 {
        match self.target(typ) {
            Some(target) if self.is_record(target) => self.size(target as usize - 65_536),
            _ => 1,
        }
    }
}
