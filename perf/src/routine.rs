//! A routine under construction, and the table that it becomes.

use second::machine::kind;

pub const INT: u32 = 0;
pub const VOID_POINTER: u32 = 1;
/// A target or a size from this number on is a record.
pub const RECORD: u32 = 65_536;
/// The first word of a table of edition 2; the word 2 follows.
pub const MARK: u32 = u32::MAX;

/// The type of pointer entry `i`.
pub const fn entry(i: u32) -> u32 {
    2 + i
}

#[derive(Default)]
pub struct Routine {
    /// The fields of each record: a type and a count of words.
    pub records: Vec<Vec<[u32; 2]>>,
    pub pointers: Vec<u32>,
    /// The type and the input of each variable.
    pub variables: Vec<[u32; 2]>,
    /// The variable that each register names, and its words.
    pub registers: Vec<(u32, Vec<u32>)>,
    /// Kind, a, b.
    pub nodes: Vec<[u32; 3]>,
    /// A place and a value each.
    pub commands: Vec<[u32; 2]>,
    /// How many words its copies copy in all.
    pub copied: u32,
    /// Whether it is of edition 2.
    pub marked: bool,
}

/// Nodes, by the scope's names. Each gives the new node's number.
impl Routine {
    fn node(&mut self, kind: u32, a: u32, b: u32) -> u32 {
        self.nodes.push([kind, a, b]);
        self.nodes.len() as u32 - 1
    }

    pub fn variable(&mut self, number: u32) -> u32 {
        self.node(kind::VARIABLE, number, 0)
    }

    pub fn follow(&mut self, pointer: u32) -> u32 {
        self.node(kind::DEREF, pointer, 0)
    }

    pub fn field(&mut self, pointer: u32, field: u32) -> u32 {
        self.node(kind::FIELD, pointer, field)
    }

    pub fn constant(&mut self, word: u32) -> u32 {
        self.node(kind::CONSTANT, word, 0)
    }

    pub fn sum(&mut self, a: u32, b: u32) -> u32 {
        self.node(kind::SUM, a, b)
    }

    pub fn read(&mut self, place: u32) -> u32 {
        self.node(kind::READ, place, 0)
    }

    pub fn address(&mut self, place: u32) -> u32 {
        self.node(kind::ADDRESS, place, 0)
    }

    pub fn cast(&mut self, value: u32, typ: u32) -> u32 {
        self.node(kind::CAST, value, typ)
    }

    pub fn size(&mut self, target: u32) -> u32 {
        self.node(kind::SIZE, target, 0)
    }

    pub fn obtain(&mut self, words: u32) -> u32 {
        self.node(kind::MALLOC, words, 0)
    }

    pub fn copy(&mut self, to: u32, from: u32) -> u32 {
        self.node(kind::COPY, to, from)
    }
}

/// Several nodes at once.
impl Routine {
    /// The value of a variable.
    pub fn get(&mut self, variable: u32) -> u32 {
        let place = self.variable(variable);
        self.read(place)
    }

    /// The word that a variable points to.
    pub fn at(&mut self, pointer: u32) -> u32 {
        let pointer = self.get(pointer);
        self.follow(pointer)
    }

    /// The word so many words on from where a variable points to, in 5 nodes.
    pub fn word_of(&mut self, pointer: u32, words: u32) -> u32 {
        let pointer = self.get(pointer);
        let words = self.constant(words);
        let moved = self.sum(pointer, words);
        self.follow(moved)
    }

    /// A field of the record that a variable points to.
    pub fn field_of(&mut self, pointer: u32, field: u32) -> u32 {
        let pointer = self.get(pointer);
        self.field(pointer, field)
    }

    pub fn assign(&mut self, place: u32, value: u32) {
        self.commands.push([place, value]);
    }

    /// `variable = (typ)malloc(words)`, in 4 nodes.
    pub fn block(&mut self, variable: u32, typ: u32, words: u32) {
        let place = self.variable(variable);
        let words = self.constant(words);
        let block = self.obtain(words);
        let value = self.cast(block, typ);
        self.assign(place, value);
    }

    /// `variable = (typ)malloc(sizeof(record))`, in 4 nodes.
    pub fn new_record(&mut self, variable: u32, typ: u32, record: u32) {
        let place = self.variable(variable);
        let words = self.size(RECORD + record);
        let block = self.obtain(words);
        let value = self.cast(block, typ);
        self.assign(place, value);
    }
}

impl Routine {
    pub fn inputs(&self) -> Vec<u32> {
        self.variables.iter().map(|&[_, input]| input).collect()
    }

    /// The list of registers: `0` where there are none.
    pub fn register_list(&self) -> Vec<u32> {
        let mut list = vec![self.registers.len() as u32];
        for (variable, words) in &self.registers {
            list.extend([*variable, words.len() as u32]);
            list.extend(words);
        }
        list
    }

    /// The six sections, each after its count, and in edition 2 the mark before
    /// them.
    pub fn table(&self) -> Vec<u32> {
        let fields: Vec<[u32; 2]> = self.records.iter().flatten().copied().collect();
        let mut table = match self.marked {
            true => vec![MARK, 2],
            false => Vec::new(),
        };
        section(
            &mut table,
            self.records.iter().map(|fields| [fields.len() as u32]),
        );
        section(&mut table, fields.into_iter());
        section(&mut table, self.pointers.iter().map(|&target| [target]));
        section(&mut table, self.variables.iter().map(|&[typ, _]| [typ]));
        section(&mut table, self.nodes.iter().copied());
        section(&mut table, self.commands.iter().copied());
        table
    }
}

fn section<const W: usize>(table: &mut Vec<u32>, entries: impl ExactSizeIterator<Item = [u32; W]>) {
    table.push(entries.len() as u32);
    table.extend(entries.flatten());
}
