//! Random routines that pass the check.
//!
//! A routine grows command by command. What each command would do is tried
//! with the machine itself before it is kept, so that a wanted ending comes
//! after several commands and not at the first; a wrong trial only makes for
//! another mixture of cases, never for a wrong case.

use super::edition;
use super::expression::Expressions;
use super::random::Random;
use super::registers;
use super::types::{Types, INT};
use crate::machine::{self, kind, Answer, Reason};
use crate::text::{Call, Case};

/// How a routine shall end.
#[derive(Clone, Copy, PartialEq, Eq)]
pub enum Wanted {
    Done,
    Abort(Reason),
    NoRoom,
    /// As only a bare run does.
    Stuck,
}

impl Wanted {
    fn any(random: &mut Random) -> Wanted {
        match random.weighted(&[32, 13, 18, 12, 33]) {
            0 => Wanted::Done,
            1 => Wanted::Abort(Reason::NoBounds),
            2 => Wanted::Abort(Reason::BeforeBase),
            3 => Wanted::Abort(Reason::PastEnd),
            _ => Wanted::NoRoom,
        }
    }

    fn any_of_a_bare_run(random: &mut Random) -> Wanted {
        match random.weighted(&[34, 43, 23]) {
            0 => Wanted::Done,
            1 => Wanted::Stuck,
            _ => Wanted::NoRoom,
        }
    }
}

/// What most commands of a routine have to do with.
#[derive(Clone, Copy, PartialEq, Eq)]
pub enum About {
    Anything,
    Copies,
    /// Ints that have bounds.
    Ints,
    /// Words anywhere, as a bare run reaches them.
    Wild,
}

pub struct Routine {
    /// Whether it is of edition 2.
    pub marked: bool,
    pub types: Types,
    pub nodes: Vec<[u32; 3]>,
    pub commands: Vec<[u32; 2]>,
    pub inputs: Vec<u32>,
    pub registers: Vec<u32>,
    pub length: u32,
    pub about: About,
    /// Memory and U as the commands so far leave them.
    pub memory: [Vec<u32>; 3],
    pub unused: u32,
}

/// The limits of document 01 on nodes and commands.
const MAX_NODES: usize = 512;
const MAX_COMMANDS: usize = 256;

impl Routine {
    /// No commands yet, and `room` words beside the variables and registers. Of
    /// a hundred, so many are of edition 2.
    pub fn new(random: &mut Random, types: Types, room: u32, marked: u32) -> Routine {
        let inputs = types.variables.iter();
        let inputs = inputs.map(|&t| if t == 0 { random.number() } else { 0 });
        let inputs: Vec<u32> = inputs.collect();
        let registers = registers::list(random, &types);
        let length = registers::memory(inputs.len() as u32, &registers, room);
        let mut routine = Routine {
            marked: random.percent(marked),
            inputs,
            registers,
            types,
            nodes: Vec::new(),
            commands: Vec::new(),
            length,
            about: About::Anything,
            memory: [const { Vec::new() }; 3],
            unused: 0,
        };
        routine.trial();
        routine
    }

    /// A routine of some commands with some ending.
    pub fn small(random: &mut Random) -> Routine {
        let types = match random.percent(35) {
            true => Types::rows(random),
            false => Types::small(random),
        };
        let room = match random.weighted(&[45, 40, 13, 2]) {
            0 => random.below(16),
            1 => random.between(8, 48),
            2 => random.between(40, 300),
            _ => random.pick(&[1_000, 4_096, 60_000]),
        };
        let mut routine = Routine::new(random, types, room, 15);
        let commands = random.weighted(&[4, 6, 8, 10, 10, 10, 10, 9, 8, 7, 6, 5, 4, 3]);
        routine.grow(random, commands);
        routine.end(random);
        routine
    }

    /// A routine that fills blocks, copies within and between them, and follows
    /// what came by a copy.
    pub fn copying(random: &mut Random) -> Routine {
        let types = Types::copied(random);
        let record = types.size(0);
        let room = random.below(4 * record) + random.below(24);
        let mut routine = Routine::new(random, types, room, 15);
        routine.about = About::Copies;
        let commands = random.between(2, 16) as usize;
        routine.grow(random, commands);
        routine.end(random);
        routine
    }

    /// A routine that keeps ints with bounds, adds them up, and follows them.
    pub fn carrying(random: &mut Random) -> Routine {
        let types = Types::carrying(random);
        let room = random.between(2, 40);
        let mut routine = Routine::new(random, types, room, 80);
        routine.about = About::Ints;
        let commands = random.between(2, 16) as usize;
        routine.grow(random, commands);
        routine.end(random);
        routine
    }

    /// Adds up to `count` commands with which the run is still done.
    pub fn grow(&mut self, random: &mut Random, count: usize) {
        for _ in 0..count {
            self.add(random, Wanted::Done, 5);
        }
    }

    /// Adds the shortest commands until there are `count`, as far as variables
    /// of type int and the limits allow.
    pub fn fill(&mut self, random: &mut Random, count: usize) {
        let ints = self.types.variables_of(0);
        while !ints.is_empty() && self.commands.len() < count && self.nodes.len() + 2 <= MAX_NODES {
            let at = self.nodes.len() as u32;
            self.nodes.push([kind::VARIABLE, random.pick(&ints), 0]);
            self.nodes.push([kind::CONSTANT, random.number(), 0]);
            self.commands.push([at, at + 1]);
        }
    }

    /// Adds commands that bring about some ending, and some never reached.
    pub fn end(&mut self, random: &mut Random) {
        let wanted = match self.about {
            About::Wild => Wanted::any_of_a_bare_run(random),
            About::Anything | About::Copies | About::Ints => Wanted::any(random),
        };
        if wanted == Wanted::Done {
            return;
        }
        if self.add(random, wanted, 12) {
            for _ in 0..random.weighted(&[50, 30, 20]) {
                self.try_command(random, wanted);
            }
        }
    }

    /// Adds one command that is wanted so, within some tries.
    pub fn add(&mut self, random: &mut Random, wanted: Wanted, tries: usize) -> bool {
        for _ in 0..tries {
            let (nodes, commands) = (self.nodes.len(), self.commands.len());
            if !self.try_command(random, wanted) {
                return false;
            }
            if self.trial() == wanted {
                return true;
            }
            self.nodes.truncate(nodes);
            self.commands.truncate(commands);
        }
        self.trial();
        false
    }

    /// Adds a random command. False when the limits leave no place for it.
    fn try_command(&mut self, random: &mut Random, wanted: Wanted) -> bool {
        let nodes = self.nodes.len();
        let command = Expressions::new(self, random, wanted).command();
        self.push(nodes, command)
    }

    /// Adds a command whose copy is no right one, where there can be one.
    pub fn add_wrong_copy(&mut self, random: &mut Random) -> bool {
        let nodes = self.nodes.len();
        let command = Expressions::new(self, random, Wanted::Done).wrong_copy();
        self.push(nodes, command)
    }

    /// Adds a command, the nodes of which begin with number `nodes`, or leaves
    /// no trace of it.
    fn push(&mut self, nodes: usize, command: Option<[u32; 2]>) -> bool {
        let within = self.nodes.len() <= MAX_NODES && self.commands.len() < MAX_COMMANDS;
        match command {
            Some(command) if within => self.commands.push(command),
            _ => self.nodes.truncate(nodes),
        }
        command.is_some() && within
    }

    /// Runs what there is and keeps the memory it leaves. A bare run leaves the
    /// bounds as they were at the start.
    fn trial(&mut self) -> Wanted {
        let table = self.table();
        let length = self.length as usize;
        self.memory
            .iter_mut()
            .for_each(|list| list.resize(length, 0));
        let [values, bases, ends] = &mut self.memory;
        let (inputs, registers) = (&self.inputs, &self.registers);
        let (answer, explanation) = match self.about {
            About::Wild => (machine::run_bare(&table, inputs, registers, values), None),
            About::Anything | About::Copies | About::Ints => {
                machine::explain(&table, inputs, registers, values, bases, ends)
            }
        };
        let (wanted, unused) = match answer {
            Answer::NoRoom { unused, .. } => (Wanted::NoRoom, unused),
            Answer::Stuck { unused, .. } => (Wanted::Stuck, unused),
            Answer::Done { unused } | Answer::Abort { unused, .. } => (Wanted::Done, unused),
            Answer::Refused(_) => (Wanted::Done, 1),
        };
        self.unused = unused;
        explanation.map_or(wanted, |told| Wanted::Abort(told.reason))
    }

    /// Whether values of a type may have bounds.
    pub fn has_bounds(&self, typ: u32) -> bool {
        typ != INT || self.marked
    }

    /// The table of the routine.
    pub fn table(&self) -> Vec<u32> {
        let mut table = Vec::new();
        let records = &self.types.records;
        table.push(records.len() as u32);
        table.extend(records.iter().map(|fields| fields.len() as u32));
        table.push(records.iter().map(|fields| fields.len() as u32).sum());
        table.extend(records.iter().flatten().flatten());
        for list in [&self.types.pointers, &self.types.variables] {
            table.push(list.len() as u32);
            table.extend(list);
        }
        table.push(self.nodes.len() as u32);
        table.extend(self.nodes.iter().flatten());
        table.push(self.commands.len() as u32);
        table.extend(self.commands.iter().flatten());
        if self.marked {
            edition::mark(&mut table);
        }
        table
    }

    pub fn case(&self) -> Case {
        Case {
            call: Call::Run,
            lengths: [self.length; 3],
            blocks: 0,
            inputs: self.inputs.clone(),
            registers: self.registers.clone(),
            table: self.table(),
        }
    }

    /// Puts the nodes in another order in which children still come first.
    pub fn shuffle(&mut self, random: &mut Random) {
        let mut keys: Vec<(u64, usize)> = Vec::new();
        for (i, &node) in self.nodes.iter().enumerate() {
            let after = children(node).map(|c| keys[c as usize].0).max();
            let step = 1 + u64::from(random.word());
            keys.push((after.unwrap_or(0) + step, i));
        }
        keys.sort_unstable();
        let mut place_of = vec![0; self.nodes.len()];
        for (new, &(_, old)) in keys.iter().enumerate() {
            place_of[old] = new as u32;
        }
        let old = std::mem::take(&mut self.nodes);
        for &(_, i) in &keys {
            self.nodes.push(renumber(old[i], &place_of));
        }
        for word in self.commands.as_flattened_mut() {
            *word = place_of[*word as usize];
        }
    }
}

/// The children of a node.
pub fn children([kind, a, b]: [u32; 3]) -> impl Iterator<Item = u32> {
    let leaf = matches!(kind, kind::VARIABLE | kind::CONSTANT | kind::SIZE);
    let first = (!leaf).then_some(a);
    let second = matches!(kind, kind::SUM | kind::COPY).then_some(b);
    first.into_iter().chain(second)
}

fn renumber([kind, a, b]: [u32; 3], place_of: &[u32]) -> [u32; 3] {
    let new = |child: u32| place_of[child as usize];
    match kind {
        kind::VARIABLE | kind::CONSTANT | kind::SIZE => [kind, a, b],
        kind::SUM | kind::COPY => [kind, new(a), new(b)],
        _ => [kind, new(a), b],
    }
}
