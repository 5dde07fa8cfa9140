//! Random places and values of a wanted type.

use super::random::Random;
use super::routine::{About, Routine, Wanted};
use super::types::{Way, INT, RECORD, VOID_POINTER};
use crate::machine::{kind, Reason};

pub struct Expressions<'r> {
    pub(super) routine: &'r mut Routine,
    pub(super) random: &'r mut Random,
    pub(super) wanted: Wanted,
    /// How many more expressions may be anything but simple, so that there is
    /// an end to it.
    pub(super) left: u32,
}

impl<'r> Expressions<'r> {
    pub fn new(routine: &'r mut Routine, random: &'r mut Random, wanted: Wanted) -> Self {
        let left = match random.weighted(&[50, 35, 15]) {
            0 => random.between(4, 10),
            1 => random.between(8, 20),
            _ => random.between(16, 40),
        };
        Expressions {
            routine,
            random,
            wanted,
            left,
        }
    }

    /// A command, or none where there is no place at all to assign to.
    pub fn command(&mut self) -> Option<[u32; 2]> {
        let [copying, carrying, wild] = match self.routine.about {
            About::Anything => [4, 2, 0],
            About::Copies => [85, 2, 0],
            About::Ints => [2, 80, 0],
            About::Wild => [3, 3, 80],
        };
        let nodes = self.routine.nodes.len();
        let special = match self.led_astray() {
            _ if self.random.percent(wild) => self.wild(),
            _ if self.random.percent(copying) => self.copying(),
            _ if self.random.percent(carrying) => self.carrying(),
            Some(reason) if self.random.percent(45) => self.stray_command(reason),
            _ if self.random.percent(20) => self.walk(),
            _ => None,
        };
        special.or_else(|| {
            self.routine.nodes.truncate(nodes);
            self.assignment()
        })
    }

    /// Which way places shall be out of bounds, if they shall: places without
    /// bounds come about without being sought.
    fn led_astray(&self) -> Option<Reason> {
        match self.wanted {
            Wanted::Abort(Reason::NoBounds) => None,
            Wanted::Abort(reason) => Some(reason),
            Wanted::Done | Wanted::NoRoom | Wanted::Stuck => None,
        }
    }

    /// A place and a value of one type.
    fn assignment(&mut self) -> Option<[u32; 2]> {
        let typ = self.some_place_type()?;
        let place = self.place(typ)?;
        let value = match self.wanted {
            Wanted::NoRoom if self.random.percent(60) => self.fresh(typ),
            _ => self.value(typ),
        };
        Some([place, value])
    }

    /// A type that some place has.
    pub(super) fn some_place_type(&mut self) -> Option<u32> {
        let types = &self.routine.types;
        let mut goals: Vec<u32> = types.variables.clone();
        goals.extend((2..types.count()).filter_map(|t| types.target(t)));
        goals.retain(|&goal| goal < RECORD);
        for record in (2..types.count()).filter_map(|t| types.record(t)) {
            goals.extend(types.records[record].iter().map(|&[typ, _]| typ));
        }
        (!goals.is_empty()).then(|| self.random.pick(&goals))
    }

    pub(super) fn node(&mut self, kind: u32, a: u32, b: u32) -> u32 {
        self.routine.nodes.push([kind, a, b]);
        self.routine.nodes.len() as u32 - 1
    }

    pub(super) fn constant(&mut self, word: u32) -> u32 {
        self.node(kind::CONSTANT, word, 0)
    }

    /// The place at the end of a way that begins with this pointer.
    pub(super) fn arrive(&mut self, way: Way, pointer: u32) -> u32 {
        match way.field {
            Some(b) => self.node(kind::FIELD, pointer, b),
            None => self.node(kind::DEREF, pointer, 0),
        }
    }

    /// A place of type `typ`, where there can be one.
    pub(super) fn place(&mut self, typ: u32) -> Option<u32> {
        self.left = self.left.saturating_sub(1);
        let stray = match self.led_astray() {
            Some(reason) if self.random.percent(25) => self.stray(typ, reason),
            _ => None,
        };
        stray.or_else(|| self.ordinary_place(typ))
    }

    pub(super) fn ordinary_place(&mut self, typ: u32) -> Option<u32> {
        let variables = self.routine.types.variables_of(typ);
        let pointer = self.routine.types.pointer_to(typ);
        let fields = self.routine.types.fields_of(typ);
        let tired = self.left == 0;
        let weights = [
            if variables.is_empty() { 0 } else { 40 },
            match pointer {
                Some(_) if tired && !variables.is_empty() => 0,
                Some(_) => 40,
                None => 0,
            },
            match fields.is_empty() {
                true => 0,
                false if tired && !(variables.is_empty() && pointer.is_none()) => 0,
                false => 35,
            },
        ];
        if weights == [0; 3] {
            return None;
        }
        Some(match (self.random.weighted(&weights), pointer) {
            (0, _) => {
                let variable = self.random.pick(&variables);
                self.node(kind::VARIABLE, variable, 0)
            }
            (1, Some(pointer)) => {
                let a = self.pointer(pointer);
                self.node(kind::DEREF, a, 0)
            }
            _ => {
                let [pointer, b] = self.random.pick(&fields);
                let a = self.pointer(pointer);
                self.node(kind::FIELD, a, b)
            }
        })
    }

    pub(super) fn value(&mut self, typ: u32) -> u32 {
        if typ == INT {
            self.int()
        } else {
            self.pointer(typ)
        }
    }

    pub(super) fn int(&mut self) -> u32 {
        self.left = self.left.saturating_sub(1);
        if self.left == 0 {
            let word = self.random.number();
            return self.constant(word);
        }
        let carried = if self.routine.marked { 40 } else { 0 };
        match self.random.weighted(&[35, 6, 16, 25, 14, 4, 14, carried]) {
            0 => {
                let word = self.random.number();
                self.constant(word)
            }
            1 => self.size(),
            2 => {
                let a = self.int();
                let b = self.int();
                self.node(kind::SUM, a, b)
            }
            3 => self.read(INT),
            4 => {
                let a = self.any_pointer();
                self.node(kind::CAST, a, INT)
            }
            5 => {
                let a = self.int();
                self.node(kind::CAST, a, INT)
            }
            6 => self.copy().unwrap_or_else(|| self.size()),
            _ => self.carried(),
        }
    }

    fn size(&mut self) -> u32 {
        let types = &self.routine.types;
        let (count, records) = (types.count(), types.records.len() as u32);
        let a = match records {
            0 => self.random.below(count),
            _ if self.random.percent(30) => self.random.below(count),
            _ => RECORD + self.random.below(records),
        };
        self.node(kind::SIZE, a, 0)
    }

    /// A read of a place of that type, or some value where there is none.
    fn read(&mut self, typ: u32) -> u32 {
        match self.place(typ) {
            Some(place) => self.node(kind::READ, place, 0),
            None if typ == INT => {
                let word = self.random.number();
                self.constant(word)
            }
            None => self.fresh(typ),
        }
    }

    pub(super) fn any_pointer(&mut self) -> u32 {
        let typ = self.any_pointer_type();
        self.pointer(typ)
    }

    pub(super) fn any_pointer_type(&mut self) -> u32 {
        let types = self.routine.types.count();
        self.random.between(1, types - 1)
    }

    /// A value of pointer type `typ`.
    pub(super) fn pointer(&mut self, typ: u32) -> u32 {
        self.left = self.left.saturating_sub(1);
        if self.left == 0 {
            return self.simple_pointer(typ);
        }
        let risk = match self.wanted {
            Wanted::Abort(Reason::NoBounds) => 8,
            _ => 2,
        };
        match self.random.weighted(&[34, 16, 16, 12, 10, 12, risk, 6]) {
            0 => self.variable_with_bounds(typ),
            1 => self.moved(typ),
            2 => self.fresh(typ),
            3 => self.address(typ),
            4 => self.read(typ),
            5 => {
                let a = self.any_pointer();
                self.node(kind::CAST, a, typ)
            }
            6 => self.forged(typ),
            _ => {
                let a = self.pointer(typ);
                let b = self.int();
                self.node(kind::SUM, a, b)
            }
        }
    }

    /// Few nodes: a variable of that type, a cast variable, or a number.
    fn simple_pointer(&mut self, typ: u32) -> u32 {
        let variables = self.routine.types.variables_of(typ);
        if !variables.is_empty() {
            let variable = self.random.pick(&variables);
            let place = self.node(kind::VARIABLE, variable, 0);
            return self.node(kind::READ, place, 0);
        }
        let a = self.constant(0);
        let a = if self.random.percent(50) {
            self.node(kind::MALLOC, a, 0)
        } else {
            a
        };
        self.node(kind::CAST, a, typ)
    }

    /// A pointer of `typ` to fresh words: a malloc, cast where needed.
    pub(super) fn fresh(&mut self, typ: u32) -> u32 {
        let words = self.words(typ);
        let a = self.node(kind::MALLOC, words, 0);
        if typ == VOID_POINTER && self.random.percent(80) {
            return a;
        }
        self.node(kind::CAST, a, typ)
    }

    /// How many words to ask for.
    fn words(&mut self, typ: u32) -> u32 {
        let room = self.routine.length.saturating_sub(self.routine.unused);
        let greedy = if self.wanted == Wanted::NoRoom { 30 } else { 2 };
        let step = self.routine.types.step(typ);
        let most = match self.routine.about {
            About::Copies => room,
            About::Anything | About::Ints | About::Wild => 20,
        };
        let row = if (2..=most).contains(&step) { 90 } else { 0 };
        let weights = [8, 45, 20, 6, greedy, row, greedy / 2];
        match self.random.weighted(&weights) {
            0 => self.constant(0),
            1 => {
                let words = self.random.between(1, 5);
                self.constant(words)
            }
            2 => {
                let target = self.routine.types.target(typ).unwrap_or(INT);
                self.node(kind::SIZE, target, 0)
            }
            3 if self.left > 0 => self.int(),
            4 => {
                let more = self.random.below(3);
                self.constant(room + more)
            }
            5 => {
                let records = self.random.between(2, 4);
                self.constant(records * step)
            }
            _ => {
                let words = self
                    .random
                    .pick(&[room, room + 1, 65_536, 1 << 31, u32::MAX]);
                self.constant(words)
            }
        }
    }
}
