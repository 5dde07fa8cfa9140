//! Routines that go anywhere in memory and out of it, as a bare run lets them:
//! words from U on written before they are obtained, sums that go round, and
//! places where no word is.

use super::copies::Record;
use super::expression::Expressions;
use super::known::Known;
use super::random::Random;
use super::routine::{About, Routine, Wanted};
use super::types::{Types, Way, INT, RECORD, VOID_POINTER};
use crate::machine::kind;

impl Routine {
    pub fn wild(random: &mut Random) -> Routine {
        let types = match random.percent(50) {
            true => Types::rows(random),
            false => Types::copied(random),
        };
        let room = match random.percent(85) {
            true => random.between(1, 24),
            false => random.between(20, 200),
        };
        let mut routine = Routine::new(random, types, room, 33);
        routine.about = About::Wild;
        let commands = random.below(13) as usize;
        routine.grow(random, commands);
        routine.end(random);
        routine
    }
}

/// Commands.
impl Expressions<'_> {
    pub(super) fn wild(&mut self) -> Option<[u32; 2]> {
        let weights = match self.wanted {
            Wanted::Done => [30, 12, 26, 12, 8, 12],
            Wanted::Stuck | Wanted::Abort(_) => [18, 26, 0, 32, 0, 24],
            Wanted::NoRoom => [0, 0, 55, 0, 0, 45],
        };
        match self.random.weighted(&weights) {
            0 => self.stored(),
            1 => self.loaded(),
            2 => self.block_for_a_variable(),
            3 => self.copied(),
            4 => self.address_kept(),
            _ => self.stored_late(),
        }
    }

    /// A number or a pointer for some word.
    fn stored(&mut self) -> Option<[u32; 2]> {
        let goal = self.goal();
        let (place, typ) = self.place_at(goal)?;
        let known = match self.random.percent(70) {
            true => {
                let word = self.random.between(1, 99);
                self.numbered(word)
            }
            false => self.foreseen(),
        };
        Some([place, self.cast_from(known.typ, known.node, typ)])
    }

    /// Some word for a variable.
    fn loaded(&mut self) -> Option<[u32; 2]> {
        let goal = self.goal();
        let (place, typ) = self.place_at(goal)?;
        let value = self.node(kind::READ, place, 0);
        Some(self.for_a_variable(value, typ))
    }

    fn block_for_a_variable(&mut self) -> Option<[u32; 2]> {
        let block = self.some_words();
        Some(self.for_a_variable(block, VOID_POINTER))
    }

    /// A copy with all its words in memory, or not, as it is wanted.
    fn copied(&mut self) -> Option<[u32; 2]> {
        let record = self.some_record()?;
        let stuck = match self.wanted {
            Wanted::Stuck => match self.random.weighted(&[45, 40, 15]) {
                0 => [true, false],
                1 => [false, true],
                _ => [true, true],
            },
            Wanted::Done | Wanted::NoRoom | Wanted::Abort(_) => [false, false],
        };
        let copy = self.copy_at(record, stuck);
        Some(self.for_a_variable(copy, INT))
    }

    /// An address of any word, there or not: nothing is read.
    fn address_kept(&mut self) -> Option<[u32; 2]> {
        let goal = match self.random.percent(70) {
            true => self.outside(),
            false => self.inside(),
        };
        let (place, typ) = self.place_at(goal)?;
        let pointer = self.routine.types.pointer_to(typ)?;
        let address = self.node(kind::ADDRESS, place, 0);
        Some(self.for_a_variable(address, pointer))
    }

    /// A store whose value obtains words or copies some. That is done even
    /// where the store is stuck, and no room is found even there.
    fn stored_late(&mut self) -> Option<[u32; 2]> {
        let goal = match self.wanted {
            Wanted::NoRoom => self.outside(),
            Wanted::Done | Wanted::Stuck | Wanted::Abort(_) => self.goal(),
        };
        let (place, typ) = self.place_at(goal)?;
        let obtains = self.wanted == Wanted::NoRoom || self.random.percent(50);
        let (value, own) = match obtains {
            true => (self.some_words(), VOID_POINTER),
            false => {
                let record = self.some_record()?;
                (self.copy_at(record, [false, false]), INT)
            }
        };
        Some([place, self.cast_from(own, value, typ)])
    }

    /// A value of type `own` for any variable.
    fn for_a_variable(&mut self, value: u32, own: u32) -> [u32; 2] {
        let variable = self.any_variable();
        let typ = self.routine.types.variables[variable as usize];
        let value = self.cast_from(own, value, typ);
        [self.node(kind::VARIABLE, variable, 0), value]
    }

    fn any_variable(&mut self) -> u32 {
        let variables = self.routine.types.variables.len();
        self.random.below(variables as u32)
    }
}

/// Words.
impl Expressions<'_> {
    /// A word to read or to write: none that there is, where that is wanted.
    fn goal(&mut self) -> u32 {
        match self.wanted {
            Wanted::Stuck => self.outside(),
            Wanted::Done | Wanted::NoRoom | Wanted::Abort(_) => self.inside(),
        }
    }

    /// A variable's word, one below U, one of the next above, the last, or any.
    fn inside(&mut self) -> u32 {
        let Routine { unused, length, .. } = *self.routine;
        let last = length - 1;
        let near = last.min(unused + 6);
        let variables = self.routine.types.variables.len() as u32;
        match self.random.weighted(&[15, 20, 45, 10, 10]) {
            0 => self.random.between(1, variables),
            1 => self.random.between(1, unused.max(2) - 1),
            2 if unused <= near => self.random.between(unused, near),
            3 => last,
            _ => self.random.between(1, last),
        }
    }

    /// Word 0, the first word past the end, one soon after it, or far away.
    fn outside(&mut self) -> u32 {
        let length = self.routine.length;
        match self.random.weighted(&[38, 26, 10, 8, 6, 12]) {
            0 => 0,
            1 => length,
            2 => length + self.random.between(1, 4),
            3 => u32::MAX - self.random.below(3),
            4 => self.random.pick(&[65_536, 65_537, 1 << 30, 1 << 31]),
            _ => self.random.word().max(length),
        }
    }

    /// The first word of a record that is in memory as a whole, if one can be:
    /// one below U, from U on, or any.
    fn record_inside(&mut self, words: u32) -> u32 {
        let last = self.routine.length.saturating_sub(words).max(1);
        let unused = self.routine.unused;
        match self.random.weighted(&[50, 30, 20]) {
            0 => self.random.between(1, last.min(unused.max(2) - 1)),
            1 if unused <= last => self.random.between(unused, last),
            _ => self.random.between(1, last),
        }
    }

    /// The first word of a record that isn't: it may have some of its words in
    /// memory, or all but one, before the end or, going round, from word 0 on.
    fn record_outside(&mut self, words: u32) -> u32 {
        let length = self.routine.length;
        match self.random.weighted(&[20, 36, 28, 7, 9]) {
            0 => 0,
            1 => (length + 1).saturating_sub(words),
            2 => length - self.random.below(words.min(length)),
            3 => 0u32.wrapping_sub(self.random.between(1, words)),
            _ => self.outside(),
        }
    }
}

/// Places and values.
impl Expressions<'_> {
    /// A place at a word, and its type: gladly a field so far into its record
    /// that the record would begin below word 0, and the field's sum goes round.
    fn place_at(&mut self, goal: u32) -> Option<(u32, u32)> {
        let ways = self.routine.types.ways();
        let round = ways.iter().filter(|way| way.offset > goal);
        let round: Vec<Way> = round.copied().collect();
        let way = match round.is_empty() || self.random.percent(50) {
            true if ways.is_empty() => return None,
            true => self.random.pick(&ways),
            false => self.random.pick(&round),
        };
        let pointer = self.pointer_at(goal.wrapping_sub(way.offset), way.pointer);
        Some((self.arrive(way, pointer), way.typ))
    }

    /// A pointer of type `typ` to any word, now and then by way of an address.
    fn pointer_at(&mut self, goal: u32, typ: u32) -> u32 {
        let known = self.foreseen();
        let pointer = self.led_to(known, goal, typ);
        let target = self.routine.types.target(typ);
        let followed = target.is_some_and(|target| target < RECORD);
        if !followed || !self.random.percent(12) {
            return pointer;
        }
        let place = self.node(kind::DEREF, pointer, 0);
        self.node(kind::ADDRESS, place, 0)
    }

    /// A value that is foreseen, with bounds or without.
    fn foreseen(&mut self) -> Known {
        match self.random.weighted(&[48, 14, 28, 10]) {
            0 => {
                let variable = self.any_variable();
                self.of(variable)
            }
            1 => match self.address_of_variable() {
                Some(address) => address,
                None => self.numbered(1),
            },
            2 => {
                let word = self.random.number();
                self.numbered(word)
            }
            _ => self.new_block(),
        }
    }

    fn numbered(&mut self, word: u32) -> Known {
        Known {
            node: self.constant(word),
            typ: INT,
            at: word,
            base: 0,
            end: 0,
        }
    }

    /// A copy whose first and second record are out of memory or not.
    fn copy_at(&mut self, record: Record, outside: [bool; 2]) -> u32 {
        let [to, from] = outside.map(|outside| {
            let goal = match outside {
                true => self.record_outside(record.words),
                false => self.record_inside(record.words),
            };
            self.pointer_at(goal, record.typ)
        });
        self.node(kind::COPY, to, from)
    }

    /// Words obtained: such as were written already, some others, or more than
    /// there are, where no room is wanted.
    fn some_words(&mut self) -> u32 {
        let Routine { unused, length, .. } = *self.routine;
        let room = length - unused;
        let written: Vec<u32> = (unused..length).filter(|&w| self.word(w)[0] != 0).collect();
        let words = match self.wanted {
            Wanted::NoRoom => self.too_many(room),
            _ if written.is_empty() => self.random.below(6),
            _ if self.random.percent(15) => self.random.below(6),
            _ => self.random.pick(&written) - unused + 1,
        };
        let count = self.constant(words);
        self.node(kind::MALLOC, count, 0)
    }

    /// One word too many or many, or so many that U + n is little modulo 2^32.
    fn too_many(&mut self, room: u32) -> u32 {
        let Routine { unused, length, .. } = *self.routine;
        let round = self.random.below(length + 1).wrapping_sub(unused);
        match self.random.weighted(&[40, 15, 45]) {
            0 => room + 1,
            1 => room + self.random.pick(&[2, 3, 1_000, 65_536, 1 << 31]),
            _ => round.max(room + 1),
        }
    }
}
