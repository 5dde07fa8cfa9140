//! Ints that have bounds, as they may in edition 2: kept in memory, added up,
//! and made pointers again.

use super::expression::Expressions;
use super::known::Known;
use super::routine::Wanted;
use super::types::{Way, INT, VOID_POINTER};
use crate::machine::{kind, Reason};

/// Commands of a routine that is all about such ints.
impl Expressions<'_> {
    pub(super) fn carrying(&mut self) -> Option<[u32; 2]> {
        let weights = match self.wanted {
            Wanted::Done => [36, 26, 16, 10, 12],
            Wanted::Abort(_) | Wanted::Stuck => [0, 75, 0, 25, 0],
            Wanted::NoRoom => [0, 0, 0, 0, 100],
        };
        match self.random.weighted(&weights) {
            0 => self.kept(),
            1 => self.through_an_int(),
            2 => self.over_bounds(),
            3 => self.copy_command(),
            _ => self.obtained(),
        }
    }

    /// An int for a variable, or for a word or a field in a block.
    fn kept(&mut self) -> Option<[u32; 2]> {
        let place = self.int_place()?;
        Some([place, self.carried()])
    }

    fn int_place(&mut self) -> Option<u32> {
        let place = match self.random.weighted(&[45, 20, 35]) {
            0 => self.int_variable(),
            1 => self.int_word(),
            _ => self.int_field(),
        };
        place.or_else(|| self.ordinary_place(INT))
    }

    fn int_variable(&mut self) -> Option<u32> {
        let ints = self.routine.types.variables_of(INT);
        (!ints.is_empty()).then(|| {
            let variable = self.random.pick(&ints);
            self.node(kind::VARIABLE, variable, 0)
        })
    }

    /// A word in the bounds of a variable.
    fn int_word(&mut self) -> Option<u32> {
        let pointer = self.routine.types.pointer_to(INT)?;
        let rows = self.rows(1);
        if rows.is_empty() {
            return None;
        }
        let (variable, [base, end]) = self.random.pick(&rows);
        let goal = self.random.between(base, end - 1);
        Some(self.followed(variable, goal, pointer))
    }

    /// A field of the record that a variable points to.
    fn int_field(&mut self) -> Option<u32> {
        let mut fields = self.fields_within();
        fields.retain(|(_, _, way)| way.typ == INT);
        if fields.is_empty() {
            return None;
        }
        let (variable, _, way) = self.random.pick(&fields);
        let record = self.read_as(variable, way.pointer);
        Some(self.node(kind::FIELD, record, way.field?))
    }

    /// A word in a variable's bounds as a place, by a pointer of a type.
    fn followed(&mut self, variable: u32, goal: u32, pointer: u32) -> u32 {
        let known = self.of(variable);
        let pointer = self.led_to(known, goal, pointer);
        self.node(kind::DEREF, pointer, 0)
    }

    /// A word or a field written or read by way of an int made a pointer.
    fn through_an_int(&mut self) -> Option<[u32; 2]> {
        let ways = self.routine.types.ways();
        if ways.is_empty() {
            return None;
        }
        let way = self.random.pick(&ways);
        let place = self.rebuilt(way);
        let variables = self.routine.types.variables_of(way.typ);
        if variables.is_empty() || self.random.percent(55) {
            return Some([place, self.short(way.typ)]);
        }
        let variable = self.random.pick(&variables);
        let to = self.node(kind::VARIABLE, variable, 0);
        Some([to, self.node(kind::READ, place, 0)])
    }

    /// A value that seldom ends the run.
    fn short(&mut self, typ: u32) -> u32 {
        if typ == INT && self.random.percent(50) {
            let word = self.random.number();
            return self.constant(word);
        }
        let known = self.known();
        self.cast_from(known.typ, known.node, typ)
    }

    /// An int over a word that has bounds, a variable's own or one in a block.
    fn over_bounds(&mut self) -> Option<[u32; 2]> {
        let pointer = self.routine.types.pointer_to(INT)?;
        let held = self.held();
        let place = match held.is_empty() || self.random.percent(60) {
            true => self.variable_as_int(pointer)?,
            false => {
                let (variable, w) = self.random.pick(&held);
                self.followed(variable, w, pointer)
            }
        };
        if self.random.percent(40) {
            return Some([place, self.carried()]);
        }
        let unused = self.routine.unused;
        let word = self.random.below(unused + 2);
        Some([place, self.constant(word)])
    }

    /// `*(int*)&variable`, for a variable that has bounds.
    fn variable_as_int(&mut self, pointer: u32) -> Option<u32> {
        let types = &self.routine.types;
        let bounded = self.bounded().into_iter().filter_map(|(variable, _)| {
            let own = types.variables[variable as usize];
            Some((variable, types.pointer_to(own)?))
        });
        let bounded: Vec<(u32, u32)> = bounded.collect();
        if bounded.is_empty() {
            return None;
        }
        let (variable, own) = self.random.pick(&bounded);
        let place = self.node(kind::VARIABLE, variable, 0);
        let address = self.node(kind::ADDRESS, place, 0);
        let address = self.cast_from(own, address, pointer);
        Some(self.node(kind::DEREF, address, 0))
    }

    /// A block whose number of words has bounds. None is given for 0 words,
    /// and that has no bounds.
    fn obtained(&mut self) -> Option<[u32; 2]> {
        let pointers = self.routine.types.variables.iter().zip(0..);
        let pointers = pointers.filter(|(&typ, _)| typ != INT);
        let pointers: Vec<(u32, u32)> = pointers.map(|(&typ, v)| (typ, v)).collect();
        if pointers.is_empty() {
            return None;
        }
        let (typ, variable) = self.random.pick(&pointers);
        let room = self.routine.length - self.routine.unused;
        let words = match self.wanted {
            Wanted::NoRoom => room + self.random.pick(&[1, 1, 2, 1_000]),
            Wanted::Done | Wanted::Abort(_) | Wanted::Stuck => {
                self.random.pick(&[0, 0, 1, 2, 3, 4])
            }
        };
        let words = self.carried_number(words);
        let block = self.node(kind::MALLOC, words, 0);
        let place = self.node(kind::VARIABLE, variable, 0);
        Some([place, self.cast_from(VOID_POINTER, block, typ)])
    }
}

/// Values.
impl Expressions<'_> {
    /// An int, mostly with bounds.
    pub(super) fn carried(&mut self) -> u32 {
        let known = match self.random.weighted(&[35, 30, 20, 15]) {
            0 => self.known(),
            1 => match self.summed() {
                Some(sum) => sum,
                None => self.known(),
            },
            2 => {
                let known = self.known();
                let goal = self.random.between(known.base, known.end - 1);
                return self.led_to(known, goal, INT);
            }
            _ => return self.int(),
        };
        self.cast_from(known.typ, known.node, INT)
    }

    /// A number that has the bounds of some pointer.
    pub(super) fn carried_number(&mut self, number: u32) -> u32 {
        let known = self.known();
        self.led_to(known, number, INT)
    }

    /// A sum that has the bounds of its left side, or of its right side where
    /// the left has none.
    pub(super) fn summed(&mut self) -> Option<Known> {
        self.left = self.left.checked_sub(1)?;
        let [left, right] = match self.random.weighted(&[40, 45, 15]) {
            0 => [self.known(), self.known()],
            1 => [self.without_bounds(), self.known()],
            _ => [self.known(), self.without_bounds()],
        };
        let any = self.random.below(self.routine.types.count());
        let typ = self.random.pick(&[left.typ, left.typ, INT, any]);
        let step = self.routine.types.step(typ);
        let a = self.cast_from(left.typ, left.node, typ);
        let b = self.cast_from(right.typ, right.node, INT);
        let [base, end] = match left.end {
            0 => [right.base, right.end],
            _ => [left.base, left.end],
        };
        Some(Known {
            node: self.node(kind::SUM, a, b),
            typ,
            at: left.at.wrapping_add(right.at.wrapping_mul(step)),
            base,
            end,
        })
    }

    /// A variable that has no bounds, or a number, or what malloc(0) gives.
    fn without_bounds(&mut self) -> Known {
        let types = &self.routine.types;
        let variables = 0..types.variables.len() as u32;
        let none = variables.filter(|&v| self.word(1 + v)[2] == 0);
        let none: Vec<u32> = none.collect();
        if !none.is_empty() && self.random.percent(50) {
            let variable = self.random.pick(&none);
            return self.of(variable);
        }
        let (at, typ, node) = match self.random.percent(15) {
            true => {
                let zero = self.constant(0);
                (0, VOID_POINTER, self.node(kind::MALLOC, zero, 0))
            }
            false => {
                let word = self.random.number();
                (word, INT, self.constant(word))
            }
        };
        Known {
            node,
            typ,
            at,
            base: 0,
            end: 0,
        }
    }

    /// The place at the end of a way that begins with an int made a pointer: in
    /// bounds, or out of them as it is wanted.
    fn rebuilt(&mut self, way: Way) -> u32 {
        let lost = self.wanted == Wanted::Abort(Reason::NoBounds);
        let known = match lost {
            true => self.without_bounds(),
            false => self.known(),
        };
        let place = match self.wanted {
            Wanted::Abort(Reason::NoBounds) => self.random.below(self.routine.unused + 1),
            Wanted::Abort(Reason::BeforeBase) => self.before(known.base, way),
            Wanted::Abort(Reason::PastEnd) => self.past(&known, way),
            Wanted::Done | Wanted::NoRoom | Wanted::Stuck => {
                let more = (known.end - known.base).saturating_sub(way.words);
                known.base + self.random.below(more + 1)
            }
        };
        let goal = place.wrapping_sub(way.offset);
        let pointer = self.led_to(known, goal, INT);
        let pointer = self.node(kind::CAST, pointer, way.pointer);
        self.arrive(way, pointer)
    }

    /// A known value led to a word by what stands on its left and has no
    /// bounds. The steps are the left side's, of words or of records.
    pub(super) fn led_from_the_left(&mut self, known: Known, goal: u32, typ: u32) -> u32 {
        let any = self.any_pointer_type();
        let stepping = self.random.pick(&[INT, typ, any]);
        let step = self.routine.types.step(stepping);
        let rest = goal.wrapping_sub(known.at.wrapping_mul(step));
        let right = self.cast_from(known.typ, known.node, INT);
        let left = self.constant(rest);
        let left = self.cast_from(INT, left, stepping);
        let sum = self.node(kind::SUM, left, right);
        self.cast_from(stepping, sum, typ)
    }
}
