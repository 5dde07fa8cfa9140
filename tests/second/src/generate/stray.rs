//! Places that lie out of bounds on purpose: before the base, past the end or
//! across it, with bounds of all origins, and anywhere in a command.

use super::expression::Expressions;
use super::known::Known;
use super::types::{Way, INT, RECORD, VOID_POINTER};
use crate::machine::{kind, Reason};

impl Expressions<'_> {
    /// A place of type `typ` that has bounds and is out of them, before the
    /// base or past the end. None where there is no way to such a place.
    pub(super) fn stray(&mut self, typ: u32, reason: Reason) -> Option<u32> {
        let mut ways = self.routine.types.ways();
        ways.retain(|way| way.typ == typ);
        let way = self.long_one(&ways)?;
        Some(self.stray_by(way, reason))
    }

    /// A command with such a place, on its left or somewhere in its value.
    pub(super) fn stray_command(&mut self, reason: Reason) -> Option<[u32; 2]> {
        let way = self.long_one(&self.routine.types.ways())?;
        if self.random.percent(40) {
            let place = self.stray_by(way, reason);
            return Some([place, self.value(way.typ)]);
        }
        let typ = self.some_place_type()?;
        let place = self.ordinary_place(typ)?;
        let stray = self.stray_by(way, reason);
        Some([place, self.around(stray, way.typ, typ)])
    }

    fn stray_by(&mut self, way: Way, reason: Reason) -> u32 {
        let known = self.known_below(way.offset);
        let place = match reason {
            Reason::BeforeBase => self.before(known.base, way),
            _ => self.past(&known, way),
        };
        let pointer = self.led(known, place.wrapping_sub(way.offset), way.pointer);
        self.arrive(way, pointer)
    }

    /// A known value, now and then one whose bounds are so low that a field at
    /// this offset can be above 32 bits and, modulo 2^32, in them.
    fn known_below(&mut self, offset: u32) -> Known {
        let low = match offset > 1 && self.random.percent(25) {
            true => self.address_of_variable(),
            false => None,
        };
        low.unwrap_or_else(|| self.known())
    }

    /// One of the ways, gladly to a field that is long or far from its record's
    /// start: more can go wrong there.
    fn long_one(&mut self, ways: &[Way]) -> Option<Way> {
        if ways.is_empty() {
            return None;
        }
        let picked = [self.random.pick(ways), self.random.pick(ways)];
        picked.into_iter().max_by_key(|way| way.offset + way.words)
    }

    /// Across the base, next to it, or as low as the pointer can lead.
    pub(super) fn before(&mut self, base: u32, Way { offset, words, .. }: Way) -> u32 {
        let long = if words > 1 { 40 } else { 0 };
        match self.random.weighted(&[long, 20, 15, 15, 30]) {
            0 => base.wrapping_sub(self.random.between(1, words - 1)),
            1 => base - 1,
            2 => base.wrapping_sub(words),
            3 => offset,
            _ => self.random.below(base),
        }
    }

    /// Across the end, next to it, anywhere, or above 32 bits: just so, or so
    /// that the place modulo 2^32 would be in bounds.
    pub(super) fn past(&mut self, known: &Known, Way { offset, words, .. }: Way) -> u32 {
        let &Known { base, end, .. } = known;
        let long = if words > 1 { 80 } else { 0 };
        let above = if offset > 0 { 40 } else { 0 };
        let round = if offset > base { 250 } else { 0 };
        match self.random.weighted(&[long, 40, 15, above, round]) {
            0 => end - self.random.between(1, (words - 1).min(end - base)),
            1 => end + self.random.below(4),
            2 => self.random.word(),
            3 => self.random.below(offset),
            _ => base + self.random.below(end - base),
        }
    }

    /// A known value led to another word, as a pointer of type `typ`.
    fn led(&mut self, known: Known, goal: u32, typ: u32) -> u32 {
        let stepping = match self.random.weighted(&[40, 30, 30]) {
            0 => typ,
            1 => known.typ,
            _ => self.any_pointer_type(),
        };
        let value = self.cast_from(known.typ, known.node, stepping);
        let moved = self.step_by(value, stepping, goal.wrapping_sub(known.at));
        self.cast_from(stepping, moved, typ)
    }

    /// A value of type `typ` that needs a place, one of type `own`, first.
    fn around(&mut self, place: u32, own: u32, typ: u32) -> u32 {
        let (mut value, mut own) = match self.routine.types.pointer_to(own) {
            Some(pointer) if self.random.percent(30) => {
                (self.node(kind::ADDRESS, place, 0), pointer)
            }
            _ => (self.node(kind::READ, place, 0), own),
        };
        for _ in 0..self.random.below(5) {
            (value, own) = self.one_around(value, own);
        }
        self.cast_from(own, value, typ)
    }

    /// A cast, a sum, a count of words or another place around a value.
    fn one_around(&mut self, value: u32, typ: u32) -> (u32, u32) {
        let target = self.routine.types.target(typ);
        match (self.random.below(4), target) {
            (0, _) => {
                let b = self.int();
                (self.node(kind::SUM, value, b), typ)
            }
            (1, Some(target)) if target < RECORD => {
                let place = self.node(kind::DEREF, value, 0);
                (self.node(kind::READ, place, 0), target)
            }
            (1, _) if typ == INT => (self.node(kind::MALLOC, value, 0), VOID_POINTER),
            (2, _) if typ == INT => {
                let left = self.any_pointer_type();
                let a = self.variable_with_bounds(left);
                (self.node(kind::SUM, a, value), left)
            }
            _ => {
                let to = self.random.below(self.routine.types.count());
                (self.node(kind::CAST, value, to), to)
            }
        }
    }
}
