//! Copies of whole records: within one block and between blocks, in bounds and
//! out of them, and such as the check turns away.

use super::expression::Expressions;
use super::known::Known;
use super::routine::Wanted;
use super::types::{Way, INT, VOID_POINTER};
use crate::machine::{kind, Reason};

/// A pointer type and the size of the record that it points to.
#[derive(Clone, Copy)]
pub(super) struct Record {
    pub typ: u32,
    pub words: u32,
}

impl Expressions<'_> {
    /// A copy, which is an int. None where nothing points to a record.
    pub(super) fn copy(&mut self) -> Option<u32> {
        self.copy_and_words().map(|(copy, _)| copy)
    }

    /// A copy and its number of words.
    fn copy_and_words(&mut self) -> Option<(u32, u32)> {
        let record = self.some_record()?;
        let stray = match self.wanted {
            Wanted::Abort(reason) if self.random.percent(80) => Some(reason),
            _ => None,
        };
        let [to, from] = match stray {
            Some(reason) => self.one_astray(record, reason),
            None => self.two_records(record),
        };
        Some((self.node(kind::COPY, to, from), record.words))
    }

    /// A sum that is this number if its copy, one of the two, is made.
    pub(super) fn number_by_a_copy(&mut self, number: u32) -> Option<u32> {
        self.left = self.left.checked_sub(1)?;
        let (copy, words) = self.copy_and_words()?;
        let rest = self.constant(number.wrapping_sub(words));
        let [a, b] = self.random.pick(&[[copy, rest], [rest, copy]]);
        Some(self.node(kind::SUM, a, b))
    }

    /// Gladly one of those of which a whole one is in some variable's bounds.
    pub(super) fn some_record(&mut self) -> Option<Record> {
        let types = &self.routine.types;
        let pointers = 2..types.count();
        let records = pointers.filter_map(|typ| {
            let words = types.size(types.record(typ)?);
            Some(Record { typ, words })
        });
        let all: Vec<Record> = records.collect();
        let held = |record: &&Record| !self.rows(record.words).is_empty();
        let held: Vec<Record> = all.iter().filter(held).copied().collect();
        match (held.is_empty(), all.is_empty()) {
            (_, true) => None,
            (false, _) if self.random.percent(90) => Some(self.random.pick(&held)),
            _ => Some(self.random.pick(&all)),
        }
    }

    /// Variables in whose bounds so many words are, each with those bounds.
    pub(super) fn rows(&self, words: u32) -> Vec<(u32, [u32; 2])> {
        let bounded = self.bounded().into_iter();
        let rows = bounded.filter(|(_, [_, base, end])| end - base >= words);
        rows.map(|(variable, [_, base, end])| (variable, [base, end]))
            .collect()
    }

    /// Two pointers to whole records, mostly.
    fn two_records(&mut self, record: Record) -> [u32; 2] {
        match self.random.weighted(&[60, 32, 8]) {
            0 => self.within_a_row(record),
            1 => [self.whole(record), self.whole(record)],
            _ => [self.pointer(record.typ), self.pointer(record.typ)],
        }
    }

    /// Two records within the bounds of one variable: they overlap, either way,
    /// or are the same, or lie apart.
    fn within_a_row(&mut self, record: Record) -> [u32; 2] {
        let rows = self.rows(record.words);
        let longer = |row: &&(u32, [u32; 2])| row.1[1] - row.1[0] > record.words;
        let long: Vec<(u32, [u32; 2])> = rows.iter().filter(longer).copied().collect();
        let row = match (long.is_empty(), rows.is_empty()) {
            (_, true) => return [self.whole(record), self.whole(record)],
            (false, _) if self.random.percent(95) => self.random.pick(&long),
            _ => self.random.pick(&rows),
        };
        let (variable, [base, end]) = row;
        let last = end - record.words;
        let to = self.random.between(base, last);
        // As far apart as two records are that still have a word in common.
        let near = record.words - 1;
        let overlapping = [to.saturating_sub(near).max(base), last.min(to + near)];
        let from = match self.random.weighted(&[75, 5, 20]) {
            0 if near > 0 => self.another(to, overlapping),
            1 => to,
            _ => self.another(to, [base, last]),
        };
        [to, from].map(|goal| {
            let known = self.of(variable);
            self.led_to(known, goal, record.typ)
        })
    }

    /// A word from the first to the last of some, and not this one of them if
    /// there is another.
    fn another(&mut self, word: u32, [first, last]: [u32; 2]) -> u32 {
        if first == last {
            return word;
        }
        let other = self.random.between(first, last - 1);
        other + u32::from(other >= word)
    }

    /// A pointer to a whole record, with bounds of any origin.
    pub(super) fn whole(&mut self, record: Record) -> u32 {
        for _ in 0..3 {
            let nodes = self.routine.nodes.len();
            let known = self.known();
            let room = known.end - known.base;
            if room >= record.words {
                let goal = known.base + self.random.below(room - record.words + 1);
                return self.led_to(known, goal, record.typ);
            }
            self.routine.nodes.truncate(nodes);
        }
        let more = self.random.pick(&[0, 0, 1, record.words]);
        let words = self.constant(record.words + more);
        let block = self.node(kind::MALLOC, words, 0);
        self.node(kind::CAST, block, record.typ)
    }

    /// Two pointers of which the first, the second or both are out of bounds.
    fn one_astray(&mut self, record: Record, reason: Reason) -> [u32; 2] {
        let [first, second] = match self.random.weighted(&[30, 40, 30]) {
            0 => [true, false],
            1 => [false, true],
            _ => [true, true],
        };
        // Only the first of two has the reason that is wanted.
        let others = [Reason::NoBounds, Reason::BeforeBase, Reason::PastEnd];
        let other = self.random.pick(&others);
        let of_second = if first { other } else { reason };
        [(first, reason), (second, of_second)].map(|(astray, reason)| match astray {
            true => self.record_astray(record, reason),
            false => self.whole(record),
        })
    }

    /// A pointer to a record that isn't wholly in bounds.
    fn record_astray(&mut self, record: Record, reason: Reason) -> u32 {
        if reason == Reason::NoBounds {
            return self.forged(record.typ);
        }
        let known = self.known();
        let way = Way {
            pointer: record.typ,
            field: None,
            typ: INT,
            offset: 0,
            words: record.words,
        };
        let goal = match reason {
            Reason::BeforeBase => self.before(known.base, way),
            // The record's end, modulo 2^32, would be in front of the bounds.
            _ if self.random.percent(30) => 0u32.wrapping_sub(self.random.between(1, record.words)),
            _ => self.past(&known, way),
        };
        self.led_to(known, goal, record.typ)
    }

    /// A known value led to a word, as a value of type `typ`: by words, or by
    /// records where whole ones lead there.
    pub(super) fn led_to(&mut self, known: Known, goal: u32, typ: u32) -> u32 {
        let way = goal.wrapping_sub(known.at);
        if way == 0 && self.random.percent(70) {
            return self.cast_from(known.typ, known.node, typ);
        }
        if self.routine.marked && self.random.percent(25) {
            return self.led_from_the_left(known, goal, typ);
        }
        let any = self.any_pointer_type();
        let stepping = self.random.pick(&[typ, known.typ, any]);
        let step = self.routine.types.step(stepping);
        let stepping = match way as i32 % step as i32 {
            0 => stepping,
            _ => VOID_POINTER,
        };
        let value = self.cast_from(known.typ, known.node, stepping);
        let moved = self.step_by(value, stepping, way);
        self.cast_from(stepping, moved, typ)
    }

    /// A command whose copy has children that are no right ones.
    pub fn wrong_copy(&mut self) -> Option<[u32; 2]> {
        let place = self.ordinary_place(INT)?;
        let types = self.routine.types.count();
        let record = self.some_record().map_or(INT, |record| record.typ);
        let other = self.some_record().map_or(INT, |record| record.typ);
        let any = self.random.below(types);
        let [first, second] = match self.random.below(6) {
            0 => [any, any],
            1 => [record, any],
            2 => [any, record],
            3 | 4 if other != record => [record, other],
            _ => [any, self.random.below(types)],
        };
        let mut children = [first, second].map(|typ| self.value(typ));
        let at = self.random.index(2);
        match self.random.weighted(&[62, 22, 16]) {
            0 => {}
            1 => {
                let own = self.ordinary_place([first, second][at]);
                children[at] = own.unwrap_or(children[at]);
            }
            _ => {
                let next = self.routine.nodes.len() as u32;
                children[at] = self.random.pick(&[next, next + 1, u32::MAX]);
            }
        }
        let copy = self.node(kind::COPY, children[0], children[1]);
        Some([place, copy])
    }
}
