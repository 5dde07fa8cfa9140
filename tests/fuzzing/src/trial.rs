//! One case, put to the four functions of the library and to the second
//! implementation.

use crate::answers::Told;
use crate::fault::{Fault, Kind};
use crate::guarded::Guarded;
use crate::library::{self, Answer, Explanation, Verdict};
use crate::promises;
use crate::shared::{Shared, Side, MAX_INPUTS, MAX_LIST, MAX_REGISTERS, MAX_TABLE};
use second::machine;
use second::text::{Call, Case};

/// All lists that a call can be lent.
pub struct Lists<'l> {
    pub table: &'l [u32],
    pub inputs: &'l [u32],
    pub registers: &'l [u32],
    pub lent: [&'l mut [u32]; 3],
}

/// What the library answered to a case.
pub struct Seen {
    pub verdict: Verdict,
    pub answer: Answer,
    pub explanation: Explanation,
    pub bare: Answer,
}

pub struct Trial<'s> {
    shared: &'s Shared,
    /// The table, the inputs and the registers as the library gets them.
    read: [Guarded; 3],
    /// The values, the bases and the ends.
    lent: [Guarded; 3],
    /// The same as the second implementation gets them.
    own: [Vec<u32>; 3],
    /// What the lists are filled with before each call.
    patterns: [Vec<u32>; 3],
    /// The lists as the library's run left them.
    after_run: [Vec<u32>; 3],
    /// What was wrong with the case so far.
    faults: Vec<Fault>,
}

impl Trial<'_> {
    pub fn new(shared: &Shared) -> Trial<'_> {
        Trial {
            shared,
            read: [MAX_TABLE, MAX_INPUTS, MAX_REGISTERS].map(Guarded::new),
            lent: [MAX_LIST; 3].map(Guarded::new),
            own: [const { Vec::new() }; 3],
            patterns: [1_000_000, 2_000_000, 3_000_000].map(pattern),
            after_run: [const { Vec::new() }; 3],
            faults: Vec::new(),
        }
    }

    /// Makes the four calls. The faults that they had are left in `faults`.
    pub fn make(&mut self, case: &Case, faults: &mut Vec<Fault>) -> Seen {
        for (list, words) in self.read.iter_mut().zip(read_only(case)) {
            list.set(words);
        }
        let verdict = self.check(case);
        let answer = self.run(case);
        for (list, after) in self.lent.iter().zip(&mut self.after_run) {
            after.clear();
            after.extend_from_slice(list.list());
        }
        let explanation = self.explain(case);
        let like_run = self.lent.iter().map(Guarded::list).eq(&self.after_run);
        let bare = self.run_bare(case);
        let like_fenced = self.lent[0].list() == self.after_run[0];
        self.shared.between_calls();
        let seen = Seen {
            verdict,
            answer,
            explanation,
            bare,
        };
        let broken = promises::broken(case, &seen, like_run, like_fenced);
        self.faults.extend(broken);
        std::mem::swap(&mut self.faults, faults);
        self.faults.clear();
        seen
    }

    fn check(&mut self, case: &Case) -> Verdict {
        self.call(
            case,
            (Call::Check, [0; 3]),
            |lists| library::check(lists.table),
            |lists| machine::check(lists.table).into(),
        )
    }

    fn run(&mut self, case: &Case) -> Answer {
        self.call(
            case,
            (Call::Run, case.lengths),
            |lists| {
                let [values, bases, ends] = lists.lent;
                library::run(lists.table, lists.inputs, lists.registers, values, bases, ends)
            },
            |lists| {
                let [values, bases, ends] = lists.lent;
                machine::run(lists.table, lists.inputs, lists.registers, values, bases, ends).into()
            },
        )
    }

    fn explain(&mut self, case: &Case) -> Explanation {
        self.call(
            case,
            (Call::Explain, case.lengths),
            |lists| {
                let [values, bases, ends] = lists.lent;
                library::explain(lists.table, lists.inputs, lists.registers, values, bases, ends)
            },
            |lists| {
                let [values, bases, ends] = lists.lent;
                machine::explain(lists.table, lists.inputs, lists.registers, values, bases, ends).into()
            },
        )
    }

    fn run_bare(&mut self, case: &Case) -> Answer {
        self.call(
            case,
            (Call::Bare, [case.lengths[0], 0, 0]),
            |lists| {
                let [values, ..] = lists.lent;
                library::run_bare(lists.table, lists.inputs, lists.registers, values)
            },
            |lists| {
                let [values, ..] = lists.lent;
                machine::run_bare(lists.table, lists.inputs, lists.registers, values).into()
            },
        )
    }

    /// One call on both sides, with lists of these lengths lent, and all that
    /// there is to see of it.
    fn call<A: Told>(
        &mut self,
        case: &Case,
        (call, lengths): (Call, [u32; 3]),
        library: impl FnOnce(Lists) -> A,
        second: impl FnOnce(Lists) -> A,
    ) -> A {
        self.fill(lengths);
        self.shared.at_call(call, Side::Library);
        let got = library(self.library_lists());
        self.shared.at_call(call, Side::Second);
        let expected = second(self.second_lists(case));
        self.shared.add_answer(call, got.row());
        self.compare(call, got, expected);
        if got.is_refused() {
            self.count_changed(call);
        }
        self.count_written(call, case);
        got
    }

    fn fill(&mut self, lengths: [u32; 3]) {
        for (i, length) in lengths.into_iter().enumerate() {
            let pattern = &self.patterns[i][..length as usize];
            self.lent[i].set(pattern);
            self.own[i].clear();
            self.own[i].extend_from_slice(pattern);
        }
    }

    fn library_lists(&mut self) -> Lists<'_> {
        let [table, inputs, registers] = &self.read;
        Lists {
            table: table.list(),
            inputs: inputs.list(),
            registers: registers.list(),
            lent: self.lent.each_mut().map(Guarded::list_mut),
        }
    }

    fn second_lists<'l>(&'l mut self, case: &'l Case) -> Lists<'l> {
        let [table, inputs, registers] = read_only(case);
        Lists {
            table,
            inputs,
            registers,
            lent: self.own.each_mut().map(Vec::as_mut_slice),
        }
    }

    fn compare<A: Told>(&mut self, call: Call, got: A, expected: A) {
        let same_lists = self.lent.iter().map(Guarded::list).eq(&self.own);
        if got != expected || !same_lists {
            let lists = self.lent.each_ref().map(Guarded::list);
            let fault = Fault::differ(call, got, expected, lists, &self.own);
            self.faults.push(fault);
        }
    }

    /// "Refused: nothing was run, and no word of the lists was changed."
    fn count_changed(&mut self, call: Call) {
        let lists = self.lent.iter().zip(&self.patterns);
        let changed = lists.map(|(list, pattern)| differing(list.list(), pattern));
        self.fault(Kind::ChangedByRefused, call, changed.sum());
    }

    /// Words in front of any list, and those of lists that are only read.
    fn count_written(&mut self, call: Call, case: &Case) {
        let lists = self.read.iter_mut().chain(&mut self.lent);
        let outside = lists.map(Guarded::mend_front).sum();
        self.fault(Kind::Outside, call, outside);
        let mut changed = 0;
        for (list, words) in self.read.iter_mut().zip(read_only(case)) {
            if list.list() != words {
                changed += differing(list.list(), words);
                list.set(words);
            }
        }
        self.fault(Kind::ReadOnly, call, changed);
    }

    fn fault(&mut self, kind: Kind, call: Call, words: usize) {
        if words > 0 {
            self.faults.push(Fault::words(kind, call, words));
        }
    }
}

fn read_only(case: &Case) -> [&[u32]; 3] {
    [&case.table, &case.inputs, &case.registers]
}

/// Words that are not 0 and tell their list and their position.
fn pattern(first: u32) -> Vec<u32> {
    (first..).take(MAX_LIST).collect()
}

/// How many words of a list differ from those of another, at least as long.
fn differing(list: &[u32], other: &[u32]) -> usize {
    let pairs = list.iter().zip(other);
    pairs.filter(|(word, other)| word != other).count()
}
