//! The rows of the report: each one routine, or several called in turn.

use crate::routine::Routine;
use crate::workload;

/// One call's table, inputs and list of registers.
pub struct Case {
    pub table: Vec<u32>,
    pub inputs: Vec<u32>,
    pub registers: Vec<u32>,
}

pub struct Row {
    /// The part of the report that the row belongs to.
    pub group: &'static str,
    pub name: String,
    /// The length of each of the three lists.
    pub memory: usize,
    pub cases: Vec<Case>,
    // Means over the cases.
    pub nodes: f64,
    pub commands: f64,
    pub words: f64,
    /// Words that a run copies.
    pub copied: f64,
}

/// A row to be built. A run under callgrind has one row and builds no other.
pub struct Plan {
    group: &'static str,
    name: String,
    memory: usize,
    /// Whether a quick run has it too.
    quick: bool,
    routines: Box<dyn Fn() -> Vec<Routine>>,
}

/// The group of rows whose runs abort.
const ABORT: &str = "abort";
/// The group of rows with copies, and of those without to set them against.
const COPIES: &str = "copies";
/// The group of rows of edition 2.
const EDITIONS: &str = "editions";

/// Rows that are there in both editions.
const IN_BOTH: [&str; 11] = [
    "small",
    "middle",
    "large",
    "deep casts",
    "deep sums, left",
    "deep sums, right",
    "dereferences",
    "pointer chain",
    "records",
    "registers 1 x 16",
    "copies 80 x 16",
];

const QUICK: [&str; 8] = [
    "small",
    "middle",
    "largest",
    "deep casts",
    "deep places",
    "dereferences",
    "records",
    "allocations",
];

/// All rows, or those of a quick run.
pub fn all(quick: bool) -> Vec<Row> {
    let plans = plans().into_iter();
    let plans = plans.filter(|plan| plan.quick || !quick);
    plans.map(Plan::build).collect()
}

pub fn named(name: &str) -> Option<Row> {
    let plan = plans().into_iter().find(|plan| plan.name == name);
    plan.map(Plan::build)
}

fn plans() -> Vec<Plan> {
    let mut plans = of_edition_1();
    plans.extend(editions(of_edition_1()));
    plans
}

fn of_edition_1() -> Vec<Plan> {
    let mut plans = shapes();
    plans.extend(registers());
    plans.extend(records());
    plans.extend(copies());
    plans.extend(memory());
    plans.extend(growth());
    plans.extend(aborts());
    plans
}

fn shapes() -> Vec<Plan> {
    use workload::*;
    let plan = |name: &str, memory, routines: fn() -> Vec<Routine>| Plan {
        group: "shape",
        name: name.into(),
        memory,
        quick: QUICK.contains(&name),
        routines: Box::new(routines),
    };
    vec![
        plan("empty", 1, || vec![Routine::default()]),
        plan("small", 16, || vec![small()]),
        plan("middle", 256, || vec![declared(16)]),
        plan("large", 512, || vec![declared(32)]),
        plan("largest", 128, || vec![largest()]),
        plan("deep casts", 16, || vec![deep_casts()]),
        plan("deep places", 16, || vec![deep_places()]),
        plan("deep sums, left", 16, || vec![deep_sums_left()]),
        plan("deep sums, right", 16, || vec![deep_sums_right()]),
        plan("dereferences", 16, || vec![dereferences()]),
        plan("pointer chain", 16, || vec![pointer_chain()]),
        plan("records", 64, || vec![records()]),
        plan("allocations", 256, || vec![allocations()]),
        plan("mixed, 500 tables", 128, || mixed(500)),
    ]
}

/// Few and many registers, and a long one: as many nodes over each.
fn registers() -> Vec<Plan> {
    let plan = |(count, length, memory): (u32, u32, usize)| Plan {
        group: "registers",
        name: format!("registers {count} x {length}"),
        memory,
        quick: count == 16,
        routines: Box::new(move || vec![workload::registers(count, length)]),
    };
    [(1, 16, 32), (16, 16, 512), (1, 4_000, 4_096)]
        .map(plan)
        .into()
}

/// Records of few and of many fields: their offsets, and their sizes.
fn records() -> Vec<Plan> {
    let plan = |name: &str, fields: usize, routine: fn(usize) -> Routine| Plan {
        group: "records",
        name: format!("{name} {fields}"),
        memory: 256,
        quick: fields == 16,
        routines: Box::new(move || vec![routine(fields)]),
    };
    let both = |fields| {
        [
            plan("fields", fields, workload::fields),
            plan("sizes", fields, workload::sizes),
        ]
    };
    [1, 16, 128].into_iter().flat_map(both).collect()
}

/// Copies of short records in short lists and of long ones in the longest, each
/// time after the same routine without copies.
fn copies() -> Vec<Plan> {
    let plan = |memory: usize, block: u32, count: u32, words: u32| Plan {
        group: COPIES,
        name: match count {
            0 => format!("no copies, {memory}"),
            _ => format!("copies {count} x {words}"),
        },
        memory,
        quick: memory == 64 && words == 16,
        routines: Box::new(move || vec![workload::copies(block, count, words)]),
    };
    vec![
        plan(64, 16, 0, 16),
        plan(64, 16, 80, 1),
        plan(64, 16, 80, 16),
        plan(65_536, 32_000, 0, 32_000),
        plan(65_536, 32_000, 8, 4_096),
        plan(65_536, 32_000, 2, 32_000),
    ]
}

/// One routine of 64 nodes in ever longer lists.
fn memory() -> Vec<Plan> {
    let plan = |length: usize| Plan {
        group: "memory",
        name: format!("memory {length}"),
        memory: length,
        quick: matches!(length, 64 | 65_536),
        routines: Box::new(|| vec![workload::family(4)]),
    };
    [64, 256, 1_024, 4_096, 16_384, 65_536].map(plan).into()
}

/// Ever longer routines of one family in lists of one length.
fn growth() -> Vec<Plan> {
    let plan = |groups: usize| Plan {
        group: "growth",
        name: format!("growth {}", 16 * groups),
        memory: 256,
        quick: matches!(groups, 1 | 32),
        routines: Box::new(move || vec![workload::family(groups)]),
    };
    [1, 2, 4, 8, 16, 32].map(plan).into()
}

/// Runs that abort at their last command. Two are rows of `growth` but for that.
fn aborts() -> Vec<Plan> {
    let plan = |name: &str, routine: fn() -> Routine| Plan {
        group: ABORT,
        name: name.into(),
        memory: 256,
        quick: name == "abort 512",
        routines: Box::new(move || vec![routine()]),
    };
    vec![
        plan("abort 64", || workload::family_that_aborts(4)),
        plan("abort 512", || workload::family_that_aborts(32)),
        plan("abort, 161 blocks", workload::many_blocks),
    ]
}

/// Rows of edition 1 once more, and two of what only edition 2 can do.
fn editions(of_edition_1: Vec<Plan>) -> Vec<Plan> {
    let in_both = |plan: &Plan| IN_BOTH.contains(&plan.name.as_str());
    let plan = |name: &str, routine: fn() -> Routine| Plan {
        group: EDITIONS,
        name: name.into(),
        memory: 16,
        quick: true,
        routines: Box::new(move || vec![routine()]),
    };
    let own = [
        plan("ints in memory", workload::ints_in_memory),
        plan("right bounds", workload::right_bounds),
    ];
    let again = of_edition_1.into_iter().filter(in_both);
    again.chain(own).map(Plan::marked).collect()
}

impl Row {
    /// Whether the runs of the row abort; all others are done.
    pub fn aborts(&self) -> bool {
        self.group == ABORT
    }

    /// Whether the row is about copies, with some or without.
    pub fn about_copies(&self) -> bool {
        self.group == COPIES
    }
}

impl Plan {
    /// The same routines in edition 2.
    fn marked(self) -> Plan {
        let marked = |routine| Routine {
            marked: true,
            ..routine
        };
        Plan {
            name: format!("{}, edition 2", self.name),
            quick: self.quick && (self.group == EDITIONS || self.name == "middle"),
            group: EDITIONS,
            memory: self.memory,
            routines: Box::new(move || (self.routines)().into_iter().map(marked).collect()),
        }
    }

    fn build(self) -> Row {
        let routines = (self.routines)();
        let cases: Vec<Case> = routines.iter().map(Case::of).collect();
        Row {
            group: self.group,
            name: self.name,
            memory: self.memory,
            nodes: mean(routines.iter().map(|routine| routine.nodes.len())),
            commands: mean(routines.iter().map(|routine| routine.commands.len())),
            words: mean(cases.iter().map(|case| case.table.len())),
            copied: mean(routines.iter().map(|routine| routine.copied as usize)),
            cases,
        }
    }
}

impl Case {
    fn of(routine: &Routine) -> Case {
        Case {
            table: routine.table(),
            inputs: routine.inputs(),
            registers: routine.register_list(),
        }
    }
}

fn mean(numbers: impl ExactSizeIterator<Item = usize>) -> f64 {
    let count = numbers.len();
    numbers.sum::<usize>() as f64 / count as f64
}
