//! Times the check, the whole call and the execution alone on those cases of
//! standard input whose runs are done, so that each node is worked out exactly
//! once, and prints nanoseconds per node.
//!
//! Few tables come again and again until the processor foresees each branch;
//! with thousands of tables it foresees little. Both are worth knowing.

use second::machine::{self, Answer, Machine};
use second::text::Case;
use std::hint::black_box;
use std::io::BufRead;
use std::time::Instant;

/// Checked tables kept at once for the execution alone, so that they fit into
/// a processor's cache.
const KEPT: usize = 200;

struct Sample {
    case: Case,
    nodes: usize,
}

type Lists = [Vec<u32>; 3];

fn lists() -> Lists {
    [vec![0; 65_537], vec![0; 65_537], vec![0; 65_537]]
}

fn samples() -> Vec<Sample> {
    let mut samples = Vec::new();
    let mut lists = lists();
    for line in std::io::stdin().lock().lines() {
        let line = line.expect("standard input is readable");
        let mut case = Case::default();
        if case.read(line.as_bytes()).is_none() {
            continue;
        }
        if let Answer::Done { unused } = call(&case, &mut lists) {
            // Memory of just the words used: clearing more is timed apart.
            case.lengths = [unused; 3];
            let nodes = count_nodes(&case.table);
            samples.push(Sample { case, nodes });
        }
    }
    samples
}

fn count_nodes(table: &[u32]) -> usize {
    // A mark and its edition stand before the sections.
    let mut at = if table[0] == u32::MAX { 2 } else { 0 };
    for width in [1, 2, 1, 1] {
        at += 1 + width * table[at] as usize;
    }
    table[at] as usize
}

fn call(case: &Case, [values, bases, ends]: &mut Lists) -> Answer {
    let [v, b, e] = case.lengths.map(|length| length as usize);
    machine::run(
        &case.table,
        &case.inputs,
        &case.registers,
        &mut values[..v],
        &mut bases[..b],
        &mut ends[..e],
    )
}

/// Prints the best of several rounds, each of about a millisecond or more.
fn time(name: &str, samples: &[Sample], mut round: impl FnMut()) {
    let nodes: usize = samples.iter().map(|s| s.nodes).sum();
    let tables = samples.len();
    let times = 1 + 1_000_000 / (nodes * 8 + tables * 100);
    let mut best = f64::MAX;
    for _ in 0..40 {
        let start = Instant::now();
        for _ in 0..times {
            round();
        }
        best = best.min(start.elapsed().as_nanos() as f64 / times as f64);
    }
    let (per_node, per_table) = (best / nodes as f64, best / tables as f64);
    println!("{name:20} {per_node:8.2} ns a node {per_table:10.1} ns a table");
}

fn measure(name: &str, samples: &[Sample]) {
    let nodes: usize = samples.iter().map(|s| s.nodes).sum();
    println!("{name}: {} tables, {nodes} nodes", samples.len());
    if nodes == 0 {
        return;
    }
    let mut lists = lists();
    time("check", samples, || {
        for s in samples {
            black_box(machine::check(black_box(&s.case.table)));
        }
    });
    time("run (whole call)", samples, || {
        for s in samples {
            black_box(call(black_box(&s.case), &mut lists));
        }
    });
    execute(&samples[samples.len().saturating_sub(KEPT)..], &mut lists);
}

fn execute(samples: &[Sample], [values, bases, ends]: &mut Lists) {
    let mut machines: Vec<_> = samples.iter().map(|_| Machine::new()).collect();
    let checked: Vec<_> = machines
        .iter_mut()
        .zip(samples)
        .map(|(m, s)| m.check(&s.case.table).expect("a done run passes"))
        .collect();
    time("execute alone", samples, || {
        for (checked, s) in checked.iter().zip(samples) {
            let l = s.case.lengths[0] as usize;
            let (values, bases, ends) = (&mut values[..l], &mut bases[..l], &mut ends[..l]);
            let Case {
                inputs, registers, ..
            } = &s.case;
            black_box(black_box(checked).execute(inputs, registers, values, bases, ends));
        }
    });
    time("clearing alone", samples, || {
        for s in samples {
            let l = s.case.lengths[0] as usize;
            black_box(&mut values[..l]).fill(0);
            black_box(&mut bases[..l]).fill(0);
            black_box(&mut ends[..l]).fill(0);
        }
    });
}

fn main() {
    let mut samples = samples();
    measure("all", &samples);
    samples.sort_by_key(|s| s.nodes);
    let small = samples.partition_point(|s| s.nodes <= 60);
    measure("up to 60 nodes", &samples[..small]);
    measure("more", &samples[small..]);
    if let Some(last) = samples.last() {
        measure("the largest, alone", std::slice::from_ref(last));
    }
}
