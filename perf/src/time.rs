//! Times. Both sides are timed in short slices by turns, A B B A and then
//! B A A B, so that whatever else the machine does, and whatever the first
//! slice suffers from what came before it, falls on both. So are, once more,
//! the library's fenced run and its bare one. The rows are gone through several
//! times, so that no row has a bad moment to itself.

use crate::library::RUNS_BARE;
use crate::rows::Row;
use crate::side::{acts, fenced_and_bare, repeat};
use crate::side::{Act, Costs, Lists, Part, Side, ACTS, PARTS, SIDES};
use std::time::{Duration, Instant};

pub struct Plan {
    /// How often the rows are gone through.
    pub passes: usize,
    /// Rounds of a row in a pass, an even number; a round has two slices of
    /// each side and act, and two more of the library's fenced and bare call.
    pub rounds: usize,
    /// How long a slice takes about: long against the clock's own cost, short
    /// against the turns of the scheduler.
    pub slice: Duration,
}

/// Times in one layout of two sides.
#[derive(Clone, Copy)]
pub struct Times {
    /// Nanoseconds a call.
    pub median: Costs,
    pub best: Costs,
    /// One side / the other, for each part.
    pub ratios: [f64; PARTS.len()],
}

/// Times of a row in one layout.
#[derive(Clone, Copy)]
pub struct RowTimes {
    /// The library and the second.
    pub sides: Times,
    /// The library's fenced run and its bare one.
    pub bare: Times,
}

pub fn measure(rows: &[Row], plan: &Plan) -> Vec<RowTimes> {
    let mut samples: Vec<Sample> = rows.iter().map(|row| Sample::new(row, plan)).collect();
    for _ in 0..plan.passes {
        for sample in &mut samples {
            sample.pass(plan);
        }
    }
    samples.into_iter().map(Sample::times).collect()
}

/// The slices of a row so far.
struct Sample<'r> {
    row: &'r Row,
    lists: Lists,
    /// Calls a slice, by act.
    calls: [usize; ACTS.len()],
    /// Nanoseconds a call in each round: of library and second, and of the
    /// fenced run and the bare one.
    sides: Vec<Costs>,
    bare: Vec<Costs>,
}

impl<'r> Sample<'r> {
    fn new(row: &'r Row, plan: &Plan) -> Sample<'r> {
        let mut sample = Sample {
            row,
            lists: Lists::new(row.memory, 0),
            calls: [0; ACTS.len()],
            sides: Vec::new(),
            bare: Vec::new(),
        };
        for act in acts() {
            sample.calls[act as usize] = sample.calls_a_slice(act, plan.slice);
        }
        sample
    }

    /// As many calls as take about that long, each case as often as any other.
    fn calls_a_slice(&mut self, act: Act, wanted: Duration) -> usize {
        let mut calls = self.row.cases.len();
        while self.elapsed(Side::Second, act, calls) < wanted / 2 {
            calls *= 2;
        }
        calls
    }

    fn elapsed(&mut self, side: Side, act: Act, calls: usize) -> Duration {
        let start = Instant::now();
        repeat(side, act, self.row, &mut self.lists, calls);
        start.elapsed()
    }

    fn pass(&mut self, plan: &Plan) {
        for round in 0..plan.rounds {
            let costs = self.both_sides(round);
            let bare = self.fenced_and_bare(round, costs);
            self.sides.push(costs);
            self.bare.push(bare);
        }
    }

    fn both_sides(&mut self, round: usize) -> Costs {
        let mut costs = Costs::default();
        for act in acts() {
            self.timed(SIDES.map(|side| (side, act)), round, &mut costs);
        }
        costs
    }

    /// The check that is taken off the run is that of the round.
    fn fenced_and_bare(&mut self, round: usize, of_sides: Costs) -> Costs {
        let mut costs = Costs::default();
        costs[0][Act::Check as usize] = of_sides[0][Act::Check as usize];
        if RUNS_BARE {
            let calls = [Act::Call, Act::Bare].map(|act| (Side::Library, act));
            self.timed(calls, round, &mut costs);
        }
        fenced_and_bare(costs[0])
    }

    /// Two slices of each, by turns.
    fn timed(&mut self, both: [(Side, Act); 2], round: usize, costs: &mut Costs) {
        for (side, act) in by_turns(both, round) {
            let calls = self.calls[act as usize];
            let time = self.elapsed(side, act, calls).as_nanos() as f64;
            costs[side as usize][act as usize] += time / calls as f64 / 2.0;
        }
    }

    fn times(self) -> RowTimes {
        RowTimes {
            sides: Times::of(&self.sides),
            bare: Times::of(&self.bare),
        }
    }
}

impl Times {
    fn of(rounds: &[Costs]) -> Times {
        Times {
            median: over_rounds(rounds, median),
            best: over_rounds(rounds, least),
            ratios: PARTS.map(|part| ratio(rounds, part)),
        }
    }
}

/// One number for all rounds, for each side and act.
fn over_rounds(rounds: &[Costs], one: fn(Vec<f64>) -> f64) -> Costs {
    let costs = |side: usize, act: Act| rounds.iter().map(move |costs| costs[side][act as usize]);
    [0, 1].map(|side| ACTS.map(|act| one(costs(side, act).collect())))
}

/// The median of the rounds' ratios: where the machine is slow for a while, it
/// is so for both sides of a round.
fn ratio(rounds: &[Costs], part: Part) -> f64 {
    let pairs = rounds.iter().map(|costs| part.of(*costs));
    median(pairs.map(|[a, b]| a / b).collect())
}

fn by_turns<T: Copy>([a, b]: [T; 2], round: usize) -> [T; 4] {
    match round % 2 {
        0 => [a, b, b, a],
        _ => [b, a, a, b],
    }
}

/// The middle one, or the mean of the two in the middle.
fn median(mut numbers: Vec<f64>) -> f64 {
    numbers.sort_by(f64::total_cmp);
    let (lower, upper) = ((numbers.len() - 1) / 2, numbers.len() / 2);
    (numbers[lower] + numbers[upper]) / 2.0
}

pub fn least(numbers: Vec<f64>) -> f64 {
    numbers.into_iter().fold(f64::MAX, f64::min)
}

/// Times as a line of text, for another process to read.
impl RowTimes {
    pub fn to_line(self) -> String {
        [self.sides, self.bare].map(Times::to_text).join("\t")
    }

    pub fn from_line(line: &str) -> Option<RowTimes> {
        let (sides, bare) = line.split_once('\t')?;
        Some(RowTimes {
            sides: Times::from_text(sides)?,
            bare: Times::from_text(bare)?,
        })
    }
}

impl Times {
    fn to_text(self) -> String {
        let costs = [self.median, self.best];
        let costs = costs.as_flattened().as_flattened();
        let words: Vec<String> = costs
            .iter()
            .chain(&self.ratios)
            .map(f64::to_string)
            .collect();
        words.join(" ")
    }

    fn from_text(text: &str) -> Option<Times> {
        let numbers: Result<Vec<f64>, _> = text.split(' ').map(str::parse).collect();
        let numbers = numbers.ok()?;
        let (costs, ratios) = numbers.split_last_chunk()?;
        let (&[a, b, c, d], []) = costs.as_chunks() else {
            return None;
        };
        Some(Times {
            median: [a, b],
            best: [c, d],
            ratios: *ratios,
        })
    }
}
