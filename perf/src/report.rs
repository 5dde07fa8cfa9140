//! The printed tables, their summaries and the saved results.

use crate::rows::Row;
use crate::side::{fenced_and_bare, parts, Costs, Part, ACTS};
use crate::time::{least, RowTimes, Times};

/// What was measured of a row: times in each layout, and instructions.
pub struct Measured<'r> {
    pub row: &'r Row,
    pub layouts: Vec<RowTimes>,
    pub counts: Option<Costs>,
}

impl<'r> Measured<'r> {
    /// The library beside the second.
    pub fn lines(&self) -> Vec<Line<'r>> {
        let sides = self.compared(|times| times.sides, self.counts);
        parts().map(|part| sides.line(part)).collect()
    }

    /// The library's fenced run beside its bare one.
    pub fn fenced_lines(&self) -> [Line<'r>; 2] {
        let counts = self.counts.map(|[library, _]| fenced_and_bare(library));
        let runs = self.compared(|times| times.bare, counts);
        FENCED.map(|part| runs.line(part))
    }

    fn compared(&self, of: fn(&RowTimes) -> Times, counts: Option<Costs>) -> Compared<'r> {
        Compared {
            row: self.row,
            layouts: self.layouts.iter().map(of).collect(),
            counts,
        }
    }
}

/// What was measured of the two sides that a table compares.
struct Compared<'r> {
    row: &'r Row,
    layouts: Vec<Times>,
    counts: Option<Costs>,
}

/// Of both sides.
type Pair = [f64; 2];

fn quotient([a, b]: Pair) -> f64 {
    a / b
}

/// One line of a table.
pub struct Line<'r> {
    row: &'r Row,
    part: Part,
    /// Mean over the layouts.
    ns: Pair,
    /// One side / the other in time: geometric mean, least and greatest of the
    /// layouts.
    ratio: f64,
    range: [f64; 2],
    /// The best rounds of any layout.
    best: Pair,
    instructions: Option<Pair>,
}

impl<'r> Compared<'r> {
    fn line(&self, part: Part) -> Line<'r> {
        let ratios = self.over_layouts(|times| times.ratios[part as usize]);
        Line {
            row: self.row,
            part,
            ns: part.of(self.each_cost(|times| times.median, |costs| mean(&costs))),
            ratio: geometric_mean(&ratios),
            range: [
                ratios.iter().copied().fold(f64::MAX, f64::min),
                ratios.iter().copied().fold(f64::MIN, f64::max),
            ],
            best: part.of(self.each_cost(|times| times.best, least)),
            instructions: self.counts.map(|counts| part.of(counts)),
        }
    }

    fn over_layouts(&self, of: impl Fn(&Times) -> f64) -> Vec<f64> {
        self.layouts.iter().map(of).collect()
    }

    /// One number for all layouts, for each side and act.
    fn each_cost(&self, costs: fn(&Times) -> Costs, one: fn(Vec<f64>) -> f64) -> Costs {
        let each =
            |side: usize, act: usize| one(self.over_layouts(|times| costs(times)[side][act]));
        [0, 1].map(|side| ACTS.map(|act| each(side, act as usize)))
    }
}

fn mean(numbers: &[f64]) -> f64 {
    numbers.iter().sum::<f64>() / numbers.len() as f64
}

fn geometric_mean(ratios: &[f64]) -> f64 {
    let logarithms: Vec<f64> = ratios.iter().map(|ratio| ratio.ln()).collect();
    mean(&logarithms).exp()
}

/// How many letters there is room for in the name of a row.
const NAME: usize = 28;

pub const SIDES: [&str; 2] = ["library", "second"];
const RUNS: [&str; 2] = ["fenced", "bare"];

/// Heads of a table's columns.
pub fn heading([a, b]: [&str; 2]) -> String {
    let sides = format!("|{a:>10}{b:>10}  ratio ");
    let a_node = format!("|{a:>9}{b:>9} ");
    let first = format!(
        "{:<NAME$}{:>6} {:<8}| {:<48}| {:<18}| {:<27}| {:<18}",
        "row", "nodes", "act", "ns a call", "ns a node", "instructions a call", "instr. a node"
    );
    let before = NAME + 15;
    let second = format!(
        "{:<before$}{sides} in layouts   best  {a_node}{sides}{a_node}",
        ""
    );
    format!("{first}\n{second}\n{}", "-".repeat(second.len()))
}

pub fn text(line: &Line) -> String {
    let Line { row, part, .. } = line;
    let nodes = row.nodes;
    let [low, high] = line.range;
    let range = format!("{low:.2} to {high:.2}");
    let instructions = match line.instructions {
        Some(pair) => sides_text(pair, quotient(pair)) + &a_node_text(pair, nodes),
        None => "| not counted".into(),
    };
    format!(
        "{:<NAME$}{nodes:>6.0} {:<8}{} {range:<13}{:>5.2}  {}{instructions}",
        row.name,
        part.name(),
        sides_text(line.ns, line.ratio),
        quotient(line.best),
        a_node_text(line.ns, nodes)
    )
}

fn sides_text([a, b]: Pair, ratio: f64) -> String {
    format!("|{a:>10.1}{b:>10.1}{ratio:>7.2} ")
}

fn a_node_text(pair: Pair, nodes: f64) -> String {
    let [a, b] = pair.map(|cost| match nodes > 0.0 {
        true => format!("{:.2}", cost / nodes),
        false => "-".into(),
    });
    format!("|{a:>9}{b:>9} ")
}

/// A number of a line, where it was measured.
type Quantity<T> = fn(&Line) -> Option<T>;

const RATIOS: [(&str, Quantity<f64>); 3] = [
    ("time", |line| Some(line.ratio)),
    ("best rounds", |line| Some(quotient(line.best))),
    ("instructions", |line| line.instructions.map(quotient)),
];

const COSTS: [(&str, Quantity<Pair>); 3] = [
    ("ns", |line| Some(line.ns)),
    ("ns, best rounds", |line| Some(line.best)),
    ("instructions", |line| line.instructions),
];

/// Mean ratios over all shapes that have nodes, what a node more costs, what a
/// word copied costs, and what explaining costs beside the call.
pub fn summary(lines: &[Line]) -> String {
    let costs = COSTS.map(|(name, quantity)| {
        summary_line(name, parts(), |part| {
            let [library, second] = node_more(lines, part, quantity)?;
            Some(format!("{library:.2} and {second:.2}"))
        })
    });
    format!(
        "Ratio, geometric mean over {SHAPES}:\n{}\
         Cost of a node more, from the first to the last row of 'growth', library and second:\n{}{}{}",
        mean_ratios(lines, parts, of_shapes),
        costs.concat(),
        copying(lines).unwrap_or_default(),
        explaining(lines).unwrap_or_default()
    )
}

/// What a word copied costs, for each row with copies.
fn copying(lines: &[Line]) -> Option<String> {
    let lines = lines.iter().filter(|line| line.part == Part::Run);
    let mut without = None;
    let mut text = String::from(
        "Cost of a word copied: run less the run of the row without copies before it, by the words; \
         library and second, ratio:\n",
    );
    for line in lines.filter(|line| line.row.about_copies()) {
        match line.row.copied > 0.0 {
            true => text += &a_word(line, without?),
            false => without = Some(line),
        }
    }
    without.map(|_| text)
}

fn a_word(line: &Line, without: &Line) -> String {
    let cells = COSTS.map(|(name, quantity)| {
        let pair = quantity(line).zip(quantity(without));
        let cell = pair.map_or("not counted".into(), |(with, without)| {
            let [library, second] =
                [0, 1].map(|side| (with[side] - without[side]) / line.row.copied);
            let ratio = library / second;
            format!("{library:.3} and {second:.3}, {ratio:.2}")
        });
        format!("  {name} {cell:<24}")
    });
    format!("  {:<18}{}\n", line.row.name, cells.concat().trim_end())
}

/// The greatest ratio of explain to call, of either side. None where
/// instructions are not counted or the library can't explain.
fn explaining(lines: &[Line]) -> Option<String> {
    let of = |part| {
        let lines = lines.iter().filter(move |line| line.part == part);
        lines.filter(|line| !line.row.aborts())
    };
    let mut greatest = [(0.0, ""); 2];
    for (call, explain) in of(Part::Call).zip(of(Part::Explain)) {
        let (calls, explains) = (call.instructions?, explain.instructions?);
        for side in [0, 1] {
            let ratio = explains[side] / calls[side];
            if ratio > greatest[side].0 {
                greatest[side] = (ratio, &call.row.name);
            }
        }
    }
    let [library, second] = greatest.map(|(ratio, row)| format!("{ratio:.3} ({row})"));
    (greatest[0].0 > 0.0).then(|| {
        format!(
            "Explain / call of the same side, instructions, greatest of the rows that don't abort:\n  \
             library {library}  second {second}\n"
        )
    })
}

/// The parts that the fenced run and the bare one are compared in.
const FENCED: [Part; 2] = [Part::Call, Part::Run];

/// The library's fenced run beside its bare one: a table of its own, with the
/// mean ratios over all shapes that have nodes, and over all rows.
pub fn beside_bare(lines: &[Line]) -> String {
    let rows: Vec<String> = lines.iter().map(text).collect();
    let means = |rows| mean_ratios(lines, || FENCED.into_iter(), rows);
    format!(
        "Fenced / bare: the library's run with bounds beside its run without, measured as above.\n\
         Both are interpretation: a bare run reads the table too, and is no compiled routine.\n\
         run: whole call less check, of both\n\n{}\n{}\n\n\
         Fenced / bare, geometric mean over {SHAPES}:\n{}\
         Over all rows:\n{}",
        heading(RUNS),
        rows.join("\n"),
        means(of_shapes),
        means(|_| true)
    )
}

/// A line for each kind of ratio, with the means over some of the rows.
fn mean_ratios<P: Iterator<Item = Part>>(
    lines: &[Line],
    parts: impl Fn() -> P,
    rows: fn(&Row) -> bool,
) -> String {
    let lines = RATIOS.map(|(name, quantity)| {
        summary_line(name, parts(), |part| {
            let lines = lines.iter().filter(|line| line.part == part);
            let lines = lines.filter(|line| rows(line.row));
            let ratios: Option<Vec<f64>> = lines.map(quantity).collect();
            Some(format!("{:.2}", geometric_mean(&ratios?)))
        })
    });
    lines.concat()
}

const SHAPES: &str = "the rows before 'registers' that have nodes";

fn of_shapes(row: &Row) -> bool {
    row.group == "shape" && row.nodes > 0.0
}

fn summary_line(
    name: &str,
    parts: impl Iterator<Item = Part>,
    cell: impl Fn(Part) -> Option<String>,
) -> String {
    let cells = parts.map(|part| {
        let cell = cell(part).unwrap_or("not counted".into());
        format!("  {} {cell:<16}", part.name())
    });
    let cells: String = cells.collect();
    format!("  {name:<16}{}\n", cells.trim_end())
}

fn node_more(lines: &[Line], part: Part, quantity: Quantity<Pair>) -> Option<Pair> {
    let lines = lines.iter().filter(|line| line.part == part);
    let mut lines = lines.filter(|line| line.row.group == "growth");
    let (first, last) = (lines.next()?, lines.next_back()?);
    let (low, high) = (quantity(first)?, quantity(last)?);
    let nodes = last.row.nodes - first.row.nodes;
    Some([0, 1].map(|side| (high[side] - low[side]) / nodes))
}

pub const SAVED_HEADING: &str =
    "group,row,nodes,commands,table_words,memory_words,copied_words,act,\
library_ns,second_ns,ratio,lowest_ratio,highest_ratio,library_best_ns,second_best_ns,\
library_instructions,second_instructions\n";

/// A line of the saved results; all costs a call.
pub fn saved(line: &Line) -> String {
    let Line { row, part, .. } = line;
    let numbers = |pair: Pair| format!("{:.3},{:.3}", pair[0], pair[1]);
    format!(
        "{},\"{}\",{},{},{},{},{},{},{},{:.3},{},{},{}\n",
        row.group,
        row.name,
        row.nodes,
        row.commands,
        row.words,
        row.memory,
        row.copied,
        part.name(),
        numbers(line.ns),
        line.ratio,
        numbers(line.range),
        numbers(line.best),
        line.instructions.map_or(",".into(), numbers),
    )
}
