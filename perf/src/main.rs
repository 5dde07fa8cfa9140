//! What the proved library costs beside the second implementation, on the
//! same cases in one run.
//!
//! `perf report FILE [--quick] PROGRAM...` verifies, measures, prints and
//! saves. The programs are this one, linked in several orders. It runs each
//! as `PROGRAM time [--quick]` to take times, and itself as
//! `perf spin SIDE ACT ROW CALLS` under callgrind to count instructions.
//! `perf count` verifies and prints the library's instructions alone.

mod count;
mod library;
mod report;
mod routine;
mod rows;
mod side;
mod time;
mod verify;
mod workload;

use report::{Line, Measured};
use rows::Row;
use side::{acts, parts, repeat, Costs, Lists, Side, SIDES};
use std::process::{Command, ExitCode};
use std::time::Duration;
use time::RowTimes;

const USAGE: &str = "usage: perf report FILE [--quick] PROGRAM... | perf time [--quick] | \
perf spin SIDE ACT ROW CALLS | perf count";

fn main() -> ExitCode {
    let words: Vec<String> = std::env::args().skip(1).collect();
    let words: Vec<&str> = words.iter().map(String::as_str).collect();
    let result = match words[..] {
        ["report", file, "--quick", ref programs @ ..] => report(file, true, programs),
        ["report", file, ref programs @ ..] => report(file, false, programs),
        ["time", "--quick"] => take_times(true),
        ["time"] => take_times(false),
        ["spin", side, act, row, calls] => spin(side, act, row, calls),
        ["count"] => count_library(),
        _ => Err(USAGE.into()),
    };
    match result {
        Ok(()) => ExitCode::SUCCESS,
        Err(fault) => {
            eprintln!("perf: {fault}");
            ExitCode::FAILURE
        }
    }
}

fn time_plan(quick: bool) -> time::Plan {
    let (rounds, micros) = if quick { (4, 100) } else { (10, 200) };
    time::Plan {
        passes: 3,
        rounds,
        slice: Duration::from_micros(micros),
    }
}

/// None where there is nothing to count with.
fn count_plan(quick: bool) -> Option<count::Plan> {
    let (few, more) = if quick { (10, 100) } else { (100, 1_000) };
    count::available().then_some(count::Plan { few, more })
}

fn report(file: &str, quick: bool, programs: &[&str]) -> Result<(), String> {
    if programs.is_empty() {
        return Err(USAGE.into());
    }
    let rows = rows::all(quick);
    verify::rows(&rows)?;
    let cases: usize = rows.iter().map(|row| row.cases.len()).sum();
    println!("{cases} tables: both sides give the same verdicts, answers and memories.");
    if library::RUNS_BARE {
        println!("Bare runs end as the fenced ones that do not abort, with the same values.");
    }
    let count_plan = count_plan(quick);
    let how = how_measured(&time_plan(quick), count_plan.as_ref(), programs.len());
    println!("\n{how}\n{}", report::heading(report::SIDES));

    let layouts: Result<Vec<_>, _> = programs
        .iter()
        .map(|program| times_of(program, quick, &rows))
        .collect();
    let layouts = layouts?;
    let mut all = Vec::new();
    for (i, row) in rows.iter().enumerate() {
        let layouts = layouts.iter().map(|times| times[i]).collect();
        all.push(measured(row, layouts, count_plan.as_ref())?);
    }
    let lines: Vec<Line> = all.iter().flat_map(Measured::lines).collect();
    println!("\n{}", report::summary(&lines));
    if library::RUNS_BARE {
        let lines: Vec<Line> = all.iter().flat_map(Measured::fenced_lines).collect();
        println!("{}", report::beside_bare(&lines));
    }
    save(file, &how, &lines)
}

/// Counts a row's instructions and prints its lines.
fn measured<'r>(
    row: &'r Row,
    layouts: Vec<RowTimes>,
    plan: Option<&count::Plan>,
) -> Result<Measured<'r>, String> {
    let counts = plan.map(|plan| both_sides(row, plan));
    let measured = Measured {
        row,
        layouts,
        counts: counts.transpose()?,
    };
    for line in measured.lines() {
        println!("{}", report::text(&line));
    }
    Ok(measured)
}

fn both_sides(row: &Row, plan: &count::Plan) -> Result<Costs, String> {
    let [library, second] = SIDES.map(|side| count::measure(side, row, plan));
    Ok([library?, second?])
}

/// How the numbers are got.
fn how_measured(time: &time::Plan, count: Option<&count::Plan>, layouts: usize) -> String {
    let rounds = time.passes * time.rounds;
    let counted = match count {
        Some(plan) => format!("callgrind, what {} calls more cost more", plan.more),
        None => "not counted, as there is no valgrind".into(),
    };
    let explained = match library::EXPLAINS {
        true => "whole call that tells why the run aborted; in the rows 'abort' it did",
        false => "left out, as there is no mavistable_explain",
    };
    let bare = match library::RUNS_BARE {
        true => "whole call of the run without bounds, which has one list",
        false => "left out, as there is no mavistable_run_bare",
    };
    format!(
        "ns: mean of {layouts} layouts of the code, in each the median of {rounds} rounds, the two sides by turns\n\
         ratio: library / second, below 1 where the library costs less; in time the median of the rounds' ratios\n\
         best: ratio of the best rounds of all layouts\n\
         instructions: {counted}\n\
         run: whole call less check, on both sides; the call clears the three lists\n\
         explain: {explained}\n\
         bare: {bare}\n\
         processor: {}\n",
        processor()
    )
}

fn processor() -> String {
    let text = std::fs::read_to_string("/proc/cpuinfo").unwrap_or_default();
    let mut lines = text.lines().filter_map(|line| line.split_once(": "));
    let model = lines.find(|(key, _)| key.starts_with("model name"));
    model.map_or("not known", |(_, name)| name).to_string()
}

fn save(file: &str, how: &str, lines: &[Line]) -> Result<(), String> {
    let mut text: String = how.lines().map(|line| format!("# {line}\n")).collect();
    text += report::SAVED_HEADING;
    text.extend(lines.iter().map(report::saved));
    std::fs::write(file, text).map_err(|error| format!("{file}: {error}"))
}

/// The times that a program takes, one line a row.
fn times_of(program: &str, quick: bool, rows: &[Row]) -> Result<Vec<RowTimes>, String> {
    let output = Command::new(program)
        .arg("time")
        .args(quick.then_some("--quick"))
        .output()
        .map_err(|error| format!("{program}: {error}"))?;
    let text = String::from_utf8_lossy(&output.stdout);
    let times: Vec<RowTimes> = text.lines().filter_map(RowTimes::from_line).collect();
    match output.status.success() && times.len() == rows.len() {
        true => Ok(times),
        false => Err(format!(
            "{program}: {}",
            String::from_utf8_lossy(&output.stderr)
        )),
    }
}

fn take_times(quick: bool) -> Result<(), String> {
    let rows = rows::all(quick);
    verify::rows(&rows)?;
    for times in time::measure(&rows, &time_plan(quick)) {
        println!("{}", times.to_line());
    }
    Ok(())
}

/// A line for each row and part: group, name, part, instructions, nodes, parted
/// by tabs. A library from before there were copies, or marks, has the one part
/// `refused` in the rows with some, and there what it refuses.
fn count_library() -> Result<(), String> {
    let plan = count_plan(false).ok_or("there is no valgrind to count with")?;
    let (refused, rows): (Vec<Row>, Vec<Row>) = rows::all(false)
        .into_iter()
        .partition(|row| verify::refused(row).is_some());
    verify::rows(&rows)?;
    for row in &rows {
        let costs = count::measure(Side::Library, row, &plan)?;
        for part in parts() {
            let cost = part.of_side(costs);
            let (group, name, part, nodes) = (row.group, &row.name, part.name(), row.nodes);
            println!("{group}\t{name}\t{part}\t{cost:.1}\t{nodes}");
        }
    }
    for row in &refused {
        let what = verify::refused(row).unwrap_or_default();
        println!("{}\t{}\trefused\t{what}", row.group, row.name);
    }
    Ok(())
}

fn spin(side: &str, act: &str, row: &str, calls: &str) -> Result<(), String> {
    let side = SIDES.into_iter().find(|known| known.name() == side);
    let act = acts().find(|known| known.name() == act);
    let (Some(side), Some(act), Some(row), Ok(calls)) =
        (side, act, rows::named(row), calls.parse())
    else {
        return Err(USAGE.into());
    };
    let mut lists = Lists::new(row.memory, 0);
    repeat(side, act, &row, &mut lists, calls);
    Ok(())
}
