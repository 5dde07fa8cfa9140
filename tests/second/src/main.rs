//! `second answer`: cases from standard input, answers to standard output.
//! `second generate SEED COUNT`: random cases to standard output.
//! `second tally`: answers from standard input, counted by their kind and, where
//! a run was explained, by the reason.

use second::generate;
use second::text::Answerer;
use std::collections::BTreeMap;
use std::io::{self, BufRead, BufReader, Write};
use std::process::ExitCode;

/// Output is gathered up to this many bytes.
const ENOUGH: usize = 1 << 16;

fn main() -> ExitCode {
    let arguments: Vec<String> = std::env::args().skip(1).collect();
    let arguments: Vec<&str> = arguments.iter().map(String::as_str).collect();
    let result = match arguments[..] {
        ["answer"] => answer(),
        ["generate", seed, count] => match (seed.parse(), count.parse()) {
            (Ok(seed), Ok(count)) => generate(seed, count),
            _ => return usage(),
        },
        ["tally"] => tally(),
        _ => return usage(),
    };
    match result {
        Ok(()) => ExitCode::SUCCESS,
        // Whoever reads the output has had enough of it.
        Err(error) if error.kind() == io::ErrorKind::BrokenPipe => ExitCode::SUCCESS,
        Err(error) => {
            eprintln!("second: {error}");
            ExitCode::FAILURE
        }
    }
}

fn usage() -> ExitCode {
    eprintln!("usage: second answer | second generate SEED COUNT | second tally");
    ExitCode::FAILURE
}

/// Calls `f` with each line of standard input, without its byte 10.
fn each_line(mut f: impl FnMut(&[u8]) -> io::Result<()>) -> io::Result<()> {
    let mut input = BufReader::with_capacity(ENOUGH, io::stdin().lock());
    let mut line = Vec::new();
    while input.read_until(b'\n', &mut line)? > 0 {
        f(line.strip_suffix(b"\n").unwrap_or(&line))?;
        line.clear();
    }
    Ok(())
}

fn answer() -> io::Result<()> {
    let mut output = io::stdout().lock();
    let mut answerer = Answerer::default();
    let mut out = Vec::new();
    each_line(|line| {
        answerer.answer(line, &mut out);
        if out.len() >= ENOUGH {
            output.write_all(&out)?;
            out.clear();
        }
        Ok(())
    })?;
    output.write_all(&out)?;
    output.flush()
}

fn generate(seed: u64, count: u64) -> io::Result<()> {
    let mut output = io::stdout().lock();
    let mut out = Vec::new();
    for index in 0..count {
        generate::line(seed, index, &mut out);
        if out.len() >= ENOUGH {
            output.write_all(&out)?;
            out.clear();
        }
    }
    output.write_all(&out)?;
    output.flush()
}

/// How many there are of each name.
type Counts = BTreeMap<String, u64>;

/// Counts answers by their kind, and explanations by their reason.
fn tally() -> io::Result<()> {
    let mut answers = Counts::new();
    let mut explanations = Counts::new();
    each_line(|line| {
        let text = String::from_utf8_lossy(line);
        *answers.entry(kind(&text)).or_default() += 1;
        if let Some(explanation) = text.split(" ; ").nth(2) {
            *explanations.entry(reason(explanation)).or_default() += 1;
        }
        Ok(())
    })?;
    let mut output = io::stdout().lock();
    print(&mut output, &answers, "answers")?;
    print(&mut output, &explanations, "explanations")
}

/// An answer's first word, of refusals with their number, of runs that stopped
/// with whether a command was executed before.
fn kind(answer: &str) -> String {
    let mut words = answer.split(' ');
    let first = words.next().unwrap_or("");
    let second = words.next().unwrap_or("");
    match first {
        "refused" if answer.ends_with("changed") => format!("refused {second:>2} changed"),
        "refused" => format!("refused {second:>2}"),
        "abort" | "noroom" | "stuck" if second == "0" => format!("{first} at command 0"),
        "abort" | "noroom" | "stuck" => format!("{first} later"),
        other => other.to_string(),
    }
}

/// The reason is the last number but one.
fn reason(explanation: &str) -> String {
    match explanation.rsplit(' ').nth(1) {
        Some(reason) => format!("reason {reason}"),
        None => explanation.to_string(),
    }
}

fn print(output: &mut impl Write, counts: &Counts, name: &str) -> io::Result<()> {
    let all: u64 = counts.values().sum();
    for (key, count) in counts {
        let percent = 100.0 * *count as f64 / all as f64;
        writeln!(output, "{count:>9} {percent:5.1}%  {key}")?;
    }
    writeln!(output, "{all:>9} {name}")
}
