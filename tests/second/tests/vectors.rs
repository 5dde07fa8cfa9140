//! The recorded cases, line by line, from the folder that VECTORS names.

mod by_words;
mod plain;

use by_words::by_words;
use second::text::{Answerer, Case};
use std::path::{Path, PathBuf};

fn folder() -> Option<PathBuf> {
    let folder = std::env::var_os("VECTORS").map(PathBuf::from);
    if folder.is_none() {
        println!("VECTORS names no folder: the recorded cases are left out");
    }
    folder
}

/// Answers the cases of a name, each as `change` makes it; of a hundred, five
/// at most may be left out.
fn agree(folder: &Path, name: &str, change: fn(&[u8]) -> Option<Vec<u8>>) {
    let read = |ending: &str| {
        let file = format!("{name}.{ending}");
        std::fs::read(folder.join(&file)).expect(&file)
    };
    let (cases, answers) = (read("cases"), read("answers"));
    let (cases, answers) = (lines(&cases), lines(&answers));
    assert_eq!(cases.len(), answers.len());
    let mut answerer = Answerer::default();
    let mut out = Vec::new();
    let mut compared = 0;
    for (i, (case, expected)) in cases.iter().zip(&answers).enumerate() {
        let Some(case) = change(case) else {
            continue;
        };
        out.clear();
        answerer.answer(&case, &mut out);
        let answer = String::from_utf8_lossy(&out);
        let expected = String::from_utf8_lossy(expected);
        assert_eq!(answer.trim_end(), expected, "{name}, line {}", i + 1);
        compared += 1;
    }
    println!("{compared} of {} cases of {name} agree", cases.len());
    assert!(compared * 100 >= cases.len() * 95);
}

/// Cases recorded before there was a mark are answered as they were with one
/// less for it as the first word: both are counts above their maximum.
fn before_marks(line: &[u8]) -> Case {
    let mut case = Case::default();
    case.read(line).expect("a case");
    if let Some(first) = case.table.first_mut() {
        *first = (*first).min(u32::MAX - 1);
    }
    case
}

/// Cases recorded before there were copies are answered as they were with kind
/// 99 for kind 11: the one was unknown then, and the other still is.
fn before_copies(line: &[u8]) -> Case {
    let mut case = before_marks(line);
    for node in nodes(&mut case.table).chunks_mut(3) {
        if node[0] == 11 {
            node[0] = 99;
        }
    }
    case
}

/// The words of section 5, none where the table ends too soon.
fn nodes(table: &mut [u32]) -> &mut [u32] {
    let mut at = 0;
    for width in [1, 2, 1, 1] {
        let count = table.get(at).map_or(0, |&count| count as usize);
        at += 1 + width * count;
    }
    let end = at + 1 + 3 * table.get(at).map_or(0, |&count| count as usize);
    table.get_mut(at + 1..end).unwrap_or_default()
}

/// Cases recorded before steps by records are answered as they were once each
/// step goes by words too. None where that makes a table too large.
fn before_steps(line: &[u8], change: fn(&mut Case)) -> Option<Vec<u8>> {
    let mut case = before_copies(line);
    change(&mut case);
    by_words(&case)
}

/// The line of a case, without its byte 10.
fn line_of(case: &Case) -> Vec<u8> {
    let mut line = Vec::new();
    case.write(&mut line);
    line.pop();
    line
}

#[test]
fn cases_with_bare_runs_agree() {
    if let Some(folder) = folder() {
        agree(&folder, "cr9", |line| Some(line.to_vec()));
    }
}

#[test]
fn cases_with_editions_agree() {
    if let Some(folder) = folder() {
        agree(&folder, "cr8", |line| Some(line.to_vec()));
    }
}

#[test]
fn cases_with_copies_agree() {
    if let Some(folder) = folder() {
        agree(&folder, "cr6", |line| Some(line_of(&before_marks(line))));
    }
}

#[test]
fn cases_with_explanations_agree() {
    if let Some(folder) = folder() {
        agree(&folder, "cr4", |line| Some(line_of(&before_copies(line))));
    }
}

#[test]
fn cases_with_steps_by_records_agree() {
    if let Some(folder) = folder() {
        agree(&folder, "cr2", |line| Some(line_of(&before_copies(line))));
    }
}

#[test]
fn cases_with_registers_agree_by_words() {
    if let Some(folder) = folder() {
        agree(&folder, "cr1", |line| before_steps(line, |_| ()));
    }
}

/// Those recorded before there were registers have no list, and are answered
/// as they were with the list `0`.
#[test]
fn cases_of_the_base_agree_by_words_with_no_registers() {
    if let Some(folder) = folder() {
        agree(&folder, "base", |line| {
            before_steps(line, |case| case.registers = vec![0])
        });
    }
}

fn lines(text: &[u8]) -> Vec<&[u8]> {
    let mut lines: Vec<&[u8]> = text.split(|&byte| byte == b'\n').collect();
    if lines.last() == Some(&&b""[..]) {
        lines.pop();
    }
    lines
}
