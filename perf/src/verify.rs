//! Both sides must agree on every case before anything is measured.

use crate::library::{Answer, EXPLAINS, RUNS_BARE};
use crate::routine::MARK;
use crate::rows::{Case, Row};
use crate::side::{bare, call, check, explain, Lists, Side, SIDES};
use second::machine::kind;
use std::fmt::Debug;

/// Lists are lent full of such words, so that a call that clears too little
/// is found out.
const SOIL: u32 = 0xdead_beef;

pub fn rows(rows: &[Row]) -> Result<(), String> {
    for row in rows {
        for (i, case) in row.cases.iter().enumerate() {
            agrees(case, row).map_err(|fault| format!("row '{}', table {i}: {fault}", row.name))?;
        }
    }
    Ok(())
}

/// What a library refuses a row's tables for that was built before there was
/// such a thing: the kind word of a copy, or the mark of edition 2.
pub fn refused(row: &Row) -> Option<&'static str> {
    row.cases.iter().find_map(|case| {
        let verdict = check(Side::Library, case);
        match (verdict.number, case.table.get(verdict.place)) {
            (7, Some(&kind::COPY)) => Some("kind 11"),
            (3, Some(&MARK)) => Some("edition 2"),
            _ => None,
        }
    })
}

fn agrees(case: &Case, row: &Row) -> Result<(), String> {
    let verdict = same("verdicts", SIDES.map(|side| check(side, case)))?;
    if !verdict.passes() {
        return Err(format!("the table is refused: {verdict:?}"));
    }
    let (answer, lists) = ended(row, |side, lists| call(side, case, lists))?;
    let expected = match row.aborts() {
        true => answer.is_abort(),
        false => answer.is_done(),
    };
    if !expected {
        return Err(format!("another ending is expected: {answer:?}"));
    }
    if EXPLAINS {
        explains(case, row, &lists)?;
    }
    if RUNS_BARE {
        runs_bare(case, row, answer, &lists)?;
    }
    Ok(())
}

fn explains(case: &Case, row: &Row, lists: &Lists) -> Result<(), String> {
    let (_, after) = ended(row, |side, lists| explain(side, case, lists))?;
    match after == *lists {
        true => Ok(()),
        false => Err("the explaining call leaves another memory".into()),
    }
}

/// A bare run ends as the fenced one does, unless that aborts.
fn runs_bare(case: &Case, row: &Row, fenced: Answer, lists: &Lists) -> Result<(), String> {
    let (answer, after) = ended(row, |side, lists| bare(side, case, lists))?;
    if fenced.is_abort() {
        return Ok(());
    }
    if answer != fenced {
        return Err(format!("fenced and bare differ: {fenced:?}, {answer:?}"));
    }
    match after.values == lists.values {
        true => Ok(()),
        false => Err("the bare run leaves other values".into()),
    }
}

/// What both sides answer and leave in lists full of rubbish.
fn ended<T: Debug + PartialEq>(
    row: &Row,
    act: impl Fn(Side, &mut Lists) -> T,
) -> Result<(T, Lists), String> {
    let mut lists = SIDES.map(|_| Lists::new(row.memory, SOIL));
    let [of_library, of_second] = &mut lists;
    let answers = [act(Side::Library, of_library), act(Side::Second, of_second)];
    let answer = same("answers", answers)?;
    let [of_library, of_second] = lists;
    if of_library != of_second {
        return Err("memories differ".into());
    }
    Ok((answer, of_library))
}

fn same<T: Debug + PartialEq>(what: &str, [library, second]: [T; 2]) -> Result<T, String> {
    match library == second {
        true => Ok(library),
        false => Err(format!("{what} differ: {library:?}, {second:?}")),
    }
}
