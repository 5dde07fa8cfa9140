//! Request 9: where a run with bounds is done or finds no room, the bare run of
//! the same table, inputs, registers and length ends alike.

mod edition;

use edition::{marked, FRONT, MARK};
use second::generate;
use second::machine::{run, run_bare, Answer};
use second::text::Case;

/// So many cases are looked at, of seed 9.
const COUNT: u64 = 10_000;

/// An answer, and the values that are left.
type Ended = (Answer, Vec<u32>);

/// The run with bounds and the bare run, each on lists as long as the case's
/// list of values.
fn both(case: &Case) -> [Ended; 2] {
    let lent = vec![7; case.lengths[0] as usize];
    let [mut values, mut bases, mut ends] = [lent.clone(), lent.clone(), lent];
    let Case {
        table,
        inputs,
        registers,
        ..
    } = case;
    let answer = run(table, inputs, registers, &mut values, &mut bases, &mut ends);
    [(answer, values), bare(case, table)]
}

/// The bare run of a case with another table.
fn bare(case: &Case, table: &[u32]) -> Ended {
    let mut values = vec![7; case.lengths[0] as usize];
    let answer = run_bare(table, &case.inputs, &case.registers, &mut values);
    (answer, values)
}

/// Calls `f` with each case.
fn each(mut f: impl FnMut(&Case)) {
    let mut line = Vec::new();
    let mut case = Case::default();
    for index in 0..COUNT {
        line.clear();
        generate::line(9, index, &mut line);
        let line = line.strip_suffix(b"\n").expect("a line");
        if case.read(line).is_some() {
            f(&case);
        }
    }
}

/// "Prove that for every table, input list, register list and memory length on
/// which the fenced run is done, the bare run is done too and ends with the same
/// U and the same value in each word. A fenced run that finds no room has a bare
/// run that finds none at the same command."
///
/// With no room too, all steps were the same, so U and the words are. One list
/// instead of three equal ones changes no refusal. An abort is nothing that a
/// bare run has: it comes as far, and goes on.
#[test]
fn ends_alike() {
    let [mut done, mut no_room, mut refused, mut aborted] = [0; 4];
    each(|case| {
        let [with_bounds, bare] = both(case);
        match with_bounds.0 {
            Answer::Done { .. } => done += 1,
            Answer::NoRoom { .. } => no_room += 1,
            Answer::Refused(_) => refused += 1,
            Answer::Abort { command, .. } => {
                aborted += 1;
                assert!(goes_as_far(bare.0, command), "{case:?}");
                return;
            }
            Answer::Stuck { .. } => panic!("{case:?}"),
        }
        assert_eq!(with_bounds, bare, "{case:?}");
    });
    println!("{done} done, {no_room} with no room, {refused} refused, {aborted} aborted");
    assert!(done > 1_500 && no_room > 1_000);
    assert!(refused > 2_000 && aborted > 2_000);
}

/// Whether a bare run is done, or stops at this command or later.
fn goes_as_far(answer: Answer, least: u32) -> bool {
    match answer {
        Answer::Done { .. } => true,
        Answer::NoRoom { command, .. } | Answer::Stuck { command, .. } => command >= least,
        Answer::Abort { .. } | Answer::Refused(_) => false,
    }
}

/// "Refused: the run's numbers, with 10 speaking of one list": a call that isn't
/// refused with three lists isn't with the first of them.
#[test]
fn refuses_no_more() {
    let mut alone = 0;
    each(|case| {
        let [mut values, mut bases, mut ends] = case.lengths.map(|length| vec![7; length as usize]);
        let Case {
            table,
            inputs,
            registers,
            ..
        } = case;
        let answer = run(table, inputs, registers, &mut values, &mut bases, &mut ends);
        let (bare, values) = bare(case, table);
        match (answer, bare) {
            (Answer::Refused(_), Answer::Refused(_)) => {
                assert!(values.iter().all(|&word| word == 7), "{case:?}");
            }
            (Answer::Refused(refusal), _) => {
                assert_eq!(refusal.number, 10, "{case:?}");
                alone += 1;
            }
            (_, Answer::Refused(_)) => panic!("{case:?}"),
            _ => {}
        }
    });
    println!("{alone} refused with three lists alone");
    assert!(alone > 200);
}

/// What has no bounds has no editions: sections are run alike with the mark and
/// without it.
#[test]
fn editions_are_alike() {
    let mut begun = 0;
    each(|case| {
        let sections = case.table.strip_prefix(&FRONT).unwrap_or(&case.table);
        if sections.first() == Some(&MARK) {
            return; // Without FRONT this would be another mark.
        }
        let first = bare(case, sections);
        let second = bare(case, &marked(sections));
        match first.0 {
            Answer::Refused(_) => assert!(matches!(second.0, Answer::Refused(_)), "{case:?}"),
            _ => {
                assert_eq!(first, second, "{case:?}");
                begun += 1;
            }
        }
    });
    assert!(begun > 5_000, "{begun}");
}
