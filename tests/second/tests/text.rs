//! The line format of CASES.md.

use second::text::Answerer;

fn answer(line: &str) -> String {
    let mut out = Vec::new();
    Answerer::default().answer(line.as_bytes(), &mut out);
    let text = String::from_utf8(out).unwrap();
    text.strip_suffix('\n').expect("a line").to_string()
}

#[test]
fn endings() {
    assert_eq!(answer("0 0 1 1 1 0 0 1 0 6 0 0 0 0 0 0"), "done 1 ; -");
    assert_eq!(answer("1 0 1 1 1 0 0 1 0 6 0 0 0 0 0 0"), "pass");
    assert_eq!(answer("0 0 0 0 0 0 0 1 0 6 0 0 0 0 0 0"), "refused 10 0");
    assert_eq!(answer("1 0 0 0 0 0 0 1 0 1 33"), "refused 3 0");
    assert_eq!(answer("1 0 0 0 0 0 0 1 0 1 4294967295"), "refused 1 1");
    assert_eq!(answer("1 0 0 0 0 0 0 0 2 4294967295 3"), "refused 16 1");
    assert_eq!(answer("1 0 0 0 0 0 0 0 8 4294967295 2 0 0 0 0 0 0"), "pass");
    let m = "0 0 L L L 0 1 0 1 0 22 0 0 1 0 1 2 4 1 0 0 4 2 0 10 1 0 8 2 2 1 0 3";
    assert_eq!(answer(&m.replace('L', "5")), "done 4 ; 2:2:4 0:0:0 0:0:0");
    assert_eq!(answer(&m.replace('L', "3")), "noroom 0 2 ; 0:0:0");
    // `*(int*)0 = 1`
    let forged = "0 0 3 3 3 0 0 1 0 21 0 0 1 0 0 4 4 0 0 8 0 2 2 1 0 4 1 0 1 2 3";
    assert_eq!(answer(forged), "abort 0 1 ; -");
}

#[test]
fn explanations() {
    assert_eq!(
        answer("2 0 1 1 1 0 0 1 0 6 0 0 0 0 0 0"),
        "done 1 ; - ; none"
    );
    assert_eq!(answer("2 0 0 0 0 0 0 1 0 6 0 0 0 0 0 0"), "refused 10 0");
    assert_eq!(answer("2 0 0 0 0 0 0 1 0 1 33"), "refused 3 0");
    let m = "2 0 3 3 3 0 1 0 1 0 22 0 0 1 0 1 2 4 1 0 0 4 2 0 10 1 0 8 2 2 1 0 3";
    assert_eq!(answer(m), "noroom 0 2 ; 0:0:0 ; none");
    // `*(int*)0 = 1`
    let forged = "2 0 3 3 3 0 0 1 0 21 0 0 1 0 0 4 4 0 0 8 0 2 2 1 0 4 1 0 1 2 3";
    assert_eq!(answer(forged), "abort 0 1 ; - ; 2 0 1 0 0 1 0");
    // `(p + 4294967295)->second = 1`: a record of fields of 3 words and of 1,
    // and p at a register of two words.
    let above = "2 0 4 4 4 0 1 0 5 1 0 2 8 9 \
        33 1 2 2 0 3 0 1 1 65536 1 2 6 1 0 0 6 0 0 4 4294967295 0 5 1 2 3 3 1 4 1 0 1 4 5";
    assert_eq!(
        answer(above),
        "abort 0 4 ; 2:2:4 8:0:0 9:0:0 ; 4 4294967297 1 2 4 3 2"
    );
}

#[test]
fn bare_runs() {
    assert_eq!(answer("3 0 1 1 1 0 0 1 0 6 0 0 0 0 0 0"), "done 1 ; -");
    assert_eq!(answer("3 0 0 1 1 0 0 1 0 6 0 0 0 0 0 0"), "refused 10 0");
    assert_eq!(answer("3 0 1 1 1 0 0 1 0 1 33"), "refused 3 0");
    let m = "3 0 L 5 5 0 1 0 1 0 22 0 0 1 0 1 2 4 1 0 0 4 2 0 10 1 0 8 2 2 1 0 3";
    assert_eq!(answer(&m.replace('L', "5")), "done 4 ; 2");
    assert_eq!(answer(&m.replace('L', "3")), "noroom 0 2 ; -");
    // `*(int*)n = 1`, in four words: those from U on are shown too.
    let forged = "3 0 4 4 4 0 0 1 0 21 0 0 1 0 0 4 4 N 0 8 0 2 2 1 0 4 1 0 1 2 3";
    assert_eq!(answer(&forged.replace('N', "0")), "stuck 0 1 ; -");
    assert_eq!(answer(&forged.replace('N', "2")), "done 1 ; 0 1");
    assert_eq!(answer(&forged.replace('N', "3")), "done 1 ; 0 0 1");
    assert_eq!(answer(&forged.replace('N', "4")), "stuck 0 1 ; -");
    // One input, and a register: `*(int*)9 = 1`, in five words.
    let stuck = "3 0 5 5 5 0 2 0 6 4 1 0 1 8 \
        23 0 0 1 0 2 2 0 4 4 9 0 8 0 2 2 1 0 4 1 0 1 2 3";
    assert_eq!(answer(stuck), "stuck 0 4 ; 3 6 8");
}

/// LB and LE say nothing of a bare run, but are limited as ever.
#[test]
fn lists_that_a_bare_run_has_not() {
    let line = |lists: &str| answer(&format!("3 0 {lists} 0 0 1 0 6 0 0 0 0 0 0"));
    for lists in ["1 0 0", "1 2 3", "1 65537 0", "1 0 65537"] {
        assert_eq!(line(lists), "done 1 ; -");
    }
    for lists in ["0 1 1", "65537 1 1", "65537 65537 65537"] {
        assert_eq!(line(lists), "refused 10 0");
    }
    for lists in ["1 65538 1", "1 1 65538"] {
        assert_eq!(line(lists), "case");
    }
}

#[test]
fn registers() {
    // One variable, pointer to void, and no commands.
    let line = |list: &str| answer(&format!("0 0 5 5 5 0 1 0 {list} 7 0 0 0 1 1 0 0"));
    assert_eq!(line("1 0"), "done 2 ; 0:0:0");
    assert_eq!(line("5 1 0 2 8 9"), "done 4 ; 2:2:4 8:0:0 9:0:0");
    assert_eq!(line("0"), "refused 13 0");
    assert_eq!(line("3 1 0 4294967295"), "refused 13 3");
    assert_eq!(line("3 1 1 0"), "refused 14 1");
    assert_eq!(line("7 1 0 4 8 8 8 8"), "refused 15 2");
    // The check alone takes no notice of the list.
    assert_eq!(answer("1 0 5 5 5 0 1 0 0 7 0 0 0 1 1 0 0"), "pass");
}

#[test]
fn lists_at_their_most() {
    let zeros = "0 ".repeat(100);
    let inputs = format!("0 0 65537 65537 65537 200 100 {zeros}1 0 6 0 0 0 0 0 0");
    assert_eq!(answer(&inputs), "refused 10 0");
    let zeros = "0 ".repeat(70_000);
    let registers = format!("0 0 1 1 1 0 0 70000 {zeros}6 0 0 0 0 0 0");
    assert_eq!(answer(&registers), "refused 13 1");
    let table = format!("1 0 0 0 0 0 0 0 4000{}", " 0".repeat(4_000));
    assert_eq!(answer(&table), "refused 2 6");
}

#[test]
fn leading_zeros_are_allowed() {
    let line = "00 0 001 1 00000000000000000001 0 0 01 00 06 0 0 000 0 0 0";
    assert_eq!(answer(line), "done 1 ; -");
}

#[test]
fn no_case() {
    let good = "0 0 1 1 1 0 0 1 0 6 0 0 0 0 0 0";
    let mut wrong: Vec<String> = [
        "",
        " ",
        "x",
        "4 0 1 1 1 0 0 1 0 6 0 0 0 0 0 0",
        "3 1 1 1 1 0 0 1 0 6 0 0 0 0 0 0",
        "2 1 1 1 1 0 0 1 0 6 0 0 0 0 0 0",
        "0 1 1 1 1 0 0 1 0 6 0 0 0 0 0 0",
        "0 0 65538 1 1 0 0 1 0 6 0 0 0 0 0 0",
        "0 0 1 65538 1 0 0 1 0 6 0 0 0 0 0 0",
        "0 0 1 1 65538 0 0 1 0 6 0 0 0 0 0 0",
        "0 0 1 1 1 201 0 1 0 6 0 0 0 0 0 0",
        "0 0 1 1 1 0 0 2 0 6 0 0 0 0 0 0",
        "0 0 1 1 1 0 0 1 0 5 0 0 0 0 0 0",
        "0 0 1 1 1 0 0 1 0 7 0 0 0 0 0 0",
        "0 0 1 1 1 0 0 1 0 6 0 0 0 0 0 4294967296",
        "0 0 1 1 1 0 0 1 0 6 0 0 0 0 0 99999999999999999999999",
        "0 0 1 1 1 0 0 1 0 6 0 0 0 0 0 -1",
        "0 0 1 1 1 0 0 1 0 6 0 0 0 0 0 +1",
        "0 0 1 1 1 0 0 1 0 6 0 0  0 0 0 0",
        "0 0 1 1 1 0 0 1 0 6 0 0\t0 0 0 0",
        "0 0 1 1 1 0 0 4",
        "0 0 1 1 1 0 0 1 0",
        "0 0 1 1 1 0 1 0 6 0 0 0 0 0 0",
    ]
    .map(String::from)
    .to_vec();
    wrong.extend([" ", "\r", " 0", "x"].map(|end| format!("{good}{end}")));
    wrong.push(format!(" {good}"));
    let zeros = |count| " 0".repeat(count);
    wrong.push(format!("1 0 0 0 0 0 101{} 0 0", zeros(101)));
    wrong.push(format!("1 0 0 0 0 0 0 70001{} 0", zeros(70_001)));
    wrong.push(format!("1 0 0 0 0 0 0 0 4001{}", zeros(4_001)));
    for line in wrong {
        assert_eq!(answer(&line), "case", "{line}");
    }
    assert_ne!(answer(good), "case");
}
