//! Instructions, counted by callgrind. Their number does not depend on what
//! else the machine does.

use crate::rows::Row;
use crate::side::{acts, Act, ActCosts, Side};
use std::process::{Command, Stdio};

/// Calls in the shorter of two runs, and how many the longer has more.
pub struct Plan {
    pub few: usize,
    pub more: usize,
}

/// The C library clears long lists, and copies them, by one repeated
/// instruction, which callgrind counts once a byte. This makes it use loops of
/// vector loads and stores.
const NO_REPEATED_STORES: [&str; 2] = [
    "GLIBC_TUNABLES",
    "glibc.cpu.x86_rep_stosb_threshold=1073741824:glibc.cpu.x86_rep_movsb_threshold=1073741824",
];

/// Whether there is a valgrind to count with.
pub fn available() -> bool {
    Command::new("valgrind")
        .arg("--version")
        .stdout(Stdio::null())
        .status()
        .is_ok_and(|status| status.success())
}

/// Instructions a call of one side, by act.
pub fn measure(side: Side, row: &Row, plan: &Plan) -> Result<ActCosts, String> {
    let mut costs = ActCosts::default();
    for act in acts() {
        costs[act as usize] = a_call(side, act, row, plan)?;
    }
    Ok(costs)
}

/// What the calls more cost more: the start of the program drops out. They go
/// over each case equally often.
fn a_call(side: Side, act: Act, row: &Row, plan: &Plan) -> Result<f64, String> {
    let more = plan.more.next_multiple_of(row.cases.len());
    let low = collected(side, act, row, plan.few)?;
    let high = collected(side, act, row, plan.few + more)?;
    Ok((high as f64 - low as f64) / more as f64)
}

/// The instructions of one run of this program that has only these calls.
fn collected(side: Side, act: Act, row: &Row, calls: usize) -> Result<u64, String> {
    let program = std::env::current_exe().map_err(|error| error.to_string())?;
    let [tunable, setting] = NO_REPEATED_STORES;
    let output = Command::new("valgrind")
        .args(["--tool=callgrind", "--callgrind-out-file=/dev/null"])
        .arg(program)
        .args(["spin", side.name(), act.name(), &row.name])
        .arg(calls.to_string())
        .env(tunable, setting)
        .output()
        .map_err(|error| format!("valgrind: {error}"))?;
    let text = String::from_utf8_lossy(&output.stderr);
    let count = text
        .lines()
        .find_map(|line| line.split_once("Collected : "))
        .and_then(|(_, count)| count.trim().parse().ok());
    // A crash is counted too, but says nothing of the calls.
    let count = count.filter(|_| output.status.success());
    count.ok_or_else(|| format!("callgrind on row '{}': {text}", row.name))
}
