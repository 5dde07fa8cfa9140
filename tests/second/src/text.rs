//! Recorded cases as text: one line in, one line out.
//!
//! Decided where CASES.md is silent:
//! - A number may have leading zeros, any number of them, as in document 01's
//!   bench text. It has no sign and at least one digit.
//! - Nothing stands before the first number or after the last one of a line,
//!   not even a space or a carriage return; an empty line is no case.
//! - Text after the last byte 10 of the input is taken as one more line.
//! - The limits and fixed fields hold for the check alone (CALL 1) too, and
//!   those of LB and LE for the bare run (CALL 3), since a line has to be a case
//!   before any call is made.

use crate::machine::{self, Answer, Explanation, Refusal, Verdict};

const MAX_LIST: u32 = 65_537;
const MAX_BLOCKS: u32 = 200;
const MAX_INPUTS: u32 = 100;
const MAX_REGISTERS: u32 = 70_000;
const MAX_TABLE: u32 = 4_000;
/// Every word of a lent list arrives with this.
const LENT: u32 = 7;

/// The calls with their numbers.
#[derive(Clone, Copy, Debug, Default, PartialEq, Eq)]
#[repr(u32)]
pub enum Call {
    #[default]
    Run = 0,
    Check = 1,
    Explain = 2,
    Bare = 3,
}

/// One case: LIGHT is 0, and LK tells nothing.
#[derive(Clone, Debug, Default, PartialEq, Eq)]
pub struct Case {
    pub call: Call,
    /// Lengths of the lists of values, bases and ends.
    pub lengths: [u32; 3],
    /// LK, read and not used.
    pub blocks: u32,
    pub inputs: Vec<u32>,
    /// The words of the register list, its count included.
    pub registers: Vec<u32>,
    pub table: Vec<u32>,
}

impl Case {
    /// Reads a line without its byte 10 into `self`, whose lists are used
    /// again. None when the line is no case; `self` is then of no meaning.
    pub fn read(&mut self, line: &[u8]) -> Option<()> {
        let mut numbers = Numbers { line, at: 0 };
        self.call = match numbers.first()? {
            0 => Call::Run,
            1 => Call::Check,
            2 => Call::Explain,
            3 => Call::Bare,
            _ => return None,
        };
        numbers.up_to(0)?; // LIGHT
        for length in &mut self.lengths {
            *length = numbers.up_to(MAX_LIST)?;
        }
        self.blocks = numbers.up_to(MAX_BLOCKS)?;
        numbers.list(MAX_INPUTS, &mut self.inputs)?;
        numbers.list(MAX_REGISTERS, &mut self.registers)?;
        numbers.list(MAX_TABLE, &mut self.table)?;
        numbers.finished()
    }

    /// Writes the case as a line with its byte 10.
    pub fn write(&self, out: &mut Vec<u8>) {
        let [values, bases, ends] = self.lengths;
        write_number(out, self.call as u32);
        for number in [0, values, bases, ends, self.blocks] {
            write_next(out, number);
        }
        for list in [&self.inputs, &self.registers, &self.table] {
            write_next(out, list.len() as u32);
            list.iter().for_each(|&word| write_next(out, word));
        }
        out.push(b'\n');
    }
}

/// Reads numbers parted by single spaces.
struct Numbers<'l> {
    line: &'l [u8],
    at: usize,
}

impl Numbers<'_> {
    fn first(&mut self) -> Option<u32> {
        let digits = &self.line[self.at..];
        let mut number = 0u64;
        let mut length = 0;
        for &byte in digits {
            let digit = byte.wrapping_sub(b'0');
            if digit > 9 {
                break;
            }
            number = 10 * number + u64::from(digit);
            if number > u64::from(u32::MAX) {
                return None;
            }
            length += 1;
        }
        self.at += length;
        (length > 0).then_some(number as u32)
    }

    fn next(&mut self) -> Option<u32> {
        if self.line.get(self.at) != Some(&b' ') {
            return None;
        }
        self.at += 1;
        self.first()
    }

    fn up_to(&mut self, maximum: u32) -> Option<u32> {
        self.next().filter(|&number| number <= maximum)
    }

    fn list(&mut self, maximum: u32, words: &mut Vec<u32>) -> Option<()> {
        let count = self.up_to(maximum)?;
        words.clear();
        for _ in 0..count {
            words.push(self.next()?);
        }
        Some(())
    }

    fn finished(&self) -> Option<()> {
        (self.at == self.line.len()).then_some(())
    }
}

/// Answers lines one after the other, with lists used again.
pub struct Answerer {
    case: Case,
    lists: [Vec<u32>; 3],
}

impl Default for Answerer {
    fn default() -> Self {
        let list = || vec![LENT; MAX_LIST as usize];
        Answerer {
            case: Case::default(),
            lists: [list(), list(), list()],
        }
    }
}

impl Answerer {
    /// Appends the answer to a line (without its byte 10) to `out`, as a line.
    pub fn answer(&mut self, line: &[u8], out: &mut Vec<u8>) {
        match self.case.read(line).map(|()| self.case.call) {
            None => out.extend_from_slice(b"case"),
            Some(Call::Check) => self.check(out),
            Some(Call::Run | Call::Explain) => self.run(out),
            Some(Call::Bare) => self.run_bare(out),
        }
        out.push(b'\n');
    }

    fn check(&self, out: &mut Vec<u8>) {
        match machine::check(&self.case.table) {
            Verdict::Pass => out.extend_from_slice(b"pass"),
            Verdict::Refused(refusal) => write_refusal(out, refusal),
        }
    }

    /// The run, explained where the case asks for it.
    fn run(&mut self, out: &mut Vec<u8>) {
        let Case {
            call,
            lengths,
            inputs,
            registers,
            table,
            ..
        } = &self.case;
        let [values, bases, ends] = &mut self.lists;
        let values = lend(values, lengths[0]);
        let bases = lend(bases, lengths[1]);
        let ends = lend(ends, lengths[2]);
        let explained = *call == Call::Explain;
        let (answer, explanation) = match explained {
            true => machine::explain(table, inputs, registers, values, bases, ends),
            false => (
                machine::run(table, inputs, registers, values, bases, ends),
                None,
            ),
        };
        if let Answer::Refused(refusal) = answer {
            write_refused_call(out, refusal, &[values, bases, ends]);
        } else {
            let unused = write_ending(out, answer);
            write_memory(out, unused, [values, bases, ends]);
            if explained {
                write_explanation(out, explanation);
            }
        }
    }

    fn run_bare(&mut self, out: &mut Vec<u8>) {
        let Case {
            lengths,
            inputs,
            registers,
            table,
            ..
        } = &self.case;
        let values = lend(&mut self.lists[0], lengths[0]);
        let answer = machine::run_bare(table, inputs, registers, values);
        if let Answer::Refused(refusal) = answer {
            write_refused_call(out, refusal, &[values]);
        } else {
            write_ending(out, answer);
            write_values(out, values);
        }
    }
}

fn lend(list: &mut [u32], length: u32) -> &mut [u32] {
    let lent = &mut list[..length as usize];
    lent.fill(LENT);
    lent
}

fn write_refusal(out: &mut Vec<u8>, refusal: Refusal) {
    out.extend_from_slice(b"refused");
    write_next(out, refusal.number);
    write_next(out, refusal.place as u32);
}

/// A refusal, and whether it left a lent word other than it was.
fn write_refused_call(out: &mut Vec<u8>, refusal: Refusal, lent: &[&mut [u32]]) {
    write_refusal(out, refusal);
    if lent.iter().any(|list| list.iter().any(|&w| w != LENT)) {
        out.extend_from_slice(b" changed");
    }
}

/// Writes the ending of a begun run and gives back U.
fn write_ending(out: &mut Vec<u8>, answer: Answer) -> u32 {
    let (word, command, unused): (&[u8], _, _) = match answer {
        Answer::Refused(refusal) => unreachable!("no run was begun: {refusal:?}"),
        Answer::Done { unused } => (b"done", None, unused),
        Answer::Abort { command, unused } => (b"abort", Some(command), unused),
        Answer::NoRoom { command, unused } => (b"noroom", Some(command), unused),
        Answer::Stuck { command, unused } => (b"stuck", Some(command), unused),
    };
    out.extend_from_slice(word);
    if let Some(command) = command {
        write_next(out, command);
    }
    write_next(out, unused);
    unused
}

/// Words 1 to U - 1 as value:base:end, or `-` where there is none.
fn write_memory(out: &mut Vec<u8>, unused: u32, [values, bases, ends]: [&mut [u32]; 3]) {
    out.extend_from_slice(b" ;");
    if unused == 1 {
        out.extend_from_slice(b" -");
    }
    for word in 1..unused as usize {
        write_next(out, values[word]);
        out.push(b':');
        write_number(out, bases[word]);
        out.push(b':');
        write_number(out, ends[word]);
    }
}

/// Values from word 1 to the last that is not 0, or `-` where all are.
fn write_values(out: &mut Vec<u8>, values: &[u32]) {
    out.extend_from_slice(b" ;");
    let last = values.iter().rposition(|&value| value != 0).unwrap_or(0);
    if last == 0 {
        out.extend_from_slice(b" -");
    }
    for &value in &values[1..=last] {
        write_next(out, value);
    }
}

/// Why the run aborted, or that it did not.
fn write_explanation(out: &mut Vec<u8>, explanation: Option<Explanation>) {
    out.extend_from_slice(b" ;");
    let Some(told) = explanation else {
        out.extend_from_slice(b" none");
        return;
    };
    write_next(out, told.node);
    write_next(out, told.place);
    for number in [told.words, told.base, told.end] {
        write_next(out, number);
    }
    write_next(out, told.reason as u32);
    write_next(out, told.first);
}

fn write_next(out: &mut Vec<u8>, number: impl Into<u64>) {
    out.push(b' ');
    write_number(out, number);
}

fn write_number(out: &mut Vec<u8>, number: impl Into<u64>) {
    let mut number: u64 = number.into();
    if number < 10 {
        out.push(b'0' + number as u8);
        return;
    }
    let mut digits = [0u8; 20];
    let mut first = digits.len();
    while number > 0 {
        first -= 1;
        digits[first] = b'0' + (number % 10) as u8;
        number /= 10;
    }
    out.extend_from_slice(&digits[first..]);
}
