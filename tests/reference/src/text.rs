//! Finished lists as OpenQASM 2.0 text.

use crate::machine::{Locations, RECORD_BYTES};
use crate::{listed_instance, listed_run, Listed, Outcome};
use std::fmt::{self, Write};

/// The answer to a call that prints: an outcome and the text's length.
#[derive(Clone, Copy, Debug, PartialEq, Eq)]
pub struct TextOutcome {
    pub number: u32,
    pub place: u32,
    pub records: u64,
    pub steps: u64,
    pub length: u64,
}

impl From<Outcome> for TextOutcome {
    /// The answer of a call that prints nothing.
    fn from(outcome: Outcome) -> TextOutcome {
        TextOutcome {
            number: outcome.number,
            place: outcome.place,
            records: outcome.records,
            steps: outcome.steps,
            length: 0,
        }
    }
}

/// Runs the whole program and prints its list; a list that is not complete has no text.
pub fn run_qasm(program: &[u8], limit: u64, output: &mut [u8]) -> (Outcome, String) {
    let listed = listed_run(program, limit, output);
    printed(listed, output)
}

/// Runs one family at the sizes given and prints its list, as `run_qasm` does.
pub fn instance_qasm(
    program: &[u8],
    family: u32,
    sizes: &[u8],
    limit: u64,
    output: &mut [u8],
) -> (Outcome, String) {
    let listed = listed_instance(program, family, sizes, limit, output);
    printed(listed, output)
}

/// Runs the whole program and prints its list into a text buffer.
pub fn run_text(program: &[u8], limit: u64, output: &mut [u8], text: &mut [u8]) -> TextOutcome {
    let (outcome, printed) = run_qasm(program, limit, output);
    fitted(outcome, &printed, text)
}

/// Runs one family at the sizes given and prints its list into a text buffer.
pub fn instance_text(
    program: &[u8],
    family: u32,
    sizes: &[u8],
    limit: u64,
    output: &mut [u8],
    text: &mut [u8],
) -> TextOutcome {
    let (outcome, printed) = instance_qasm(program, family, sizes, limit, output);
    fitted(outcome, &printed, text)
}

/// A run's answer with its text where the list is complete, else with none.
fn printed(listed: Listed, output: &[u8]) -> (Outcome, String) {
    match listed {
        Ok((outcome, laid_out)) if outcome.number == 0 => {
            let records = &output[..RECORD_BYTES * outcome.records as usize];
            (outcome, print(laid_out, records))
        }
        Ok((outcome, _)) | Err(outcome) => (outcome, String::new()),
    }
}

/// Copies a text to where it is wanted, or turns it down where it does not fit.
fn fitted(outcome: Outcome, printed: &str, text: &mut [u8]) -> TextOutcome {
    let (number, length) = match text.get_mut(..printed.len()) {
        Some(room) => {
            room.copy_from_slice(printed.as_bytes());
            (outcome.number, printed.len())
        }
        None => (30, 0),
    };
    TextOutcome {
        number,
        length: length as u64,
        ..outcome.into()
    }
}

/// The text of a list over the wires and bits laid out.
fn print(laid_out: Locations, records: &[u8]) -> String {
    let mut text = String::new();
    write_list(&mut text, laid_out, records).expect("a string takes every character");
    text
}

/// Writes the header, the registers and a line for each record.
fn write_list(text: &mut String, laid_out: Locations, records: &[u8]) -> fmt::Result {
    writeln!(text, "OPENQASM 2.0;")?;
    writeln!(text, "include \"qelib1.inc\";")?;
    if laid_out.wires > 0 {
        writeln!(text, "qreg q[{}];", laid_out.wires)?;
    }
    for bit in 0..laid_out.bits {
        writeln!(text, "creg c{bit}[1];")?;
    }
    records
        .chunks_exact(RECORD_BYTES)
        .try_for_each(|record| write_record(text, record))
}

/// Writes one record as a line.
fn write_record(text: &mut String, record: &[u8]) -> fmt::Result {
    let number = |place| u16::from_le_bytes([record[place], record[place + 1]]);
    let [first, second, bit] = [number(2), number(4), number(6)];
    let parts = 1_u64 << number(8);
    match record[1] {
        0 => {}
        condition => write!(text, "if(c{bit}=={}) ", condition - 1)?,
    }
    match record[0] {
        1 => writeln!(text, "h q[{first}];"),
        2 => writeln!(text, "t q[{first}];"),
        3 => writeln!(text, "tdg q[{first}];"),
        4 => writeln!(text, "cx q[{first}],q[{second}];"),
        5 => writeln!(text, "measure q[{first}] -> c{second}[0];"),
        6 => writeln!(text, "reset q[{first}];"),
        7 => writeln!(text, "u1(2*pi/{parts}) q[{first}];"),
        8 => writeln!(text, "u1(-2*pi/{parts}) q[{first}];"),
        9 => writeln!(text, "cu1(2*pi/{parts}) q[{first}],q[{second}];"),
        10 => writeln!(text, "cu1(-2*pi/{parts}) q[{first}],q[{second}];"),
        op => unreachable!("the machine writes no record with op {op}"),
    }
}
