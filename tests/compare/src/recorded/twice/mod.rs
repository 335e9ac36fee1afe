//! Hand-made gates on two wires that are one: by the forms of their operands, which check
//! refuses, and by values and parameters, which ends a run.

mod forms;
mod orders;
mod values;

use super::{field, joined, Recorded};

/// The tags of cx and cphase.
const CX: u8 = 0x23;
const CPHASE: u8 = 0x29;

/// Four qubits, 5 bytes; what stands behind them is at 5.
const QUBITS: &str = "02 02 00 04 00";
/// The literal 3 as k, 5 bytes.
const K3: &str = "40 02 00 03 00";
/// The type Qbit, 3 bytes.
const QBIT: &str = "10 00 00";

/// All rows.
pub fn rows() -> Vec<Recorded> {
    let mut rows = forms::rows();
    rows.extend(orders::rows());
    rows.extend(values::rows());
    rows
}

/// An element, 4 bytes and its index.
fn element(operand: u8, index: &[u8]) -> Vec<u8> {
    field(0x31, &joined(&[&[operand], index]))
}

/// A whole operand, 4 bytes.
fn whole(operand: u8) -> Vec<u8> {
    field(0x30, &[operand])
}

/// The gate cx, 3 bytes and its operands.
fn cx(first: &[u8], second: &[u8]) -> Vec<u8> {
    field(CX, &joined(&[first, second]))
}

/// The gate cphase, 3 bytes, its k and its operands.
fn cphase(k: &[u8], first: &[u8], second: &[u8]) -> Vec<u8> {
    field(CPHASE, &joined(&[k, first, second]))
}
