//! Hand-made programs in which families are passed: what is refused and in which order, what
//! runs write through parameters, and how they end.

mod agreeing;
mod calls;
mod ends;
mod lists;
mod operands;
mod types;

use super::slices::{call, number};
use super::{bytes, field, joined, Recorded};

/// The tags of a call of a parameter and of a passed family.
const PARAMETER_CALL: u8 = 0x2a;
const PASSED: u8 = 0x33;

/// The type Qbit, 3 bytes.
const QBIT: &str = "10 00 00";
/// The type Qbit[4], 8 bytes.
const OF_FOUR: &str = "11 05 00 40 02 00 04 00";
/// The type of a family on one wire, 8 bytes.
const ON_A_WIRE: &str = "12 05 00 00 01 10 00 00";
/// The type of a family over n on n wires, 12 bytes.
const ON_N_WIRES: &str = "12 09 00 01 01 11 04 00 41 01 00 00";

/// A family on a wire, 15 bytes: h(x), which stands at 8.
const GATE: &str = "01 0c 00 00 01 10 00 00 20 04 00 30 01 00 00";
/// A family of a wire x and a family g on one wire, 24 bytes: g(x), which stands at 16.
const TAKING: &str = "01 15 00 00 02 10 00 00 12 05 00 00 01 10 00 00 2a 05 00 01 30 01 00 00";

/// One qubit, and four, 5 bytes.
const QUBIT: &str = "02 02 00 01 00";
const QUBITS: &str = "02 02 00 04 00";
/// The operand q[0], 9 bytes.
const WIRE: &str = "31 06 00 00 40 02 00 00 00";
/// The operands with the numbers 0 and 1 as a whole, 4 bytes.
const FIRST: &str = "30 01 00 00";
const SECOND: &str = "30 01 00 01";

/// 0 - 1 as an index, 13 bytes.
const BELOW: &str = "43 0a 00 40 02 00 00 00 40 02 00 01 00";
/// 65,535 times 65,535, which no form may have.
const PAST: &str = "44 0a 00 40 02 00 ff ff 40 02 00 ff ff";

/// Where a statement behind both families and a qubit stands, and the two operands of the call
/// of `given`.
const TOP: u32 = 44;
const WIRE_AT: u32 = 48;
const PASSED_AT: u32 = 57;

/// All rows.
pub fn rows() -> Vec<Recorded> {
    let mut rows = types::rows();
    rows.extend(operands::rows());
    rows.extend(agreeing::rows());
    rows.extend(calls::rows());
    rows.extend(lists::rows());
    rows.extend(ends::rows());
    rows
}

/// A family that is passed, 5 bytes.
fn passed(family: u16) -> Vec<u8> {
    field(PASSED, &family.to_le_bytes())
}

/// A call of a parameter with indexes and operands.
fn parameter_call(operand: u8, parts: &[&[u8]]) -> Vec<u8> {
    field(PARAMETER_CALL, &joined(&[&[operand], &parts.concat()]))
}

/// The two families, and more.
fn behind(more: &[u8]) -> Vec<u8> {
    joined(&[&bytes(GATE), &bytes(TAKING), more])
}

/// The two families, one qubit and statements at 44.
fn run(statements: &[u8]) -> Vec<u8> {
    behind(&joined(&[&bytes(QUBIT), statements]))
}

/// The call of the second family with q[0] at 48 and an operand at 57.
fn given(operand: &[u8]) -> Vec<u8> {
    call(1, &[&bytes(WIRE), operand])
}

/// One element of the first register, 9 bytes.
fn element(place: u16) -> Vec<u8> {
    field(0x31, &joined(&[&[0], &number(place)]))
}

/// Statements run backward, in 3 bytes more.
fn reverse(body: &[u8]) -> Vec<u8> {
    field(0x25, body)
}
