//! Hand-made programs with slices: what is refused and in which order, what runs write,
//! and how they end.

mod ends;
mod lists;
mod orders;
mod refusals;
mod showings;

use super::examples::L;
use super::{bytes, field, joined, Recorded};

/// The tags of slices and of calls.
const SLICE: u8 = 0x32;
const CALL: u8 = 0x24;

/// Four qubits, 5 bytes.
const QUBITS: &str = "02 02 00 04 00";

/// The operand with number 0 as a whole.
const WHOLE: &str = "30 01 00 00";

/// The literals 1 and 2, 5 bytes each.
const ONE: &str = "40 02 00 01 00";
const TWO: &str = "40 02 00 02 00";
/// 0 - 1 as an index, 13 bytes.
const BELOW: &str = "43 0a 00 40 02 00 00 00 40 02 00 01 00";
/// 2,000,000,000 as an index, 13 bytes.
const MOST: &str = "44 0a 00 40 02 00 40 9c 40 02 00 50 c3";
/// 65,535 times 65,535, which no form may have.
const PAST: &str = "44 0a 00 40 02 00 ff ff 40 02 00 ff ff";
/// A field that is no index.
const NONE: &str = "3f 00 00";

/// Where the slice of `passed` stands, its first index and, behind a first index of 5
/// bytes, its last.
const SLICE_AT: u32 = 57;
const FIRST_AT: u32 = 61;
const LAST_AT: u32 = 66;

/// All rows.
pub fn rows() -> Vec<Recorded> {
    let mut rows = refusals::rows();
    rows.extend(orders::rows());
    rows.extend(showings::rows());
    rows.extend(lists::rows());
    rows.extend(ends::rows());
    rows
}

/// A field of parts in hexadecimal.
fn made(tag: u8, parts: &[&str]) -> Vec<u8> {
    field(tag, &bytes(&parts.join(" ")))
}

/// A literal as an index, 5 bytes.
pub(super) fn number(value: u16) -> Vec<u8> {
    field(0x40, &value.to_le_bytes())
}

/// An index variable, 4 bytes.
pub(super) fn variable(value: u8) -> Vec<u8> {
    field(0x41, &[value])
}

/// A sum, a difference and a product of two indexes.
pub(super) fn sum(left: &[u8], right: &[u8]) -> Vec<u8> {
    field(0x42, &joined(&[left, right]))
}
pub(super) fn difference(left: &[u8], right: &[u8]) -> Vec<u8> {
    field(0x43, &joined(&[left, right]))
}
pub(super) fn product(left: &[u8], right: &[u8]) -> Vec<u8> {
    field(0x44, &joined(&[left, right]))
}

/// -2,000,000,000 as an index.
pub(super) fn smallest() -> Vec<u8> {
    difference(&number(0), &bytes(MOST))
}

/// A slice by its number and its two indexes.
pub(super) fn slice(operand: u8, first: &[u8], last: &[u8]) -> Vec<u8> {
    field(SLICE, &joined(&[&[operand], first, last]))
}

/// A slice between two literals, 14 bytes.
pub(super) fn between(operand: u8, first: u16, last: u16) -> Vec<u8> {
    slice(operand, &number(first), &number(last))
}

/// A call of a family with indexes and operands.
pub(super) fn call(family: u8, parts: &[&[u8]]) -> Vec<u8> {
    field(CALL, &joined(&[&[family], &parts.concat()]))
}

/// A family over so many index variables, with types in hexadecimal and a body.
pub(super) fn family(variables: u8, types: &[&str], body: &[u8]) -> Vec<u8> {
    let head = [variables, types.len() as u8];
    field(1, &joined(&[&head, &bytes(&types.join(" ")), body]))
}

/// A loop with its bounds and its body.
pub(super) fn looped(low: &[u8], high: &[u8], body: &[u8]) -> Vec<u8> {
    field(0x26, &joined(&[low, high, body]))
}

/// The family L of 43 bytes: x:Qbit[n], for i=1..n h(x[i-1]); then registers and statements.
/// Its loop stands at 12 and its gate at 24.
pub(super) fn behind_l(registers: &str, statements: &[u8]) -> Vec<u8> {
    joined(&[&bytes(L), &bytes(registers), statements])
}

/// L, four qubits, and at 48 a call of L at a size, with an argument at 57.
fn passed(size: u16, argument: &[u8]) -> Vec<u8> {
    behind_l(QUBITS, &call(0, &[&number(size), argument]))
}

/// A check of L at 2 with a slice of parts in hexadecimal.
fn parts_row(name: &str, parts: &[&str], [number, place]: [u32; 2]) -> Recorded {
    Recorded::check(name, passed(2, &made(SLICE, parts)), number, place)
}

/// The records of h on wires.
pub(super) fn gates(wires: &[u16]) -> String {
    let record = |wire: &u16| {
        let [low, high] = wire.to_le_bytes();
        format!("01 00 {low:02x} {high:02x} 00 00 00 00 00 00 00 00")
    };
    wires.iter().map(record).collect::<Vec<String>>().join(" ")
}
