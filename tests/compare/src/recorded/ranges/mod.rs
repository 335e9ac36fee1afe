//! Hand-made programs whose bodies need the range of a loop around them: what is shown with
//! it and what is not, and what runs write.

mod lists;
mod refusals;
mod trials;

use super::slices::{difference, family, looped, number, product, variable};
use super::{bytes, field, joined, Recorded};

/// The type Qbit[n], 7 bytes.
const OF_N: &str = "11 04 00 41 01 00 00";

/// The operand with number 0 as a whole, 4 bytes.
const WHOLE: &str = "30 01 00 00";

/// Where the body of `in_loop` stands.
const BODY: u32 = 32;
/// Where the operand of a gate and the k of a phase stand that begin there.
const OPERAND: u32 = BODY + 3;

/// All rows.
pub fn rows() -> Vec<Recorded> {
    let mut rows = refusals::rows();
    rows.extend(trials::rows());
    rows.extend(lists::rows());
    rows
}

/// n less a number, 12 bytes.
fn n_less(less: u16) -> Vec<u8> {
    difference(&variable(0), &number(less))
}

/// h on an element of the operand with number 0; with a literal index 12 bytes.
fn h(index: &[u8]) -> Vec<u8> {
    field(0x20, &element(index))
}

/// An element of the operand with number 0.
fn element(index: &[u8]) -> Vec<u8> {
    field(0x31, &joined(&[&[0], index]))
}

/// Statements run backward, in 3 bytes more.
fn reverse(body: &[u8]) -> Vec<u8> {
    field(0x25, body)
}

/// 1,800,000,000 as an index, 13 bytes: twice this is out of range.
fn far() -> Vec<u8> {
    product(&number(60_000), &number(30_000))
}

/// A loop for i from 1 to n - 1 around a body, in 20 bytes more; its range is n - 2.
fn inner_cells(body: &[u8]) -> Vec<u8> {
    looped(&number(1), &n_less(1), body)
}

/// x:Qbit[n] and a body at 12.
fn over_n(body: &[u8]) -> Vec<u8> {
    family(1, &[OF_N], body)
}

/// x:Qbit[n], for i=1..n-1 a body, at 32.
fn in_loop(body: &[u8]) -> Vec<u8> {
    over_n(&inner_cells(body))
}

/// A check that is accepted, or turned down with 12 at a place.
fn shown(name: &str, program: Vec<u8>, accepted: bool, place: u32) -> Recorded {
    match accepted {
        true => Recorded::check(name, program, 0, 0),
        false => Recorded::check(name, program, 12, place),
    }
}

/// One qubit or more, 5 bytes.
fn qubits(count: u8) -> Vec<u8> {
    bytes(&format!("02 02 00 {count:02x} 00"))
}
