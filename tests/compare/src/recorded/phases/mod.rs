//! Hand-made programs with phases: what is refused, how runs end, what they write.

mod ends;
mod lists;
mod refusals;

use super::{bytes, field, joined, Recorded};

/// The tags of phase and cphase.
const PHASE: u8 = 0x28;
const CPHASE: u8 = 0x29;

/// Two qubits, 5 bytes. What stands behind them has its k at 8 and, where k takes 5
/// bytes, its operands at 13 and 22.
const QUBITS: &str = "02 02 00 02 00";

/// The operands q[0] and q[1], 9 bytes each.
const W0: &str = "31 06 00 00 40 02 00 00 00";
const W1: &str = "31 06 00 00 40 02 00 01 00";

/// The operand q[i] in a loop over i that stands in nothing else, 8 bytes.
const WI: &str = "31 05 00 00 41 01 00 00";

/// The operand with number 0 as a whole: the register, or a family's first parameter.
const WHOLE: &str = "30 01 00 00";

/// Literals as k.
const K3: &str = "40 02 00 03 00";
const K63: &str = "40 02 00 3f 00";
const K64: &str = "40 02 00 40 00";

/// 0 - 1 as k.
const BELOW: &str = "43 0a 00 40 02 00 00 00 40 02 00 01 00";

/// All rows.
pub fn rows() -> Vec<Recorded> {
    let mut rows = refusals::rows();
    rows.extend(ends::rows());
    rows.extend(lists::rows());
    rows
}

/// A field of parts in hexadecimal.
fn made(tag: u8, parts: &[&str]) -> Vec<u8> {
    field(tag, &bytes(&parts.join(" ")))
}

/// Two qubits and a field.
fn on_qubits(tag: u8, parts: &[&str]) -> Vec<u8> {
    joined(&[&bytes(QUBITS), &made(tag, parts)])
}

/// A family over n with one parameter of a type, and a body of one field.
fn over_n(parameter: &str, body: &[u8]) -> Vec<u8> {
    field(1, &joined(&[&[1, 1], &bytes(parameter), body]))
}

/// One qubit and a loop over i, with a phase in it at 18 whose k stands at 21.
fn in_a_loop(low: &str, high: &str, k: &str) -> Vec<u8> {
    let phase = made(PHASE, &[k, W0]);
    let bounds = bytes(&format!("40 02 00 {low} 40 02 00 {high}"));
    let looped = field(0x26, &joined(&[&bounds, &phase]));
    joined(&[&bytes("02 02 00 01 00"), &looped])
}

/// Two qubits and a loop of one round, over i from 0 to 0, with a field in it at 18.
fn in_a_round(tag: u8, parts: &[&str]) -> Vec<u8> {
    let bounds = bytes("40 02 00 00 00 40 02 00 00 00");
    let looped = field(0x26, &joined(&[&bounds, &made(tag, parts)]));
    joined(&[&bytes(QUBITS), &looped])
}

/// The records of phases on the first wire, by their k.
fn turns(ks: &[&str]) -> String {
    let record = |k: &&str| format!("07 00 00 00 00 00 00 00 {k} 00 00 00");
    ks.iter().map(record).collect::<Vec<String>>().join(" ")
}
