//! Programs with phases that check refuses, and near misses.

use super::{in_a_loop, made, on_qubits, BELOW, CPHASE, K3, PHASE, QUBITS, W0, W1, WHOLE};
use crate::recorded::{bytes, field, joined, nested, Recorded};

/// All rows.
pub fn rows() -> Vec<Recorded> {
    let mut rows = below();
    rows.extend(fields_of_k());
    rows.extend(forms_of_k());
    rows.extend(contents());
    rows.extend(operands());
    rows.extend(levels());
    rows.extend(places());
    rows
}

/// A check of a field behind two qubits.
fn row(name: &str, tag: u8, parts: &[&str], [number, place]: [u32; 2]) -> Recorded {
    Recorded::check(name, on_qubits(tag, parts), number, place)
}

/// A k below 0 is refused at its own end, before the operands and what is left over.
fn below() -> Vec<Recorded> {
    let none = "43 0a 00 40 02 00 01 00 40 02 00 01 00";
    vec![
        row("k is 1 - 1", PHASE, &[none, W0], [0, 0]),
        row("k is 0 - 1", PHASE, &[BELOW, W0], [12, 8]),
        row("k is 0 - 1, cphase", CPHASE, &[BELOW, W0, W1], [12, 8]),
        row("k is 0 - 1, no operand", PHASE, &[BELOW], [12, 8]),
        row("k is 0 - 1, half a header", PHASE, &[BELOW, "31"], [12, 8]),
        row("k is 0 - 1, a register", PHASE, &[BELOW, WHOLE], [12, 8]),
        row(
            "k is 0 - 1, no such operand",
            PHASE,
            &[BELOW, "30 01 00 07"],
            [12, 8],
        ),
        row(
            "k is 0 - 1, one left over",
            PHASE,
            &[BELOW, W0, "00"],
            [12, 8],
        ),
        row("k is 0 - 1, second missing", CPHASE, &[BELOW, W0], [12, 8]),
        Recorded::run(
            "k is 0 - 1, run",
            on_qubits(PHASE, &[BELOW, W0]),
            [12, 8, 0, 0],
            "",
        ),
    ]
}

/// What stands for k and is none.
fn fields_of_k() -> Vec<Recorded> {
    let k = |name, k, number, place| row(name, PHASE, &[k, W0], [number, place]);
    let one_side = "42 05 00 40 02 00 00 00";
    vec![
        k("an operand for k", W0, 3, 8),
        k("no k", "", 3, 8),
        k("tag 63 for k", "3f 00 00", 3, 8),
        k("tag 69 for k", "45 00 00", 3, 8),
        k("a type for k", "10 00 00", 3, 8),
        k("a phase for k", "28 00 00", 3, 8),
        k("k of one byte", "40 01 00 03", 4, 8),
        k("k of three bytes", "40 03 00 03 00 00", 4, 8),
        k("k without content", "40 00 00", 4, 8),
        k("k with one side", one_side, 4, 8),
        k("k past the end", "40 ff 00", 2, 8),
        k("k's side past the end", "42 03 00 40 02 00", 2, 11),
        k("a variable at the top", "41 01 00 00", 8, 8),
        k("a variable before its leftover", "41 02 00 00 00", 8, 8),
        row("no k in a cphase", CPHASE, &[W0, W1], [3, 8]),
    ]
}

/// Forms of k that are none, or whose numbers leave the range.
fn forms_of_k() -> Vec<Recorded> {
    let square = "44 08 00 41 01 00 00 41 01 00 00";
    let large = "44 0a 00 40 02 00 ff ff 40 02 00 ff ff";
    let inside = format!("42 12 00 {large} 40 02 00 00 00");
    // 40,000 and 40,001 times i, where i is 50,000.
    let most = "44 09 00 40 02 00 40 9c 41 01 00 00";
    let past = "44 09 00 40 02 00 41 9c 41 01 00 00";
    let far = |k| in_a_loop("50 c3", "50 c3", k);
    vec![
        Recorded::check(
            "k is i times i",
            in_a_loop("00 00", "03 00", square),
            10,
            21,
        ),
        row("k is out of range", PHASE, &[large, W0], [11, 8]),
        row("k's side is out of range", PHASE, &[&inside, W0], [11, 11]),
        row("11 before the operand", PHASE, &[large, WHOLE], [11, 8]),
        Recorded::check("k's showing is out of range", far(past), 11, 21),
        Recorded::check("k's showing is just in range", far(most), 0, 0),
        Recorded::run("k is 2,000,000,000", far(most), [32, 18, 0, 3], ""),
    ]
}

/// Content that ends too early or too late.
fn contents() -> Vec<Recorded> {
    vec![
        row("an empty phase", PHASE, &[], [4, 5]),
        row("an empty cphase", CPHASE, &[], [4, 5]),
        row("k alone", PHASE, &[K3], [4, 5]),
        row("k alone in a cphase", CPHASE, &[K3], [4, 5]),
        row("one operand of a cphase", CPHASE, &[K3, W0], [4, 5]),
        row("a byte left over", PHASE, &[K3, W0, "00"], [4, 5]),
        row("an operand left over", PHASE, &[K3, W0, W1], [4, 5]),
        row("a k left over", PHASE, &[K3, W0, K3], [4, 5]),
        row(
            "a byte left over in a cphase",
            CPHASE,
            &[K3, W0, W1, "00"],
            [4, 5],
        ),
        row("three operands", CPHASE, &[K3, W0, W1, W0], [4, 5]),
        row("one byte for k", PHASE, &["40"], [2, 8]),
        row("two bytes for k", PHASE, &["40 02"], [2, 8]),
        row("one byte for an operand", PHASE, &[K3, "31"], [2, 13]),
        row(
            "two bytes for the second",
            CPHASE,
            &[K3, W0, "31 06"],
            [2, 22],
        ),
        Recorded::check("28 01 00", bytes("28 01 00"), 2, 0),
        Recorded::check("29", bytes("29"), 2, 0),
    ]
}

/// Operands that are no wires.
fn operands() -> Vec<Recorded> {
    let past = "31 06 00 00 40 02 00 02 00";
    let other = "30 01 00 01";
    let bit = joined(&[&bytes("03 02 00 02 00"), &made(PHASE, &[K3, W0])]);
    vec![
        row("a register", PHASE, &[K3, WHOLE], [9, 13]),
        row("no such operand", PHASE, &[K3, other], [8, 13]),
        row("past the register", PHASE, &[K3, past], [12, 13]),
        row("k for an operand", PHASE, &[K3, K3], [3, 13]),
        row(
            "a register before one left over",
            PHASE,
            &[K3, WHOLE, "00"],
            [9, 13],
        ),
        row(
            "a register for the first",
            CPHASE,
            &[K3, WHOLE, other],
            [9, 13],
        ),
        row(
            "a register for the second",
            CPHASE,
            &[K3, W0, WHOLE],
            [9, 22],
        ),
        row(
            "past the register, the second",
            CPHASE,
            &[K3, W0, past],
            [12, 22],
        ),
        row("k for the second", CPHASE, &[K3, W0, K3], [3, 22]),
        row("one wire twice", CPHASE, &[K3, W0, W0], [35, 5]),
        Recorded::check("a bit", bit, 9, 13),
    ]
}

/// Phases at the deepest level and past it, and the deepest k.
fn levels() -> Vec<Recorded> {
    let row = |name, levels, inner: &str, number, place| {
        let program = nested(0x25, levels, &[], &bytes(inner));
        Recorded::check(name, program, number, place)
    };
    let zero = bytes("40 02 00 00 00");
    let deep = |times| {
        let content = joined(&[&nested(0x42, times, &zero, &zero), &bytes(W0)]);
        joined(&[&bytes(QUBITS), &field(PHASE, &content)])
    };
    let lowest = |levels| {
        let inner = nested(0x25, levels, &[], &made(PHASE, &[K3, W0]));
        joined(&[&bytes(QUBITS), &inner])
    };
    let record = "08 00 00 00 00 00 00 00 03 00 00 00";
    vec![
        row("40 at level 16", 15, "28 00 00", 4, 45),
        row("40 at level 17", 16, "28 00 00", 5, 48),
        row("41 at level 16", 15, "29 00 00", 4, 45),
        row("41 at level 17", 16, "29 00 00", 5, 48),
        row("43 at level 17", 16, "2b 00 00", 3, 48),
        Recorded::check("a phase at level 16", lowest(15), 0, 0),
        Recorded::run(
            "a phase at level 16, run",
            lowest(15),
            [0, 0, 1, 16],
            record,
        ),
        Recorded::check("a phase at level 17", lowest(16), 5, 53),
        Recorded::check("k of 16 levels", deep(15), 0, 0),
        Recorded::check("k of 17 levels", deep(16), 5, 131),
    ]
}

/// Empty phases at the top, and phases where no statement may stand.
fn places() -> Vec<Recorded> {
    let row = |program, number, place| Recorded::check(program, bytes(program), number, place);
    vec![
        row("28 00 00", 4, 0),
        row("29 00 00", 4, 0),
        row("01 05 00 00 01 28 00 00", 3, 5),
        row("20 03 00 28 00 00", 3, 3),
        row("20 03 00 29 00 00", 3, 3),
        row("26 03 00 28 00 00", 3, 3),
        row("28 03 00 29 00 00", 3, 3),
    ]
}
