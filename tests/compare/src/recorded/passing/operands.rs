//! Passed families as operands: what is read of them in which order, where they may stand, and
//! family parameters that are handed on.

use super::{behind, element, given, parameter_call, passed, run, BELOW, GATE, OF_FOUR, ON_A_WIRE};
use super::{FIRST, PASSED_AT, PAST, QBIT, QUBIT, QUBITS, SECOND, WIRE, WIRE_AT};
use crate::recorded::examples::L;
use crate::recorded::slices::{behind_l, between, call, family, number, slice, sum};
use crate::recorded::{bytes, field, joined, Recorded};

/// Faults in what is read of a passed family, in hexadecimal, with their numbers where two
/// families are declared and the second one is called.
const READ: &[(&str, u32)] = &[
    ("33 00 00", 4),
    ("33 01 00 00", 4),
    ("33 01 00 07", 4),
    ("33 02 00 02 00", 8),
    ("33 02 00 00 01", 8),
    ("33 02 00 ff ff", 8),
    ("33 03 00 02 00 00", 8),
    ("33 02 00 01 00", 33),
    ("33 03 00 01 00 00", 33),
    ("33 03 00 00 00 00", 4),
    ("33 07 00 00 00 33 02 00 00 00", 4),
];

/// All rows.
pub fn rows() -> Vec<Recorded> {
    let mut rows = contents();
    rows.extend(for_wires());
    rows.extend(for_registers());
    rows.extend(scopes());
    rows.extend(itself());
    rows.extend(in_parameter_calls());
    rows.extend(gates());
    rows.extend(commands());
    rows.extend(indexes());
    rows.extend(places());
    rows.extend(far());
    rows.extend(handed_on());
    rows.extend(named());
    rows.extend(named_in_calls());
    rows
}

/// A passed family that is cut off, not in scope, not declared before the called one, too long.
fn contents() -> Vec<Recorded> {
    let row = |operand: &str, answer, place| {
        let name = format!("for a family {operand}");
        Recorded::check(&name, run(&given(&bytes(operand))), answer, place)
    };
    let mut rows = vec![
        row("33 02 00 00 00", 0, 0),
        row("33", 2, PASSED_AT),
        row("33 02", 2, PASSED_AT),
        row("33 02 00 00", 2, PASSED_AT),
        row("34 02 00 00 00", 3, PASSED_AT),
        row("", 4, super::TOP),
        row("33 02 00 00 00 00", 4, super::TOP),
        // What is left over in the operand comes before what is left over in the call.
        row("33 03 00 00 00 00 00", 4, PASSED_AT),
    ];
    rows.extend(
        READ.iter()
            .map(|&(operand, answer)| row(operand, answer, PASSED_AT)),
    );
    rows
}

/// The same where a wire is due: 33 comes before 9, and leftover bytes do.
fn for_wires() -> Vec<Recorded> {
    let row = |operand: &str, answer| {
        let name = format!("for a wire {operand}");
        let call = call(1, &[&bytes(operand), &passed(0)]);
        Recorded::check(&name, run(&call), answer, WIRE_AT)
    };
    let mut rows = vec![row("33 02 00 00 00", 9)];
    rows.extend(READ.iter().map(|&(operand, answer)| row(operand, answer)));
    rows
}

/// The same where a register is due: behind the first family L is the second, four qubits stand
/// at 58, its call at 63 and the operand at 72.
fn for_registers() -> Vec<Recorded> {
    let row = |operand: &str, answer| {
        let name = format!("for a register {operand}");
        let call = call(1, &[&number(2), &bytes(operand)]);
        let program = joined(&[&bytes(GATE), &bytes(L), &bytes(QUBITS), &call]);
        Recorded::check(&name, program, answer, 72)
    };
    let mut rows = vec![row("33 02 00 00 00", 9)];
    rows.extend(READ.iter().map(|&(operand, answer)| row(operand, answer)));
    rows
}

/// Families declared before the statement, and before the called one.
fn scopes() -> Vec<Recorded> {
    let [gate, qubit] = [GATE, QUBIT].map(bytes);
    let call = given(&passed(2));
    let before = behind(&joined(&[&gate, &qubit, &call]));
    let after = behind(&joined(&[&qubit, &call, &gate]));
    let none = call_alone(&passed(0));
    vec![
        // Three families take 54 bytes and the qubit 5: the operand stands at 72.
        Recorded::check("declared behind the called one", before, 33, 72),
        Recorded::check("declared behind the statement", after, 8, PASSED_AT),
        Recorded::check("no family before the called one", none, 33, 22),
    ]
}

/// A family with a family parameter and nothing else, 13 bytes, a qubit, and its call.
fn call_alone(operand: &[u8]) -> Vec<u8> {
    let taking = family(0, &[ON_A_WIRE], &[]);
    joined(&[&taking, &bytes(QUBIT), &call(0, &[operand])])
}

/// A third family on a wire, at 39, that passes a family to the second: its call stands at 47
/// and the passed family at 55.
fn third(family_number: u16) -> Vec<u8> {
    let call = call(1, &[&bytes(FIRST), &passed(family_number)]);
    behind(&family(0, &[QBIT], &call))
}

/// Families that pass themselves, and that are passed to themselves.
fn itself() -> Vec<Recorded> {
    let own = call(1, &[&bytes(FIRST), &passed(0)]);
    let taking = family(0, &[QBIT, ON_A_WIRE], &own);
    let calls_itself = joined(&[&bytes(GATE), &taking]);
    vec![
        Recorded::check("the third passes the first", third(0), 0, 0),
        Recorded::check("the third passes the second", third(1), 33, 55),
        Recorded::check("the third passes itself", third(2), 8, 55),
        Recorded::check("the third passes a fourth", third(3), 8, 55),
        Recorded::check("the second calls itself", calls_itself, 8, 31),
        Recorded::check(
            "the second for the second",
            run(&given(&passed(1))),
            33,
            PASSED_AT,
        ),
    ]
}

/// Passed families in a call of a parameter, at 50 in the third family: never 33.
fn in_parameter_calls() -> Vec<Recorded> {
    let row = |operand: &str, answer| {
        let name = format!("in a parameter call {operand}");
        let inner = parameter_call(1, &[&bytes(operand)]);
        let taking = family(0, &[QBIT, ON_A_WIRE], &inner);
        let program = joined(&[&bytes(GATE), &bytes(GATE), &taking]);
        Recorded::check(&name, program, answer, 50)
    };
    vec![
        row("33 00 00", 4),
        row("33 01 00 00", 4),
        row("33 02 00 02 00", 8),
        row("33 03 00 02 00 00", 8),
        row("33 03 00 01 00 00", 4),
        row("33 02 00 00 00", 9),
        row("33 02 00 01 00", 9),
    ]
}

/// Faults of a passed family where no family may stand and none is called.
const ELSEWHERE: &[(&str, u32)] = &[
    ("33 00 00", 4),
    ("33 01 00 01", 4),
    ("33 02 00 01 00", 8),
    ("33 03 00 01 00 00", 8),
    ("33 03 00 00 00 00", 4),
    ("33 02 00 00 00", 9),
];

/// Rows of a field behind one family, four qubits and four bits, at 25, with an operand in it.
fn elsewhere(name: &str, tag: u8, before: &str, place: u32) -> Vec<Recorded> {
    let start = joined(&[&bytes(GATE), &bytes(QUBITS), &bytes("03 02 00 04 00")]);
    let row = |&(operand, answer): &(&str, u32)| {
        let name = format!("{name} {operand}");
        let content = joined(&[&bytes(before), &bytes(operand)]);
        let program = joined(&[&start, &field(tag, &content)]);
        Recorded::check(&name, program, answer, place)
    };
    ELSEWHERE.iter().map(row).collect()
}

/// Passed families where a gate takes a wire.
fn gates() -> Vec<Recorded> {
    let k = "40 02 00 01 00";
    let both = format!("{k} {WIRE}");
    let mut rows = elsewhere("h of", 0x20, "", 28);
    rows.extend(elsewhere("t of", 0x21, "", 28));
    rows.extend(elsewhere("tdg of", 0x22, "", 28));
    rows.extend(elsewhere("cx from", 0x23, "", 28));
    rows.extend(elsewhere("cx to", 0x23, WIRE, 37));
    rows.extend(elsewhere("phase of", 0x28, k, 33));
    rows.extend(elsewhere("cphase of", 0x29, &both, 42));
    rows
}

/// Passed families where a measure, a reset and an if take a wire or a bit.
fn commands() -> Vec<Recorded> {
    let mut rows = elsewhere("measure of", 4, "", 28);
    rows.extend(elsewhere("measure into", 4, WIRE, 37));
    rows.extend(elsewhere("reset of", 5, "", 28));
    rows.extend(elsewhere("if of", 6, "01", 29));
    rows
}

/// Passed families where an index is due.
fn indexes() -> Vec<Recorded> {
    let row = |name, program, place| Recorded::check(name, program, 3, place);
    let empty = bytes("33 00 00");
    let part = |index: &[u8]| field(0x31, &joined(&[&[0], index]));
    let gate = |index: &[u8]| joined(&[&bytes(QUBITS), &field(0x20, &part(index))]);
    vec![
        row(
            "a passed family for L's size",
            behind_l(QUBITS, &call(0, &[&passed(0)])),
            52,
        ),
        row(
            "an empty one for L's size",
            behind_l(QUBITS, &call(0, &[&empty])),
            52,
        ),
        row(
            "a passed family for an element's index",
            gate(&passed(0)),
            12,
        ),
        row(
            "a passed family in a sum",
            gate(&sum(&number(0), &passed(0))),
            20,
        ),
        row("a passed family for a low end", field(0x26, &passed(0)), 3),
        row("a passed family for k", field(0x28, &empty), 3),
    ]
}

/// Passed families where a statement or a type is due.
fn places() -> Vec<Recorded> {
    let row = |program: &str, place| Recorded::check(program, bytes(program), 3, place);
    vec![
        row("33 02 00 00 00", 0),
        row("25 05 00 33 02 00 00 00", 3),
        row("01 07 00 00 01 33 02 00 00 00", 5),
        row("01 0a 00 00 01 10 00 00 33 02 00 00 00", 8),
    ]
}

/// So many families that do nothing, the two families, a qubit, and a call of the last family
/// with a number of two bytes that passes it a family.
fn behind_idle(idle: u16, given: u16) -> Vec<u8> {
    let families = bytes("01 05 00 00 01 10 00 00").repeat(idle.into());
    let number = (idle + 1).to_le_bytes();
    let content = joined(&[&number, &bytes(WIRE), &passed(given)]);
    joined(&[&families, &run(&field(0x27, &content))])
}

/// Numbers of two bytes: behind 256 families the call stands at 2,092 and the passed family at
/// 2,106; behind 4,094 of them at 32,796 and at 32,810.
fn far() -> Vec<Recorded> {
    let refused =
        |name, given, answer| Recorded::check(name, behind_idle(256, given), answer, 2_106);
    let last =
        |name, given, answer| Recorded::check(name, behind_idle(4_094, given), answer, 32_810);
    let row = |name, idle, given, expected, records| {
        Recorded::run(name, behind_idle(idle, given), expected, records)
    };
    let one = "01 00 00 00 00 00 00 00 00 00 00 00";
    vec![
        row("256 passed to 257", 256, 256, [0, 0, 1, 3], one),
        row("0 passed to 257", 256, 0, [0, 0, 0, 2], ""),
        row("1 passed to 257", 256, 1, [0, 0, 0, 2], ""),
        row("255 passed to 257", 256, 255, [0, 0, 0, 2], ""),
        refused("257 passed to 257", 257, 33),
        refused("258 passed to 257", 258, 8),
        refused("511 passed to 257", 511, 8),
        row("4,094 passed to 4,095", 4_094, 4_094, [0, 0, 1, 3], one),
        row("4,093 passed to 4,095", 4_094, 4_093, [0, 0, 0, 2], ""),
        last("4,095 passed to 4,095", 4_095, 33),
        last("4,096 passed to 4,095", 4_096, 8),
    ]
}

/// The second parameter of the third family, which stands at 39, for a family: its call stands
/// at 55 and the operand at 63.
fn handed_on() -> Vec<Recorded> {
    let row = |name, operand: &[u8], answer, place| {
        let inner = call(1, &[&bytes(FIRST), operand]);
        let program = behind(&family(0, &[QBIT, ON_A_WIRE], &inner));
        Recorded::check(name, program, answer, place)
    };
    let at = |name, operand: &[u8], answer| row(name, operand, answer, 63);
    let part = |index: &[u8]| field(0x31, &joined(&[&[1], index]));
    vec![
        row("the first family handed on", &passed(0), 0, 0),
        at("a parameter handed on", &bytes(SECOND), 9),
        at("an element of a parameter handed on", &part(&number(0)), 9),
        at("a slice of a parameter handed on", &between(1, 0, 0), 9),
        at("a wire handed on", &bytes(FIRST), 9),
        at("no parameter handed on", &bytes("30 01 00 02"), 8),
        at(
            "leftover in a parameter handed on",
            &bytes("30 02 00 01 00"),
            4,
        ),
        at("an element past its field", &bytes("31 01 00 01"), 4),
        row("3 in an element's index", &part(&passed(0)), 3, 67),
        row("11 in an element's index", &part(&bytes(PAST)), 11, 67),
        Recorded::check(
            "a register for a family",
            run(&given(&bytes(FIRST))),
            9,
            PASSED_AT,
        ),
        Recorded::check(
            "a wire for a family",
            run(&given(&element(0))),
            9,
            PASSED_AT,
        ),
    ]
}

/// A family with a wire, a register of four and a family parameter, which has number 2. It
/// stands at 15 and its body at 39.
fn third_named(name: &str, body: &[u8], answer: u32, place: u32) -> Recorded {
    let taking = family(0, &[QBIT, OF_FOUR, ON_A_WIRE], body);
    Recorded::check(name, joined(&[&bytes(GATE), &taking]), answer, place)
}

/// One element of the operand with number 2.
fn third_element(index: &[u8]) -> Vec<u8> {
    field(0x31, &joined(&[&[2], index]))
}

/// A family parameter, its elements and its slices, where a gate takes a wire.
fn named() -> Vec<Recorded> {
    let gate = |name, operand: &[u8], answer, place| {
        third_named(name, &field(0x20, operand), answer, place)
    };
    let part = third_element;
    let below = slice(2, &bytes(BELOW), &number(0));
    let long = bytes("31 07 00 02 40 02 00 00 00 00");
    vec![
        gate("h of a family parameter", &bytes("30 01 00 02"), 9, 42),
        gate("h of its element", &part(&number(0)), 9, 42),
        gate("h of its element below 0", &part(&bytes(BELOW)), 9, 42),
        gate("h of its slice", &between(2, 0, 0), 9, 42),
        gate("h of its slice from below 0", &below, 9, 42),
        gate("h of its element, 11", &part(&bytes(PAST)), 11, 46),
        gate("h of its element, leftover", &long, 4, 42),
        gate("h of the next number", &bytes("30 01 00 03"), 8, 42),
        gate("h of the wire before", &bytes(FIRST), 0, 0),
    ]
}

/// The same where a cx, a call and a call of the parameter itself take a wire.
fn named_in_calls() -> Vec<Recorded> {
    let row = third_named;
    let whole = bytes("30 01 00 02");
    let part = third_element(&number(0));
    let both = field(0x23, &joined(&[&bytes(FIRST), &whole]));
    let own = |operand: &[u8]| parameter_call(2, &[operand]);
    vec![
        row("cx to a family parameter", &both, 9, 46),
        row("a family parameter for a wire", &call(0, &[&whole]), 9, 43),
        row("an element of it for a wire", &call(0, &[&part]), 9, 43),
        row("a family parameter for its own wire", &own(&whole), 9, 43),
        row("an element for its own wire", &own(&part), 9, 43),
    ]
}
