//! Which fault comes first: in a gate that names one wire twice, and beside it.

use super::{cphase, cx, element, whole, CPHASE, CX, K3, QBIT, QUBITS};
use crate::recorded::slices::{between, difference, family, looped, number, product, variable};
use crate::recorded::{bytes, field, joined, nested, Recorded};

/// All rows.
pub fn rows() -> Vec<Recorded> {
    let mut rows = operands();
    rows.extend(leftover());
    rows.extend(ks());
    rows.extend(beside());
    rows.extend(listed_gates());
    rows.extend(around());
    rows.extend(levels());
    rows.extend(calls());
    rows
}

/// The operand q[1], 9 bytes.
fn wire() -> Vec<u8> {
    element(0, &number(1))
}

/// A gate cx on q[1] twice, 21 bytes.
fn twice() -> Vec<u8> {
    cx(&wire(), &wire())
}

/// Checks of a cx and of a cphase by 3 behind four qubits, whose first operands stand at 8 and
/// at 13; they are refused so many bytes behind that.
fn both(name: &str, first: &[u8], second: &[u8], number: u32, behind: u32) -> [Recorded; 2] {
    let gates = [
        (cx(first, second), 8),
        (cphase(&bytes(K3), first, second), 13),
    ];
    gates.map(|(gate, start)| {
        let program = joined(&[&bytes(QUBITS), &gate]);
        Recorded::check(name, program, number, start + behind)
    })
}

/// Operands that are refused, each by itself, before they are seen to be the same.
fn operands() -> Vec<Recorded> {
    let below = difference(&number(0), &number(1));
    let past = product(&number(65_535), &number(65_535));
    let (register, none) = (whole(0), whole(9));
    let four = element(0, &number(4));
    let same = |name, operand: &[u8], number, behind| both(name, operand, operand, number, behind);
    let cases = [
        same("q[4] twice", &four, 12, 0),
        same("q[0 - 1] twice", &element(0, &below), 12, 0),
        same("a register twice", &register, 9, 0),
        same("a slice twice", &between(0, 1, 1), 9, 0),
        same("no such operand twice", &none, 8, 0),
        same("no such variable twice", &element(0, &variable(0)), 8, 4),
        same("an index out of range twice", &element(0, &past), 11, 4),
        same("no family twice", &bytes("33 02 00 00 00"), 8, 0),
        same("no operand twice", &number(1), 3, 0),
        same("an empty element twice", &bytes("31 01 00 00"), 4, 0),
        both("q[1] and q[4]", &wire(), &four, 12, 9),
        both("q[4] and q[1]", &four, &wire(), 12, 0),
        both("q[1] and a register", &wire(), &register, 9, 9),
        both("a register and q[1]", &register, &wire(), 9, 0),
        both("q[1] and no such operand", &wire(), &none, 8, 9),
    ];
    cases.into_iter().flatten().collect()
}

/// Bits, and bytes that are left over or missing, where the gate stands at 5.
fn leftover() -> Vec<Recorded> {
    let [k, wire] = [bytes(K3), wire()];
    let row = |name, tag, parts: &[&[u8]], number, place| {
        let program = joined(&[&bytes(QUBITS), &field(tag, &parts.concat())]);
        Recorded::check(name, program, number, place)
    };
    let bit = joined(&[&bytes("03 02 00 04 00"), &twice()]);
    vec![
        row("cx, a byte left over", CX, &[&wire, &wire, &[0]], 4, 5),
        row("cx, an operand left over", CX, &[&wire, &wire, &wire], 4, 5),
        row("cx, one operand", CX, &[&wire], 4, 5),
        row("cx, half of the second", CX, &[&wire, &wire[..2]], 2, 17),
        row("cphase, left over", CPHASE, &[&k, &wire, &wire, &[0]], 4, 5),
        row("cphase, one operand", CPHASE, &[&k, &wire], 4, 5),
        row("cphase, no k", CPHASE, &[&wire, &wire], 3, 8),
        row("cx with a k", CX, &[&k, &wire, &wire], 3, 8),
        row("cx, nothing left over", CX, &[&wire, &wire], 35, 5),
        Recorded::check("a bit twice", bit, 9, 8),
    ]
}

/// A cphase on q[1] twice by a k that is refused first, at 8, or by one that would end a run.
fn ks() -> Vec<Recorded> {
    let below = difference(&number(0), &number(1));
    let past = product(&number(65_535), &number(65_535));
    let rows = [
        ("k is 0 - 1", below, 12, 8),
        ("k is out of range", past, 11, 8),
        ("k is no variable", variable(0), 8, 8),
        ("k is a wire", wire(), 3, 8),
        ("k is 63", number(63), 35, 5),
        ("k is 64", number(64), 35, 5),
        ("k is 65,535", number(65_535), 35, 5),
    ];
    let both_calls = |(name, k, refused, place): (&str, Vec<u8>, u32, u32)| {
        let gate = cphase(&k, &wire(), &wire());
        let program = joined(&[&bytes(QUBITS), &gate]);
        [
            Recorded::check(name, program.clone(), refused, place),
            Recorded::run(name, program, [refused, place, 0, 0], ""),
        ]
    };
    rows.into_iter().flat_map(both_calls).collect()
}

/// A check of fields behind four qubits.
fn listed(name: &str, parts: [&[u8]; 2], number: u32, place: u32) -> Recorded {
    let program = joined(&[&bytes(QUBITS), &parts.concat()]);
    Recorded::check(name, program, number, place)
}

/// Faults that stand before the gate, and remain, or behind it, and are not seen.
fn beside() -> Vec<Recorded> {
    let gate = twice();
    let faults = [
        ("q[4]", field(0x20, &element(0, &number(4))), 12, 8),
        ("tag 0", bytes("00 00 00"), 3, 5),
        ("content past the end", bytes("25 ff 00"), 2, 5),
        ("too many qubits", bytes("02 02 00 fc ff"), 7, 5),
        ("a call of no family", bytes("24 01 00 00"), 8, 5),
        ("a call by a wide number", bytes("27 02 00 00 00"), 31, 5),
        ("an empty cx", bytes("23 00 00"), 4, 5),
    ];
    let both_ways = |(name, fault, number, place): (&str, Vec<u8>, u32, u32)| {
        [
            listed(&format!("{name} before"), [&fault, &gate], number, place),
            listed(&format!("{name} behind"), [&gate, &fault], 35, 5),
        ]
    };
    faults.into_iter().flat_map(both_ways).collect()
}

/// Gates behind each other, and what stands behind the last.
fn listed_gates() -> Vec<Recorded> {
    let [gate, good] = [twice(), cx(&wire(), &element(0, &number(2)))];
    vec![
        listed("a gate before", [&good, &gate], 35, 26),
        listed("a gate behind", [&gate, &good], 35, 5),
        listed("twice and twice", [&gate, &gate], 35, 5),
        listed("a byte behind", [&gate, &[0x20]], 35, 5),
        listed("too long", [&gate, &[0; 65_510]], 1, 0),
        listed("just not too long", [&gate, &[0; 65_509]], 35, 5),
    ]
}

/// Gates that are not run, or backward or under a condition.
fn around() -> Vec<Recorded> {
    let gate = twice();
    let top = |around: &[u8]| joined(&[&bytes(QUBITS), around]);
    let when = |value: u8| {
        let bit = element(1, &number(0));
        let content = joined(&[&[value], &bit, &gate]);
        top(&joined(&[&bytes("03 02 00 01 00"), &field(6, &content)]))
    };
    let rounds = |low, high| top(&looped(&number(low), &number(high), &gate));
    let rows = [
        ("reversed", top(&field(0x25, &gate)), 35, 8),
        ("in an if", when(1), 35, 23),
        ("in an if of value 2", when(2), 13, 10),
        ("in a loop of one round", rounds(2, 2), 35, 18),
        ("in a loop without rounds", rounds(1, 0), 35, 18),
        (
            "in a family",
            family(0, &[QBIT], &cx(&whole(0), &whole(0))),
            35,
            8,
        ),
    ];
    let both_calls = |(name, program, number, place): (&str, Vec<u8>, u32, u32)| {
        [
            Recorded::check(name, program.clone(), number, place),
            Recorded::run(name, program, [number, place, 0, 0], "").limit(0),
        ]
    };
    rows.into_iter().flat_map(both_calls).collect()
}

/// The deepest gate, and one that is a level too deep.
fn levels() -> Vec<Recorded> {
    let row = |name, reversals, number, place| {
        let inner = nested(0x25, reversals, &[], &twice());
        let program = joined(&[&bytes(QUBITS), &inner]);
        Recorded::check(name, program, number, place)
    };
    vec![
        row("twice at level 16", 15, 35, 50),
        row("twice at level 17", 16, 5, 53),
    ]
}

/// Every call gives the same answer, whatever else is asked.
fn calls() -> Vec<Recorded> {
    let program = joined(&[&family(0, &[QBIT], &[]), &bytes(QUBITS), &twice()]);
    let run = |name| Recorded::run(name, program.clone(), [35, 13, 0, 0], "");
    let instance = |name, asked| {
        let expected = [35, 13, 0, 0];
        Recorded::instance(name, program.clone(), asked, expected, "")
    };
    vec![
        Recorded::check("twice behind a family", program.clone(), 35, 13),
        run("twice, run"),
        run("twice, limit 0").limit(0),
        run("twice into no bytes").into_bytes(0),
        run("twice, printed").printed(""),
        run("twice into no text").printed("").text_bytes(0),
        instance("twice elsewhere than in the family", (0, "")),
        instance("35 before 20", (1, "")),
        instance("35 before 21", (0, "00")),
        instance("35 in an instance, limit 0", (0, "")).limit(0),
        instance("35 in an instance, printed", (0, "")).printed(""),
        instance("35 before 20, printed", (9, "ff"))
            .printed("")
            .text_bytes(0),
    ]
}
