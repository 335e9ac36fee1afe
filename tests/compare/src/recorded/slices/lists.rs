//! What runs write through slices, forward and backward, and the texts of their lists.

use super::{behind_l, between, call, difference, family, gates, looped, number, slice, sum};
use super::{variable, BELOW, QUBITS, WHOLE};
use crate::recorded::{bytes, field, joined, Recorded};

/// Registers of two and four qubits, 10 bytes: number 1 begins at wire 2.
const TWO_AND_FOUR: &str = "02 02 00 02 00 02 02 00 04 00";

/// All rows.
pub fn rows() -> Vec<Recorded> {
    let mut rows = parts();
    rows.extend(empty());
    rows.extend(at_the_end_of_all());
    rows.extend(of_slices());
    rows.extend(sliding());
    rows.extend(both_ends());
    rows.extend(arguments());
    rows.extend(meeting());
    rows.extend(around());
    rows.extend(two_byte_call());
    rows
}

/// L at a size with an argument, behind two and four qubits.
fn of_four(size: u16, argument: &[u8]) -> Vec<u8> {
    behind_l(TWO_AND_FOUR, &call(0, &[&number(size), argument]))
}

/// Slices at both ends and inside, just as large as asked for and larger. A call, its loop,
/// and a round and a gate for each wire.
fn parts() -> Vec<Recorded> {
    let row = |name, size: u16, (first, last), wires: &[u16]| {
        let program = of_four(size, &between(1, first, last));
        let count = u32::from(size);
        Recorded::run(name, program, [0, 0, count, 2 + 2 * count], &gates(wires))
    };
    vec![
        row("the first two wires", 2, (0, 1), &[2, 3]),
        row("two wires inside", 2, (1, 2), &[3, 4]),
        row("the last two wires", 2, (2, 3), &[4, 5]),
        row("the first wire", 1, (0, 0), &[2]),
        row("the last wire", 1, (3, 3), &[5]),
        row("all wires", 4, (0, 3), &[2, 3, 4, 5]),
        row("one wire of three", 1, (1, 3), &[3]),
        row("two wires of all", 2, (0, 3), &[2, 3]),
        row("no wire of two", 0, (1, 2), &[]),
    ]
}

/// Empty slices at the beginning, inside, at the very end and of an empty register.
fn empty() -> Vec<Recorded> {
    let row = |name, program| Recorded::run(name, program, [0, 0, 0, 2], "");
    let below = bytes(BELOW);
    let of_none = call(0, &[&number(0), &slice(0, &number(0), &below)]);
    let none = behind_l("02 02 00 00 00", &of_none);
    let too_far = behind_l("02 02 00 00 00", &call(0, &[&number(0), &between(0, 1, 0)]));
    vec![
        row(
            "empty at the beginning",
            of_four(0, &slice(1, &number(0), &below)),
        ),
        row("empty inside", of_four(0, &between(1, 2, 1))),
        row("empty at the very end", of_four(0, &between(1, 4, 3))),
        row("empty of an empty register", none),
        Recorded::check("1..0 of an empty register", too_far, 12, 57),
    ]
}

/// The last of 65,535 qubits, and nothing behind it.
fn at_the_end_of_all() -> Vec<Recorded> {
    let row = |name, size: u16, first, expected, wires: &[u16]| {
        let call = call(0, &[&number(size), &between(0, first, 65_534)]);
        let program = behind_l("02 02 00 ff ff", &call);
        Recorded::run(name, program, expected, &gates(wires))
    };
    let behind = call(0, &[&number(0), &slice(1, &number(0), &bytes(BELOW))]);
    vec![
        row("the last of all qubits", 1, 65_534, [0, 0, 1, 4], &[65_534]),
        row("nothing behind all qubits", 0, 65_535, [0, 0, 0, 2], &[]),
        Recorded::run(
            "an empty register behind all qubits",
            behind_l("02 02 00 ff ff 02 02 00 00 00", &behind),
            [0, 0, 0, 2],
            "",
        ),
    ]
}

/// Family 1 passes x[1..2] of four wires to L at 2, family 2 x[2..5] of six to family 1, and
/// a run passes q[1..6] of eight.
fn of_slices() -> Vec<Recorded> {
    let four = "11 05 00 40 02 00 04 00";
    let six = "11 05 00 40 02 00 06 00";
    let inner = family(0, &[four], &call(0, &[&number(2), &between(0, 1, 2)]));
    let outer = family(0, &[six], &call(1, &[&between(0, 2, 5)]));
    let families = joined(&[&inner, &outer]);
    let run = |statement: &[u8]| {
        let top = joined(&[&families, &bytes("02 02 00 08 00"), statement]);
        behind_l("", &top)
    };
    let top = call(2, &[&between(0, 1, 6)]);
    let unrolled = |name, family, steps, wires: &[u16]| {
        let program = behind_l("", &families);
        Recorded::instance(name, program, (family, ""), [0, 0, 2, steps], &gates(wires))
    };
    vec![
        Recorded::run(
            "a slice of a slice of a slice",
            run(&top),
            [0, 0, 2, 8],
            &gates(&[4, 5]),
        ),
        Recorded::run(
            "the same backward",
            run(&field(0x25, &top)),
            [0, 0, 2, 9],
            &gates(&[5, 4]),
        ),
        Recorded::run(
            "a slice of a slice of a whole",
            run(&call(2, &[&bytes(WHOLE)])),
            [0, 0, 2, 8],
            &gates(&[3, 4]),
        ),
        unrolled("a slice in an instance", 1, 6, &[1, 2]),
        unrolled("a slice of a slice in an instance", 2, 7, &[3, 4]),
    ]
}

/// z:Qbit[2n] with, for i=0..n, L at n on z[i..i+n-1]; behind it the same reversed.
fn windows() -> Vec<u8> {
    let twice = "11 0b 00 42 08 00 41 01 00 00 41 01 00 00";
    let (n, i) = (variable(0), variable(1));
    let last = difference(&sum(&i, &n), &number(1));
    let once = call(0, &[&n, &slice(0, &i, &last)]);
    let forward = family(1, &[twice], &looped(&number(0), &n, &once));
    let same = call(1, &[&n, &bytes(WHOLE)]);
    let backward = family(1, &[twice], &field(0x25, &same));
    behind_l("", &joined(&[&forward, &backward]))
}

/// The wires of those rounds, by n.
const WINDOWS: [&[u16]; 6] = [
    &[],
    &[0, 1],
    &[0, 1, 1, 2, 2, 3],
    &[0, 1, 2, 1, 2, 3, 2, 3, 4, 3, 4, 5],
    &[0, 1, 2, 3, 1, 2, 3, 4, 2, 3, 4, 5, 3, 4, 5, 6, 4, 5, 6, 7],
    &[
        0, 1, 2, 3, 4, 1, 2, 3, 4, 5, 2, 3, 4, 5, 6, 3, 4, 5, 6, 7, 4, 5, 6, 7, 8, 5, 6, 7, 8, 9,
    ],
];

/// The steps of those rounds, by n: the loop, then for each of n + 1 rounds the round, the
/// call and its loop with two for each wire.
const WINDOW_STEPS: [u32; 6] = [4, 11, 22, 37, 56, 79];

/// z[i..i+n-1] at n from 0 to 5, forward and backward.
fn sliding() -> Vec<Recorded> {
    let mut rows = vec![Recorded::check("z[i..i+n-1]", windows(), 0, 0)];
    for (n, wires) in WINDOWS.into_iter().enumerate() {
        let (size, count) = (format!("{n:02x} 00 00 00"), wires.len() as u32);
        let backward: Vec<u16> = wires.iter().rev().copied().collect();
        let row = |what, family, steps, wires: &[u16]| {
            let name = format!("z[i..i+n-1]{what} at {n}");
            let expected = [0, 0, count, steps];
            Recorded::instance(&name, windows(), (family, &size), expected, &gates(wires))
        };
        rows.push(row("", 1, WINDOW_STEPS[n], wires));
        rows.push(row(" backward", 2, WINDOW_STEPS[n] + 2, &backward));
    }
    rows
}

/// x:Qbit[n+1] with L at n on x[1..n] and on x[0..n-1], at n from 0 to 5.
fn both_ends() -> Vec<Recorded> {
    let more = "11 0c 00 42 09 00 41 01 00 00 40 02 00 01 00";
    let n = variable(0);
    let upper = call(0, &[&n, &slice(0, &number(1), &n)]);
    let less = difference(&n, &number(1));
    let lower = call(0, &[&n, &slice(0, &number(0), &less)]);
    let program = behind_l("", &family(1, &[more], &joined(&[&upper, &lower])));
    let row = |n: u16| {
        let name = format!("x[1..n] and x[0..n-1] at {n}");
        let wires: Vec<u16> = (1..=n).chain(0..n).collect();
        let expected = [0, 0, 2 * u32::from(n), 4 + 4 * u32::from(n)];
        let size = format!("{n:02x} 00 00 00");
        Recorded::instance(&name, program.clone(), (1, &size), expected, &gates(&wires))
    };
    (0..=5).map(row).collect()
}

/// f(a:Qbit, x:Qbit[2], y:Qbit[2]) { cx(a, x[1]); cx(x[0], y[1]) }, whose gates stand at 24
/// and at 40, called with a wire of six and two more operands.
fn crossing(wire: u16, one: &[u8], other: &[u8]) -> Vec<u8> {
    let two = "11 05 00 40 02 00 02 00";
    let [low, high] = [0, 1].map(|place| format!("40 02 00 0{place} 00"));
    let body = bytes(&format!(
        "23 0d 00 30 01 00 00 31 06 00 01 {high} 23 12 00 31 06 00 01 {low} 31 06 00 02 {high}"
    ));
    let called = family(0, &["10 00 00", two, two], &body);
    let wire = field(0x31, &joined(&[&[0], &number(wire)]));
    let call = call(0, &[&wire, one, other]);
    joined(&[&called, &bytes("02 02 00 06 00"), &call])
}

/// Slices beside a wire and beside each other, apart and on the same wires.
fn arguments() -> Vec<Recorded> {
    let [zero, one, two, three] = [0, 1, 2, 3].map(|first| between(0, first, first + 1));
    let row = |name, program, wires: [(u8, u8); 2]| {
        Recorded::run(name, program, [0, 0, 2, 3], &pairs(&wires))
    };
    let whole = crossing(0, &three, &bytes(WHOLE));
    vec![
        row("two slices", crossing(0, &one, &three), [(0, 2), (1, 4)]),
        row("a slice and a whole", whole, [(0, 4), (3, 1)]),
        row("the wire first", crossing(0, &zero, &two), [(0, 1), (0, 3)]),
        row(
            "one slice twice",
            crossing(2, &zero, &zero),
            [(2, 1), (0, 1)],
        ),
    ]
}

/// Slices that share a wire with each other or with a wire beside them.
fn meeting() -> Vec<Recorded> {
    let [zero, one, two] = [0, 1, 2].map(|first| between(0, first, first + 1));
    let slices = crossing(0, &one, &zero);
    let wire = crossing(1, &zero, &two);
    let first = pairs(&[(0, 2)]);
    vec![
        Recorded::check("slices that meet", slices.clone(), 0, 0),
        Recorded::run("25 of slices that meet", slices, [25, 40, 1, 3], &first),
        Recorded::run("25 of a slice and a wire", wire, [25, 24, 0, 2], ""),
    ]
}

/// The records of cx on pairs of wires.
fn pairs(wires: &[(u8, u8)]) -> String {
    let record = |(control, target): &(u8, u8)| {
        format!("04 00 {control:02x} 00 {target:02x} 00 00 00 00 00 00 00")
    };
    wires.iter().map(record).collect::<Vec<String>>().join(" ")
}

/// Calls with slices in an if, a loop and a reversal, listed and printed.
fn around() -> Vec<Recorded> {
    let once = call(0, &[&number(2), &between(0, 2, 3)]);
    let start = bytes("01 31 06 00 01 40 02 00 00 00");
    let tested = field(6, &joined(&[&start, &once]));
    let i = variable(0);
    let pair = slice(0, &i, &sum(&i, &number(1)));
    let rounds = looped(&number(0), &number(2), &call(0, &[&number(2), &pair]));
    let top = joined(&[&tested, &field(0x25, &rounds)]);
    let program = behind_l("02 02 00 04 00 03 02 00 01 00", &top);
    let records = format!(
        "01 02 02 00 00 00 00 00 00 00 00 00 01 02 03 00 00 00 00 00 00 00 00 00 {}",
        gates(&[3, 2, 2, 1, 1, 0])
    );
    let text = "OPENQASM 2.0;\ninclude \"qelib1.inc\";\nqreg q[4];\ncreg c0[1];\n\
        if(c0==1) h q[2];\nif(c0==1) h q[3];\n\
        h q[3];\nh q[2];\nh q[2];\nh q[1];\nh q[1];\nh q[0];\n";
    let row = |name| Recorded::run(name, program.clone(), [0, 0, 8, 30], &records);
    vec![
        row("slices in an if and in a reversal"),
        row("slices, just enough").limit(30).into_bytes(96),
        row("slices, printed").printed(text),
    ]
}

/// L as family 256, called by a number of two bytes with q[1..2].
fn two_byte_call() -> Vec<Recorded> {
    let idle = bytes("01 05 00 00 01 10 00 00").repeat(256);
    let content = joined(&[&[0, 1], &number(2), &between(0, 1, 2)]);
    let top = behind_l(QUBITS, &field(0x27, &content));
    let program = joined(&[&idle, &top]);
    vec![Recorded::run(
        "a slice for family 256",
        program,
        [0, 0, 2, 6],
        &gates(&[1, 2]),
    )]
}
