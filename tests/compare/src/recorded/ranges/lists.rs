//! What runs write in bodies that need a range: with no round, one and several, forward and
//! backward.

use super::{difference, h, in_loop, inner_cells, looped, n_less, number, over_n, reverse};
use super::{element, qubits, variable, WHOLE};
use crate::recorded::examples::FIRST_IN_LOOP;
use crate::recorded::slices::{behind_l, call, gates, slice};
use crate::recorded::{bytes, field, joined, Recorded};

/// All rows.
pub fn rows() -> Vec<Recorded> {
    let mut rows = first_in_loop();
    rows.extend(both_ways());
    rows.extend(triangle());
    rows.extend(passed());
    rows
}

/// Sizes of an instance, up to 255.
fn size(n: u32) -> String {
    format!("{n:02x} 00 00 00")
}

/// x:Qbit[n], for i=1..n-1 h(x[0]): a step for the loop, then two for each round.
fn first_in_loop() -> Vec<Recorded> {
    let row = |n: u32, rounds: u32| {
        let name = format!("i=1..n-1, h(x[0]) at {n}");
        let expected = [0, 0, rounds, 1 + 2 * rounds];
        let records = gates(&vec![0; rounds as usize]);
        let program = bytes(FIRST_IN_LOOP);
        Recorded::instance(&name, program, (0, &size(n)), expected, &records)
    };
    let text = "OPENQASM 2.0;\ninclude \"qelib1.inc\";\nqreg q[2];\nh q[0];\n";
    let none = "OPENQASM 2.0;\ninclude \"qelib1.inc\";\nqreg q[1];\n";
    vec![
        row(0, 0),
        row(1, 0),
        row(2, 1),
        row(3, 2),
        row(9, 8),
        row(2, 1).printed(text),
        row(1, 0).printed(none),
    ]
}

/// The record of an op on a wire.
fn record(op: u8, wire: u8) -> String {
    format!("{op:02x} 00 {wire:02x} 00 {}", "00 ".repeat(8))
}

/// h(x[1]), t(x[n-2]).
fn round() -> Vec<u8> {
    let t = field(0x21, &element(&n_less(2)));
    joined(&[&h(&number(1)), &t])
}

/// x:Qbit[n], for i=1..n-1 h(x[1]), t(x[n-2]), and the same in a reverse or with one inside: no
/// round at 1, one at 2, several at 3 and 4. A step for the loop and three for each round.
fn both_ways() -> Vec<Recorded> {
    let forward = |name, n, expected: [u32; 4]| {
        let pair = format!("{} {}", record(1, 1), record(2, n as u8 - 2));
        let records = pair.repeat(expected[2] as usize / 2);
        Recorded::instance(name, in_loop(&round()), (0, &size(n)), expected, &records)
    };
    let backward = |name, program, n, expected: [u32; 4]| {
        let pair = format!("{} {}", record(3, n as u8 - 2), record(1, 1));
        let records = pair.repeat(expected[2] as usize / 2);
        Recorded::instance(name, program, (0, &size(n)), expected, &records)
    };
    let outside = || over_n(&reverse(&inner_cells(&round())));
    let inside = || in_loop(&reverse(&round()));
    let none = |name, program, steps| {
        Recorded::instance(name, program, (0, &size(1)), [0, 0, 0, steps], "")
    };
    vec![
        none("forward at 1", in_loop(&round()), 1),
        forward("forward at 2", 2, [0, 0, 2, 4]),
        forward("forward at 3", 3, [0, 0, 4, 7]),
        forward("forward at 4", 4, [0, 0, 6, 10]),
        none("backward at 1", outside(), 2),
        backward("backward at 2", outside(), 2, [0, 0, 2, 5]),
        backward("backward at 3", outside(), 3, [0, 0, 4, 8]),
        backward("backward at 4", outside(), 4, [0, 0, 6, 11]),
        none("backward inside at 1", inside(), 1),
        backward("backward inside at 3", inside(), 3, [0, 0, 4, 9]),
    ]
}

/// Three qubits, for i=0..3, for j=i..2 h(q[2-i]): 3, 2, 1 and no rounds. A step for the outer
/// loop, one for each of its 4 rounds and inner loops, and two for each of 6 inner rounds.
fn triangle() -> Vec<Recorded> {
    let index = difference(&number(2), &variable(0));
    let inner = looped(&variable(0), &number(2), &h(&index));
    let outer = looped(&number(0), &number(3), &inner);
    let run = |name, statement: &[u8], steps, wires: &[u16]| {
        let program = joined(&[&qubits(3), statement]);
        Recorded::run(name, program, [0, 0, 6, steps], &gates(wires))
    };
    vec![
        run("q[2-i] in a triangle", &outer, 21, &[2, 2, 2, 1, 1, 0]),
        run(
            "the same backward",
            &reverse(&outer),
            22,
            &[0, 1, 1, 2, 2, 2],
        ),
    ]
}

/// x:Qbit[n], for i=1..n-1 L at 2 on all of x, and on x[n-2..n-1]: a call, a loop, and a round
/// and a gate for each of two wires.
fn passed() -> Vec<Recorded> {
    let part = slice(0, &n_less(2), &n_less(1));
    let row = |name, argument: &[u8], n, expected, wires: &[u16]| {
        let program = behind_l("", &in_loop(&call(0, &[&number(2), argument])));
        Recorded::instance(name, program, (1, &size(n)), expected, &gates(wires))
    };
    let whole = bytes(WHOLE);
    vec![
        row("x for 2 at 1", &whole, 1, [0, 0, 0, 1], &[]),
        row("x for 2 at 2", &whole, 2, [0, 0, 2, 8], &[0, 1]),
        row("x for 2 at 3", &whole, 3, [0, 0, 4, 15], &[0, 1, 0, 1]),
        row("x[n-2..n-1] for 2 at 1", &part, 1, [0, 0, 0, 1], &[]),
        row("x[n-2..n-1] for 2 at 2", &part, 2, [0, 0, 2, 8], &[0, 1]),
        row(
            "x[n-2..n-1] for 2 at 4",
            &part,
            4,
            [0, 0, 6, 22],
            &[2, 3, 2, 3, 2, 3],
        ),
    ]
}
