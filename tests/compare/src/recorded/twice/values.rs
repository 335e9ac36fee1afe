//! One wire twice by values and parameters: accepted, and the end of a run that comes there.

use super::forms::in_a_loop;
use super::{cx, element, whole, QBIT, QUBITS};
use crate::recorded::slices::{between, call, difference, family, looped, number, sum, variable};
use crate::recorded::{bytes, field, joined, Recorded};

/// The type Qbit[2], 8 bytes.
const OF_TWO: &str = "11 05 00 40 02 00 02 00";

/// All rows.
pub fn rows() -> Vec<Recorded> {
    let mut rows = parameters();
    rows.extend(registers());
    rows.extend(rounds());
    rows.extend(two_loops());
    rows.extend(instances());
    rows
}

/// The records of cx on pairs of wires.
fn pairs(wires: &[(u8, u8)]) -> String {
    let record = |(control, target): &(u8, u8)| {
        format!("04 00 {control:02x} 00 {target:02x} 00 00 00 00 00 00 00")
    };
    wires.iter().map(record).collect::<Vec<String>>().join(" ")
}

/// A check that accepts a program, and its run.
fn accepted(name: &str, program: Vec<u8>, expected: [u32; 4], wires: &[(u8, u8)]) -> [Recorded; 2] {
    [
        Recorded::check(name, program.clone(), 0, 0),
        Recorded::run(name, program, expected, &pairs(wires)),
    ]
}

/// f(a, b) { cx(a, b) }, 22 bytes, with its gate at 11; four qubits, and at 27 a statement.
fn behind_two(statement: &[u8]) -> Vec<u8> {
    let gate = cx(&whole(0), &whole(1));
    let two = family(0, &[QBIT, QBIT], &gate);
    joined(&[&two, &bytes(QUBITS), statement])
}

/// A family on two wires, called with one wire twice or with two.
fn parameters() -> Vec<Recorded> {
    let [q0, q1] = [0, 1].map(|index| element(0, &number(index)));
    let zero = element(0, &difference(&number(1), &number(1)));
    let i = element(0, &variable(0));
    let each = call(0, &[&i, &i]);
    let looped = looped(&number(0), &number(1), &each);
    let backward = field(0x25, &call(0, &[&q1, &q1]));
    let on = |first: &[u8], second: &[u8]| behind_two(&call(0, &[first, second]));
    let own = cx(&whole(0), &whole(0));
    let twice = joined(&[
        &family(0, &[QBIT, QBIT], &own),
        &bytes(QUBITS),
        &call(0, &[&q0, &q1]),
    ]);
    let met = [25, 11, 0, 2];
    let cases = [
        accepted("f(q[0], q[1])", on(&q0, &q1), [0, 0, 1, 2], &[(0, 1)]),
        accepted("f(q[0], q[0])", on(&q0, &q0), met, &[]),
        accepted("f(q[0], q[1 - 1])", on(&q0, &zero), met, &[]),
        accepted("f(q[i], q[i])", behind_two(&looped), [25, 11, 0, 4], &[]),
        accepted(
            "reverse f(q[1], q[1])",
            behind_two(&backward),
            [25, 11, 0, 3],
            &[],
        ),
    ];
    let mut rows: Vec<Recorded> = cases.into_iter().flatten().collect();
    rows.push(Recorded::run("f(q[0], q[0]), printed", on(&q0, &q0), met, "").printed(""));
    rows.push(Recorded::check("cx(a, a) in f(a, b)", twice, 35, 11));
    rows
}

/// f(x:Qbit[2], y:Qbit[2]) with a cx at 21 of an element of x and one of a parameter, called
/// at 47 with two parts of four qubits.
fn crossing(cell: u16, other: (u8, u16), parts: [&[u8]; 2]) -> Vec<u8> {
    let gate = cx(
        &element(0, &number(cell)),
        &element(other.0, &number(other.1)),
    );
    let called = family(0, &[OF_TWO, OF_TWO], &gate);
    joined(&[&called, &bytes(QUBITS), &call(0, &parts)])
}

/// Slices that meet or do not, and a register that is passed twice.
fn registers() -> Vec<Recorded> {
    let [low, middle, high] = [0, 1, 2].map(|first| between(0, first, first + 1));
    let all = whole(0);
    let met = |name, cell, parts| {
        let program = crossing(cell, (1, 0), parts);
        accepted(name, program, [25, 21, 0, 2], &[])
    };
    let good = |name, other, parts, wires| {
        let program = crossing(1, other, parts);
        accepted(name, program, [0, 0, 1, 2], &[wires])
    };
    let cases = [
        good("x[1], y[0] apart", (1, 0), [&low, &high], (1, 2)),
        met("x[1], y[0] that meet", 1, [&low, &middle]),
        good("x[1], y[0] of one", (1, 0), [&all, &all], (1, 0)),
        met("x[0], y[0] of one", 0, [&all, &all]),
        met("x[0], y[0] of one slice", 0, [&high, &high]),
        good("x[1], x[0]", (0, 0), [&low, &low], (1, 0)),
    ];
    let mut rows: Vec<Recorded> = cases.into_iter().flatten().collect();
    let same = crossing(1, (0, 1), [&low, &high]);
    rows.push(Recorded::check("x[1], x[1]", same, 35, 21));
    rows
}

/// q[i] and q[2] in a loop over i, with the gate at 18, or at 21 in a reverse.
fn rounds() -> Vec<Recorded> {
    let gate = cx(&element(0, &variable(0)), &element(0, &number(2)));
    let up = |high| looped(&number(0), &number(high), &gate);
    let top = |statement: &[u8]| joined(&[&bytes(QUBITS), statement]);
    let backward = top(&field(0x25, &up(3)));
    let none = top(&looped(&number(2), &number(1), &gate));
    let cases = [
        accepted(
            "q[i], q[2] up to 1",
            top(&up(1)),
            [0, 0, 2, 5],
            &[(0, 2), (1, 2)],
        ),
        accepted(
            "q[i], q[2] up to 3",
            top(&up(3)),
            [25, 18, 2, 7],
            &[(0, 2), (1, 2)],
        ),
        accepted(
            "q[i], q[2] down from 3",
            backward,
            [25, 21, 1, 6],
            &[(3, 2)],
        ),
        accepted("q[i], q[2] in no round", none, [0, 0, 0, 1], &[]),
    ];
    cases.into_iter().flatten().collect()
}

/// q[i] and q[j] in loops over i from 0 to 3 and over j; the gate stands at 29 where j goes
/// from i to i.
fn two_loops() -> Vec<Recorded> {
    let [i, j] = [0, 1].map(variable);
    let gate = cx(&element(0, &i), &element(0, &j));
    let over = |low: &[u8], high: &[u8]| {
        let inner = looped(low, high, &gate);
        let outer = looped(&number(0), &number(3), &inner);
        joined(&[&bytes(QUBITS), &outer])
    };
    let same = over(&i, &i);
    let above = over(&sum(&i, &number(1)), &number(3));
    let upper = [(0, 1), (0, 2), (0, 3), (1, 2), (1, 3), (2, 3)];
    let cases = [
        accepted("q[i], q[j], j=i..i", same, [25, 29, 0, 5], &[]),
        accepted("q[i], q[j], j=i+1..3", above, [0, 0, 6, 21], &upper),
    ];
    cases.into_iter().flatten().collect()
}

/// x[i] and x[n - i] for i=0..n, with the gate at 53, at n from 0 to 3.
fn instances() -> Vec<Recorded> {
    let [n, i] = [0, 2].map(variable);
    let gate = cx(&element(0, &i), &element(0, &difference(&n, &i)));
    let program = in_a_loop(&gate);
    let row = |n: u8, expected, wires: &[(u8, u8)]| {
        let name = format!("x[i], x[n - i] at {n}");
        let sizes = format!("{n:02x} 00 00 00 00 00 00 00");
        let asked = (0, sizes.as_str());
        Recorded::instance(&name, program.clone(), asked, expected, &pairs(wires))
    };
    vec![
        row(0, [25, 53, 0, 3], &[]),
        row(1, [0, 0, 2, 5], &[(0, 1), (1, 0)]),
        row(2, [25, 53, 1, 5], &[(0, 2)]),
        row(3, [0, 0, 4, 9], &[(0, 3), (1, 2), (2, 1), (3, 0)]),
    ]
}
