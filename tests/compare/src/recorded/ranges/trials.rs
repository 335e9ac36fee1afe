//! Several loops: which one is of use, two that would be needed at once, and trials that
//! leave the range.

use super::{far, h, in_loop, inner_cells, n_less, over_n, qubits, shown, OPERAND};
use crate::recorded::slices::{difference, family, looped, number, product, sum, variable};
use crate::recorded::{joined, Recorded};

/// All rows.
pub fn rows() -> Vec<Recorded> {
    let mut rows = depths();
    rows.extend(eight());
    rows.extend(at_once());
    rows.extend(over_a_loop());
    rows.extend(passed_over());
    rows.extend(kept());
    rows
}

/// A loop for j=0..1 around a body, in 13 bytes more.
fn twice(body: &[u8]) -> Vec<u8> {
    looped(&number(0), &number(1), body)
}

/// The range of an outer loop, an inner one and one between, x:Qbit[n].
fn depths() -> Vec<Recorded> {
    // A gate inside two loops has its operand 13 bytes further, inside three 26.
    let row = |name, made: &dyn Fn(&[u8]) -> Vec<u8>, loops: u32| {
        let place = OPERAND + 13 * (loops - 1);
        let program = |index| over_n(&made(&h(&number(index))));
        [
            shown(&format!("{name}, x[1]"), program(1), true, 0),
            shown(&format!("{name}, x[2]"), program(2), false, place),
        ]
    };
    [
        row("inner", &|body| twice(&inner_cells(body)), 2),
        row("outer", &|body| inner_cells(&twice(body)), 2),
        row("outermost", &|body| inner_cells(&twice(&twice(body))), 3),
        row("between", &|body| twice(&inner_cells(&twice(body))), 3),
        row("innermost", &|body| twice(&twice(&inner_cells(body))), 3),
    ]
    .into_iter()
    .flatten()
    .collect()
}

/// Eight loops, of which each has the range in its turn.
fn eight() -> Vec<Recorded> {
    let program = |depth, index| {
        let body = (0..8).rev().fold(h(&number(index)), |body, at| {
            if at == depth {
                inner_cells(&body)
            } else {
                twice(&body)
            }
        });
        over_n(&body)
    };
    let mut rows = Vec::new();
    for depth in 0..8 {
        let name = format!("the range of loop {depth} of eight");
        rows.push(shown(&name, program(depth, 1), true, 0));
        rows.push(shown(&name, program(depth, 2), false, OPERAND + 7 * 13));
    }
    rows
}

/// x:Qbit[n+k], for i=1..n, for j=1..k: the room n + k - 1 of x[0] leaves n; that of x[1] would
/// take both ranges.
fn at_once() -> Vec<Recorded> {
    let both = "11 0b 00 42 08 00 41 01 00 00 41 01 00 01";
    let program = |index| {
        let inner = looped(&number(1), &variable(1), &h(&number(index)));
        family(2, &[both], &looped(&number(1), &variable(0), &inner))
    };
    // Two loops with the same range, and 2n - 4 as an index of x:Qbit[n].
    let double = difference(&product(&number(2), &variable(0)), &number(4));
    vec![
        shown("i=1..n, j=1..k, x[0] of n+k", program(0), true, 0),
        shown("i=1..n, j=1..k, x[1] of n+k", program(1), false, 46),
        shown(
            "x[2n-4] in two loops",
            over_n(&inner_cells(&inner_cells(&h(&double)))),
            false,
            55,
        ),
    ]
}

/// q[2-i] and q[1-i] of three, for i=0..3, for j=i..2: the range of the inner loop is 2 - i.
fn over_a_loop() -> Vec<Recorded> {
    let program = |from| {
        let index = difference(&number(from), &variable(0));
        let inner = looped(&variable(0), &number(2), &h(&index));
        let outer = looped(&number(0), &number(3), &inner);
        joined(&[&qubits(3), &outer])
    };
    // Of x:Qbit[n], the range n - 1 + i of an inner loop is too large and the outer one's not.
    let above = |index| {
        let high = sum(&n_less(1), &variable(1));
        in_loop(&looped(&number(0), &high, &h(&number(index))))
    };
    vec![
        shown("i=0..3, j=i..2, q[2-i]", program(2), true, 0),
        shown("i=0..3, j=i..2, q[1-i]", program(1), false, 33),
        shown("i=1..n-1, j=0..n-1+i, x[1]", above(1), true, 0),
        shown("i=1..n-1, j=0..n-1+i, x[2]", above(2), false, 62),
    ]
}

/// Trials that leave the range, inside the one that shows x[0] and x[1].
fn passed_over() -> Vec<Recorded> {
    let below = || difference(&number(0), &far());
    // From -1,800,000,000 to 1,800,000,000: the gate stands at 69.
    let range = |index| in_loop(&looped(&below(), &far(), &h(&number(index))));
    // From 0 to -2,000,000,000 - n: what is left of n - 1 has 2n - 1 + 2,000,000,000.
    let most = product(&number(40_000), &number(50_000));
    let up = |index| in_loop(&looped(&number(0), &most, &h(&number(index))));
    let down = difference(&difference(&number(0), &most), &variable(0));
    let left = |index| in_loop(&looped(&number(0), &down, &h(&number(index))));
    vec![
        shown("a range out of range, x[0]", range(0), true, 0),
        shown("a range out of range, x[1]", range(1), true, 0),
        shown("a range out of range, x[2]", range(2), false, 72),
        // -2,000,000,001 and n more; the gate stands at 53.
        shown("what is left is out of range, x[0]", up(0), true, 0),
        shown("what is left is out of range, x[2]", up(2), false, 56),
        // 2n + 1,999,999,999 is in range.
        shown("what is left is just in range, x[0]", left(0), true, 0),
        scanned("a scan out of range, x[0]", 0, true),
        scanned("a scan out of range, x[1]", 1, true),
        scanned("a scan out of range, x[2]", 2, false),
    ]
}

/// x:Qbit[n], for i=1..n-1, for a=50000..50000, for j=0..-40001a h(x[...]): what is left without
/// the range of j is 40,001 a and more, which is 2,000,050,000.
fn scanned(name: &str, index: u16, accepted: bool) -> Recorded {
    let steep = difference(&number(0), &product(&number(40_001), &variable(2)));
    let inner = looped(&number(0), &steep, &h(&number(index)));
    let fixed = looped(&number(50_000), &number(50_000), &inner);
    // The loops stand at 32 and 45, the last bound at 53 with 20 bytes, the gate at 73.
    shown(name, in_loop(&fixed), accepted, 76)
}

/// 11 of the plain rule stays, though a trial would show the form: q[2i] of one qubit,
/// for i=P..P, for j=0..2i with P = 1,800,000,000.
fn kept() -> Vec<Recorded> {
    let double = || product(&number(2), &variable(0));
    let program = |last: &[u8], index: &[u8]| {
        let inner = looped(&number(0), &double(), &h(index));
        joined(&[&qubits(1), &looped(&far(), last, &inner)])
    };
    let zero = number(0);
    let less = difference(&number(0), &double());
    vec![
        Recorded::check("i=P..P, j=0..2i, q[2i]", program(&far(), &double()), 11, 57),
        // The high end takes 5 bytes.
        Recorded::check("i=P..0, j=0..2i, q[2i]", program(&zero, &double()), 11, 49),
        // The index is 0 or more by the plain rule, the room 2i is not.
        Recorded::check("i=P..0, j=0..2i, q[-2i]", program(&zero, &less), 11, 49),
    ]
}
