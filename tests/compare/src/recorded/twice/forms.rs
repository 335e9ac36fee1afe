//! Equal and unequal forms: numbers at the top, sizes in a family, and loops.

use super::{cphase, cx, element, whole, K3, QBIT, QUBITS};
use crate::recorded::slices::{difference, family, looped, number, product, sum, variable};
use crate::recorded::{bytes, joined, Recorded};

/// The type Qbit[n + 2], 15 bytes.
const CELLS: &str = "11 0c 00 42 09 00 41 01 00 00 40 02 00 02 00";
/// Where the body of a family of x, y:Qbit[n + 2] and a, b:Qbit begins, and the gate in one
/// loop of that body, and in two.
const BODY: u32 = 41;
const IN_ONE: u32 = 53;
const IN_TWO: u32 = 64;

/// All rows.
pub fn rows() -> Vec<Recorded> {
    let mut rows = numbers();
    rows.extend(registers());
    rows.extend(equal_sizes());
    rows.extend(unequal_sizes());
    rows.extend(wires());
    rows.extend(in_one_loop());
    rows.extend(in_two_loops());
    rows.extend(every_variable());
    rows.extend(far_numbers());
    rows
}

/// Checks of a cx and of a cphase by 3, which are refused at a place or, where that is 0,
/// accepted.
fn both(
    name: &str,
    [first, second]: [&[u8]; 2],
    place: u32,
    around: impl Fn(&[u8]) -> Vec<u8>,
) -> [Recorded; 2] {
    let number = if place == 0 { 0 } else { 35 };
    let gates = [cx(first, second), cphase(&bytes(K3), first, second)];
    gates.map(|gate| Recorded::check(name, around(&gate), number, place))
}

/// A gate behind four qubits, at 5.
fn behind_qubits(gate: &[u8]) -> Vec<u8> {
    joined(&[&bytes(QUBITS), gate])
}

/// Every spelling of q[2] beside every other, and beside q[1] and q[3].
fn numbers() -> Vec<Recorded> {
    let [zero, one, two, three] = [0, 1, 2, 3].map(number);
    let spellings = [
        two.clone(),
        sum(&one, &one),
        difference(&three, &one),
        product(&two, &one),
        sum(&zero, &two),
        difference(&zero, &difference(&zero, &two)),
        difference(&product(&three, &two), &product(&two, &two)),
    ];
    let mut rows = Vec::new();
    for first in &spellings {
        for second in &spellings {
            let wires = [first, second].map(|index| element(0, index));
            rows.extend(both("q[2] twice", [&wires[0], &wires[1]], 5, behind_qubits));
        }
        let wire = element(0, first);
        for other in [&one, &three] {
            let other = element(0, other);
            rows.extend(both("q[2] and another", [&wire, &other], 0, behind_qubits));
            rows.extend(both("another and q[2]", [&other, &wire], 0, behind_qubits));
        }
    }
    rows
}

/// The same index of two registers, behind which a gate stands at 10.
fn registers() -> Vec<Recorded> {
    let two = |gate: &[u8]| joined(&[&bytes(QUBITS), &behind_qubits(gate)]);
    let [q, r] = [0, 1].map(|register| element(register, &number(2)));
    [
        both("q[2] and r[2]", [&q, &r], 0, two),
        both("r[2] and q[2]", [&r, &q], 0, two),
        both("q[2] twice beside r", [&q, &q], 10, two),
        both("r[2] twice", [&r, &r], 10, two),
    ]
    .into_iter()
    .flatten()
    .collect()
}

/// The family over n and m with a body that begins at 41.
fn in_family(body: &[u8]) -> Vec<u8> {
    family(2, &[CELLS, CELLS, QBIT, QBIT], body)
}

/// Both gates in some place, on elements of x with two indexes.
fn cells(
    name: &str,
    indexes: [&[u8]; 2],
    place: u32,
    around: fn(&[u8]) -> Vec<u8>,
) -> [Recorded; 2] {
    let [first, second] = indexes.map(|index| element(0, index));
    both(name, [&first, &second], place, around)
}

/// Indexes over the sizes n and m that have equal forms.
fn equal_sizes() -> Vec<Recorded> {
    let [n, m] = [0, 1].map(variable);
    let [zero, one, two] = [0, 1, 2].map(number);
    let more = sum(&n, &one);
    let less = difference(&sum(&n, &two), &one);
    let twice = product(&two, &n);
    let [none, no_m] = [product(&zero, &n), product(&zero, &m)];
    let same = |name, first: &[u8], second: &[u8]| cells(name, [first, second], BODY, in_family);
    let rows = [
        same("n", &n, &n),
        same("n + 1, 1 + n", &more, &sum(&one, &n)),
        same("n + 1, n + 2 - 1", &more, &less),
        same("n + 0m, n", &sum(&n, &no_m), &n),
        same("n, m0 + n", &n, &sum(&product(&m, &zero), &n)),
        same("2n - n, n", &difference(&twice, &n), &n),
        same("n + n - n, n", &difference(&sum(&n, &n), &n), &n),
        same("n, n + m - m", &n, &difference(&sum(&n, &m), &m)),
        same("n - n, 0", &difference(&n, &n), &zero),
        same("0m, 0n", &no_m, &none),
    ];
    rows.into_iter().flatten().collect()
}

/// Indexes over n that have other forms, though some are one number at some sizes.
fn unequal_sizes() -> Vec<Recorded> {
    let n = variable(0);
    let [zero, one, two] = [0, 1, 2].map(number);
    let more = sum(&n, &one);
    let other = |name, first: &[u8], second: &[u8]| cells(name, [first, second], 0, in_family);
    let rows = [
        other("n, n + 1", &n, &more),
        other("n + 1, 1", &more, &one),
        other("n, 0", &n, &zero),
        other("0, n", &zero, &n),
        other("n + 1, 2n - n", &more, &difference(&product(&two, &n), &n)),
    ];
    rows.into_iter().flatten().collect()
}

/// Whole wires, and wires beside elements.
fn wires() -> Vec<Recorded> {
    let [a, b] = [2, 3].map(whole);
    let [x, y] = [0, 1].map(|register| element(register, &variable(0)));
    let rows = [
        both("a twice", [&a, &a], BODY, in_family),
        both("b twice", [&b, &b], BODY, in_family),
        both("a and b", [&a, &b], 0, in_family),
        both("b and a", [&b, &a], 0, in_family),
        both("a and x[n]", [&a, &x], 0, in_family),
        both("y[n] and b", [&y, &b], 0, in_family),
        both("x[n] and y[n]", [&x, &y], 0, in_family),
        both("y[n] twice", [&y, &y], BODY, in_family),
    ];
    rows.into_iter().flatten().collect()
}

/// for i=0..n in the family, with a gate at 53.
pub(super) fn in_a_loop(gate: &[u8]) -> Vec<u8> {
    in_family(&looped(&number(0), &variable(0), gate))
}

/// Indexes over n and a loop's i.
fn in_one_loop() -> Vec<Recorded> {
    let [n, i] = [0, 2].map(variable);
    let [zero, one] = [0, 1].map(number);
    let [next, down] = [sum(&i, &one), difference(&n, &i)];
    let up = sum(&difference(&zero, &i), &n);
    let same = |name, first: &[u8], second: &[u8]| cells(name, [first, second], IN_ONE, in_a_loop);
    let other = |name, first: &[u8], second: &[u8]| cells(name, [first, second], 0, in_a_loop);
    let rows = [
        same("i", &i, &i),
        same("i + 1, 1 + i", &next, &sum(&one, &i)),
        same("n - i, 0 - i + n", &down, &up),
        same("n - (n - i), i", &difference(&n, &down), &i),
        same("i + 0n, i", &sum(&i, &product(&zero, &n)), &i),
        same("i - i + 1, 1", &sum(&difference(&i, &i), &one), &one),
        other("i, i + 1", &i, &next),
        other("i, n - i", &i, &down),
        other("n - i, n", &down, &n),
        other("i, 0", &i, &zero),
        other("n, i", &n, &i),
    ];
    rows.into_iter().flatten().collect()
}

/// for i=0..n, for j=i..i in the family, with a gate at 64.
fn in_loops(gate: &[u8]) -> Vec<u8> {
    let [n, i] = [0, 2].map(variable);
    let inner = looped(&i, &i, gate);
    in_family(&looped(&number(0), &n, &inner))
}

/// Indexes over two loops, of which the inner one goes from i to i.
fn in_two_loops() -> Vec<Recorded> {
    let [i, j] = [2, 3].map(variable);
    let [zero, one, two] = [0, 1, 2].map(number);
    let [above, below] = [difference(&j, &i), difference(&i, &j)];
    let same = |name, first: &[u8], second: &[u8]| cells(name, [first, second], IN_TWO, in_loops);
    let other = |name, first: &[u8], second: &[u8]| cells(name, [first, second], 0, in_loops);
    let rows = [
        same("j", &j, &j),
        same("i + j - i, j", &difference(&sum(&i, &j), &i), &j),
        same("j, j + 0i", &j, &sum(&j, &product(&zero, &i))),
        same("j - i", &above, &above),
        same("j - i, 0 - (i - j)", &above, &difference(&zero, &below)),
        other("i, j", &i, &j),
        other("j, i", &j, &i),
        other("j - i, 0", &above, &zero),
        other("2i - j, i", &difference(&product(&two, &i), &j), &i),
        other("i + 1, j + 1", &sum(&i, &one), &sum(&j, &one)),
        other("i - j, j - i", &below, &above),
    ];
    rows.into_iter().flatten().collect()
}

/// A family over 4 sizes with x:Qbit[v0 + v1 + v2 + v3 + 1], a type of 36 bytes, and 8 loops
/// from 0 to 0 of 13 bytes each: the gate stands at 145.
fn in_eight_loops(gate: &[u8]) -> Vec<u8> {
    let size = "11 21 00 42 1e 00 42 16 00 42 08 00 41 01 00 00 41 01 00 01 \
        42 08 00 41 01 00 02 41 01 00 03 40 02 00 01 00";
    let zero = number(0);
    let loops = (0..8).fold(gate.to_vec(), |inner, _| looped(&zero, &zero, &inner));
    family(4, &[size], &loops)
}

/// Forms that differ in the coefficient of one variable only, for each of the twelve.
fn every_variable() -> Vec<Recorded> {
    let zero = number(0);
    let row = |place: u8| {
        let index = variable(place);
        let same = sum(&product(&zero, &variable(11 - place)), &index);
        let [none, one, again] = [&zero, &index, &same].map(|index| element(0, index));
        let [name, twice] = ["0 and", "twice"].map(|word| format!("{word} v{place}"));
        [
            both(&name, [&none, &one], 0, in_eight_loops),
            both(&name, [&one, &none], 0, in_eight_loops),
            both(&twice, [&one, &again], 145, in_eight_loops),
        ]
    };
    (0..12).flat_map(row).flatten().collect()
}

/// Four qubits and a loop over i from 0 to 0, with a gate at 18.
fn in_a_round(gate: &[u8]) -> Vec<u8> {
    behind_qubits(&looped(&number(0), &number(0), gate))
}

/// Coefficients that are far from each other, or differ in a few bits or in the sign.
fn far_numbers() -> Vec<Recorded> {
    let i = variable(0);
    let [zero, one, byte] = [0, 1, 256].map(number);
    let most = product(&number(40_000), &number(50_000));
    let times = |factor: &[u8]| product(factor, &i);
    let [near, far] = [times(&byte), times(&product(&byte, &byte))];
    let [last, before] = [times(&most), times(&difference(&most, &one))];
    let below = difference(&zero, &i);
    let same = |name, first: &[u8], second: &[u8]| cells(name, [first, second], 18, in_a_round);
    let other = |name, first: &[u8], second: &[u8]| cells(name, [first, second], 0, in_a_round);
    let rows = [
        same("65,536i twice", &far, &product(&byte, &near)),
        same("2,000,000,000i twice", &last, &sum(&before, &i)),
        same("-i twice", &below, &difference(&i, &sum(&i, &i))),
        other("256i, 0", &near, &zero),
        other("65,536i, 0", &far, &zero),
        other("65,536i, 256i", &far, &near),
        other("2,000,000,000i, 1,999,999,999i", &last, &before),
        other("2,000,000,000i, 0", &last, &zero),
        other(
            "2,000,000,000i, -2,000,000,000i",
            &last,
            &difference(&zero, &last),
        ),
        other("-i, i", &below, &i),
    ];
    rows.into_iter().flatten().collect()
}
