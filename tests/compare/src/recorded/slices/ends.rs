//! How runs with slices end: at the call, for a value out of range, and inside it.

use super::{behind_l, between, call, difference, family, gates, number, passed, product};
use super::{slice, sum, variable, BELOW, SLICE_AT};
use crate::recorded::{bytes, field, joined, Recorded};

/// The sizes 1, 40,000 and 40,001.
const ONE: &str = "01 00 00 00";
const NEAR: &str = "40 9c 00 00";
const PAST: &str = "41 9c 00 00";

/// The type Qbit[3], 8 bytes.
const THREE: &str = "11 05 00 40 02 00 03 00";

/// All rows.
pub fn rows() -> Vec<Recorded> {
    let mut rows = values();
    rows.extend(beside_values());
    rows.extend(limits());
    rows.extend(lengths());
    rows.extend(refused());
    rows
}

/// A number plus 50000n - 50000n, which is the number unless 50000n leaves the range.
fn far(value: u16) -> Vec<u8> {
    let large = product(&number(50_000), &variable(0));
    sum(&number(value), &difference(&large, &large))
}

/// L and a family over n with x:Qbit[3] and a body at 56.
fn over_n(body: &[u8]) -> Vec<u8> {
    behind_l("", &family(1, &[THREE], body))
}

/// L at 2 on x[1..2], the two indexes written in any way.
fn ends(first: &[u8], last: &[u8]) -> Vec<u8> {
    call(0, &[&number(2), &slice(0, first, last)])
}

/// An instance of that family.
fn row(name: &str, body: &[u8], size: &str, expected: [u32; 4], wires: &[u16]) -> Recorded {
    Recorded::instance(name, over_n(body), (1, size), expected, &gates(wires))
}

/// Values that leave the range in the first index, in the last, in both, and in a size.
fn values() -> Vec<Recorded> {
    let (one, two) = (number(1), number(2));
    let first = ends(&far(1), &two);
    let last = ends(&one, &far(2));
    let both = ends(&far(1), &far(2));
    let size = call(0, &[&far(2), &slice(0, &far(1), &two)]);
    let (done, ended) = ([0, 0, 2, 6], [24, 56, 0, 1]);
    vec![
        row("the first is 1 at 1", &first, ONE, done, &[1, 2]),
        row("the first is 1 at 40,000", &first, NEAR, done, &[1, 2]),
        row("24 in the first", &first, PAST, ended, &[]),
        row("the last is 2 at 40,000", &last, NEAR, done, &[1, 2]),
        row("24 in the last", &last, PAST, ended, &[]),
        row("both are in range at 40,000", &both, NEAR, done, &[1, 2]),
        row("24 in both", &both, PAST, ended, &[]),
        row("a size and the first at 40,000", &size, NEAR, done, &[1, 2]),
        row("24 in a size and in the first", &size, PAST, ended, &[]),
    ]
}

/// Values out of range beside other ends, behind a call and backward.
fn beside_values() -> Vec<Recorded> {
    let last = ends(&number(1), &far(2));
    let before = call(0, &[&number(2), &between(0, 0, 1)]);
    // The first call takes 23 bytes.
    let behind = joined(&[&before, &last]);
    let backward = field(0x25, &behind);
    vec![
        row("26 before 24 in the last", &last, PAST, [26, 56, 0, 0], &[]).limit(0),
        row(
            "24 in the last before 26 inside",
            &last,
            PAST,
            [24, 56, 0, 1],
            &[],
        )
        .limit(1),
        row("24 in the last before 27", &last, PAST, [24, 56, 0, 1], &[]).into_bytes(0),
        row("24 behind a call", &behind, PAST, [24, 79, 2, 7], &[0, 1]),
        row(
            "24 behind a call, backward",
            &backward,
            PAST,
            [24, 82, 0, 2],
            &[],
        ),
        row(
            "no 24, backward",
            &backward,
            NEAR,
            [0, 0, 4, 13],
            &[2, 1, 1, 0],
        ),
    ]
}

/// L at 2 on r[1..2] of four qubits behind two: the call stands at 53.
fn inside() -> Vec<u8> {
    let call = call(0, &[&number(2), &between(1, 1, 2)]);
    behind_l("02 02 00 02 00 02 02 00 04 00", &call)
}

/// Every step limit of a call with a slice: the call, the loop, then rounds and gates.
fn limits() -> Vec<Recorded> {
    let row = |limit: u32, number, place, wires: &[u16]| {
        let name = format!("a slice, limit {limit}");
        let count = wires.len() as u32;
        let expected = [number, place, count, limit];
        Recorded::run(&name, inside(), expected, &gates(wires)).limit(limit.into())
    };
    vec![
        row(0, 26, 53, &[]),
        row(1, 26, 12, &[]),
        row(2, 26, 12, &[]),
        row(3, 26, 24, &[]),
        row(4, 26, 12, &[3]),
        row(5, 26, 24, &[3]),
        row(6, 0, 0, &[3, 4]),
    ]
}

/// Outputs of no, one and two records, and one byte less.
fn lengths() -> Vec<Recorded> {
    let row = |length, number, steps, wires: &[u16]| {
        let name = format!("a slice into {length} bytes");
        let place = if number == 0 { 0 } else { 24 };
        let expected = [number, place, wires.len() as u32, steps];
        Recorded::run(&name, inside(), expected, &gates(wires)).into_bytes(length)
    };
    vec![
        row(0, 27, 4, &[]),
        row(11, 27, 4, &[]),
        row(12, 27, 6, &[3]),
        row(23, 27, 6, &[3]),
        row(24, 0, 6, &[3, 4]),
    ]
}

/// Programs refused for a slice by every call, whatever else is asked.
fn refused() -> Vec<Recorded> {
    let below = passed(2, &slice(0, &bytes(BELOW), &number(2)));
    let few = passed(3, &between(0, 1, 2));
    let expected = [12, SLICE_AT, 0, 0];
    vec![
        Recorded::run("12 of the first, run", below.clone(), expected, "").limit(0),
        Recorded::instance(
            "12 of the first, instance",
            below.clone(),
            (0, ""),
            expected,
            "",
        ),
        Recorded::run("12 of the first, printed", below, expected, "").printed(""),
        Recorded::run("too few wires, run", few.clone(), expected, "").into_bytes(0),
        Recorded::instance("too few wires before 20", few, (9, ""), expected, ""),
    ]
}
