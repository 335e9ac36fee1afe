//! What is shown of a slice, in order: its first index, its room, its size, and that it is
//! large enough. Each fails with 12 and with 11, beside the next one where that differs.

use super::{behind_l, between, call, difference, family, looped, number, passed, product};
use super::{slice, smallest, sum, variable, BELOW, MOST, QUBITS, SLICE_AT};
use crate::recorded::states::WIDE;
use crate::recorded::{bytes, joined, Recorded};

/// Where the slice of `in_loop` stands behind an index of 5 bytes, and of 12.
const LOOP_AT: u32 = 70;
const FAR_AT: u32 = 77;
/// Where the slice of `wide` stands.
const WIDE_AT: u32 = 34;

/// All rows.
pub fn rows() -> Vec<Recorded> {
    let mut rows = firsts();
    rows.extend(rooms());
    rows.extend(far_rooms());
    rows.extend(sizes());
    rows.extend(far_sizes());
    rows.extend(large_enough());
    rows.extend(far_asked());
    rows.extend(far_spare());
    rows.extend(over_n());
    rows.extend(put_together());
    rows
}

/// 3 - 2,000,000,000 as an index.
fn nearly_smallest() -> Vec<u8> {
    difference(&number(3), &bytes(MOST))
}

/// A factor times the first index variable, 12 bytes.
fn times(factor: u16) -> Vec<u8> {
    product(&number(factor), &variable(0))
}

/// A check of L at a size with a slice of four qubits.
fn row(name: &str, size: u16, [first, last]: [&[u8]; 2], answer: u32) -> Recorded {
    let place = if answer == 0 { 0 } else { SLICE_AT };
    let program = passed(size, &slice(0, first, last));
    Recorded::check(name, program, answer, place)
}

/// L, four qubits and a loop whose rounds all have one value, with a call of L at an index.
fn in_loop(value: u16, size: &[u8], [first, last]: [&[u8]; 2]) -> Vec<u8> {
    let call = call(0, &[size, &slice(0, first, last)]);
    behind_l(QUBITS, &looped(&number(value), &number(value), &call))
}

/// A check of L at 0 in a loop of one round.
fn round(name: &str, value: u16, ends: [&[u8]; 2], answer: u32) -> Recorded {
    let place = if answer == 0 { 0 } else { LOOP_AT };
    Recorded::check(name, in_loop(value, &number(0), ends), answer, place)
}

/// x:Qbit[60000n] called at n with a slice of four qubits.
fn wide(name: &str, size: u16, argument: &[u8], answer: u32) -> Recorded {
    let call = call(0, &[&number(size), argument]);
    let program = joined(&[&bytes(WIDE), &bytes(QUBITS), &call]);
    Recorded::check(name, program, answer, WIDE_AT)
}

/// The first index, and before the room.
fn firsts() -> Vec<Recorded> {
    let (below, two) = (bytes(BELOW), number(2));
    let (far, nine) = (times(40_001), number(9));
    vec![
        row("the first is -1", 2, [&below, &two], 12),
        row(
            "the first is -1, the slice is empty",
            0,
            [&below, &difference(&number(0), &two)],
            12,
        ),
        round("the first is out of range", 50_000, [&far, &two], 11),
        round(
            "the first is just in range",
            50_000,
            [&times(40_000), &two],
            12,
        ),
        row(
            "12 of the first before 11 of the room",
            0,
            [&below, &smallest()],
            12,
        ),
        round(
            "11 of the first before 12 of the room",
            50_000,
            [&far, &nine],
            11,
        ),
        round("12 of the room alone", 50_000, [&number(0), &nine], 12),
    ]
}

/// The room behind the last index, and before the size.
fn rooms() -> Vec<Recorded> {
    let [zero, two, three, four] = [0, 2, 3, 4].map(number);
    let (smallest, most) = (smallest(), bytes(MOST));
    vec![
        row("2..3 of 4", 2, [&two, &three], 0),
        row("3..4 of 4", 2, [&three, &four], 12),
        row("0..4 of 4", 2, [&zero, &four], 12),
        row("11 of the room, 12 of the size", 0, [&zero, &smallest], 11),
        row("12 of the room, 11 of the size", 0, [&zero, &most], 12),
    ]
}

/// Rooms that leave the range when they are built and when they are shown.
fn far_rooms() -> Vec<Recorded> {
    let zero = number(0);
    let (past, near) = (times(40_001), times(40_000));
    let smallest = call(0, &[&zero, &slice(0, &zero, &smallest())]);
    let row = |name, registers, answer| {
        let program = behind_l(registers, &smallest);
        Recorded::check(name, program, answer, SLICE_AT)
    };
    // 1 is taken from the size before the last index is: 0 + 2,000,000,000 is in range.
    vec![
        round("the room shown, past", 50_000, [&zero, &past], 11),
        round("the room shown, in range", 50_000, [&zero, &near], 12),
        row("the room of one qubit", "02 02 00 01 00", 12),
        row("the room of two qubits", "02 02 00 02 00", 11),
    ]
}

/// The size, and before that it is large enough.
fn sizes() -> Vec<Recorded> {
    let [two, three, four] = [2, 3, 4].map(number);
    vec![
        row("2..1 is empty", 0, [&two, &number(1)], 0),
        row("2..0 is less than empty", 0, [&two, &number(0)], 12),
        row("4..3 is empty", 0, [&four, &three], 0),
        row("4..2 is less than empty", 0, [&four, &two], 12),
        row("5..4 is past the end", 0, [&number(5), &four], 12),
        row("5..3 is less than empty", 0, [&number(5), &three], 12),
        // The last less the first comes before 1 is added.
        row(
            "the size is just in range",
            0,
            [&three, &nearly_smallest()],
            12,
        ),
        row(
            "the size is out of range",
            0,
            [&four, &nearly_smallest()],
            11,
        ),
        row(
            "11 of the size before too few",
            2,
            [&four, &nearly_smallest()],
            11,
        ),
        wide(
            "12 of the size before 11 of what is asked",
            40_000,
            &between(0, 2, 0),
            12,
        ),
        wide("11 of what is asked alone", 40_000, &between(0, 2, 1), 11),
    ]
}

/// Sizes that leave the range when 1 is added, and when they are shown.
fn far_sizes() -> Vec<Recorded> {
    let (zero, most) = (number(0), bytes(MOST));
    let less = |number: &[u8]| difference(number, &product(&most, &variable(0)));
    let past = less(&most);
    let near = less(&difference(&most, &number(1)));
    let from = |factor| difference(&number(3), &times(factor));
    vec![
        round(
            "the size is out of range with 1 added",
            1,
            [&zero, &past],
            11,
        ),
        round("the size is in range with 1 added", 1, [&zero, &near], 0),
        Recorded::run(
            "the size is in range with 1 added, run",
            in_loop(1, &zero, [&zero, &near]),
            [0, 0, 0, 4],
            "",
        ),
        round(
            "the size's showing is out of range",
            50_000,
            [&times(20_001), &from(20_001)],
            11,
        ),
        round(
            "the size's showing is just in range",
            50_000,
            [&times(20_000), &from(20_000)],
            12,
        ),
    ]
}

/// Slices of two wires and of none for L at 0 to 3.
fn large_enough() -> Vec<Recorded> {
    let [one, two] = [1, 2].map(number);
    vec![
        row("two wires for none", 0, [&one, &two], 0),
        row("two wires for one", 1, [&one, &two], 0),
        row("two wires for two", 2, [&one, &two], 0),
        row("two wires for three", 3, [&one, &two], 12),
        row("no wires for none", 0, [&two, &one], 0),
        row("no wires for one", 1, [&two, &one], 12),
        row("all wires for four", 4, [&number(0), &number(3)], 0),
        row("all wires for five", 5, [&number(0), &number(3)], 12),
    ]
}

/// A check of L at an index of 12 bytes in a loop of one round, with a slice from 0 on.
fn far_row(name: &str, value: u16, size: &[u8], last: &[u8], answer: u32) -> Recorded {
    let place = if answer == 0 { 0 } else { FAR_AT };
    let program = in_loop(value, size, [&number(0), last]);
    Recorded::check(name, program, answer, place)
}

/// What is asked for out of range, by itself and taken from the size.
fn far_asked() -> Vec<Recorded> {
    let (all, past) = (between(0, 0, 3), between(0, 3, 4));
    let below = slice(0, &bytes(BELOW), &number(2));
    let i = variable(0);
    let minus_i = difference(&number(0), &i);
    let up = |factor: &[u8]| difference(&product(factor, &i), &number(1));
    let most = bytes(MOST);
    let less = difference(&most, &number(1));
    vec![
        wide("asked is out of range", 40_000, &all, 11),
        wide("asked is in range", 33_333, &all, 12),
        wide("12 of the first, 11 of asked", 40_000, &below, 12),
        wide("12 of the room, 11 of asked", 40_000, &past, 12),
        far_row("size less asked, past", 0, &minus_i, &up(&most), 11),
        far_row("size less asked, in range", 0, &minus_i, &up(&less), 0),
    ]
}

/// The same where it is shown: a factor times i is asked of a slice of three wires whose
/// size has that factor times i taken away.
fn far_spare() -> Vec<Recorded> {
    let row = |name, factor, answer| {
        let asked = times(factor);
        let top = product(&number(factor), &number(50_000));
        let last = difference(&sum(&top, &number(2)), &asked);
        far_row(name, 50_000, &asked, &last, answer)
    };
    vec![
        row("size less asked shown, past", 20_001, 11),
        row("size less asked shown, in range", 20_000, 12),
    ]
}

/// Slices in families over n: of x:Qbit[n], where they stand behind the call's index at 59,
/// and of x:Qbit[2n], where they stand at 70.
fn over_n() -> Vec<Recorded> {
    let (n, zero, one) = (variable(0), number(0), number(1));
    let less = |more: u16| difference(&variable(0), &number(more));
    let program = |types: &str, size: &[u8], ends: [&[u8]; 2]| {
        let call = call(0, &[size, &slice(0, ends[0], ends[1])]);
        behind_l("", &family(1, &[types], &call))
    };
    let of_n = |name, size: &[u8], ends, answer| {
        let place = match (answer, size.len()) {
            (0, _) => 0,
            (_, length) => 59 + length as u32,
        };
        let program = program("11 04 00 41 01 00 00", size, ends);
        Recorded::check(name, program, answer, place)
    };
    let of_2n = |name, ends, answer, place| {
        let twice = "11 0b 00 42 08 00 41 01 00 00 41 01 00 00";
        Recorded::check(name, program(twice, &n, ends), answer, place)
    };
    let end = difference(&sum(&n, &n), &one);
    vec![
        of_n("x[0..n-1] for n", &n, [&zero, &less(1)], 0),
        of_n("x[0..n] for n", &n, [&zero, &n], 12),
        of_n("x[1..n-1] for n", &n, [&one, &less(1)], 12),
        of_n("x[0..n-2] for n", &n, [&zero, &less(2)], 12),
        of_n("x[1..n-1] for none", &zero, [&one, &less(1)], 12),
        of_n("x[0..n-1] for none", &zero, [&zero, &less(1)], 0),
        of_n("x[n..n-1] for none", &zero, [&n, &less(1)], 0),
        of_n("x[n..n-2] for none", &zero, [&n, &less(2)], 12),
        of_n("x[0..0-1] for none", &zero, [&zero, &bytes(BELOW)], 0),
        of_n("x[0..0] for none", &zero, [&zero, &zero], 12),
        of_n("x[n-1..n-1] for none", &zero, [&less(1), &less(1)], 12),
        of_2n("x[n..2n-1] for n", [&n, &end], 0, 0),
        of_2n("x[0..2n-1] for n", [&zero, &end], 0, 0),
        of_2n("x[n..2n] for n", [&n, &sum(&n, &n)], 12, 70),
    ]
}

/// x:Qbit[2a+b], called at (b, a) and at (a, b) with all of y:Qbit[a+2b] as a slice.
fn put_together() -> Vec<Recorded> {
    let called = "01 18 00 02 01 11 13 00 42 10 00 44 09 00 40 02 00 02 00 41 01 00 00 41 01 00 01";
    let own = "11 13 00 42 10 00 41 01 00 00 44 09 00 40 02 00 02 00 41 01 00 01";
    let [a, b] = [0, 1].map(variable);
    let last = difference(&sum(&a, &product(&number(2), &b)), &number(1));
    let program = |one: &[u8], two: &[u8]| {
        let call = call(0, &[one, two, &slice(0, &number(0), &last)]);
        joined(&[&bytes(called), &family(2, &[own], &call)])
    };
    vec![
        Recorded::check("a slice for 2b + a", program(&b, &a), 0, 0),
        Recorded::check("a slice for 2a + b", program(&a, &b), 12, 66),
    ]
}
