//! Two faults in one slice: the one that comes first in reading order is told.

use super::{behind_l, between, call, family, looped, made, number, parts_row, product, slice};
use super::{smallest, variable, BELOW, FIRST_AT, LAST_AT, NONE, ONE, PAST, QUBITS, SLICE};
use super::{SLICE_AT, TWO};
use crate::recorded::{bytes, field, joined, Recorded};

/// The literal 9.
const NINE: &str = "40 02 00 09 00";

/// Four bits, 5 bytes.
const BITS: &str = "03 02 00 04 00";

/// All rows.
pub fn rows() -> Vec<Recorded> {
    let mut rows = scopes();
    rows.extend(first_index());
    rows.extend(last_index());
    rows.extend(before_bits());
    rows.extend(before_wires());
    rows.extend(leftovers());
    rows.extend(kinds());
    rows.extend(kinds_of_wires());
    rows.extend(operands());
    rows
}

/// A number that is not in scope comes before all that stands behind it.
fn scopes() -> Vec<Recorded> {
    let eight = |name, parts: &[&str]| parts_row(name, parts, [8, SLICE_AT]);
    vec![
        eight("8 before no index", &["07"]),
        eight("8 before half a header", &["07", "40"]),
        eight("8 before no index in its place", &["07", NONE, TWO]),
        eight("8 before the first index's 8", &["07", "41 01 00 05", TWO]),
        eight("8 before the first index's 11", &["07", PAST, TWO]),
        eight("8 before no last index", &["07", ONE]),
        eight("8 before leftover bytes", &["07", ONE, TWO, "00"]),
        eight("8 before an index below 0", &["07", BELOW, TWO]),
    ]
}

/// A fault of the first index comes before any of the last.
fn first_index() -> Vec<Recorded> {
    let first = |name, parts: &[&str], number| parts_row(name, parts, [number, FIRST_AT]);
    vec![
        first(
            "3 in the first before 3 in the last",
            &["00", NONE, NONE],
            3,
        ),
        first(
            "8 in the first before 3 in the last",
            &["00", "41 01 00 00", NONE],
            8,
        ),
        first(
            "11 in the first before 3 in the last",
            &["00", PAST, NONE],
            11,
        ),
        first(
            "4 in the first before 11 in the last",
            &["00", "40 00 00", PAST],
            4,
        ),
        first("3 in the first before no last", &["00", NONE], 3),
        first("11 in the first before no last", &["00", PAST], 11),
        first("2 in the first before no last", &["00", "40 02 00 01"], 2),
        first(
            "11 in the first before half a header",
            &["00", PAST, "40"],
            11,
        ),
        first(
            "3 in the first before leftover bytes",
            &["00", NONE, TWO, "00"],
            3,
        ),
    ]
}

/// A fault of the last index comes before leftover bytes, and no last index before a first
/// that is below 0.
fn last_index() -> Vec<Recorded> {
    let last = |name, parts: &[&str], number| parts_row(name, parts, [number, LAST_AT]);
    let at = [4, SLICE_AT];
    vec![
        last("3 in the last before leftover", &["00", ONE, NONE, "00"], 3),
        last(
            "8 in the last before leftover",
            &["00", ONE, "41 01 00 00", "00"],
            8,
        ),
        last(
            "11 in the last before leftover",
            &["00", ONE, PAST, "00"],
            11,
        ),
        parts_row("no last before the first below 0", &["00", BELOW], at),
        parts_row("no last before the first past the end", &["00", NINE], at),
        parts_row(
            "3 in the last before the first below 0",
            &["00", BELOW, NONE],
            [3, 74],
        ),
    ]
}

/// Leftover bytes and all faults before them come before the kind of what is sliced.
fn before_bits() -> Vec<Recorded> {
    let row = |name, parts: &[&str], answer, place| {
        let call = call(0, &[&number(2), &made(SLICE, parts)]);
        Recorded::check(name, behind_l(BITS, &call), answer, place)
    };
    let (leftover, no_last) = (["00", ONE, TWO, "00"], ["00", ONE]);
    let wrong_last = ["00", ONE, NONE];
    vec![
        row("leftover before 9 of bits", &leftover, 4, SLICE_AT),
        row("no last before 9 of bits", &no_last, 4, SLICE_AT),
        row("3 in the last before 9 of bits", &wrong_last, 3, LAST_AT),
    ]
}

/// And before that a wire is wanted.
fn before_wires() -> Vec<Recorded> {
    let row = |name, parts: &[&str], number, place| {
        let gate = field(0x20, &made(SLICE, parts));
        Recorded::check(name, joined(&[&bytes(QUBITS), &gate]), number, place)
    };
    let leftover = ["00", ONE, TWO, "00"];
    vec![
        row("leftover before 9 of a gate", &leftover, 4, 8),
        row("no number before 9 of a gate", &[], 4, 8),
        row("8 before 9 of a gate", &["01", ONE, TWO], 8, 8),
        row("11 before 9 of a gate", &["00", PAST, TWO], 11, 12),
    ]
}

/// Leftover bytes come before what is shown.
fn leftovers() -> Vec<Recorded> {
    let left = |name, parts: &[&str]| parts_row(name, parts, [4, SLICE_AT]);
    vec![
        left("leftover, the first below 0", &["00", BELOW, TWO, "00"]),
        left("leftover, the last past the end", &["00", ONE, NINE, "00"]),
        left("leftover, too few wires", &["00", ONE, ONE, "00"]),
    ]
}

/// Slices that would not be shown: the first index, the room with 12 and with 11, the size.
fn not_shown() -> [Vec<u8>; 4] {
    let (zero, two) = (number(0), number(2));
    [
        slice(0, &bytes(BELOW), &two),
        between(0, 1, 9),
        slice(0, &zero, &smallest()),
        slice(0, &two, &zero),
    ]
}

/// The kind comes before all that is shown, with 12 and with 11.
fn kinds() -> Vec<Recorded> {
    let of_bits = |name, argument: &[u8]| {
        let call = call(0, &[&number(2), argument]);
        Recorded::check(name, behind_l(BITS, &call), 9, SLICE_AT)
    };
    let [first, room, far_room, size] = not_shown();
    // 40,001 times i, where i is 50,000: 11 where it is shown.
    let far = product(&number(40_001), &variable(0));
    let call = call(0, &[&number(2), &slice(0, &far, &number(2))]);
    let looped = looped(&number(50_000), &number(50_000), &call);
    vec![
        of_bits("9 before the first below 0", &first),
        of_bits("9 before the last past the end", &room),
        of_bits("9 before 11 of the room", &far_room),
        of_bits("9 before a size below 0", &size),
        of_bits("9 before too few wires", &between(0, 1, 1)),
        Recorded::check("9 before 11 of the first", behind_l(BITS, &looped), 9, 70),
    ]
}

/// The kind where a wire is wanted, before what would be shown of a register's slice.
fn kinds_of_wires() -> Vec<Recorded> {
    let row = |name, argument: &[u8]| {
        let program = joined(&[&bytes(QUBITS), &field(0x20, argument)]);
        Recorded::check(name, program, 9, 8)
    };
    let [first, room, far_room, size] = not_shown();
    vec![
        row("9 of a gate before the first below 0", &first),
        row("9 of a gate before the last past the end", &room),
        row("9 of a gate before 11 of the room", &far_room),
        row("9 of a gate before a size below 0", &size),
    ]
}

/// Each slice is refused at its own end: after the call's indexes, before the next operand
/// and before what is left over in the call.
fn operands() -> Vec<Recorded> {
    let two = "11 05 00 40 02 00 02 00";
    let called = family(0, &[two, two], &[]);
    let row = |name, arguments: &[&[u8]], answer, place| {
        let program = joined(&[&called, &bytes(QUBITS), &call(0, arguments)]);
        Recorded::check(name, program, answer, place)
    };
    let [good, past, no_such] = [between(0, 1, 2), between(0, 3, 4), between(7, 1, 2)];
    let size = call(0, &[&bytes(BELOW), &past]);
    vec![
        row("two good slices", &[&good, &good], 0, 0),
        row(
            "12 of one slice before 8 of the next",
            &[&past, &no_such],
            12,
            30,
        ),
        row("12 of the second slice", &[&good, &past], 12, 44),
        row("12 of one slice before no next", &[&past], 12, 30),
        row("no second slice", &[&good], 4, 26),
        row(
            "12 before one slice too many",
            &[&good, &past, &good],
            12,
            44,
        ),
        row("one slice too many", &[&good, &good, &good], 4, 26),
        Recorded::check(
            "12 of a size before the slice",
            behind_l(QUBITS, &size),
            12,
            52,
        ),
    ]
}
