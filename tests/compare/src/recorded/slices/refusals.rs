//! Slices that are cut off, too long, of the wrong kind or where none may stand.

use super::{behind_l, between, call, family, looped, made, number, parts_row, passed, product};
use super::{slice, variable, BELOW, CALL, FIRST_AT, LAST_AT, NONE, ONE, PAST, QUBITS};
use super::{SLICE_AT, TWO, WHOLE};
use crate::recorded::{bytes, field, joined, nested, Recorded};

/// All rows.
pub fn rows() -> Vec<Recorded> {
    let mut rows = contents();
    rows.extend(headers());
    rows.extend(indexes());
    rows.extend(levels());
    rows.extend(wires());
    rows.extend(commands());
    rows.extend(kinds());
    rows.extend(in_families());
    rows.extend(places());
    rows
}

/// Content that ends too early or too late, and numbers that are not in scope.
fn contents() -> Vec<Recorded> {
    let at = |number| [number, SLICE_AT];
    let row = parts_row;
    vec![
        row("q[1..2] for L at 2", &["00", ONE, TWO], [0, 0]),
        row("a slice without content", &[], at(4)),
        row("a slice without indexes", &["00"], at(4)),
        row("a slice without its last index", &["00", ONE], at(4)),
        row(
            "a byte left over in a slice",
            &["00", ONE, TWO, "00"],
            at(4),
        ),
        row(
            "an index left over in a slice",
            &["00", ONE, TWO, TWO],
            at(4),
        ),
        row("a slice of number 1 of 1", &["01", ONE, TWO], at(8)),
        row("a slice of number 255", &["ff", ONE, TWO], at(8)),
    ]
}

/// Headers of slices and of their indexes that do not fit, and tags beside 50.
fn headers() -> Vec<Recorded> {
    let row = |name, argument: &str, answer, place| {
        Recorded::check(name, passed(2, &bytes(argument)), answer, place)
    };
    vec![
        row("no argument", "", 4, 48),
        row("one byte of a slice", "32", 2, SLICE_AT),
        row("two bytes of a slice", "32 0b", 2, SLICE_AT),
        row("a slice past the end", "32 0c 00 00", 2, SLICE_AT),
        row("tag 52 for a slice", "34 01 00 00", 3, SLICE_AT),
        row("tag 47 for a slice", "2f 01 00 00", 3, SLICE_AT),
        row("one byte of the first index", "32 02 00 00 40", 2, FIRST_AT),
        row(
            "two bytes of the last index",
            "32 08 00 00 40 02 00 01 00 40 02",
            2,
            LAST_AT,
        ),
        row(
            "the last index past the slice",
            "32 09 00 00 40 02 00 01 00 40 02 00 02 00",
            2,
            LAST_AT,
        ),
        row(
            "a byte behind the slice",
            "32 0b 00 00 40 02 00 01 00 40 02 00 02 00 00",
            4,
            48,
        ),
    ]
}

/// What stands for an index of a slice and is none, or is out of range.
fn indexes() -> Vec<Recorded> {
    let first = |name, index, number| parts_row(name, &["00", index, TWO], [number, FIRST_AT]);
    let last = |name, index, number| parts_row(name, &["00", ONE, index], [number, LAST_AT]);
    let squared = product(&variable(0), &variable(0));
    let in_loop = |argument: &[u8]| {
        let call = call(0, &[&number(2), argument]);
        behind_l(QUBITS, &looped(&number(0), &number(1), &call))
    };
    vec![
        first("a slice for the first index", "32 00 00", 3),
        first("an operand for the first index", WHOLE, 3),
        first("no index before the last", NONE, 3),
        first("the first index of one byte", "40 01 00 01", 4),
        first("the first index is no variable", "41 01 00 00", 8),
        first("the first index is out of range", PAST, 11),
        last("a slice for the last index", "32 00 00", 3),
        last("no index for the last", NONE, 3),
        last("the last index of three bytes", "40 03 00 02 00 00", 4),
        last("the last index is no variable", "41 01 00 00", 8),
        last("the last index is out of range", PAST, 11),
        Recorded::check(
            "the first index is i times i",
            in_loop(&slice(0, &squared, &number(2))),
            10,
            74,
        ),
        Recorded::check(
            "the last index is i times i",
            in_loop(&slice(0, &number(1), &squared)),
            10,
            79,
        ),
    ]
}

/// The deepest indexes of a slice, and those past them: each counts from 1.
fn levels() -> Vec<Recorded> {
    let zero = number(0);
    let deep = |times| nested(0x42, times, &zero, &zero);
    let last = |times| nested(0x42, times, &zero, &number(1));
    let row = |name, first: &[u8], last: &[u8], number, place| {
        Recorded::check(name, passed(2, &slice(0, first, last)), number, place)
    };
    // Each level starts 8 bytes further on; the first too deep is the left side of a sum.
    vec![
        row("both indexes of 16 levels", &deep(15), &last(15), 0, 0),
        row("the first index of 17 levels", &deep(16), &last(15), 5, 184),
        row("the last index of 17 levels", &zero, &last(16), 5, 189),
    ]
}

/// Slices where a wire is wanted.
fn wires() -> Vec<Recorded> {
    let part = between(0, 1, 2);
    let wire = bytes("31 06 00 00 40 02 00 00 00");
    let row = |name, tag, content: &[&[u8]], place| {
        let program = joined(&[&bytes(QUBITS), &field(tag, &content.concat())]);
        Recorded::check(name, program, 9, place)
    };
    let k = number(1);
    vec![
        row("h of a slice", 0x20, &[&part], 8),
        row("t of a slice", 0x21, &[&part], 8),
        row("tdg of a slice of one wire", 0x22, &[&between(0, 1, 1)], 8),
        row("cx from a slice", 0x23, &[&part, &wire], 8),
        row("cx to a slice", 0x23, &[&wire, &part], 17),
        row("phase of a slice", 0x28, &[&k, &part], 13),
        row("cphase of a slice", 0x29, &[&k, &wire, &part], 22),
        row("reset of a slice", 5, &[&part], 8),
    ]
}

/// Slices where a bit is wanted, or a wire to measure.
fn commands() -> Vec<Recorded> {
    let start = joined(&[&bytes(QUBITS), &bytes("03 02 00 04 00")]);
    let wire = bytes("31 06 00 00 40 02 00 00 00");
    let bit = bytes("31 06 00 01 40 02 00 00 00");
    let row = |name, tag, content: &[&[u8]], place| {
        let program = joined(&[&start, &field(tag, &content.concat())]);
        Recorded::check(name, program, 9, place)
    };
    vec![
        row("measure of a slice", 4, &[&between(0, 0, 0), &bit], 13),
        row(
            "measure into a slice of bits",
            4,
            &[&wire, &between(1, 0, 0)],
            22,
        ),
        row(
            "measure into a slice of qubits",
            4,
            &[&wire, &between(0, 0, 0)],
            22,
        ),
        row("if of a slice of bits", 6, &[&[1], &between(1, 0, 0)], 14),
        row("if of a slice of qubits", 6, &[&[0], &between(0, 0, 0)], 14),
    ]
}

/// Slices for parameters at the top: of a register of bits, and for a wire.
fn kinds() -> Vec<Recorded> {
    let bits = "03 02 00 04 00";
    let of_bits = |first, last| {
        let call = call(0, &[&number(2), &between(0, first, last)]);
        behind_l(bits, &call)
    };
    let one = family(0, &["10 00 00"], &[]);
    let for_wire = |argument: &[u8]| joined(&[&one, &bytes(QUBITS), &call(0, &[argument])]);
    vec![
        Recorded::check("a slice of bits", of_bits(1, 2), 9, SLICE_AT),
        Recorded::check("a slice past the bits", of_bits(3, 4), 9, SLICE_AT),
        Recorded::check("a slice for a wire", for_wire(&between(0, 1, 1)), 9, 17),
        Recorded::check(
            "an empty slice for a wire",
            for_wire(&between(0, 1, 0)),
            9,
            17,
        ),
        Recorded::run(
            "a slice of bits, run",
            of_bits(1, 2),
            [9, SLICE_AT, 0, 0],
            "",
        ),
    ]
}

/// Slices of parameters, in a family behind L whose types start at 48.
fn in_families() -> Vec<Recorded> {
    let row = |name, types: &[&str], argument: &[u8], answer, place| {
        let body = call(0, &[&number(2), argument]);
        let program = behind_l("", &family(0, types, &body));
        Recorded::check(name, program, answer, place)
    };
    let wire = "10 00 00";
    let wires = "11 05 00 40 02 00 04 00";
    let [first, next] = [0, 1].map(|operand| between(operand, 1, 2));
    let past = between(0, 3, 4);
    vec![
        row("a slice of a parameter", &[wires], &first, 0, 0),
        row("a slice of a wire", &[wire], &first, 9, 60),
        row("a slice of a second of one", &[wires], &next, 8, 65),
        row("a slice behind a wire", &[wire, wires], &next, 0, 0),
        row("a slice of the wire before", &[wire, wires], &first, 9, 68),
        row("a slice past a parameter", &[wires], &past, 12, 65),
    ]
}

/// Slices where no operand may stand.
fn places() -> Vec<Recorded> {
    let row =
        |program: &str, number, place| Recorded::check(program, bytes(program), number, place);
    let for_index = behind_l(QUBITS, &made(CALL, &["00", "32 00 00"]));
    let whole_first = behind_l(QUBITS, &made(CALL, &["00", "32 0b 00 00", ONE, TWO]));
    let below = passed(0, &slice(0, &bytes(BELOW), &bytes(BELOW)));
    vec![
        row("25 03 00 32 00 00", 3, 3),
        row("01 05 00 00 01 32 00 00", 3, 5),
        row("26 03 00 32 00 00", 3, 3),
        row("20 04 00 32 01 00 00", 8, 3),
        row("32 01 00", 2, 0),
        Recorded::check("a slice for a call's index", for_index, 3, 52),
        Recorded::check("a whole slice for a call's index", whole_first, 3, 52),
        Recorded::check("-1 to -1", below, 12, SLICE_AT),
    ]
}
