//! Calls of parameters: what is called, with which indexes and operands, and how deep.

use super::{parameter_call, BELOW, FIRST, OF_FOUR, ON_A_WIRE, ON_N_WIRES, PAST, QBIT, QUBIT};
use super::{PARAMETER_CALL, SECOND};
use crate::recorded::slices::{between, difference, family, looped, number, product, variable};
use crate::recorded::{bytes, field, joined, nested, Recorded};

/// Where the body of a family with a wire and a family on a wire stands, and the operand of a
/// call of the latter.
const BODY: u32 = 16;
const OPERAND: u32 = 20;
/// Where the body of a family with four wires and a family on n wires stands, and the index and
/// the operand of a call of the latter, whose index takes 5 bytes.
const SIZED_BODY: u32 = 25;
const INDEX: u32 = 29;
const REGISTER: u32 = 34;

/// All rows.
pub fn rows() -> Vec<Recorded> {
    let mut rows = at_the_top();
    rows.extend(called());
    rows.extend(contents());
    rows.extend(operands());
    rows.extend(sizes());
    rows.extend(registers());
    rows.extend(far());
    rows.extend(levels());
    rows.extend(in_loops());
    rows.extend(places());
    rows
}

/// Calls of parameters where there is none: no number is one.
fn at_the_top() -> Vec<Recorded> {
    let row =
        |program: &str, answer, place| Recorded::check(program, bytes(program), answer, place);
    vec![
        row("2a 00 00", 4, 0),
        row("2a 01 00 00", 8, 0),
        row("2a 02 00 00 01", 8, 0),
        row("2a 01 00", 2, 0),
        row("02 02 00 01 00 2a 00 00", 4, 5),
        row("02 02 00 01 00 2a 01 00 00", 9, 5),
        row("02 02 00 01 00 2a 01 00 01", 8, 5),
        row("03 02 00 01 00 2a 01 00 00", 9, 5),
        row("02 02 00 01 00 2a 05 00 00 30 01 00 00", 9, 5),
        row("02 02 00 01 00 2a 04 00 00 ff 00 00", 9, 5),
        row("02 02 00 01 00 2a 02 00 01 ff", 8, 5),
        row("02 02 00 01 00 25 04 00 2a 01 00 00", 9, 8),
    ]
}

/// A family with a wire and a family on a wire, and a call in hexadecimal.
fn row(name: &str, inner: &str, answer: u32, place: u32) -> Recorded {
    let program = family(0, &[QBIT, ON_A_WIRE], &bytes(inner));
    Recorded::check(name, program, answer, place)
}

/// What a number names is tested when it is read, before anything behind it.
fn called() -> Vec<Recorded> {
    let of = |name, types: &[&str], inner: &str, answer, place| {
        Recorded::check(name, family(0, types, &bytes(inner)), answer, place)
    };
    vec![
        row("a parameter called", "2a 05 00 01 30 01 00 00", 0, 0),
        row("a call without a number", "2a 00 00", 4, BODY),
        row("a wire called", "2a 05 00 00 30 01 00 00", 9, BODY),
        row("number 2 of 2 called", "2a 05 00 02 30 01 00 00", 8, BODY),
        row("number 255 called", "2a 01 00 ff", 8, BODY),
        row("8 before half a header", "2a 02 00 02 30", 8, BODY),
        row("9 before half a header", "2a 02 00 00 30", 9, BODY),
        row("9 before no operand", "2a 01 00 00", 9, BODY),
        row("9 before a wrong tag", "2a 04 00 00 40 00 00", 9, BODY),
        row(
            "9 before 8 of an operand",
            "2a 05 00 00 30 01 00 07",
            9,
            BODY,
        ),
        of(
            "a wire alone called",
            &[QBIT],
            "2a 05 00 00 30 01 00 00",
            9,
            8,
        ),
        of("a register called", &[OF_FOUR], "2a 01 00 00", 9, 13),
        of(
            "a family before its wire",
            &[ON_A_WIRE, QBIT],
            "2a 05 00 00 30 01 00 01",
            0,
            0,
        ),
    ]
}

/// Content that ends too early or too late behind the number.
fn contents() -> Vec<Recorded> {
    vec![
        row("no operand of a parameter", "2a 01 00 01", 4, BODY),
        row("one byte of an operand", "2a 02 00 01 30", 2, OPERAND),
        row(
            "an operand past the call",
            "2a 04 00 01 30 01 00",
            2,
            OPERAND,
        ),
        row(
            "a byte behind the operand",
            "2a 06 00 01 30 01 00 00 00",
            4,
            BODY,
        ),
        row(
            "an operand too many",
            "2a 09 00 01 30 01 00 00 30 01 00 00",
            4,
            BODY,
        ),
        row(
            "the call past the family",
            "2a 06 00 01 30 01 00 00",
            2,
            BODY,
        ),
    ]
}

/// Operands of a family on a wire.
fn operands() -> Vec<Recorded> {
    let at = |name, operand: &str, answer| {
        let inner = parameter_call(1, &[&bytes(operand)]);
        let program = family(0, &[QBIT, ON_A_WIRE], &inner);
        Recorded::check(name, program, answer, OPERAND)
    };
    vec![
        at("an index for an operand", "40 02 00 00 00", 3),
        at("tag 52 for an operand", "34 02 00 00 00", 3),
        at("the next number", "30 01 00 02", 8),
        at("the family for its wire", "30 01 00 01", 9),
        at("leftover in an operand", "30 02 00 00 00", 4),
        at("an element of a wire", "31 06 00 00 40 02 00 00 00", 9),
        at("leftover in both", "30 02 00 00 00 00", 4),
    ]
}

/// A family with four wires and a family on n wires, and a call of parts.
fn sized(name: &str, parts: &[&[u8]], answer: u32, place: u32) -> Recorded {
    let inner = parameter_call(1, parts);
    let program = family(0, &[OF_FOUR, ON_N_WIRES], &inner);
    Recorded::check(name, program, answer, place)
}

/// The index of a family on n wires.
fn sizes() -> Vec<Recorded> {
    let whole = bytes(FIRST);
    let index = |name, size: &[u8], answer| sized(name, &[size, &whole], answer, INDEX);
    vec![
        sized("4 wires for n = 4", &[&number(4), &whole], 0, 0),
        sized("no index of a parameter", &[], 4, SIZED_BODY),
        index("an operand for the index", &whole, 3),
        index("a type for the index", &bytes(QBIT), 3),
        index("a parameter at -1", &bytes(BELOW), 12),
        index("a parameter at 65,535 times 65,535", &bytes(PAST), 11),
        index("a parameter at no variable", &variable(0), 8),
        sized(
            "12 of the index before no operand",
            &[&bytes(BELOW)],
            12,
            INDEX,
        ),
        sized("an index and no operand", &[&number(4)], 4, SIZED_BODY),
        sized(
            "a second index",
            &[&number(1), &number(1), &whole],
            3,
            REGISTER,
        ),
    ]
}

/// The register of a family on n wires: the formal size is what it has to have.
fn registers() -> Vec<Recorded> {
    let at = |name, size, operand: &[u8], answer| {
        sized(name, &[&number(size), operand], answer, REGISTER)
    };
    let fits = |name, size, operand: &[u8]| sized(name, &[&number(size), operand], 0, 0);
    let whole = bytes(FIRST);
    vec![
        fits("4 wires for none", 0, &whole),
        at("4 wires for n = 5", 5, &whole, 12),
        fits("x[1..2] for n = 2", 2, &between(0, 1, 2)),
        at("x[1..2] for n = 3", 3, &between(0, 1, 2), 12),
        at("x[3..4] for n = 1", 1, &between(0, 3, 4), 12),
        fits("x[4..3] for n = 0", 0, &between(0, 4, 3)),
        at("x[0] for n = 1", 1, &super::element(0), 9),
        at("the family for its register", 1, &bytes(SECOND), 9),
        at("a byte left over", 1, &bytes("30 02 00 00 00"), 4),
        sized(
            "an operand too many for n",
            &[&number(1), &whole, &whole],
            4,
            SIZED_BODY,
        ),
    ]
}

/// A formal size 60,000n with a number put in that takes it out of range.
fn far() -> Vec<Recorded> {
    let row = |name, size, answer| {
        let wide = "12 11 00 01 01 11 0c 00 44 09 00 40 02 00 60 ea 41 01 00 00";
        let inner = parameter_call(1, &[&number(size), &bytes(FIRST)]);
        let program = family(0, &[OF_FOUR, wide], &inner);
        // The type takes 20 bytes: the body stands at 33 and the operand at 42.
        Recorded::check(name, program, answer, if answer == 0 { 0 } else { 42 })
    };
    vec![
        row("60,000n at none", 0, 0),
        row("60,000n at 1", 1, 12),
        row("60,000n at 33,333", 33_333, 12),
        row("60,000n at 40,000", 40_000, 11),
    ]
}

/// The deepest call of a parameter, and one that is too deep.
fn levels() -> Vec<Recorded> {
    let deep = |levels| {
        let inner = nested(0x25, levels, &[], &bytes("2a 05 00 01 30 01 00 00"));
        family(0, &[QBIT, ON_A_WIRE], &inner)
    };
    let top = |name, levels, inner: &str, answer, place| {
        let program = nested(0x25, levels, &[], &bytes(inner));
        Recorded::check(name, program, answer, place)
    };
    vec![
        Recorded::check("a parameter called at level 16", deep(15), 0, 0),
        Recorded::check("a parameter called at level 17", deep(16), 5, BODY + 48),
        top("42 at level 16", 15, "2a 00 00", 4, 45),
        top("42 at level 17", 16, "2a 00 00", 5, 48),
        top("42 at level 17 past the end", 16, "2a 01 00", 2, 48),
    ]
}

/// Indexes and operands that loops around a call show, over a family's own n.
fn in_loops() -> Vec<Recorded> {
    let of_n = "11 04 00 41 01 00 00";
    let i = variable(1);
    let before = difference(&i, &number(1));
    let row = |name, low, size: &[u8], answer, place| {
        let inner = parameter_call(1, &[size, &bytes(FIRST)]);
        let looped = looped(&number(low), &variable(0), &inner);
        let program = family(1, &[of_n, ON_N_WIRES], &looped);
        Recorded::check(name, program, answer, place)
    };
    // The types take 19 bytes: the loop stands at 24, the call at 36 and its index at 40.
    vec![
        row("a parameter at i, i=1..n", 1, &i, 0, 0),
        row("a parameter at i - 1, i=1..n", 1, &before, 0, 0),
        row("a parameter at i - 1, i=0..n", 0, &before, 12, 40),
        row(
            "a parameter at 2i, i=1..n",
            1,
            &product(&number(2), &i),
            12,
            52,
        ),
    ]
}

/// Calls of parameters where no statement may stand.
fn places() -> Vec<Recorded> {
    let row = |program: &str, place| Recorded::check(program, bytes(program), 3, place);
    let inner = field(PARAMETER_CALL, &bytes("01 30 01 00 00"));
    let typed = joined(&[&bytes("01 0a 00 00 01"), &inner]);
    vec![
        row("20 04 00 2a 01 00 00", 3),
        row("26 04 00 2a 01 00 00", 3),
        Recorded::check("a call of a parameter for a type", typed, 3, 5),
        Recorded::check(
            "a call behind a qubit",
            joined(&[&bytes(QUBIT), &inner]),
            8,
            5,
        ),
    ]
}
