//! Hand-made programs at the limits and one past them.

use super::{bytes, field, joined, nested, Recorded};

/// An empty reverse.
const REVERSE: [u8; 3] = [0x25, 0, 0];
/// The literal 0 as an index field.
const ZERO: [u8; 5] = [0x40, 2, 0, 0, 0];

/// All rows.
pub fn rows() -> Vec<Recorded> {
    let mut rows = lengths();
    rows.extend(declarations());
    rows.extend(loops());
    rows.extend(statements());
    rows.extend(indexes());
    rows
}

/// Programs of 65,534 to 65,536 bytes.
fn lengths() -> Vec<Recorded> {
    let full = REVERSE.repeat(21_845);
    let mut more = full.clone();
    more.push(0);
    let less = full[..65_534].to_vec();
    vec![
        Recorded::check("65,535 bytes", full.clone(), 0, 0),
        Recorded::run("65,535 bytes, run", full, [0, 0, 0, 21_845], ""),
        Recorded::check("65,536 bytes", more.clone(), 1, 0),
        Recorded::run("65,536 bytes, run", more, [1, 0, 0, 0], ""),
        Recorded::check("65,534 bytes", less, 2, 65_532),
        Recorded::check("65,536 bytes of nothing", vec![0; 65_536], 1, 0),
        Recorded::check("65,535 bytes of nothing", vec![0; 65_535], 3, 0),
    ]
}

/// 255 and 256 registers, and the most parameters.
fn declarations() -> Vec<Recorded> {
    let pair = bytes("02 02 00 00 00 03 02 00 00 00");
    let registers = joined(&[&pair.repeat(127), &pair[..5]]);
    let over = joined(&[&registers, &bytes("03 00 00")]);
    let named = joined(&[&registers, &bytes("20 09 00 31 06 00 fe 40 02 00 00 00")]);
    let most = joined(&[&bytes("01 1a 00 04 08"), &[0x10, 0, 0].repeat(8)]);
    vec![
        Recorded::check("255 registers", registers, 0, 0),
        Recorded::check("256th register without content", over, 6, 1_275),
        Recorded::check("register 254 of size 0", named, 12, 1_278),
        Recorded::check("4 variables, 8 parameters", most, 0, 0),
    ]
}

/// 8 and 9 open loops.
fn loops() -> Vec<Recorded> {
    let bounds = [ZERO, ZERO].concat();
    let eight = nested(0x26, 8, &bounds, &[]);
    let nine = nested(0x26, 9, &bounds, &[]);
    let cut = nested(0x26, 8, &bounds, &bytes("26 00 00"));
    let last = nested(0x26, 8, &bounds, &bytes("26 04 00 41 01 00 07"));
    let inside = nested(0x26, 7, &bounds, &bytes("26 04 00 41 01 00 07"));
    vec![
        Recorded::check("8 loops", eight.clone(), 0, 0),
        Recorded::run("8 loops, run", eight, [0, 0, 0, 16], ""),
        Recorded::check("9 loops", nine, 6, 104),
        Recorded::check("a ninth loop without content", cut, 6, 104),
        Recorded::check("a ninth loop that is read", last, 6, 104),
        Recorded::check("variable 7 in the eighth loop's low end", inside, 8, 94),
    ]
}

/// Statements nested 16 and 17 deep.
fn statements() -> Vec<Recorded> {
    let deep = |times| nested(0x25, times, &[], &[]);
    let in_family = |times: usize| {
        let start = bytes("00 01 10 00 00");
        field(1, &joined(&[&start, &deep(times)]))
    };
    let in_if = |times: usize| {
        let start = bytes("00 31 06 00 00 40 02 00 00 00");
        let tested = field(6, &joined(&[&start, &deep(times)]));
        joined(&[&bytes("03 02 00 01 00"), &tested])
    };
    let bad_tag = nested(0x25, 16, &[], &bytes("06 00 00"));
    let bad_header = nested(0x25, 16, &[], &bytes("25 00"));
    let ninth = nested(0x25, 16, &[], &bytes("26 00 00"));
    vec![
        Recorded::check("16 levels", deep(16), 0, 0),
        Recorded::run("16 levels, run", deep(16), [0, 0, 0, 16], ""),
        Recorded::check("17 levels", deep(17), 5, 48),
        Recorded::check("16 levels in a family", in_family(16), 0, 0),
        Recorded::check("17 levels in a family", in_family(17), 5, 56),
        Recorded::check("15 levels in an if", in_if(15), 0, 0),
        Recorded::check("16 levels in an if", in_if(16), 5, 63),
        Recorded::check("level 17 with a wrong tag", bad_tag, 3, 48),
        Recorded::check("level 17 with half a header", bad_header, 2, 48),
        Recorded::check("level 17 without content", ninth, 5, 48),
    ]
}

/// Indexes nested 16 and 17 deep in each place where one may stand.
fn indexes() -> Vec<Recorded> {
    // A sum of 0 and a deeper index; each level starts 8 bytes further on, and
    // the first field too deep is the left side of the innermost sum.
    let deep = |times| nested(0x42, times, &ZERO, &ZERO);
    let operand = |times| {
        let element = field(0x31, &joined(&[&[0], &deep(times)]));
        joined(&[&bytes("02 02 00 01 00"), &field(0x20, &element)])
    };
    let typed = |times| {
        let size = field(0x11, &deep(times));
        field(1, &joined(&[&[0, 1], &size]))
    };
    let bound = |times| field(0x26, &joined(&[&deep(times), &ZERO]));
    let called = |times| {
        let start = bytes("01 05 00 01 01 10 00 00 02 02 00 01 00");
        let wire = bytes("31 06 00 00 40 02 00 00 00");
        let call = field(0x24, &joined(&[&[0], &deep(times), &wire]));
        joined(&[&start, &call])
    };
    let left = field(0x26, &nested(0x43, 16, &[], &ZERO));
    let bad_tag = field(0x26, &nested(0x44, 16, &[], &bytes("3f 00 00")));
    vec![
        Recorded::check("index of 16 levels", operand(15), 0, 0),
        Recorded::check("index of 17 levels", operand(16), 5, 135),
        Recorded::check("type of 16 levels", typed(15), 0, 0),
        Recorded::check("type of 17 levels", typed(16), 5, 131),
        Recorded::check("bound of 16 levels", bound(15), 0, 0),
        Recorded::check("bound of 17 levels", bound(16), 5, 126),
        Recorded::check("call of 16 levels", called(15), 0, 0),
        Recorded::check("call of 17 levels", called(16), 5, 140),
        Recorded::check("index level 17 before a missing side", left, 5, 51),
        Recorded::check("index level 17 with a wrong tag", bad_tag, 3, 51),
    ]
}
