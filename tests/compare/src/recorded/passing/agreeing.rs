//! What a passed family has beside what its parameter asks for: counts, kinds and sizes.

use super::{parameter_call, passed, ON_A_WIRE, QBIT};
use crate::recorded::slices::{call, difference, family, looped, number, product, sum, variable};
use crate::recorded::{bytes, field, joined, Recorded};

/// The type Qbit[1], 8 bytes.
const ONE: &str = "11 05 00 40 02 00 01 00";

/// All rows.
pub fn rows() -> Vec<Recorded> {
    let mut rows = counts();
    rows.extend(kinds());
    rows.extend(numbers());
    rows.extend(over_n());
    rows.extend(over_two());
    rows.extend(largest());
    rows.extend(in_order());
    rows.extend(loops());
    rows.extend(loops_in_families());
    rows
}

/// A family over so many variables with types, which is passed to one that asks for a family
/// over so many with other types. The operand stands behind both families, in the call.
fn row(name: &str, own: (u8, &[&str]), asked: (u8, &[&str]), answer: u32) -> Recorded {
    let given = family(own.0, own.1, &[]);
    let types = bytes(&asked.1.join(" "));
    let formal = field(0x12, &joined(&[&[asked.0, asked.1.len() as u8], &types]));
    let taking = field(1, &joined(&[&[0, 1], &formal]));
    let families = joined(&[&given, &taking]);
    let place = match answer {
        0 => 0,
        _ => families.len() as u32 + 4,
    };
    let program = joined(&[&families, &call(1, &[&passed(0)])]);
    Recorded::check(name, program, answer, place)
}

/// Numbers of variables and of parameters.
fn counts() -> Vec<Recorded> {
    let wires = |name, own: (u8, usize), asked: (u8, usize), answer| {
        let [one, two] = [own.1, asked.1].map(|count| vec![QBIT; count]);
        row(name, (own.0, &one), (asked.0, &two), answer)
    };
    vec![
        wires("1 wire for 1", (0, 1), (0, 1), 0),
        wires("1 wire for 2", (0, 1), (0, 2), 9),
        wires("2 wires for 1", (0, 2), (0, 1), 9),
        wires("8 wires for 8", (0, 8), (0, 8), 0),
        wires("7 wires for 8", (0, 7), (0, 8), 9),
        wires("8 wires for 7", (0, 8), (0, 7), 9),
        wires("1 variable for none", (1, 1), (0, 1), 9),
        wires("no variable for 1", (0, 1), (1, 1), 9),
        wires("4 variables for 4", (4, 1), (4, 1), 0),
        wires("3 variables for 4", (3, 1), (4, 1), 9),
        wires("4 variables for 3", (4, 1), (3, 1), 9),
        wires("variables and wires exchanged", (2, 1), (1, 2), 9),
    ]
}

/// Wires, registers and families for each other.
fn kinds() -> Vec<Recorded> {
    let kinds =
        |name, own: &[&str], asked: &[&str], answer| row(name, (0, own), (0, asked), answer);
    vec![
        kinds("a register for a register", &[ONE], &[ONE], 0),
        kinds("a wire for a register", &[QBIT], &[ONE], 9),
        kinds("a register for a wire", &[ONE], &[QBIT], 9),
        kinds("a wire and a register", &[QBIT, ONE], &[QBIT, ONE], 0),
        kinds(
            "a wire and a register exchanged",
            &[ONE, QBIT],
            &[QBIT, ONE],
            9,
        ),
        kinds("the second kind", &[QBIT, ONE], &[QBIT, QBIT], 9),
        kinds("a family for a wire", &[ON_A_WIRE], &[QBIT], 9),
        kinds("a family for a register", &[ON_A_WIRE], &[ONE], 9),
        kinds(
            "a family behind a wire",
            &[QBIT, ON_A_WIRE],
            &[QBIT, QBIT],
            9,
        ),
        kinds("a family behind the same", &[QBIT, ON_A_WIRE], &[QBIT], 9),
    ]
}

/// The type of a register with a size.
fn sized(size: &[u8]) -> String {
    let words = field(0x11, size);
    words
        .iter()
        .map(|byte| format!("{byte:02x} "))
        .collect::<String>()
}

/// One register of a size for one of a size that is asked for, over so many variables.
fn size(name: &str, count: u8, own: &[u8], asked: &[u8], answer: u32) -> Recorded {
    let [own, asked] = [own, asked].map(sized);
    row(name, (count, &[&own]), (count, &[&asked]), answer)
}

/// Sizes that are numbers.
fn numbers() -> Vec<Recorded> {
    let pair = |name, own, asked, answer| size(name, 0, &number(own), &number(asked), answer);
    vec![
        pair("2 wires asked of 1", 2, 1, 12),
        pair("2 wires asked of 2", 2, 2, 0),
        pair("2 wires asked of 3", 2, 3, 0),
        pair("no wires asked of none", 0, 0, 0),
        pair("1 wire asked of none", 1, 0, 12),
        pair("no wires asked of 65,535", 0, 65_535, 0),
        pair("65,535 wires asked of 65,534", 65_535, 65_534, 12),
    ]
}

/// Sizes over one variable: the difference has to be 0 or more from n = 0 on.
fn over_n() -> Vec<Recorded> {
    let n = variable(0);
    let [zero, one, two] = [0, 1, 2].map(number);
    let more = sum(&n, &one);
    let twice = sum(&n, &n);
    let pair = |name, own: &[u8], asked: &[u8], answer| size(name, 1, own, asked, answer);
    vec![
        pair("n asked of n", &n, &n, 0),
        pair("n asked of n + 1", &n, &more, 0),
        pair("n + 1 asked of n", &more, &n, 12),
        pair("1 asked of n", &one, &n, 12),
        pair("1 asked of n + 1", &one, &more, 0),
        pair("2 asked of n + 1", &two, &more, 12),
        pair("n asked of 1", &n, &one, 12),
        pair("none asked of n", &zero, &n, 0),
        pair("n asked of 2n", &n, &twice, 0),
        pair("2n asked of n", &twice, &n, 12),
        pair("2n asked of n + n", &product(&two, &n), &twice, 0),
        pair("n + 1 asked of 2n", &more, &twice, 12),
        pair("n asked of n + 1 - 1", &n, &difference(&more, &one), 0),
    ]
}

/// Each variable of the family is the same one of the type.
fn over_two() -> Vec<Recorded> {
    let [a, b] = [0, 1].map(variable);
    let both = sum(&a, &b);
    let pair = |name, own: &[u8], asked: &[u8], answer| size(name, 2, own, asked, answer);
    vec![
        pair("a asked of a + b", &a, &both, 0),
        pair("b asked of a + b", &b, &both, 0),
        pair("a asked of b", &a, &b, 12),
        pair("b asked of a", &b, &a, 12),
        pair("b + a asked of a + b", &sum(&b, &a), &both, 0),
        pair(
            "2a + b asked of a + 2b",
            &sum(&a, &both),
            &sum(&b, &both),
            12,
        ),
    ]
}

/// The largest numbers: a difference of two sizes never leaves the range.
fn largest() -> Vec<Recorded> {
    let most = bytes("44 0a 00 40 02 00 40 9c 40 02 00 50 c3");
    let all = sum(&product(&most, &variable(0)), &most);
    let zero = number(0);
    let less = difference(&most, &number(1));
    vec![
        size("the largest asked of the largest", 1, &all, &all, 0),
        size("none asked of the largest", 1, &zero, &all, 0),
        size("the largest asked of none", 1, &all, &zero, 12),
        size("2,000,000,000 asked of one less", 0, &most, &less, 12),
        size("one less than 2,000,000,000", 0, &less, &most, 0),
    ]
}

/// Every size is looked at, and kinds before sizes.
fn in_order() -> Vec<Recorded> {
    let [one, two] = [1, 2].map(|count| sized(&number(count)));
    let pair = |name, own: &[&str], asked: &[&str], answer| row(name, (0, own), (0, asked), answer);
    let [one, two] = [&one, &two].map(String::as_str);
    let eight = [&[one; 7][..], &[two]].concat();
    vec![
        pair("the first of two sizes", &[two, one], &[one, one], 12),
        pair("the second of two sizes", &[one, two], &[one, one], 12),
        pair("the size behind a wire", &[QBIT, two], &[QBIT, one], 12),
        pair("the last of eight sizes", &eight, &[one; 8], 12),
        pair("eight sizes", &[one; 8], &eight, 0),
        pair(
            "9 behind a size that is not shown",
            &[two, QBIT],
            &[one, one],
            9,
        ),
        pair("9 of one too many", &[two, one], &[one], 9),
    ]
}

/// A family over n on one wire or more, for one on n wires, passed at the top inside loops whose
/// first variable would be the type's: none of them helps.
fn loops() -> Vec<Recorded> {
    let n = variable(0);
    let row = |name, [low, high]: [&[u8]; 2], own: &[u8], asked: &[u8], answer| {
        let given = family(1, &[&sized(own)], &[]);
        let formal = field(0x12, &joined(&[&[1, 1], &field(0x11, asked)]));
        let taking = field(1, &joined(&[&[0, 1], &formal]));
        let families = joined(&[&given, &taking]);
        let start = families.len() + 3 + low.len() + high.len();
        let place = if answer == 0 { 0 } else { start as u32 + 4 };
        let once = looped(low, high, &call(1, &[&passed(0)]));
        Recorded::check(name, joined(&[&families, &once]), answer, place)
    };
    let [zero, one, three] = [0, 1, 3].map(number);
    let below = difference(&zero, &one);
    vec![
        row("1 asked of n, i=1..3", [&one, &three], &one, &n, 12),
        row("0 asked of n, i=1..3", [&one, &three], &zero, &n, 0),
        row(
            "n + 1 asked of n, i=0..-1",
            [&zero, &below],
            &sum(&n, &one),
            &n,
            12,
        ),
        row("1 asked of 0, i=0..-1", [&zero, &below], &one, &zero, 12),
        row("n asked of 3, i=0..3", [&zero, &three], &n, &three, 12),
    ]
}

/// The same in a family over n, behind a loop from 1 to n - 1: the body runs only where n is 2 or
/// more, which helps the sizes of a parameter's call and not what is passed.
fn loops_in_families() -> Vec<Recorded> {
    let n = variable(0);
    let of_n = sized(&n);
    let row = |name, own: &[u8], answer, place| {
        let given = family(1, &[&sized(own)], &[]);
        let formal = format!("12 09 00 01 01 {of_n}");
        let taking = family(0, &[&formal], &[]);
        let last = difference(&n, &number(1));
        let inner = looped(&number(1), &last, &call(1, &[&passed(0)]));
        let calling = family(1, &[&of_n], &inner);
        Recorded::check(name, joined(&[&given, &taking, &calling]), answer, place)
    };
    // A family with a size of 5 bytes takes 13, one with 4 bytes 12, the taking one 17; then 12
    // for the caller's head and type, 20 for the loop's, and 4 for the call's.
    vec![
        row("none asked of n, i=1..n-1", &number(0), 0, 0),
        row("1 asked of n, i=1..n-1", &number(1), 12, 13 + 17 + 36),
        row("n asked of n, i=1..n-1", &n, 0, 0),
        shown_by_a_loop(),
    ]
}

/// A call of a parameter inside such a loop: its size n - 2 is shown there.
fn shown_by_a_loop() -> Recorded {
    let n = variable(0);
    let of_n = sized(&n);
    let formal = format!("12 09 00 01 01 {of_n}");
    let size = difference(&n, &number(2));
    let once = parameter_call(1, &[&size, &bytes("30 01 00 00")]);
    let last = difference(&n, &number(1));
    let program = family(1, &[&of_n, &formal], &looped(&number(1), &last, &once));
    Recorded::check("a parameter at n - 2, i=1..n-1", program, 0, 0)
}
