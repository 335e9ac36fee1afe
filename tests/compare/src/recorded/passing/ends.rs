//! How runs through parameters end, and instances of families that have family parameters.

use super::{behind, given, parameter_call, passed, run, FIRST, GATE, OF_FOUR, ON_A_WIRE, QBIT};
use super::{PASSED_AT, QUBIT, QUBITS, TOP, WIRE};
use crate::recorded::slices::{call, difference, family, gates, number, product, sum, variable};
use crate::recorded::{bytes, field, joined, Recorded};

/// The record of h on the first wire.
const H: &str = "01 00 00 00 00 00 00 00 00 00 00 00";
/// Where the call of the parameter and the gate stand.
const INNER: u32 = 31;
const GATE_AT: u32 = 8;
/// The type of a family over one variable on a wire, 8 bytes.
const OVER_ONE: &str = "12 05 00 01 01 10 00 00";

/// All rows.
pub fn rows() -> Vec<Recorded> {
    let mut rows = limits();
    rows.extend(lengths());
    rows.extend(values());
    rows.extend(operand_values());
    rows.extend(same_wires());
    rows.extend(large_k());
    rows.extend(instances());
    rows.extend(instances_over_n());
    rows.extend(refused());
    rows
}

/// Every step limit of a gate through a parameter: the call, the parameter's call, the gate.
fn limits() -> Vec<Recorded> {
    let row = |limit: u32, number, place, records| {
        let name = format!("a parameter, limit {limit}");
        let count = u32::from(number == 0);
        let program = run(&given(&passed(0)));
        let expected = [number, place, count, limit];
        Recorded::run(&name, program, expected, records).limit(limit.into())
    };
    vec![
        row(0, 26, TOP, ""),
        row(1, 26, INNER, ""),
        row(2, 26, GATE_AT, ""),
        row(3, 0, 0, H),
    ]
}

/// Outputs of no record, one byte less than one, and one.
fn lengths() -> Vec<Recorded> {
    let row = |length, expected, records| {
        let name = format!("a parameter into {length} bytes");
        let program = run(&given(&passed(0)));
        Recorded::run(&name, program, expected, records).into_bytes(length)
    };
    vec![
        row(0, [27, GATE_AT, 0, 3], ""),
        row(11, [27, GATE_AT, 0, 3], ""),
        row(12, [0, 0, 1, 3], H),
    ]
}

/// A number plus 50000n - 50000n, which is the number unless 50000n leaves the range.
fn far(value: u16) -> Vec<u8> {
    let large = product(&number(50_000), &variable(0));
    sum(&number(value), &difference(&large, &large))
}

/// Values out of range in the index of a parameter's call, which stands at 31.
fn values() -> Vec<Recorded> {
    let inner = parameter_call(1, &[&far(1), &bytes(FIRST)]);
    let gate = field(0x20, &bytes(FIRST));
    let families = joined(&[
        &family(1, &[QBIT], &gate),
        &family(1, &[QBIT, OVER_ONE], &inner),
    ]);
    let row = |name, size, expected, records| {
        let call = call(1, &[&number(size), &bytes(WIRE), &passed(0)]);
        let program = joined(&[&families, &bytes(QUBIT), &call]);
        Recorded::run(name, program, expected, records)
    };
    let ended = [24, INNER, 0, 2];
    vec![
        row("a parameter's index at 40,000", 40_000, [0, 0, 1, 3], H),
        row("24 in a parameter's index", 40_001, ended, ""),
        row("26 before 24 in it", 40_001, [26, INNER, 0, 1], "").limit(1),
        row("24 in it before 26 inside", 40_001, ended, "").limit(2),
        row("24 in it before 27", 40_001, ended, "").into_bytes(0),
    ]
}

/// Values out of range in the operand of a parameter's call, which stands at 36.
fn operand_values() -> Vec<Recorded> {
    let wire = field(0x31, &joined(&[&[0], &far(2)]));
    let inner = parameter_call(1, &[&wire]);
    let families = joined(&[&bytes(GATE), &family(1, &[OF_FOUR, ON_A_WIRE], &inner)]);
    let row = |name, size, expected, records: &str| {
        let call = call(1, &[&number(size), &bytes(FIRST), &passed(0)]);
        let program = joined(&[&families, &bytes(QUBITS), &call]);
        Recorded::run(name, program, expected, records)
    };
    vec![
        row(
            "a parameter's operand at 40,000",
            40_000,
            [0, 0, 1, 3],
            &gates(&[2]),
        ),
        row("24 in a parameter's operand", 40_001, [24, 36, 0, 2], ""),
    ]
}

/// A family on two wires, cx at 11, for a parameter that is called with one wire twice.
fn same_wires() -> Vec<Recorded> {
    let pair = "01 13 00 00 02 10 00 00 10 00 00 23 08 00 30 01 00 00 30 01 00 01";
    let formal = "12 08 00 00 02 10 00 00 10 00 00";
    let inner = parameter_call(1, &[&bytes(FIRST), &bytes(FIRST)]);
    let taking = family(0, &[QBIT, formal], &inner);
    let program = joined(&[&bytes(pair), &taking, &bytes(QUBIT), &given(&passed(0))]);
    vec![
        Recorded::check("one wire twice through a parameter", program.clone(), 0, 0),
        Recorded::run("25 through a parameter", program, [25, 11, 0, 3], ""),
    ]
}

/// A family over k with a phase by k at 8, for a parameter that is called with a k.
fn large_k() -> Vec<Recorded> {
    let turn = field(0x28, &joined(&[&variable(0), &bytes(FIRST)]));
    let row = |name, k, expected, records| {
        let inner = parameter_call(1, &[&number(k), &bytes(FIRST)]);
        let families = joined(&[
            &family(1, &[QBIT], &turn),
            &family(0, &[QBIT, OVER_ONE], &inner),
        ]);
        let program = joined(&[&families, &bytes(QUBIT), &given(&passed(0))]);
        Recorded::run(name, program, expected, records)
    };
    let last = "07 00 00 00 00 00 00 00 3f 00 00 00";
    vec![
        row("k is 63 through a parameter", 63, [0, 0, 1, 3], last),
        row("k is 64 through a parameter", 64, [32, 8, 0, 3], ""),
    ]
}

/// Instances of the two families and of none: 20 comes before 34.
fn instances() -> Vec<Recorded> {
    let row = |name, family, sizes, number| {
        let program = behind(&[]);
        Recorded::instance(name, program, (family, sizes), [number, 0, 0, 0], "")
    };
    let faulty = behind(&[0x20]);
    let first = Recorded::instance("a passed one", behind(&[]), (0, ""), [0, 0, 1, 1], H);
    vec![
        first,
        row("a family that takes families", 1, "", 34),
        row("the same at one byte of sizes", 1, "00", 34),
        row("the same at a size", 1, "01 00 00 00", 34),
        row("the same, limit 0", 1, "", 34).limit(0),
        row("the same into no bytes", 1, "", 34).into_bytes(0),
        row("the same, printed", 1, "", 34).printed(""),
        row("the same into no text", 1, "", 34)
            .printed("")
            .text_bytes(0),
        row("no such family before 34", 2, "", 20),
        row("family 257 of two", 257, "", 20),
        row("a passed one at a size", 0, "01 00 00 00", 21),
        Recorded::instance("the check before 34", faulty, (1, ""), [2, 39, 0, 0], ""),
    ]
}

/// A family over n that takes a family: 34 comes before 21, 22 and 23.
fn instances_over_n() -> Vec<Recorded> {
    let wide = "11 0c 00 44 09 00 40 02 00 60 ea 41 01 00 00";
    let program = family(1, &[wide, ON_A_WIRE], &[]);
    let row =
        |name, sizes| Recorded::instance(name, program.clone(), (0, sizes), [34, 0, 0, 0], "");
    vec![
        row("34 before no sizes", ""),
        row("34 before five bytes of sizes", "00 00 00 00 00"),
        row("34 before a size of 65,536", "00 00 01 00"),
        row("34 before too many wires", "02 00 00 00"),
        row("34 before 60,000n out of range", "ff ff 00 00"),
        row("34 at n = 1", "01 00 00 00"),
    ]
}

/// Programs refused for what is passed by every call, whatever else is asked.
fn refused() -> Vec<Recorded> {
    let later = run(&given(&passed(1)));
    let [at, none] = [[33, PASSED_AT, 0, 0], [8, PASSED_AT, 0, 0]];
    let missing = run(&given(&passed(2)));
    vec![
        Recorded::run("33, run", later.clone(), at, "").limit(0),
        Recorded::instance("33, instance", later.clone(), (0, ""), at, ""),
        Recorded::instance("33 before 34", later.clone(), (1, ""), at, ""),
        Recorded::instance("33 before 20", later.clone(), (9, ""), at, ""),
        Recorded::run("33, printed", later, at, "").printed(""),
        Recorded::run("8, run", missing.clone(), none, "").into_bytes(0),
        Recorded::instance("8 before 34", missing, (1, ""), none, "").printed(""),
    ]
}
