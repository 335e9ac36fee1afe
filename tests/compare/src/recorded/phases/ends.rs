//! How runs of phases end, and which end comes first.

use super::{in_a_loop, in_a_round, made, on_qubits, over_n, turns};
use super::{CPHASE, K63, K64, PHASE, QUBITS, W0, W1, WHOLE, WI};
use crate::recorded::examples::H;
use crate::recorded::{bytes, field, joined, Recorded};

/// 50000n - 50000n, which is 0 unless 50000n leaves the range.
const FAR: &str =
    "43 18 00 44 09 00 40 02 00 50 c3 41 01 00 00 44 09 00 40 02 00 50 c3 41 01 00 00";

/// The sizes 1, 40,000 and 40,001.
const ONE: &str = "01 00 00 00";
const NEAR: &str = "40 9c 00 00";
const PAST: &str = "41 9c 00 00";

/// All rows.
pub fn rows() -> Vec<Recorded> {
    let mut rows = large_ks();
    rows.extend(in_families());
    rows.extend(in_loops());
    rows.extend(one_wire());
    rows.extend(values());
    rows.extend(order_on_one_wire());
    rows.extend(order());
    rows
}

/// A k that is accepted but ends a run.
fn large_ks() -> Vec<Recorded> {
    let literals = ["40 00", "41 00", "ff 00", "00 01", "03 01", "ff ff"];
    let row = |number: &str| {
        let k = format!("40 02 00 {number}");
        let phase = on_qubits(PHASE, &[&k, W0]);
        let cphase = on_qubits(CPHASE, &[&k, W0, W1]);
        let name = format!("k is {number}");
        [
            Recorded::check(&name, phase.clone(), 0, 0),
            Recorded::run(&name, phase, [32, 5, 0, 1], ""),
            Recorded::check(&name, cphase.clone(), 0, 0),
            Recorded::run(&name, cphase, [32, 5, 0, 1], ""),
        ]
    };
    literals.into_iter().flat_map(row).collect()
}

/// Phases in a family over n, at 8: by n - 1, which is not shown, and by n.
fn in_families() -> Vec<Recorded> {
    let less = made(PHASE, &["43 09 00 41 01 00 00 40 02 00 01 00", WHOLE]);
    let by_n = made(PHASE, &["41 01 00 00", WHOLE]);
    let program = over_n("10 00 00", &by_n);
    let row = |name, size, expected, ks: &[&str]| {
        Recorded::instance(name, program.clone(), (0, size), expected, &turns(ks))
    };
    let no_such = made(PHASE, &["41 01 00 01", WHOLE]);
    vec![
        Recorded::check("k is n - 1", over_n("10 00 00", &less), 12, 11),
        Recorded::check("k is n", program.clone(), 0, 0),
        Recorded::check("k is no variable", over_n("10 00 00", &no_such), 8, 11),
        row("k is n, 5", "05 00 00 00", [0, 0, 1, 1], &["05"]),
        row("k is n, 63", "3f 00 00 00", [0, 0, 1, 1], &["3f"]),
        row("k is n, 64", "40 00 00 00", [32, 8, 0, 1], &[]),
        row("k is n, 65,535", "ff ff 00 00", [32, 8, 0, 1], &[]),
    ]
}

/// Loops of phases: by 3 - i, and from 62 to n by i - 1.
fn in_loops() -> Vec<Recorded> {
    let down = |high| in_a_loop("00 00", high, "43 09 00 40 02 00 03 00 41 01 00 00");
    let phase = made(PHASE, &["43 09 00 41 01 00 01 40 02 00 01 00", WHOLE]);
    let up = |low: &str| {
        let bounds = bytes(&format!("40 02 00 {low} 41 01 00 00"));
        over_n("10 00 00", &field(0x26, &joined(&[&bounds, &phase])))
    };
    let far = up("3e 00");
    let row = |name, size, expected, ks: &[&str]| {
        Recorded::instance(name, far.clone(), (0, size), expected, &turns(ks))
    };
    let falling = turns(&["03", "02", "01", "00"]);
    vec![
        Recorded::check("k is 3 - i up to 4", down("04 00"), 12, 21),
        Recorded::run("k is 3 - i up to 3", down("03 00"), [0, 0, 4, 9], &falling),
        Recorded::check("k is i - 1 from 0", up("00 00"), 12, 23),
        Recorded::check("k is i - 1 from 1", up("01 00"), 0, 0),
        row(
            "k is i - 1 up to 64",
            "40 00 00 00",
            [0, 0, 3, 7],
            &["3d", "3e", "3f"],
        ),
        row(
            "k is i - 1 up to 65",
            "41 00 00 00",
            [32, 20, 3, 9],
            &["3d", "3e", "3f"],
        ),
    ]
}

/// Two wires that are one, by their forms at 8, or by their values in a loop of one round over
/// j, at 26; k may leave the range.
fn one_wire() -> Vec<Recorded> {
    let twice = over_n("10 00 00", &made(CPHASE, &[FAR, WHOLE, WHOLE]));
    let cell = "31 05 00 00 41 01 00 01";
    let bounds = bytes("40 02 00 00 00 40 02 00 00 00");
    let turn = made(CPHASE, &[FAR, W0, cell]);
    let looped = field(0x26, &joined(&[&bounds, &turn]));
    let met = over_n("11 05 00 40 02 00 01 00", &looped);
    let row = |name, program: &Vec<u8>, size, expected| {
        Recorded::instance(name, program.clone(), (0, size), expected, "")
    };
    vec![
        row("35 where k is in range", &twice, ONE, [35, 8, 0, 0]),
        row("35 where k is out of range", &twice, PAST, [35, 8, 0, 0]),
        row("25 where k is in range", &met, ONE, [25, 26, 0, 3]),
        row("24 in k before 25", &met, PAST, [24, 26, 0, 3]),
    ]
}

/// Values that leave the range in k, before and beside other ends.
fn values() -> Vec<Recorded> {
    let wire = over_n("10 00 00", &made(PHASE, &[FAR, WHOLE]));
    let far_wire = format!("31 1c 00 00 {FAR}");
    let cell = over_n("11 05 00 40 02 00 01 00", &made(PHASE, &[K64, &far_wire]));
    let row = |name, program: &Vec<u8>, size, expected, records: &str| {
        Recorded::instance(name, program.clone(), (0, size), expected, records)
    };
    let zero = turns(&["00"]);
    vec![
        row(
            "k's sides are 2,000,000,000",
            &wire,
            NEAR,
            [0, 0, 1, 1],
            &zero,
        ),
        row("24 in k", &wire, PAST, [24, 8, 0, 1], ""),
        row("26 before 24 in k", &wire, PAST, [26, 8, 0, 0], "").limit(0),
        row("24 in k before 27", &wire, PAST, [24, 8, 0, 1], "").into_bytes(0),
        row(
            "32 where the operand is in range",
            &cell,
            ONE,
            [32, 13, 0, 1],
            "",
        ),
        row(
            "24 in the operand before 32",
            &cell,
            PAST,
            [24, 13, 0, 1],
            "",
        ),
    ]
}

/// Which end comes first at a phase on one wire, in a round; by its forms it is no end.
fn order_on_one_wire() -> Vec<Recorded> {
    let met = |name, k, expected| {
        let program = in_a_round(CPHASE, &[k, WI, W0]);
        Recorded::run(name, program, expected, "")
    };
    let twice = |name| {
        let program = on_qubits(CPHASE, &[K64, W0, W0]);
        Recorded::run(name, program, [35, 5, 0, 0], "")
    };
    vec![
        met("25 before 32", K64, [25, 18, 0, 3]),
        met("26 before 25 and 32", K64, [26, 18, 0, 2]).limit(2),
        met("25 before 32 and 27", K64, [25, 18, 0, 3]).into_bytes(0),
        met("25 by itself", K63, [25, 18, 0, 3]),
        twice("35 before 32"),
        twice("35 before 26 and 32").limit(0),
        twice("35 before 32 and 27").into_bytes(0),
    ]
}

/// Which end comes first at a phase.
fn order() -> Vec<Recorded> {
    let row = |name, tag, parts: &[&str], expected| {
        Recorded::run(name, on_qubits(tag, parts), expected, "")
    };
    let h = bytes(&format!("20 09 00 {W0}"));
    let phase = made(PHASE, &[K64, W0]);
    let between = joined(&[&bytes(QUBITS), &h, &phase, &h]);
    let reversed = field(0x25, &joined(&[&field(0x25, &phase), &h]));
    let reversed = joined(&[&bytes(QUBITS), &reversed]);
    let first = turns(&["3f"]);
    let in_12 = Recorded::run(
        "room for one",
        on_qubits(PHASE, &[K63, W0]),
        [0, 0, 1, 1],
        &first,
    );
    vec![
        row("26 before 32", PHASE, &[K64, W0], [26, 5, 0, 0]).limit(0),
        row("32 before 27", PHASE, &[K64, W0], [32, 5, 0, 1]).into_bytes(0),
        row(
            "32 before 27, cphase",
            CPHASE,
            &[K64, W0, W1],
            [32, 5, 0, 1],
        )
        .into_bytes(11),
        row("27 after k", PHASE, &[K63, W0], [27, 5, 0, 1]).into_bytes(11),
        row("27 after two wires", CPHASE, &[K63, W0, W1], [27, 5, 0, 1]).into_bytes(8),
        in_12.into_bytes(12).limit(1),
        Recorded::run("32 between gates", between, [32, 17, 1, 2], H[0]),
        Recorded::run("32 in reversals", reversed, [32, 11, 1, 4], H[0]),
    ]
}
