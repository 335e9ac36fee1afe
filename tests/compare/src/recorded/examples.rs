//! The examples that belong to the language's description.

use super::{bytes, Recorded};

/// x:Qbit[n], for i=1..n h(x[i-1]).
pub(super) const L: &str = "01 28 00 01 01 11 04 00 41 01 00 00 \
    26 1c 00 40 02 00 01 00 41 01 00 00 \
    20 10 00 31 0d 00 00 43 09 00 41 01 00 01 40 02 00 01 00";

/// x:Qbit[n], h(x[0]).
pub(super) const FIRST_OF_N: &str =
    "01 15 00 01 01 11 04 00 41 01 00 00 20 09 00 31 06 00 00 40 02 00 00 00";

/// x:Qbit[n+1], h(x[0]).
const FIRST_OF_MORE: &str = "01 1d 00 01 01 11 0c 00 42 09 00 41 01 00 00 40 02 00 01 00 \
    20 09 00 31 06 00 00 40 02 00 00 00";

/// x:Qbit[n], for i=0..n h(x[i-1]).
const L_FROM_0: &str = "01 28 00 01 01 11 04 00 41 01 00 00 \
    26 1c 00 40 02 00 00 00 41 01 00 00 \
    20 10 00 31 0d 00 00 43 09 00 41 01 00 01 40 02 00 01 00";

/// One qubit, for i=0..3, for j=0..3 h(q[i-j]).
const DISTANCE: &str = "02 02 00 01 00 26 29 00 40 02 00 00 00 40 02 00 03 00 \
    26 1c 00 40 02 00 00 00 40 02 00 03 00 \
    20 0f 00 31 0c 00 00 43 08 00 41 01 00 00 41 01 00 01";

/// x:Qbit[n], for i=1..n-1 h(x[0]).
pub(super) const FIRST_IN_LOOP: &str = "01 29 00 01 01 11 04 00 41 01 00 00 \
    26 1d 00 40 02 00 01 00 43 09 00 41 01 00 00 40 02 00 01 00 \
    20 09 00 31 06 00 00 40 02 00 00 00";

/// Two qubits, h on the first, cx on both.
pub(super) const BELL: &str = "02 02 00 02 00 20 09 00 31 06 00 00 40 02 00 00 00 \
    23 12 00 31 06 00 00 40 02 00 00 00 31 06 00 00 40 02 00 01 00";

/// x:Qbit[n], for i=0..n-1 h(x[n-1-i]).
const DOWN: &str = "01 37 00 01 01 11 04 00 41 01 00 00 \
    26 2b 00 40 02 00 00 00 43 09 00 41 01 00 00 40 02 00 01 00 \
    20 17 00 31 14 00 00 43 10 00 43 09 00 41 01 00 00 40 02 00 01 00 41 01 00 01";

/// The same in a reverse.
const DOWN_REVERSED: &str = "01 3a 00 01 01 11 04 00 41 01 00 00 25 2e 00 \
    26 2b 00 40 02 00 00 00 43 09 00 41 01 00 00 40 02 00 01 00 \
    20 17 00 31 14 00 00 43 10 00 43 09 00 41 01 00 00 40 02 00 01 00 41 01 00 01";

/// One qubit, cx on it twice.
pub(super) const ONE_WIRE: &str = "02 02 00 01 00 \
    23 12 00 31 06 00 00 40 02 00 00 00 31 06 00 00 40 02 00 00 00";

/// One qubit, for i=0..0 cx(q[i],q[0]), which stands at 18.
pub(super) const ONE_IN_A_ROUND: &str = "02 02 00 01 00 \
    26 1e 00 40 02 00 00 00 40 02 00 00 00 \
    23 11 00 31 05 00 00 41 01 00 00 31 06 00 00 40 02 00 00 00";

/// The records of BELL.
pub(super) const BELL_RECORDS: &str = "01 00 00 00 00 00 00 00 00 00 00 00 \
    04 00 00 00 01 00 00 00 00 00 00 00";

/// Two qubits, reverse{h; t; cx}.
pub(super) const REVERSED: &str = "02 02 00 02 00 25 2d 00 20 09 00 31 06 00 00 40 02 00 00 00 \
    21 09 00 31 06 00 00 40 02 00 00 00 \
    23 12 00 31 06 00 00 40 02 00 00 00 31 06 00 00 40 02 00 01 00";

/// The records of REVERSED: cx, tdg, h.
pub(super) const REVERSED_RECORDS: &str = "04 00 00 00 01 00 00 00 00 00 00 00 \
    03 00 00 00 00 00 00 00 00 00 00 00 \
    01 00 00 00 00 00 00 00 00 00 00 00";

/// Records of h on the first three wires.
pub(super) const H: [&str; 3] = [
    "01 00 00 00 00 00 00 00 00 00 00 00",
    "01 00 01 00 00 00 00 00 00 00 00 00",
    "01 00 02 00 00 00 00 00 00 00 00 00",
];

/// All examples.
pub fn rows() -> Vec<Recorded> {
    let mut rows = checked();
    rows.extend(loops());
    rows.extend(whole_runs());
    rows.extend(passed());
    rows
}

/// Examples about what is accepted.
fn checked() -> Vec<Recorded> {
    let row = |name, program, number, place| Recorded::check(name, bytes(program), number, place);
    vec![
        row("empty program", "", 0, 0),
        row("x:Qbit[n], h(x[0])", FIRST_OF_N, 12, 15),
        row("x:Qbit[n+1], h(x[0])", FIRST_OF_MORE, 0, 0),
        row("L", L, 0, 0),
        row("L from 0", L_FROM_0, 12, 27),
        row("h(x[n-1-i])", DOWN, 0, 0),
        row("i=0..3, j=0..3, q[i-j] of size 1", DISTANCE, 12, 34),
        row("i=1..n-1, h(x[0]), x:Qbit[n]", FIRST_IN_LOOP, 0, 0),
        row("cx on one wire", ONE_WIRE, 35, 5),
        row("cx on one wire in a round", ONE_IN_A_ROUND, 0, 0),
    ]
}

/// Examples about loops and their limits.
fn loops() -> Vec<Recorded> {
    let three = (0, "03 00 00 00");
    let two = (0, "02 00 00 00");
    let listed = |name, sizes, expected, records: &[&str]| {
        Recorded::instance(name, bytes(L), sizes, expected, &records.join(" "))
    };
    let down = |name, program, expected, records: &[&str]| {
        Recorded::instance(name, bytes(program), two, expected, &records.join(" "))
    };
    vec![
        listed("L at 0", (0, "00 00 00 00"), [0, 0, 0, 1], &[]),
        listed("L at 3", three, [0, 0, 3, 7], &H),
        listed("L at 3, limit 7", three, [0, 0, 3, 7], &H).limit(7),
        listed("L at 3, limit 6", three, [26, 24, 2, 6], &H[..2]).limit(6),
        listed("L at 3 into 23 bytes", three, [27, 24, 1, 5], &H[..1]).into_bytes(23),
        listed("L at 3 into 24 bytes", three, [27, 24, 2, 7], &H[..2]).into_bytes(24),
        listed("L at 3 into 35 bytes", three, [27, 24, 2, 7], &H[..2]).into_bytes(35),
        listed("L at 3 into 36 bytes", three, [0, 0, 3, 7], &H).into_bytes(36),
        down("h(x[n-1-i]) at 2", DOWN, [0, 0, 2, 5], &[H[1], H[0]]),
        down(
            "h(x[n-1-i]) reversed at 2",
            DOWN_REVERSED,
            [0, 0, 2, 6],
            &[H[0], H[1]],
        ),
    ]
}

/// Examples that are run whole.
fn whole_runs() -> Vec<Recorded> {
    let row =
        |name, program, expected, records| Recorded::run(name, bytes(program), expected, records);
    vec![
        row("empty program", "", [0, 0, 0, 0], ""),
        row("h and cx", BELL, [0, 0, 2, 2], BELL_RECORDS),
        row(
            "reverse{h; t; cx}",
            REVERSED,
            [0, 0, 3, 4],
            REVERSED_RECORDS,
        ),
        row(
            "reverse{reverse{t}}",
            "02 02 00 01 00 25 0f 00 25 0c 00 21 09 00 31 06 00 00 40 02 00 00 00",
            [0, 0, 1, 3],
            "02 00 00 00 00 00 00 00 00 00 00 00",
        ),
        row("cx on one wire", ONE_WIRE, [35, 5, 0, 0], ""),
        row(
            "cx on one wire in a round",
            ONE_IN_A_ROUND,
            [25, 18, 0, 3],
            "",
        ),
    ]
}

/// A register of 5 passed for Qbit[n].
fn passed() -> Vec<Recorded> {
    let program = |size: &str| {
        bytes(&format!(
            "01 09 00 01 01 11 04 00 41 01 00 00 02 02 00 05 00 \
             24 0a 00 00 40 02 00 {size} 00 30 01 00 00"
        ))
    };
    vec![
        Recorded::check("5 passed for 0", program("00"), 0, 0),
        Recorded::check("5 passed for 5", program("05"), 0, 0),
        Recorded::check("5 passed for 6", program("06"), 12, 26),
        Recorded::run("5 passed for 0, run", program("00"), [0, 0, 0, 1], ""),
        Recorded::run("5 passed for 5, run", program("05"), [0, 0, 0, 1], ""),
        Recorded::run("5 passed for 6, run", program("06"), [12, 26, 0, 0], ""),
    ]
}
