//! Hand-made calls that are turned down for the state, and what runs write.

use super::examples::{L, ONE_IN_A_ROUND, ONE_WIRE};
use super::{bytes, Recorded};

/// x:Qbit[60000n], nothing in the body.
pub(super) const WIDE: &str = "01 11 00 01 01 11 0c 00 44 09 00 40 02 00 60 ea 41 01 00 00";

/// x:Qbit over n, t(x), then a loop from 60000n to 0 around nothing.
pub(super) const FAR: &str = "01 20 00 01 01 10 00 00 21 04 00 30 01 00 00 \
    26 11 00 44 09 00 40 02 00 60 ea 41 01 00 00 40 02 00 00 00";

/// x:Qbit[n] and y:Qbit, nothing in the body.
pub(super) const TWO: &str = "01 0c 00 01 02 11 04 00 41 01 00 00 10 00 00";

/// Registers of 2 qubits, 1 bit, 3 qubits and 2 bits: measure, reset, if, t, if{reverse}.
pub(super) const COMMANDS: &str = "02 02 00 02 00 03 02 00 01 00 02 02 00 03 00 03 02 00 02 00 \
    04 12 00 31 06 00 02 40 02 00 00 00 31 06 00 03 40 02 00 01 00 \
    05 09 00 31 06 00 02 40 02 00 02 00 \
    06 16 00 01 31 06 00 03 40 02 00 00 00 20 09 00 31 06 00 00 40 02 00 01 00 \
    21 09 00 31 06 00 02 40 02 00 01 00 \
    06 25 00 00 31 06 00 01 40 02 00 00 00 \
    25 18 00 21 09 00 31 06 00 00 40 02 00 00 00 22 09 00 31 06 00 00 40 02 00 01 00";

/// The records of COMMANDS.
pub(super) const COMMANDS_RECORDS: &str = "05 00 02 00 02 00 00 00 00 00 00 00 \
    06 00 04 00 00 00 00 00 00 00 00 00 \
    01 02 01 00 00 00 01 00 00 00 00 00 \
    02 00 03 00 00 00 00 00 00 00 00 00 \
    02 01 01 00 00 00 00 00 00 00 00 00 \
    03 01 00 00 00 00 00 00 00 00 00 00";

/// x:Qbit, y:Qbit[n] and z:Qbit, h(z).
pub(super) const BEHIND: &str = "01 16 00 01 03 10 00 00 11 04 00 41 01 00 00 10 00 00 \
    20 04 00 30 01 00 02";

/// All rows.
pub fn rows() -> Vec<Recorded> {
    let mut rows = sizes();
    rows.extend(layouts());
    rows.extend(values());
    rows.extend(limits());
    rows.extend(commands());
    rows.extend(reversals());
    rows
}

/// Families and sizes that an instance cannot have.
fn sizes() -> Vec<Recorded> {
    let row = |name, program, family, sizes, number| {
        let expected = [number, 0, 0, 0];
        Recorded::instance(name, bytes(program), (family, sizes), expected, "")
    };
    vec![
        row("no families", "", 0, "", 20),
        row("family 1 of 1", L, 1, "00 00 00 00", 20),
        row("family 4294967295", L, u32::MAX, "", 20),
        row("family 256", L, 256, "00 00 00 00", 20),
        row("no sizes", L, 0, "", 21),
        row("three bytes of sizes", L, 0, "ff ff ff", 21),
        row("five bytes of sizes", L, 0, "00 00 00 00 00", 21),
        row("two sizes for one", L, 0, "ff ff ff ff ff ff ff ff", 21),
        row("size 65,536", L, 0, "00 00 01 00", 22),
        row("size 4294967295", L, 0, "ff ff ff ff", 22),
        row("the program is checked first", "20", 9, "ff", 2),
    ]
}

/// Layouts at and past 65,535 wires.
fn layouts() -> Vec<Recorded> {
    let row = |name, program, sizes, number, place| {
        let expected = [number, place, 0, 0];
        Recorded::instance(name, bytes(program), (0, sizes), expected, "")
    };
    vec![
        row("65,535 wires", TWO, "fe ff 00 00", 0, 0),
        row("65,536 wires", TWO, "ff ff 00 00", 23, 12),
        row("60,000 wires", WIDE, "01 00 00 00", 0, 0),
        row("120,000 wires", WIDE, "02 00 00 00", 23, 5),
        row("1,999,980,000 wires", WIDE, "35 82 00 00", 23, 5),
        row("2,000,040,000 wires", WIDE, "36 82 00 00", 24, 5),
        row("3,932,100,000 wires", WIDE, "ff ff 00 00", 24, 5),
        row("no wires", WIDE, "00 00 00 00", 0, 0),
    ]
}

/// Index values that leave the range in a run, among other ends.
fn values() -> Vec<Recorded> {
    let t = "02 00 00 00 00 00 00 00 00 00 00 00";
    let row = |name, sizes, expected, records| {
        Recorded::instance(name, bytes(FAR), (0, sizes), expected, records)
    };
    vec![
        row("60000n at 1", "01 00 00 00", [0, 0, 1, 2], t),
        row("60000n at 40000", "40 9c 00 00", [24, 15, 1, 2], t),
        row("step before value", "40 9c 00 00", [26, 15, 1, 1], t).limit(1),
        row("record before loop", "40 9c 00 00", [27, 8, 0, 1], "").into_bytes(11),
    ]
}

/// Step limits and output lengths.
fn limits() -> Vec<Recorded> {
    let h = "01 00 00 00 00 00 00 00 00 00 00 00";
    let three = (0, "03 00 00 00");
    let most = (0, "ff ff 00 00");
    let row = |name, sizes, expected, records| {
        Recorded::instance(name, bytes(L), sizes, expected, records)
    };
    let run = |name, program, expected| Recorded::run(name, bytes(program), expected, "");
    vec![
        row("L at 3, limit 0", three, [26, 12, 0, 0], "").limit(0),
        row("L at 3, limit 1", three, [26, 12, 0, 1], "").limit(1),
        row("L at 3, limit 2", three, [26, 24, 0, 2], "").limit(2),
        row("L at 3, limit 3", three, [26, 12, 1, 3], h).limit(3),
        row("L at 65535, limit 1", most, [26, 12, 0, 1], "").limit(1),
        row("L at 3 into 0 bytes", three, [27, 24, 0, 3], "").into_bytes(0),
        row("L at 3 into 8 bytes", three, [27, 24, 0, 3], "").into_bytes(8),
        row("L at 3 into 11 bytes", three, [27, 24, 0, 3], "").into_bytes(11),
        row("L at 3 into 12 bytes", three, [27, 24, 1, 5], h).into_bytes(12),
        run("declarations take no step", "02 02 00 01 00", [0, 0, 0, 0]).limit(0),
        run("an empty reverse takes one", "25 00 00", [26, 0, 0, 0]).limit(0),
        run("one wire before no room", ONE_IN_A_ROUND, [25, 18, 0, 3]).into_bytes(0),
        run("no step before one wire", ONE_IN_A_ROUND, [26, 18, 0, 2]).limit(2),
        run("one wire twice before no step", ONE_WIRE, [35, 5, 0, 0]).limit(0),
        run("one wire twice before no room", ONE_WIRE, [35, 5, 0, 0]).into_bytes(0),
        run("a refused run", "25 00 00 20", [2, 3, 0, 0]).limit(0),
    ]
}

/// Measure, reset and if over registers that lie behind each other.
fn commands() -> Vec<Recorded> {
    vec![
        Recorded::run("commands", bytes(COMMANDS), [0, 0, 6, 9], COMMANDS_RECORDS),
        Recorded::instance(
            "a wire behind a register",
            bytes(BEHIND),
            (0, "02 00 00 00"),
            [0, 0, 1, 1],
            "01 00 03 00 00 00 00 00 00 00 00 00",
        ),
    ]
}

/// A call run backward: f(a, b) { t(a); cx(a, b) }.
fn reversals() -> Vec<Recorded> {
    let program = "01 1a 00 00 02 10 00 00 10 00 00 21 04 00 30 01 00 00 \
        23 08 00 30 01 00 00 30 01 00 01 02 02 00 02 00 \
        25 22 00 24 13 00 00 31 06 00 00 40 02 00 00 00 31 06 00 00 40 02 00 01 00 \
        20 09 00 31 06 00 00 40 02 00 00 00";
    let records = "01 00 00 00 00 00 00 00 00 00 00 00 \
        04 00 00 00 01 00 00 00 00 00 00 00 03 00 00 00 00 00 00 00 00 00 00 00";
    vec![Recorded::run(
        "a call run backward",
        bytes(program),
        [0, 0, 3, 5],
        records,
    )]
}
