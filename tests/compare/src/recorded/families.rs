//! Hand-made libraries of up to 4,097 families, and calls with numbers of two bytes.

use super::examples::{H, L};
use super::{bytes, field, joined, nested, Recorded};

/// A family of one wire and nothing else, 8 bytes.
const FAMILY: &str = "01 05 00 00 01 10 00 00";
/// The same over one index variable.
const SIZED: &str = "01 05 00 01 01 10 00 00";
/// One qubit.
const QUBIT: &str = "02 02 00 01 00";
/// The operand q[0], 9 bytes.
const WIRE: &str = "31 06 00 00 40 02 00 00 00";
/// Where a call stands behind 257 families of 8 bytes and one qubit.
const BEHIND: u32 = 2_061;
/// Records of t and tdg on the first wire.
const T: &str = "02 00 00 00 00 00 00 00 00 00 00 00";
const TDG: &str = "03 00 00 00 00 00 00 00 00 00 00 00";

/// All rows.
pub fn rows() -> Vec<Recorded> {
    let mut rows = counts();
    rows.extend(numbers());
    rows.extend(without_families());
    rows.extend(contents());
    rows.extend(levels());
    rows.extend(itself());
    rows.extend(entered());
    rows.extend(around());
    rows.extend(ends());
    rows.extend(sized());
    rows.extend(values());
    rows.extend(instances());
    rows.extend(last());
    rows.extend(refused());
    rows
}

/// So many families that do nothing.
fn idle(count: usize) -> Vec<u8> {
    bytes(FAMILY).repeat(count)
}

/// So many families of 15 bytes: h on the wire up to 255, then t and tdg in turn.
fn gated(count: usize) -> Vec<u8> {
    let family = |gate: &str| bytes(&format!("01 0c 00 00 01 10 00 00 {gate} 04 00 30 01 00 00"));
    let [h, t, tdg] = ["20", "21", "22"].map(family);
    let gate = |number: usize| match (number, number % 2) {
        (0..=255, _) => &h,
        (_, 0) => &t,
        _ => &tdg,
    };
    (0..count).flat_map(gate).copied().collect()
}

/// Families, one qubit, and more in hexadecimal.
fn behind(families: Vec<u8>, more: &str) -> Vec<u8> {
    joined(&[&families, &bytes(QUBIT), &bytes(more)])
}

/// 255 to 4,097 families.
fn counts() -> Vec<Recorded> {
    let row = |name, program, number, place| Recorded::check(name, program, number, place);
    let past = |last| joined(&[&idle(4_096), &bytes(last)]);
    vec![
        row("255 families", idle(255), 0, 0),
        row("256 families", idle(256), 0, 0),
        row("257 families", idle(257), 0, 0),
        row("4,095 families", idle(4_095), 0, 0),
        row("4,096 families", idle(4_096), 0, 0),
        row("4,097 families", idle(4_097), 6, 32_768),
        row("4,098 families", idle(4_098), 6, 32_768),
        row("4,097th without content", past("01 00 00"), 6, 32_768),
        row("4,097th past the end", past("01 05 00"), 2, 32_768),
        row("a qubit behind 4,096", past(QUBIT), 0, 0),
        Recorded::run("4,096 families, run", idle(4_096), [0, 0, 0, 0], ""),
        Recorded::run("4,097 families, run", idle(4_097), [6, 32_768, 0, 0], ""),
        Recorded::instance(
            "4,097 families, instance",
            idle(4_097),
            (0, ""),
            [6, 32_768, 0, 0],
            "",
        ),
    ]
}

/// Numbers of one byte and of two behind 257 families.
fn numbers() -> Vec<Recorded> {
    let wide = |name, number: &str, answer| {
        let program = behind(idle(257), &format!("27 0b 00 {number} {WIRE}"));
        Recorded::check(name, program, answer, if answer == 0 { 0 } else { BEHIND })
    };
    let short = |name, count, answer, place| {
        let program = behind(idle(count), &format!("24 0a 00 ff {WIRE}"));
        Recorded::check(name, program, answer, place)
    };
    vec![
        wide("two bytes for 0", "00 00", 31),
        wide("two bytes for 1", "01 00", 31),
        wide("two bytes for 255", "ff 00", 31),
        wide("two bytes for 256, the last", "00 01", 0),
        wide("two bytes for 257, one past it", "01 01", 8),
        wide("two bytes for 511", "ff 01", 8),
        wide("two bytes for 65,535", "ff ff", 8),
        short("one byte for 255, the last", 256, 0, 0),
        short("one byte for 255 of 257", 257, 0, 0),
        short("one byte for 255, one past the last", 255, 8, 2_045),
    ]
}

/// Calls in programs without families: the number is tested when it is read.
fn without_families() -> Vec<Recorded> {
    let row = |program, number| Recorded::check(program, bytes(program), number, 0);
    vec![
        row("27 00 00", 4),
        row("27 01 00 00", 4),
        row("27 01 00 ff", 4),
        row("27 02 00 00 00", 31),
        row("27 02 00 01 00", 31),
        row("27 02 00 ff 00", 31),
        row("27 02 00 00 01", 8),
        row("27 02 00 01 01", 8),
        row("27 02 00 ff ff", 8),
        row("27 03 00 07 00 ff", 31),
        row("27 03 00 07 01 ff", 8),
        row("27 03 00 07 00", 2),
        row("27 02 00 07 00 20", 31),
        row("2b 02 00 00 01", 3),
    ]
}

/// Content that ends too early or too late behind the number of a family that is there.
fn contents() -> Vec<Recorded> {
    let row = |name, call: &str, number, place| {
        Recorded::check(name, behind(idle(257), call), number, place)
    };
    let leftover = format!("27 0c 00 00 01 {WIRE} 00");
    let twice = format!("27 14 00 00 01 {WIRE} {WIRE}");
    vec![
        row("nothing before the number", "27 00 00", 4, BEHIND),
        row("an end inside the number", "27 01 00 00", 4, BEHIND),
        row("no operand", "27 02 00 00 01", 4, BEHIND),
        row("a byte left over", &leftover, 4, BEHIND),
        row("an operand left over", &twice, 4, BEHIND),
        row("half a header", "27 03 00 00 01 31", 2, BEHIND + 5),
        row(
            "an index for an operand",
            "27 05 00 00 01 40 00 00",
            3,
            2_066,
        ),
        row("no such operand", "27 06 00 00 01 30 01 00 01", 8, 2_066),
        row(
            "a register for a wire",
            "27 06 00 00 01 30 01 00 00",
            9,
            2_066,
        ),
    ]
}

/// Calls at the deepest level and past it.
fn levels() -> Vec<Recorded> {
    let row = |name, levels, inner: &str, number, place| {
        let program = nested(0x25, levels, &[], &bytes(inner));
        Recorded::check(name, program, number, place)
    };
    let call = bytes(&format!("27 0b 00 00 01 {WIRE}"));
    let deep = |levels| {
        let nested = nested(0x25, levels, &[], &call);
        joined(&[&idle(257), &bytes(QUBIT), &nested])
    };
    let typed = "01 05 00 00 01 27 00 00";
    vec![
        row("39 at level 16", 15, "27 00 00", 4, 45),
        row("39 at level 17", 16, "27 00 00", 5, 48),
        row(
            "39 with a low number at level 17",
            16,
            "27 02 00 00 00",
            5,
            48,
        ),
        row("43 at level 16", 15, "2b 00 00", 3, 45),
        row("43 at level 17", 16, "2b 00 00", 3, 48),
        row("39 for a type", 0, typed, 3, 5),
        row("39 for an operand", 0, "20 03 00 27 00 00", 3, 3),
        row("39 for an index", 0, "26 03 00 27 00 00", 3, 3),
        Recorded::check("a call at level 16", deep(15), 0, 0),
        Recorded::run("a call at level 16, run", deep(15), [0, 0, 0, 16], ""),
        Recorded::check("a call at level 17", deep(16), 5, BEHIND + 48),
    ]
}

/// Families about number 256 that call themselves, later ones and earlier ones.
fn itself() -> Vec<Recorded> {
    let wide = |number: &str| format!("01 0e 00 00 01 10 00 00 27 06 00 {number} 30 01 00 00");
    let short = |number: &str| format!("01 0d 00 00 01 10 00 00 24 05 00 {number} 30 01 00 00");
    let row = |name, before, last: String, number, place| {
        let program = joined(&[&idle(before), &bytes(&last)]);
        Recorded::check(name, program, number, place)
    };
    vec![
        row("255 calls itself", 255, short("ff"), 8, 2_048),
        row("256 calls 255", 256, short("ff"), 0, 0),
        row("256 calls 255 by two bytes", 256, wide("ff 00"), 31, 2_056),
        row("256 calls 0 by two bytes", 256, wide("00 00"), 31, 2_056),
        row("256 calls itself", 256, wide("00 01"), 8, 2_056),
        row("256 calls 257", 256, wide("01 01"), 8, 2_056),
        row("257 calls 256", 257, wide("00 01"), 0, 0),
        row("257 calls itself", 257, wide("01 01"), 8, 2_064),
        row("4,095 calls 4,094", 4_095, wide("fe 0f"), 0, 0),
        row("4,095 calls itself", 4_095, wide("ff 0f"), 8, 32_768),
        row("4,095 calls 4,096", 4_095, wide("00 10"), 8, 32_768),
    ]
}

/// Calls that enter the family that they name, and no other.
fn entered() -> Vec<Recorded> {
    let [zero, one, last] = ["00", "01", "ff"].map(|number| format!("24 0a 00 {number} {WIRE}"));
    let wide = |number: &str| format!("27 0b 00 {number} {WIRE}");
    let calls = [
        wide("00 01"),
        wide("01 01"),
        zero,
        one,
        last,
        wide("02 01"),
        wide("01 02"),
    ];
    let program = behind(gated(514), &calls.join(" "));
    let records = [T, TDG, H[0], H[0], H[0], T, TDG].join(" ");
    let text = "OPENQASM 2.0;\ninclude \"qelib1.inc\";\nqreg q[1];\n\
        t q[0];\ntdg q[0];\nh q[0];\nh q[0];\nh q[0];\nt q[0];\ntdg q[0];\n";
    let row = |name| Recorded::run(name, program.clone(), [0, 0, 7, 14], &records);
    vec![
        row("256, 257, 0, 1, 255, 258, 513"),
        row("256, 257, 0, 1, 255, 258, 513, printed").printed(text),
    ]
}

/// Calls of 256 and 257 in a reversal, a loop and a condition.
fn around() -> Vec<Recorded> {
    let [even, odd] = ["00 01", "01 01"].map(|number| format!("27 0b 00 {number} {WIRE}"));
    let reversed = format!("25 1c 00 {even} {odd}");
    let looped = format!("26 18 00 40 02 00 01 00 40 02 00 03 00 {odd}");
    let tested = format!("03 02 00 01 00 06 18 00 01 31 06 00 01 40 02 00 00 00 {even}");
    let row = |name, statement: &str, counts: [u32; 2], records: &[&str]| {
        let program = behind(gated(258), statement);
        let expected = [0, 0, counts[0], counts[1]];
        Recorded::run(name, program, expected, &records.join(" "))
    };
    vec![
        row("256 and 257 reversed", &reversed, [2, 5], &[T, TDG]),
        row("257 in a loop", &looped, [3, 10], &[TDG; 3]),
        row(
            "256 under a condition",
            &tested,
            [1, 3],
            &["02 02 00 00 00 00 00 00 00 00 00 00"],
        ),
    ]
}

/// Runs that end at a call of 256, or at the gate in it.
fn ends() -> Vec<Recorded> {
    let program = behind(gated(257), &format!("27 0b 00 00 01 {WIRE}"));
    let row = |name, expected, records| Recorded::run(name, program.clone(), expected, records);
    // The call stands behind 257 families of 15 bytes and the qubit; the gate 8 bytes
    // into the last of them.
    vec![
        row("no step for the call", [26, 3_860, 0, 0], "").limit(0),
        row("no step for its gate", [26, 3_848, 0, 1], "").limit(1),
        row("no room for its gate", [27, 3_848, 0, 2], "").into_bytes(11),
        row("steps and room for both", [0, 0, 1, 2], T)
            .limit(2)
            .into_bytes(12),
    ]
}

/// Family 256 over a size: x:Qbit[n], for i=1..n h(x[i-1]).
fn sized() -> Vec<Recorded> {
    let program = |size: &str| {
        let call = format!("02 02 00 03 00 27 0b 00 00 01 40 02 00 {size} 00 30 01 00 00");
        joined(&[&idle(256), &bytes(L), &bytes(&call)])
    };
    let wrong = |index: &str, length: &str| {
        let families = joined(&[&idle(256), &bytes(SIZED)]);
        behind(families, &format!("27 {length} 00 00 01 {index} {WIRE}"))
    };
    let below = "43 0a 00 40 02 00 00 00 40 02 00 01 00";
    vec![
        Recorded::run("256 at 3", program("03"), [0, 0, 3, 8], &H.join(" ")),
        Recorded::run("256 at 0", program("00"), [0, 0, 0, 2], ""),
        Recorded::check("256 at 4 on 3 qubits", program("04"), 12, 2_106),
        Recorded::check(
            "an index behind the number",
            wrong("40 02 00 05 00", "10"),
            0,
            0,
        ),
        Recorded::check("no index behind the number", wrong("", "0b"), 3, 2_066),
        Recorded::check("an index below 0", wrong(below, "18"), 12, 2_066),
    ]
}

/// Family 257 calls 256 at 50000n, whose value may leave the range.
fn values() -> Vec<Recorded> {
    let calling = "01 1a 00 01 01 10 00 00 27 12 00 00 01 \
        44 09 00 40 02 00 50 c3 41 01 00 00 30 01 00 00";
    let program = joined(&[&idle(256), &bytes(SIZED), &bytes(calling)]);
    let row =
        |name, size, expected| Recorded::instance(name, program.clone(), (257, size), expected, "");
    vec![
        row("256 called at 2,000,000,000", "40 9c 00 00", [0, 0, 0, 1]),
        row(
            "256 called at 2,000,050,000",
            "41 9c 00 00",
            [24, 2_064, 0, 1],
        ),
        row("no sizes for 257", "", [21, 0, 0, 0]),
    ]
}

/// Instances in a library of 4,096 families.
fn instances() -> Vec<Recorded> {
    let program = gated(4_096);
    let row = |name, family, records| {
        let expected = [0, 0, 1, 1];
        Recorded::instance(name, program.clone(), (family, ""), expected, records)
    };
    let past = |name, family| {
        let expected = [20, 0, 0, 0];
        Recorded::instance(name, program.clone(), (family, ""), expected, "")
    };
    let few = |name, count, family, number| {
        let expected = [number, 0, 0, 0];
        Recorded::instance(name, idle(count), (family, ""), expected, "")
    };
    vec![
        row("instance of 0", 0, H[0]),
        row("instance of 255", 255, H[0]),
        row("instance of 256", 256, T),
        row("instance of 511", 511, TDG),
        row("instance of 4,095", 4_095, TDG),
        past("instance of 4,096", 4_096),
        past("instance of 4,351", 4_351),
        past("instance of 65,536", 65_536),
        past("instance of 65,792", 65_792),
        few("instance of 255 of 255", 255, 255, 20),
        few("instance of 255 of 256", 256, 255, 0),
        few("instance of 256 of 256", 256, 256, 20),
        few("instance of 256 of 257", 257, 256, 0),
        few("instance of 4,095 of 4,095", 4_095, 4_095, 20),
    ]
}

/// The last of 4,096 families, called, and the one past it.
fn last() -> Vec<Recorded> {
    let program = |number: &str| behind(gated(4_096), &format!("27 0b 00 {number} {WIRE}"));
    let run =
        |name, number, expected, records| Recorded::run(name, program(number), expected, records);
    vec![
        run("run of 4,095", "ff 0f", [0, 0, 1, 2], TDG),
        run("run of 4,094", "fe 0f", [0, 0, 1, 2], T),
        run("run of 4,096", "00 10", [8, 61_445, 0, 0], ""),
        run("run of 255 by two bytes", "ff 00", [31, 61_445, 0, 0], ""),
        run("run of 256 of 4,096", "00 01", [0, 0, 1, 2], T),
    ]
}

/// Programs refused with 31 by every call, whatever else is asked.
fn refused() -> Vec<Recorded> {
    let program = field(0x27, &[7, 0]);
    let later = joined(&[&bytes("25 00 00"), &program]);
    let expected = [31, 0, 0, 0];
    vec![
        Recorded::run("31, run", program.clone(), expected, ""),
        Recorded::instance("31, instance", program, (9, "ff"), expected, ""),
        Recorded::run("31 behind a statement", later.clone(), [31, 3, 0, 0], "").limit(0),
        Recorded::instance("31 before 20", later, (0, ""), [31, 3, 0, 0], ""),
    ]
}
