//! What runs of phases write, and the texts of their lists.

use super::{in_a_loop, made, on_qubits, turns};
use super::{BELOW, CPHASE, K3, K63, K64, PHASE, QUBITS, W0, W1, WHOLE};
use crate::recorded::{bytes, field, joined, nested, Recorded};

/// All rows.
pub fn rows() -> Vec<Recorded> {
    let mut rows = small_ks();
    rows.extend(lists());
    rows.extend(backward_calls());
    rows.extend(every_k());
    rows.extend(texts());
    rows
}

/// The smallest and the largest k that a run takes.
fn small_ks() -> Vec<Recorded> {
    let row = |name, tag, parts: &[&str], record| {
        Recorded::run(name, on_qubits(tag, parts), [0, 0, 1, 1], record)
    };
    let k0 = "40 02 00 00 00";
    let sum = "42 0a 00 40 02 00 1f 00 40 02 00 20 00";
    let last = turns(&["3f"]);
    vec![
        row("phase by 0", PHASE, &[k0, W0], &turns(&["00"])),
        row("phase by 63", PHASE, &[K63, W0], &last),
        row("phase by 31 + 32", PHASE, &[sum, W0], &last),
        row(
            "phase of another wire",
            PHASE,
            &[K63, W1],
            "07 00 01 00 00 00 00 00 3f 00 00 00",
        ),
        row(
            "cphase by 0",
            CPHASE,
            &[k0, W0, W1],
            "09 00 00 00 01 00 00 00 00 00 00 00",
        ),
        row(
            "cphase by 63",
            CPHASE,
            &[K63, W1, W0],
            "09 00 01 00 00 00 00 00 3f 00 00 00",
        ),
    ]
}

/// Two qubits and two bits: phases as they are, reversed, under conditions, and
/// reversed twice.
fn every_op() -> Vec<u8> {
    let cphase = |first, second| made(CPHASE, &["40 02 00 02 00", first, second]);
    let phase = made(PHASE, &[K3, W1]);
    let reversed = field(0x25, &joined(&[&phase, &cphase(W0, W1)]));
    let last = field(0x25, &made(CPHASE, &[K63, W1, W0]));
    let start = bytes("01 31 06 00 01 40 02 00 01 00");
    let when_1 = joined(&[&start, &made(PHASE, &["40 02 00 01 00", W0]), &last]);
    let start = bytes("00 31 06 00 01 40 02 00 00 00");
    let when_0 = joined(&[&start, &cphase(W1, W0), &field(0x25, &phase)]);
    joined(&[
        &bytes(QUBITS),
        &bytes("03 02 00 02 00"),
        &phase,
        &cphase(W1, W0),
        &reversed,
        &field(6, &when_1),
        &field(6, &when_0),
        &nested(0x25, 2, &[], &made(PHASE, &["40 02 00 05 00", W0])),
    ])
}

/// The records of that program.
const EVERY_OP: &str = "07 00 01 00 00 00 00 00 03 00 00 00 \
    09 00 01 00 00 00 00 00 02 00 00 00 \
    0a 00 00 00 01 00 00 00 02 00 00 00 \
    08 00 01 00 00 00 00 00 03 00 00 00 \
    07 02 00 00 00 00 01 00 01 00 00 00 \
    0a 02 01 00 00 00 01 00 3f 00 00 00 \
    09 01 01 00 00 00 00 00 02 00 00 00 \
    08 01 01 00 00 00 00 00 03 00 00 00 \
    07 00 00 00 00 00 00 00 05 00 00 00";

/// Its text.
const EVERY_OP_TEXT: &str = "OPENQASM 2.0;\n\
    include \"qelib1.inc\";\n\
    qreg q[2];\n\
    creg c0[1];\n\
    creg c1[1];\n\
    u1(2*pi/8) q[1];\n\
    cu1(2*pi/4) q[1],q[0];\n\
    cu1(-2*pi/4) q[0],q[1];\n\
    u1(-2*pi/8) q[1];\n\
    if(c1==1) u1(2*pi/2) q[0];\n\
    if(c1==1) cu1(-2*pi/9223372036854775808) q[1],q[0];\n\
    if(c0==0) cu1(2*pi/4) q[1],q[0];\n\
    if(c0==0) u1(-2*pi/8) q[1];\n\
    u1(2*pi/32) q[0];\n";

/// All ops in both directions and under conditions, listed and printed.
fn lists() -> Vec<Recorded> {
    let row = |name| Recorded::run(name, every_op(), [0, 0, 9, 16], EVERY_OP);
    vec![
        row("every op of a phase"),
        row("every op of a phase, just enough")
            .limit(16)
            .into_bytes(108),
        row("every op of a phase, printed").printed(EVERY_OP_TEXT),
    ]
}

/// f(a, b) { phase by 2 of a; cphase by 3 of a and b }, called forward and backward.
fn backward_calls() -> Vec<Recorded> {
    let phase = made(PHASE, &["40 02 00 02 00", WHOLE]);
    let cphase = made(CPHASE, &[K3, WHOLE, "30 01 00 01"]);
    let start = bytes("00 02 10 00 00 10 00 00");
    let family = field(1, &joined(&[&start, &phase, &cphase]));
    let call = made(0x24, &["00", W1, W0]);
    let program = |call: &[u8]| joined(&[&family, &bytes(QUBITS), call]);
    let forward = "07 00 01 00 00 00 00 00 02 00 00 00 09 00 01 00 00 00 00 00 03 00 00 00";
    let backward = "0a 00 01 00 00 00 00 00 03 00 00 00 08 00 01 00 00 00 00 00 02 00 00 00";
    let instance = "07 00 00 00 00 00 00 00 02 00 00 00 09 00 00 00 01 00 00 00 03 00 00 00";
    let reversed = program(&field(0x25, &call));
    vec![
        Recorded::run("phases called", program(&call), [0, 0, 2, 3], forward),
        Recorded::run("phases called backward", reversed, [0, 0, 2, 4], backward),
        Recorded::instance(
            "phases unrolled",
            family.clone(),
            (0, ""),
            [0, 0, 2, 2],
            instance,
        ),
    ]
}

/// Two to the k, by k.
const POWERS: &str =
    "1 2 4 8 16 32 64 128 256 512 1024 2048 4096 8192 16384 32768 65536 131072 262144 \
    524288 1048576 2097152 4194304 8388608 16777216 33554432 67108864 134217728 268435456 \
    536870912 1073741824 2147483648 4294967296 8589934592 17179869184 34359738368 \
    68719476736 137438953472 274877906944 549755813888 1099511627776 2199023255552 \
    4398046511104 8796093022208 17592186044416 35184372088832 70368744177664 \
    140737488355328 281474976710656 562949953421312 1125899906842624 2251799813685248 \
    4503599627370496 9007199254740992 18014398509481984 36028797018963968 \
    72057594037927936 144115188075855872 288230376151711744 576460752303423488 \
    1152921504606846976 2305843009213693952 4611686018427387904 9223372036854775808";

/// A loop over every k that a run takes, and one more.
fn every_k() -> Vec<Recorded> {
    let program = |high| in_a_loop("00 00", high, "41 01 00 00");
    let numbers: Vec<String> = (0..64).map(|k| format!("{k:02x}")).collect();
    let ks: Vec<&str> = numbers.iter().map(String::as_str).collect();
    let records = turns(&ks);
    let mut text = String::from("OPENQASM 2.0;\ninclude \"qelib1.inc\";\nqreg q[1];\n");
    for power in POWERS.split(' ') {
        text += &format!("u1(2*pi/{power}) q[0];\n");
    }
    let whole = |name| Recorded::run(name, program("3f 00"), [0, 0, 64, 129], &records);
    vec![
        whole("every k"),
        whole("every k, printed").printed(&text),
        Recorded::run(
            "k from 0 to 64",
            program("40 00"),
            [32, 18, 64, 131],
            &records,
        ),
    ]
}

/// Texts that just fit or do not, and runs that print none.
fn texts() -> Vec<Recorded> {
    let program = joined(&[
        &bytes("02 02 00 01 00"),
        &made(PHASE, &["40 02 00 01 00", W0]),
    ]);
    let line = "OPENQASM 2.0;\ninclude \"qelib1.inc\";\nqreg q[1];\nu1(2*pi/2) q[0];\n";
    let record = turns(&["01"]);
    let row = |name, number, text, room| {
        Recorded::run(name, program.clone(), [number, 0, 1, 1], &record)
            .printed(text)
            .text_bytes(room)
    };
    let ended = on_qubits(PHASE, &[K64, W0]);
    let refused = on_qubits(PHASE, &[BELOW, W0]);
    vec![
        row("a phase into 64 bytes of text", 0, line, 64),
        row("a phase into 63 bytes of text", 30, "", 63),
        Recorded::run("32, room for text", ended.clone(), [32, 5, 0, 1], "").printed(""),
        Recorded::run("32, no room for text", ended, [32, 5, 0, 1], "")
            .printed("")
            .text_bytes(0),
        Recorded::run("12 in k, room for text", refused, [12, 8, 0, 0], "").printed(""),
    ]
}
