//! Lists printed as OpenQASM 2.0 text, and calls that print nothing.

use super::examples::{BELL, BELL_RECORDS, FIRST_OF_N, H, L, ONE_IN_A_ROUND, ONE_WIRE};
use super::examples::{REVERSED, REVERSED_RECORDS};
use super::states::{BEHIND, COMMANDS, COMMANDS_RECORDS, FAR, TWO, WIDE};
use super::{bytes, nested, Recorded};

/// The text of an empty list over nothing.
const EMPTY_TEXT: &str = "OPENQASM 2.0;\ninclude \"qelib1.inc\";\n";

/// The text of BELL, 69 bytes.
const BELL_TEXT: &str = "OPENQASM 2.0;\n\
    include \"qelib1.inc\";\n\
    qreg q[2];\n\
    h q[0];\n\
    cx q[0],q[1];\n";

/// The text of L at 3, 71 bytes.
const L_TEXT: &str = "OPENQASM 2.0;\n\
    include \"qelib1.inc\";\n\
    qreg q[3];\n\
    h q[0];\n\
    h q[1];\n\
    h q[2];\n";

/// Three qubits and two bits: cx, h, two measurements, an if on each bit and a reset.
const TELEPORT: &str = "02 02 00 03 00 03 02 00 02 00 \
    23 12 00 31 06 00 00 40 02 00 00 00 31 06 00 00 40 02 00 01 00 \
    20 09 00 31 06 00 00 40 02 00 00 00 \
    04 12 00 31 06 00 00 40 02 00 00 00 31 06 00 01 40 02 00 01 00 \
    04 12 00 31 06 00 00 40 02 00 02 00 31 06 00 01 40 02 00 00 00 \
    06 2b 00 01 31 06 00 01 40 02 00 01 00 20 09 00 31 06 00 00 40 02 00 02 00 \
    23 12 00 31 06 00 00 40 02 00 01 00 31 06 00 00 40 02 00 02 00 \
    06 16 00 00 31 06 00 01 40 02 00 00 00 22 09 00 31 06 00 00 40 02 00 02 00 \
    05 09 00 31 06 00 00 40 02 00 00 00";

/// The records of TELEPORT.
const TELEPORT_RECORDS: &str = "04 00 00 00 01 00 00 00 00 00 00 00 \
    01 00 00 00 00 00 00 00 00 00 00 00 \
    05 00 00 00 01 00 00 00 00 00 00 00 \
    05 00 02 00 00 00 00 00 00 00 00 00 \
    01 02 02 00 00 00 01 00 00 00 00 00 \
    04 02 01 00 02 00 01 00 00 00 00 00 \
    03 01 02 00 00 00 00 00 00 00 00 00 \
    06 00 00 00 00 00 00 00 00 00 00 00";

/// The text of TELEPORT.
const TELEPORT_TEXT: &str = "OPENQASM 2.0;\n\
    include \"qelib1.inc\";\n\
    qreg q[3];\n\
    creg c0[1];\n\
    creg c1[1];\n\
    cx q[0],q[1];\n\
    h q[0];\n\
    measure q[0] -> c1[0];\n\
    measure q[2] -> c0[0];\n\
    if(c1==1) h q[2];\n\
    if(c1==1) cx q[1],q[2];\n\
    if(c0==0) tdg q[2];\n\
    reset q[0];\n";

/// All rows.
pub fn rows() -> Vec<Recorded> {
    let mut rows = runs();
    rows.extend(instances());
    rows.extend(bare_instances());
    rows.extend(registers());
    rows.extend([far_wires(), far_bits()]);
    rows.extend(rooms());
    rows.extend(refused());
    rows.extend(ended());
    rows
}

/// Whole runs.
fn runs() -> Vec<Recorded> {
    let row = |name, program, counts: [u32; 2], records, text| {
        let expected = [0, 0, counts[0], counts[1]];
        Recorded::run(name, bytes(program), expected, records).printed(text)
    };
    vec![
        row("empty, printed", "", [0, 0], "", EMPTY_TEXT),
        row("Bell, printed", BELL, [2, 2], BELL_RECORDS, BELL_TEXT),
        row(
            "teleport, printed",
            TELEPORT,
            [8, 10],
            TELEPORT_RECORDS,
            TELEPORT_TEXT,
        ),
        row(
            "commands, printed",
            COMMANDS,
            [6, 9],
            COMMANDS_RECORDS,
            "OPENQASM 2.0;\ninclude \"qelib1.inc\";\nqreg q[5];\n\
             creg c0[1];\ncreg c1[1];\ncreg c2[1];\n\
             measure q[2] -> c2[0];\nreset q[4];\nif(c1==1) h q[1];\nt q[3];\n\
             if(c0==0) t q[1];\nif(c0==0) tdg q[0];\n",
        ),
        row(
            "reverse{h; t; cx}, printed",
            REVERSED,
            [3, 4],
            REVERSED_RECORDS,
            "OPENQASM 2.0;\ninclude \"qelib1.inc\";\nqreg q[2];\n\
             cx q[0],q[1];\ntdg q[0];\nh q[0];\n",
        ),
    ]
}

/// Instances, which have no bits, whatever registers the program declares.
fn instances() -> Vec<Recorded> {
    let three = (0, "03 00 00 00");
    let row = |name, program: &str| {
        let records = H.join(" ");
        Recorded::instance(name, bytes(program), three, [0, 0, 3, 7], &records).printed(L_TEXT)
    };
    vec![
        row("L at 3, printed", L),
        row(
            "L beside registers",
            &format!("{L} 02 02 00 07 00 03 02 00 02 00"),
        ),
        Recorded::instance(
            "a wire behind a register, printed",
            bytes(BEHIND),
            (0, "02 00 00 00"),
            [0, 0, 1, 1],
            "01 00 03 00 00 00 00 00 00 00 00 00",
        )
        .printed("OPENQASM 2.0;\ninclude \"qelib1.inc\";\nqreg q[4];\nh q[3];\n"),
    ]
}

/// Instances without records, over no wires and over many.
fn bare_instances() -> Vec<Recorded> {
    let row = |name, program, sizes, steps, text| {
        Recorded::instance(name, bytes(program), (0, sizes), [0, 0, 0, steps], "").printed(text)
    };
    let wide = "OPENQASM 2.0;\ninclude \"qelib1.inc\";\nqreg q[60000];\n";
    let widest = "OPENQASM 2.0;\ninclude \"qelib1.inc\";\nqreg q[65535];\n";
    vec![
        row("L at 0, printed", L, "00 00 00 00", 1, EMPTY_TEXT),
        row("no wires, printed", WIDE, "00 00 00 00", 0, EMPTY_TEXT),
        row("60,000 wires, printed", WIDE, "01 00 00 00", 0, wide),
        row("65,535 wires, printed", TWO, "fe ff 00 00", 0, widest),
    ]
}

/// Registers without gates, without the others, and declared late.
fn registers() -> Vec<Recorded> {
    let row =
        |name, program, text| Recorded::run(name, bytes(program), [0, 0, 0, 0], "").printed(text);
    let late = "02 02 00 01 00 20 09 00 31 06 00 00 40 02 00 00 00 \
        03 02 00 01 00 02 02 00 05 00 03 02 00 01 00";
    vec![
        row(
            "qubits without bits",
            "02 02 00 0c 00",
            "OPENQASM 2.0;\ninclude \"qelib1.inc\";\nqreg q[12];\n",
        ),
        row(
            "bits without qubits",
            "03 02 00 03 00",
            "OPENQASM 2.0;\ninclude \"qelib1.inc\";\ncreg c0[1];\ncreg c1[1];\ncreg c2[1];\n",
        ),
        row(
            "registers of size 0",
            "02 02 00 00 00 03 02 00 00 00",
            EMPTY_TEXT,
        ),
        Recorded::run(
            "registers declared late",
            bytes(late),
            [0, 0, 1, 1],
            "01 00 00 00 00 00 00 00 00 00 00 00",
        )
        .printed(
            "OPENQASM 2.0;\ninclude \"qelib1.inc\";\nqreg q[6];\ncreg c0[1];\ncreg c1[1];\n\
             h q[0];\n",
        ),
    ]
}

/// Wires of one to five digits.
fn far_wires() -> Recorded {
    let h = |low_high: &str| format!("20 09 00 31 06 00 00 40 02 00 {low_high}");
    let record = |low_high: &str| format!("01 00 {low_high} 00 00 00 00 00 00 00 00");
    let places = [
        "00 00", "09 00", "0a 00", "63 00", "64 00", "e7 03", "e8 03", "0f 27", "10 27", "fe ff",
    ];
    let program = format!("02 02 00 ff ff {}", places.map(h).join(" "));
    let records = places.map(record).join(" ");
    Recorded::run(
        "wires of all lengths",
        bytes(&program),
        [0, 0, 10, 10],
        &records,
    )
    .printed(
        "OPENQASM 2.0;\ninclude \"qelib1.inc\";\nqreg q[65535];\n\
         h q[0];\nh q[9];\nh q[10];\nh q[99];\nh q[100];\nh q[999];\nh q[1000];\n\
         h q[9999];\nh q[10000];\nh q[65534];\n",
    )
}

/// 10,001 bits: measure q[0] into the last one, h q[0] if the one before is 1.
fn far_bits() -> Recorded {
    let program = "02 02 00 01 00 03 02 00 11 27 \
        04 12 00 31 06 00 00 40 02 00 00 00 31 06 00 01 40 02 00 10 27 \
        06 16 00 01 31 06 00 01 40 02 00 0f 27 20 09 00 31 06 00 00 40 02 00 00 00";
    let records = "05 00 00 00 10 27 00 00 00 00 00 00 01 02 00 00 00 00 0f 27 00 00 00 00";
    let mut text = String::from("OPENQASM 2.0;\ninclude \"qelib1.inc\";\nqreg q[1];\n");
    for bit in 0..10_001 {
        text += &format!("creg c{bit}[1];\n");
    }
    text += "measure q[0] -> c10000[0];\nif(c9999==1) h q[0];\n";
    Recorded::run("bits of all lengths", bytes(program), [0, 0, 2, 3], records)
        .printed(&text)
        .text_bytes(200_000)
}

/// Text buffers of just enough bytes and of fewer.
fn rooms() -> Vec<Recorded> {
    let bell = |name, number, text, room| {
        Recorded::run(name, bytes(BELL), [number, 0, 2, 2], BELL_RECORDS)
            .printed(text)
            .text_bytes(room)
    };
    let empty = |name, number, text, room| {
        Recorded::run(name, vec![], [number, 0, 0, 0], "")
            .printed(text)
            .text_bytes(room)
    };
    let l = |name, number, text, room| {
        let three = (0, "03 00 00 00");
        Recorded::instance(name, bytes(L), three, [number, 0, 3, 7], &H.join(" "))
            .printed(text)
            .text_bytes(room)
    };
    vec![
        bell("Bell into 69 bytes", 0, BELL_TEXT, 69),
        bell("Bell into 70 bytes", 0, BELL_TEXT, 70),
        bell("Bell into 68 bytes", 30, "", 68),
        bell("Bell into 55 bytes", 30, "", 55),
        bell("Bell into 1 byte", 30, "", 1),
        bell("Bell into no bytes", 30, "", 0),
        empty("empty into 36 bytes", 0, EMPTY_TEXT, 36),
        empty("empty into 35 bytes", 30, "", 35),
        empty("empty into no bytes", 30, "", 0),
        l("L at 3 into 71 bytes of text", 0, L_TEXT, 71),
        l("L at 3 into 70 bytes of text", 30, "", 70),
        l("L at 3 into no bytes of text", 30, "", 0),
    ]
}

/// Refused programs, where no text would fit.
fn refused() -> Vec<Recorded> {
    let table = [
        (vec![0; 65_536], 1, 0),
        (bytes("20"), 2, 0),
        (bytes("00 00 00"), 3, 0),
        (bytes("20 00 00"), 4, 0),
        (nested(0x25, 17, &[], &[]), 5, 48),
        (bytes("01 01 00 05"), 6, 0),
        (bytes("02 02 00 ff ff 02 02 00 01 00"), 7, 5),
        (bytes("24 01 00 00"), 8, 0),
        (bytes("02 02 00 01 00 20 04 00 30 01 00 00"), 9, 8),
        (
            bytes("01 10 00 01 01 11 0b 00 44 08 00 41 01 00 00 41 01 00 00"),
            10,
            8,
        ),
        (
            bytes("26 0d 00 44 0a 00 40 02 00 ff ff 40 02 00 ff ff"),
            11,
            3,
        ),
        (bytes(FIRST_OF_N), 12, 15),
        (bytes("06 01 00 02"), 13, 0),
        (bytes("27 02 00 00 00"), 31, 0),
        (bytes(ONE_WIRE), 35, 5),
    ];
    let rows = table.into_iter().flat_map(|(program, number, place)| {
        let name = format!("refused with {number}, no room for text");
        let expected = [number, place, 0, 0];
        let run = Recorded::run(&name, program.clone(), expected, "");
        let instance = Recorded::instance(&name, program, (9, "ff"), expected, "");
        [run, instance]
    });
    rows.map(|row| row.printed("").text_bytes(0)).collect()
}

/// Runs that are not begun or end early, where no text would fit.
fn ended() -> Vec<Recorded> {
    let row = |name, program, sizes, expected, records: &str| {
        Recorded::instance(name, bytes(program), sizes, expected, records)
    };
    let three = (0, "03 00 00 00");
    let far = (0, "40 9c 00 00");
    let most = (0, "ff ff 00 00");
    let t = "02 00 00 00 00 00 00 00 00 00 00 00";
    let two = H[..2].join(" ");
    let reset = "02 02 00 01 00 05 09 00 31 06 00 00 40 02 00 00 00";
    let run = |name, program, expected| Recorded::run(name, bytes(program), expected, "");
    let rows = vec![
        row("20, no room for text", L, (1, ""), [20, 0, 0, 0], ""),
        row("21, no room for text", L, (0, ""), [21, 0, 0, 0], ""),
        row(
            "22, no room for text",
            L,
            (0, "00 00 01 00"),
            [22, 0, 0, 0],
            "",
        ),
        row("23, no room for text", TWO, most, [23, 12, 0, 0], ""),
        row("24, no room for text", FAR, far, [24, 15, 1, 2], t),
        run("25, no room for text", ONE_IN_A_ROUND, [25, 18, 0, 3]),
        row("26, no room for text", L, three, [26, 24, 2, 6], &two).limit(6),
        row("27, no room for text", L, three, [27, 24, 2, 7], &two).into_bytes(35),
        run("26 of a run, no room for text", reset, [26, 5, 0, 0]).limit(0),
        run("27 of a run, no room for text", reset, [27, 5, 0, 1]).into_bytes(11),
    ];
    rows.into_iter()
        .map(|row| row.printed("").text_bytes(0))
        .collect()
}
