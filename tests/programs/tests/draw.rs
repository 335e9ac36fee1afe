//! Drawings of lists: the examples', what shares a column, blocks and bounds.

mod common;

use common::{examples, gives, said, tool, wrote};
use std::fs;

/// Draws a text of a program.
fn drawn(text: &str, words: &[&str]) -> String {
    let found = tool(&[&["draw", "-"], words].concat(), text.as_bytes());
    assert_eq!(said(&found), "", "{text}");
    wrote(&found)
}

#[test]
fn the_examples_drawings() {
    let mut count = 0;
    for entry in fs::read_dir(examples()).unwrap() {
        let path = entry.unwrap().path();
        if path.extension().is_none_or(|ending| ending != "draw") {
            continue;
        }
        let text = fs::read_to_string(&path).unwrap();
        let (first, drawing) = text.split_once('\n').unwrap();
        let words = first.strip_prefix("// mqasm ").expect("the command");
        let words: Vec<&str> = words.split_whitespace().collect();
        let found = tool(&words, b"");
        let complete = drawing.lines().any(|line| line.starts_with("end 0 "));
        assert_eq!(wrote(&found), drawing, "{first}");
        assert_eq!(said(&found).is_empty(), complete, "{first}");
        assert_eq!(found.status.success(), complete, "{first}");
        count += 1;
    }
    assert!(count >= 11);
}

#[test]
fn every_operation_is_drawn() {
    let text = "qreg q[2]; creg c[1]; h q[0]; t q[0]; tdg q[0]; cx q[1], q[0]; reset q[0]; \
                measure q[1] -> c[0]; if (c[0] == 0) { h q[1]; } if (c[0] == 1) { cx q[0], q[1]; }";
    let drawing = "\
q[0] ─H──T──T†──⊕──|0⟩─────●─
                │          │
q[1] ───────────●──M────H──⊕─
                   ║    ║  ║
c[0] ══════════════╩════○══●═
end 0 0 8 10
";
    assert_eq!(drawn(text, &[]), drawing);
}

#[test]
fn phases_are_drawn_with_their_k() {
    let text = "qreg q[3]; creg c[1]; phase(3) q[0]; reverse { phase(63) q[0]; } \
                cphase(2) q[0], q[2]; reverse { cphase(10) q[2], q[1]; } h q[0]; \
                if (c[0] == 1) { cphase(0) q[1], q[2]; }";
    let drawing = "\
q[0] ─P(3)──P†(63)──●─────H────────────
                    │
q[1] ───────────────┼─────P†(10)──●────
                    │     │       │
q[2] ───────────────P(2)──●───────P(0)─
                                  ║
c[0] ═════════════════════════════●════
end 0 0 6 9
";
    assert_eq!(drawn(text, &[]), drawing);
}

#[test]
fn gates_on_other_rows_share_a_column() {
    let text = "qreg q[4]; cx q[0], q[1]; cx q[3], q[2]; h q[1]; h q[3];";
    let drawing = "\
q[0] ─●────
      │
q[1] ─⊕──H─
q[2] ─⊕────
      │
q[3] ─●──H─
end 0 0 4 4
";
    assert_eq!(drawn(text, &[]), drawing);
}

#[test]
fn a_gate_keeps_the_rows_it_crosses() {
    let text = "qreg q[3]; cx q[0], q[2]; h q[1]; t q[0];";
    let drawing = "\
q[0] ─●──T─
      │
q[1] ─┼──H─
      │
q[2] ─⊕────
end 0 0 3 3
";
    assert_eq!(drawn(text, &[]), drawing);
}

#[test]
fn bits_are_joined_by_double_lines() {
    let text = "qreg q[2]; creg c[2]; measure q[0] -> c[1]; if (c[1] == 0) { cx q[1], q[0]; }";
    let drawing = "\
q[0] ─M──⊕─
      ║  │
q[1] ─╫──●─
      ║  ║
c[0] ═╬══╬═
      ║  ║
c[1] ═╩══○═
end 0 0 2 3
";
    assert_eq!(drawn(text, &[]), drawing);
}

#[test]
fn rows_without_gates() {
    assert_eq!(drawn("", &[]), "end 0 0 0 0\n");
    assert_eq!(
        drawn("qreg q[1]; creg c[1];", &[]),
        "q[0] ───\nc[0] ═══\nend 0 0 0 0\n"
    );
}

#[test]
fn labels_by_name_or_number() {
    let text = "family(n) f(x: Qbit[n], a: Qbit, y: Qbit[2*n-n]) { h a; }";
    let by_name = "x[0] ───\nx[1] ───\na    ─H─\ny[0] ───\ny[1] ───\nend 0 0 1 1\n";
    assert_eq!(drawn(text, &["--family=f", "--sizes=n=2"]), by_name);
    let bytes = programs::assemble(text).unwrap().bytes;
    let words = ["draw", "--bytes", "-", "--family=0", "--sizes=1"];
    let by_number = "wire 0 ───\nwire 1 ─H─\nwire 2 ───\nend 0 0 1 1\n";
    assert_eq!(wrote(&tool(&words, &bytes)), by_number);
    let text = "qreg q[1]; creg c[1]; measure q[0] -> c[0];";
    let bytes = programs::assemble(text).unwrap().bytes;
    let by_register = "q0[0] ─M─\n       ║\nc1[0] ═╩═\nend 0 0 1 1\n";
    assert_eq!(wrote(&tool(&["draw", "--bytes", "-"], &bytes)), by_register);
    let list = "measure 0 0\nend 0 0 1 1\n";
    let by_number = "wire 0 ─M─\n        ║\nbit 0  ═╩═\n";
    gives(&["draw", "--listing", "-"], list, 0, by_number, "");
}

#[test]
fn wide_drawings_go_on_below() {
    let text = format!("qreg q[1]; {}", "h q[0];".repeat(14));
    let drawing = "\
columns 1 to 11 of 14
q[0] ─H──H──H──H──H──H──H──H──H──H──H─

columns 12 to 14 of 14
q[0] ─H──H──H─
end 0 0 14 14
";
    assert_eq!(drawn(&text, &["--width", "40"]), drawing);
    for width in [40, 64, 100, 101] {
        let width_word = format!("--width={width}");
        let words = ["draw", "adder.mq", &width_word];
        let drawing = wrote(&tool(&words, b""));
        assert!(drawing.lines().all(|line| line.chars().count() <= width));
        assert!(drawing.lines().all(|line| line == line.trim_end()));
    }
}

/// A record that begins with some bytes, and is 0 from there on.
fn record(start: &[u8]) -> Vec<u8> {
    let mut bytes = start.to_vec();
    bytes.resize(12, 0);
    bytes
}

#[test]
fn records_and_lists_are_drawn() {
    let drawing = "wire 0 ─H──●─\n           │\nwire 1 ────⊕─\n";
    let records = [record(&[1]), record(&[4, 0, 0, 0, 1])].concat();
    let words = ["draw", "--records", "-"];
    assert_eq!(wrote(&tool(&words, &records)), drawing);
    let list = "h 0\ncx 0 1\nend 0 0 2 2\n";
    gives(&["draw", "--listing", "-"], list, 0, drawing, "");
    let list = "h 0\ncx 0 1\nend 26 5 2 2\n";
    let message = "mqasm: standard input: the list ended with 26: \
                   a step is due and the step limit is used up\n";
    gives(&["draw", "--listing", "-"], list, 1, drawing, message);
}

#[test]
fn records_and_lists_of_phases_are_drawn() {
    let drawing = "wire 0 ─P(63)──●─────\n               │\nwire 1 ────────P†(0)─\n";
    let records = [
        record(&[7, 0, 0, 0, 0, 0, 0, 0, 63]),
        record(&[10, 0, 0, 0, 1]),
    ];
    let words = ["draw", "--records", "-"];
    assert_eq!(wrote(&tool(&words, &records.concat())), drawing);
    let list = "phase 63 0\ncphasedg 0 0 1\nend 0 0 2 2\n";
    gives(&["draw", "--listing", "-"], list, 0, drawing, "");
}

#[test]
fn every_examples_list_draws_as_its_program_does() {
    let rows = |drawing: &str| -> Vec<String> {
        let lines = drawing.lines().filter(|line| !line.starts_with("end "));
        let marks = |line: &str| {
            line.chars()
                .filter(|c| "●⊕HTPM╩○†┼╫╬│║".contains(*c))
                .collect()
        };
        lines
            .map(marks)
            .filter(|line: &String| !line.is_empty())
            .collect()
    };
    for name in [
        "bell", "teleport", "coin", "toffoli", "ctrladd", "qft", "passing",
    ] {
        let program = wrote(&tool(
            &["draw", &format!("{name}.mq"), "--width=10000"],
            b"",
        ));
        let list_name = format!("{name}.list");
        let list = wrote(&tool(
            &["draw", "--listing", &list_name, "--width=10000"],
            b"",
        ));
        assert_eq!(rows(&program), rows(&list), "{name}");
    }
}

/// Shows that an input is not drawn, and what is said of it.
fn not_drawn(words: &[&str], input: &[u8], message: &str) {
    let found = tool(words, input);
    assert_eq!(said(&found), format!("mqasm: standard input: {message}\n"));
    assert_eq!(wrote(&found), "");
    assert_eq!(found.status.code(), Some(1));
}

#[test]
fn records_that_cannot_be_drawn() {
    let says = |bytes: &[u8], message: &str| not_drawn(&["draw", "--records", "-"], bytes, message);
    says(&[1, 0, 0], "3 bytes are not records of 12 bytes each");
    let none = "record 0 cannot be drawn, as it is none of a list:";
    says(&record(&[11]), &format!("{none} unknown 11"));
    says(&record(&[4, 0, 1, 0, 1]), &format!("{none} cx 1 1"));
    let cphase = record(&[9, 0, 1, 0, 1, 0, 0, 0, 5]);
    says(&cphase, &format!("{none} cphase 5 1 1"));
    says(&record(&[1, 3, 1]), &format!("{none} if 0 2 h 1"));
}

#[test]
fn lists_that_cannot_be_drawn() {
    let says = |list: &str, message: &str| {
        not_drawn(&["draw", "--listing", "-"], list.as_bytes(), message);
    };
    says("h 0\ncz 0 1\n", "line 2: 'cz 0 1' is no line of a list");
    for line in [
        "h 0 1",
        "phase 0",
        "phase 64 0",
        "phase 1 0 1",
        "cphase 1 0",
        "phase x 0",
        "t 1 0",
        "u1 1 0",
    ] {
        let message = format!("line 1: '{line}' is no line of a list");
        says(&format!("{line}\n"), &message);
    }
    says(
        "h 0\n",
        "there is no line 'end ..', so the list may be cut off",
    );
}

#[test]
fn records_with_a_bad_end_are_refused() {
    let says = |bytes: &[u8], number: usize, end: &str| {
        let message = format!(
            "record {number} is none of a list, as its last bytes are {end}; \
             a record has 12 bytes, and had 8 before version 1.3"
        );
        not_drawn(&["draw", "--records", "-"], bytes, &message);
    };
    let ending = |code: u8, end: [u8; 4]| [&[code, 0, 0, 0, 0, 0, 0, 0][..], &end].concat();
    says(&ending(7, [64, 0, 0, 0]), 0, "[64, 0, 0, 0]");
    says(&ending(9, [0, 1, 0, 0]), 0, "[0, 1, 0, 0]");
    says(&ending(7, [3, 0, 1, 0]), 0, "[3, 0, 1, 0]");
    says(&ending(1, [1, 0, 0, 0]), 0, "[1, 0, 0, 0]");
    says(&ending(1, [0, 0, 0, 1]), 0, "[0, 0, 0, 1]");
    says(
        &[record(&[1]), ending(6, [2, 0, 0, 0])].concat(),
        1,
        "[2, 0, 0, 0]",
    );
    let three_of_8_bytes = [[1, 0, 0, 0, 0, 0, 0, 0]; 3].concat();
    says(&three_of_8_bytes, 0, "[1, 0, 0, 0]");
}

#[test]
fn large_circuits_get_a_message() {
    let says = |text: &str, message: &str| not_drawn(&["draw", "-"], text.as_bytes(), message);
    says(
        "qreg q[101]; h q[0];",
        "there are 101 qubits and bits, and a drawing has at most 100 rows: \
         choose smaller sizes, or use 'mqasm list'",
    );
    let columns = "qreg q[1]; for i = 1..301 { h q[0]; }";
    says(
        columns,
        "record 300 needs a further column, and a drawing has at most 300: choose smaller sizes, \
         draw the first steps only with --limit, or use 'mqasm list'",
    );
    let found = tool(&["draw", "-", "--limit=7"], columns.as_bytes());
    assert!(wrote(&found).starts_with("q[0] ─H──H──H─\nend 26 "));
    assert_eq!(found.status.code(), Some(1));
}

#[test]
fn the_largest_drawing_is_below_a_megabyte() {
    let text = "qreg q[100]; for i = 1..299 { cx q[0], q[99]; } reset q[0];";
    let drawing = drawn(text, &["--output=1000000"]);
    assert!(drawing.len() < 1_000_000, "{}", drawing.len());
}

#[test]
fn long_names_are_cut() {
    let name = "a".repeat(3000);
    let text = format!("qreg {name}[2]; gate g({name}: Qbit) {{ t {name}; }} h {name}[1];");
    let drawing = "aaaaaaaaaaaaaaa…[0] ───\naaaaaaaaaaaaaaa…[1] ─H─\nend 0 0 1 1\n";
    assert_eq!(drawn(&text, &[]), drawing);
    let drawing = "aaaaaaaaaaaaaaa… ─T─\nend 0 0 1 1\n";
    assert_eq!(drawn(&text, &["--family=g"]), drawing);
}

#[test]
fn refused_programs_have_no_drawing() {
    let found = tool(&["draw", "element-n.mq"], b"");
    assert_eq!(wrote(&found), "end 12 15 0 0\n");
    assert_eq!(found.status.code(), Some(1));
    let found = tool(&["draw", "-"], b"qreg q[1]; ##0(q[0]);");
    assert_eq!(wrote(&found), "end 31 5 0 0\n");
    assert_eq!(found.status.code(), Some(1));
    let found = tool(&["draw", "pass-itself.mq"], b"");
    assert_eq!(wrote(&found), "end 33 41 0 0\n");
    assert_eq!(found.status.code(), Some(1));
}

#[test]
fn drawings_up_to_where_a_program_or_run_stops() {
    for (program, end) in [
        ("cx-one-wire.mq", "q[0] ─✗─\nend 35 5 0 0\n"),
        ("phase-64.mq", "q[0] ─P(63)─\nend 32 22 1 2\n"),
    ] {
        let found = tool(&["draw", program], b"");
        assert_eq!(wrote(&found), end);
        assert_eq!(found.status.code(), Some(1));
    }
}
