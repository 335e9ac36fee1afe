//! What the tool says and draws of gates that name one wire twice: those that the check refuses,
//! and those at which only a run ends.

mod common;

use common::{gives, mend, said, tool, wrote};
use programs::meaning;

/// What is said of two spellings of one wire, each with where it stands.
fn spelled_twice(first: &str, second: &str, index: &str) -> String {
    format!(
        "{first} and {second} are the same wire, as both indexes are {index}: \
         a gate on two wires needs two different ones"
    )
}

/// What is said of a wire that is spelled alike both times.
fn named_twice(wire: &str, first: &str, second: &str) -> String {
    format!(
        "{wire} is named at {first} and at {second}: a gate on two wires needs two different ones"
    )
}

/// Shows that a text is accepted.
fn accepted(text: &str) {
    gives(&["check", "-"], text, 0, "end 0 0 0 0\n", "");
}

#[test]
fn registers_elements_by_one_spelling() {
    mend(
        "qreg q[2];\ncx q[1], q[1];",
        "2:1",
        "end 35 5 0 0\n",
        35,
        &named_twice("q[1]", "2:4", "2:10"),
    );
    mend(
        "qreg q[2];\n  cphase(64)\n  q[0],\nq[0];",
        "2:3",
        "end 35 5 0 0\n",
        35,
        &named_twice("q[0]", "3:3", "4:1"),
    );
    mend(
        "qreg a[1]; qreg b[2]; creg c[1]; if (c[0] == 1) { cx b[2-1], b[2 - 1]; }",
        "1:51",
        "end 35 28 0 0\n",
        35,
        &named_twice("b[2 - 1]", "1:54", "1:62"),
    );
}

#[test]
fn parameters_of_one_wire() {
    mend(
        "gate g(a: Qbit, b: Qbit) { cx a, b; cx b, a; cx b, b; }",
        "1:46",
        "end 35 33 0 0\n",
        35,
        &named_twice("b", "1:49", "1:52"),
    );
    mend(
        "gate g(a: Qbit) { reverse { cphase(1) a, a; } }",
        "1:29",
        "end 35 11 0 0\n",
        35,
        &named_twice("a", "1:39", "1:42"),
    );
}

#[test]
fn indexes_by_two_spellings() {
    let family = |gate: &str| {
        format!(
            "family(n, m) f(x: Qbit[n+m+9]) {{\nfor i = 1..n {{ for j = 0..m {{\n{gate} }} }} }}"
        )
    };
    for (gate, first, second, index) in [
        ("cx x[1], x[2-1];", "x[1] at 3:4", "x[2 - 1] at 3:10", "1"),
        (
            "cx x[n+1], x[1+n];",
            "x[n + 1] at 3:4",
            "x[1 + n] at 3:12",
            "n + 1",
        ),
        (
            "cx x[i], x[i+0*n];",
            "x[i] at 3:4",
            "x[i + 0 * n] at 3:10",
            "i",
        ),
        (
            "cx x[2*i-i], x[i];",
            "x[2 * i - i] at 3:4",
            "x[i] at 3:14",
            "i",
        ),
        (
            "cx x[i+j], x[j+i];",
            "x[i + j] at 3:4",
            "x[j + i] at 3:12",
            "i + j",
        ),
        (
            "cphase(n) x[2*3+n-i], x[6-(i-n)];",
            "x[2 * 3 + n - i] at 3:11",
            "x[6 - (i - n)] at 3:23",
            "n - i + 6",
        ),
        ("cx x[i-i], x[0];", "x[i - i] at 3:4", "x[0] at 3:12", "0"),
    ] {
        let details = spelled_twice(first, second, index);
        mend(&family(gate), "3:1", "end 35 51 0 0\n", 35, &details);
    }
}

#[test]
fn gates_that_no_run_comes_to() {
    let refused = |text: &str| {
        let found = tool(&["check", "-"], text.as_bytes());
        assert!(said(&found).contains(": 35: "), "{text}");
        let list = tool(&["list", "-"], text.as_bytes());
        let qasm = tool(&["qasm", "-"], text.as_bytes());
        assert_eq!(said(&list), said(&found), "{text}");
        assert_eq!(said(&qasm), said(&found), "{text}");
        assert_eq!(wrote(&list), wrote(&found), "{text}");
        assert_eq!(wrote(&qasm), "", "{text}");
    };
    refused("qreg q[1]; for i = 1..0 { cx q[0], q[0]; }");
    refused("gate g(a: Qbit) { cx a, a; }");
    refused("qreg q[1]; creg c[1]; if (c[0] == 0) { cx q[0], q[0]; }");
    refused("qreg q[1]; reverse { reverse { cx q[0], q[0]; } }");
}

#[test]
fn the_first_fault_is_the_one() {
    let number = |text: &str, number: u32| {
        let found = tool(&["check", "-"], text.as_bytes());
        assert!(said(&found).contains(&format!(": {number}: ")), "{text}");
    };
    number("qreg q[1]; cx q[1], q[1];", 12);
    number("qreg q[1]; cphase(0-1) q[0], q[0];", 12);
    number("qreg q[1]; cx q, q;", 9);
    number("qreg q[1]; h q[1]; cx q[0], q[0];", 12);
    number("qreg q[1]; cx q[0], q[0]; h q[1];", 35);
    number("gate g(a: Qbit) { cx a, a[0]; }", 9);
}

#[test]
fn other_wires_pass_the_check() {
    accepted("qreg q[2]; cx q[0], q[1]; qreg r[1]; cx q[0], r[0]; cphase(1) r[0], q[0];");
    accepted("gate g(a: Qbit, b: Qbit) { cx a, b; }");
    accepted("qreg q[3]; for i = 0..2 { for j = i..i { cx q[i], q[j]; } cx q[i], q[0]; }");
    accepted("gate g(x: Qbit[1], y: Qbit[1]) { cx x[0], y[0]; } qreg q[1]; g(q, q);");
}

#[test]
fn bytes_have_offsets_and_invented_names() {
    let says = |text: &str, place: &str, details: &str| {
        let bytes = programs::assemble(text).unwrap().bytes;
        let found = tool(&["check", "--bytes", "-"], &bytes);
        let sentence = meaning(35);
        let message = format!("mqasm: standard input: byte {place}: 35: {sentence}\n  {details}\n");
        assert_eq!(said(&found), message);
    };
    let details = named_twice("q0[0]", "byte 8", "byte 17");
    says("qreg q[1]; cx q[0], q[0];", "5", &details);
    let details = named_twice("x1", "byte 19", "byte 23");
    says(
        "gate g(a: Qbit, b: Qbit) { cphase(1) b, b; }",
        "11",
        &details,
    );
    let text = "family(n) f(x: Qbit[n+2]) { for i = 0..n { cx x[i+1], x[1+i]; } }";
    let details = spelled_twice("x0[i1 + 1] at byte 35", "x0[1 + i1] at byte 51", "i1 + 1");
    says(text, "32", &details);
    let text = "qreg q[1];\ncx q[0], q[0]; bytes \"20\";";
    let details = named_twice("q0[0]", "2:4", "2:10");
    mend(text, "2:1", "end 35 5 0 0\n", 35, &details);
}

#[test]
fn gates_in_bytes_that_do_not_read() {
    let family = [1, 20, 0, 0, 1, 16, 0, 0, 35, 8, 0, 48, 1, 0, 0, 48, 1, 0, 0];
    let bytes = [&family[..], &[99, 0, 0, 0]].concat();
    let message = format!("mqasm: standard input: byte 8: 35: {}\n", meaning(35));
    for command in ["check", "list", "draw"] {
        let found = tool(&[command, "--bytes", "-"], &bytes);
        assert_eq!(said(&found), message, "{command}");
        assert_eq!(wrote(&found), "end 35 8 0 0\n", "{command}");
    }
}

#[test]
fn long_texts_are_cut() {
    let name = "a".repeat(3000);
    let text = format!("qreg {name}[2]; cx {name}[1], {name}[2-1];");
    let found = tool(&["draw", "-", "--width=40"], text.as_bytes());
    let row = "aaaaaaaaaaaaaaa…[1] = aaaaaaaaaaaa… ─✗─";
    assert_eq!(wrote(&found), format!("{row}\nend 35 5 0 0\n"));
    assert!(row.chars().count() <= 40 && said(&found).chars().count() < 600);
    let text = format!("gate g({name}: Qbit) {{ cx {name}, {name}; }}");
    let found = tool(&["draw", "-"], text.as_bytes());
    assert_eq!(wrote(&found), "aaaaaaaaaaaaaaa… ─✗─\nend 35 8 0 0\n");
}

/// Shows what is drawn of a text whose number is not 0.
fn draws(text: &str, words: &[&str], drawing: &str) {
    let found = tool(&[&["draw", "-"], words].concat(), text.as_bytes());
    assert_eq!(wrote(&found), drawing, "{text}");
    assert_eq!(found.status.code(), Some(1), "{text}");
    assert!(said(&found).contains("wire"), "{text}");
}

#[test]
fn the_refused_wire_is_drawn_alone() {
    draws(
        "qreg q[9]; h q[1]; cx q[0], q[0];",
        &[],
        "q[0] ─✗─\nend 35 17 0 0\n",
    );
    draws(
        "qreg q[2]; cphase(3) q[1], q[2-1];",
        &[],
        "q[1] = q[2 - 1] ─✗─\nend 35 5 0 0\n",
    );
    let text = "gate g(a: Qbit, b: Qbit) { cx b, b; } family(n) f(x: Qbit[n]) {}";
    for words in [
        &[][..],
        &["--family=g"],
        &["--family=f", "--sizes=n=3"],
        &["--family=9"],
    ] {
        draws(text, words, "b ─✗─\nend 35 11 0 0\n");
    }
    let large = "qreg q[101]; for i = 0..100 { cx q[i], q[i]; }";
    draws(large, &["--width=40"], "q[i] ─✗─\nend 35 18 0 0\n");
    let bytes = programs::assemble(text).unwrap().bytes;
    let found = tool(&["draw", "--bytes", "-"], &bytes);
    assert_eq!(wrote(&found), "x1 ─✗─\nend 35 11 0 0\n");
}

#[test]
fn the_wire_at_which_a_run_ends_is_marked() {
    let text = "qreg q[3]; for i = 0..1 { cx q[2*i], q[2]; h q[1]; }";
    let drawing = "\
q[0] ─●────
      │
q[1] ─┼──H─
      │
q[2] ─⊕──✗─
end 25 18 2 6
";
    draws(text, &[], drawing);
    let pair = "gate g(a: Qbit, b: Qbit) { h a; cphase(6) b, a; h b; }";
    let text = format!("{pair} qreg q[2]; t q[0]; reverse {{ g(q[1], q[1]); }}");
    draws(&text, &[], "q[0] ─T────\nq[1] ─H──✗─\nend 25 18 2 5\n");
    let text = format!("{pair} family(n) f(x: Qbit[n+1], y: Qbit) {{ g(x[n], y); g(y, y); }}");
    let drawing = "\
x[0] ─H──P(6)──────────
         │
y    ────●─────H──H──✗─
end 25 18 4 7
";
    draws(&text, &["--family=f", "--sizes=0"], drawing);
}

#[test]
fn overlapping_registers_end_a_run() {
    let text = "gate g(x: Qbit[1], y: Qbit[2]) { cx x[0], y[1]; }
qreg q[3]; g(q[1..1], q); g(q[2..2], q[1..2]);";
    let drawing = "q[0] ───\nq[1] ─✗─\nq[2] ───\nend 25 21 0 2\n";
    draws(text, &[], drawing);
    let message = "a cx or cphase has the same wire twice\n  \
                   x[0] and y[1] stand for the same wire in this run\n";
    let found = tool(&["list", "-"], text.as_bytes());
    assert!(said(&found).ends_with(message));
}

#[test]
fn a_mark_in_a_further_column_gets_a_message() {
    let text = "gate g(a: Qbit, b: Qbit) { cx a, b; }
qreg q[1]; for i = 1..300 { h q[0]; } g(q[0], q[0]);";
    let message =
        "mqasm: standard input: the mark ✗ needs a further column, and a drawing has at most \
                   300: choose smaller sizes, draw the first steps only with --limit, or use \
                   'mqasm list'\n";
    gives(&["draw", "-"], text, 1, "", message);
}

#[test]
fn the_help_says_it() {
    let help = |command: &str| wrote(&tool(&[command, "--help"], b""));
    assert!(help("draw").contains("  ✗      a cx or cphase that names this wire twice."));
    assert!(help("check").contains("A cx or cphase whose operands are the same wire"));
}
