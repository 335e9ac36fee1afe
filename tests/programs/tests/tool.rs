//! The `mqasm` program as people call it: output, messages and exit codes.

mod common;

use common::{command, examples, gives, refuses, tool};
use std::fs;
use std::process::Stdio;

#[test]
fn help_is_shown() {
    for word in ["help", "--help", "-h"] {
        gives(&[word], "", 0, programs::tool::USAGE, "");
    }
}

#[test]
fn assembles_files_and_input() {
    let bytes = fs::read(examples().join("bell.bytes")).unwrap();
    assert_eq!(tool(&["assemble", "bell.mq"], b"").stdout, bytes);
    let text = fs::read(examples().join("bell.mq")).unwrap();
    assert_eq!(tool(&["assemble", "-"], &text).stdout, bytes);
}

#[test]
fn writes_text() {
    let text = "qreg q0[2];\nh q0[0];\ncx q0[0], q0[1];\n";
    gives(&["text", "bell.bytes"], "", 0, text, "");
    let message = "mqasm: standard input: byte 0: fewer than 3 bytes are left for a field\n";
    gives(&["text", "-"], "h", 1, "", message);
}

#[test]
fn checks() {
    gives(&["check", "bell.mq"], "", 0, "end 0 0 0 0\n", "");
    gives(&["check", "bell.bytes"], "", 0, "end 0 0 0 0\n", "");
    gives(
        &["check", "-"],
        "qreg q[1]; h q[0];",
        0,
        "end 0 0 0 0\n",
        "",
    );
    let message =
        "mqasm: element-n.mq:4:7: 12: an index or a size is not shown to be within its range\n  \
        x[0]: the index 0 is 0 or more, but is not shown to be below the size n: \
        size - 1 - index comes to n - 1, which is -1 at n = 0\n";
    gives(
        &["check", "element-n.mq"],
        "",
        1,
        "end 12 15 0 0\n",
        message,
    );
    let message =
        "mqasm: standard input: byte 0: 2: fewer than 3 bytes are left for a field's header, \
        or its content goes past the enclosing end\n";
    gives(&["check", "--bytes", "-"], "h", 1, "end 2 0 0 0\n", message);
}

#[test]
fn lists_runs() {
    let listing = "h 0\ncx 0 1\nend 0 0 2 2\n";
    gives(&["list", "bell.mq"], "", 0, listing, "");
    gives(&["list", "bell.bytes"], "", 0, listing, "");
    gives(
        &["list", "-"],
        "qreg q[2]; h q[0]; cx q[0], q[1];",
        0,
        listing,
        "",
    );
}

#[test]
fn lists_up_to_a_wire_that_is_named_twice() {
    let message = "mqasm: cx-one-wire.mq:4:1: 35: \
        the two operands of a cx or cphase are the same wire, so that it can never run\n  \
        q[0] is named at 4:4 and at 4:10: a gate on two wires needs two different ones\n";
    for command in ["check", "list"] {
        let words = [command, "cx-one-wire.mq"];
        gives(&words, "", 1, "end 35 5 0 0\n", message);
    }
    let message = "mqasm: one-wire-by-call.mq:6:5: 25: a cx or cphase has the same wire twice\n  \
        a and b stand for the same wire in this run\n";
    let words = ["list", "one-wire-by-call.mq"];
    let listing = "h 0\ncx 0 1\nh 1\nend 25 18 3 6\n";
    gives(&words, "", 1, listing, message);
}

#[test]
fn lists_instances() {
    let listing = "h 0\nh 1\nh 2\nend 0 0 3 7\n";
    gives(
        &["list", "loop.mq", "--family", "f", "--sizes", "3"],
        "",
        0,
        listing,
        "",
    );
    gives(
        &["list", "--sizes", "3", "--family", "0", "loop.mq"],
        "",
        0,
        listing,
        "",
    );
    let words = [
        "list", "loop.mq", "--family", "f", "--sizes", "3", "--limit", "1",
    ];
    let message = "mqasm: loop.mq:5:5: 26: a step is due and the step limit is used up\n  \
        the limit is 1: allow more steps with --limit\n";
    gives(&words, "", 1, "end 26 12 0 1\n", message);
}

#[test]
fn lists_phases() {
    let text = "qreg q[2]; creg c[1]; phase(3) q[0]; cphase(2) q[1], q[0]; \
                if (c[0] == 0) { reverse { cphase(0) q[0], q[1]; phase(63) q[1]; } }";
    let listing = "phase 3 0\ncphase 2 1 0\nif 0 0 phasedg 63 1\nif 0 0 cphasedg 0 0 1\n\
                   end 0 0 4 6\n";
    gives(&["list", "-"], text, 0, listing, "");
    let words = ["list", "qft.bytes", "--family", "0", "--sizes", "2"];
    gives(&words, "", 0, "h 1\ncphase 2 0 1\nh 0\nend 0 0 3 9\n", "");
}

#[test]
fn lists_instances_of_families_past_255() {
    let copies: String = (0..8)
        .map(|wire| format!("cx {wire} {}\n", wire + 8))
        .collect();
    for family in ["xor_into", "256"] {
        let words = ["list", "library.mq", "--family", family];
        gives(&words, "", 0, &format!("{copies}end 0 0 8 17\n"), "");
    }
    let words = ["list", "library.mq", "--family", "258"];
    let message = "mqasm: library.mq: 20: the program declares no family of this number\n  \
        family numbers start at 0; it declares 258 families\n";
    gives(&words, "", 1, "end 20 0 0 0\n", message);
}

#[test]
fn lists_deep_programs() {
    let (open, close) = ("reverse {".repeat(15), "}".repeat(15));
    let calls = (1..1057).map(|number| {
        let before = number - 1;
        format!("gate f{number}(a: Qbit) {{ {open} f{before}(a); {close} }}\n")
    });
    let calls: String = calls.collect();
    let text = format!("gate f0(a: Qbit) {{ t a; }}\n{calls}qreg q[1]; f1056(q[0]);");
    gives(&["list", "-"], &text, 0, "t 0\nend 0 0 1 16898\n", "");
}

#[test]
fn families_and_sizes_that_do_not_fit() {
    let list = |family: &str, sizes: &str, end: &str, message: &str| {
        let words = ["list", "loop.mq", "--family", family, "--sizes", sizes];
        gives(&words, "", 1, end, &format!("mqasm: {message}\n"));
    };
    list("g", "3", "", "no family 'g' in loop.mq; it declares f");
    list(
        "1",
        "3",
        "end 20 0 0 0\n",
        "loop.mq: 20: the program declares no family of this number\n  \
        family numbers start at 0; it declares f",
    );
    list(
        "f",
        "3,4",
        "end 21 0 0 0\n",
        "loop.mq: 21: the sizes are not exactly four bytes for each index variable of the family\n  \
        family 'f' takes 1 size (n), and 2 are given: write --sizes n=3",
    );
    list(
        "f",
        "70000",
        "end 22 0 0 0\n",
        "loop.mq: 22: a size is above 65,535\n  n is 70000: choose smaller sizes",
    );
}

#[test]
fn commands_that_are_none() {
    refuses(&[], "no command");
    refuses(&["run"], "no command 'run'");
    refuses(&["list"], "no file given");
    refuses(&["qasm"], "no file given");
    refuses(&["assemble"], "no file given");
    refuses(&["assemble", "--fast"], "no option '--fast' here");
    refuses(&["list", "a.mq", "b.mq"], "more than one file given");
    refuses(
        &["list", "bell.mq", "--fast", "1"],
        "no option '--fast' here",
    );
    refuses(
        &["check", "bell.mq", "--limit", "1"],
        "no option '--limit' here",
    );
    refuses(&["list", "bell.mq", "--limit"], "--limit needs a value");
    refuses(
        &["list", "bell.mq", "--limit", "-1"],
        "'-1' is not a number that --limit takes",
    );
    refuses(
        &["list", "bell.mq", "--sizes", "3"],
        "--sizes needs --family",
    );
    refuses(
        &["list", "loop.mq", "--family", "f", "--sizes", "3,x"],
        "'x' is not a number that --sizes takes",
    );
    refuses(
        &["list", "bell.mq", "--output", "9999999999"],
        "--output goes up to 1073741824",
    );
}

#[test]
fn files_that_cannot_be_read() {
    let found = tool(&["list", "missing.mq"], b"");
    assert_eq!(found.status.code(), Some(1));
    let said = String::from_utf8_lossy(&found.stderr).into_owned();
    assert!(
        said.starts_with("mqasm: cannot read missing.mq: "),
        "{said}"
    );
    let found = tool(&["assemble", "."], b"");
    assert_eq!(found.status.code(), Some(1));
    let found = tool(&["assemble", "-"], b"h \xff");
    assert_eq!(found.stderr, b"mqasm: standard input: no text at byte 2\n");
    assert_eq!(found.status.code(), Some(1));
    let message = "mqasm: standard input:1:3: no register named 'q' here\n";
    gives(&["assemble", "-"], "h q[0];", 1, "", message);
}

#[test]
fn a_closed_output_is_no_crash() {
    let words = [
        "list", "loop.mq", "--family", "f", "--sizes", "60000", "--output", "1000000",
    ];
    let mut child = command(&words)
        .stdout(Stdio::piped())
        .stderr(Stdio::piped())
        .spawn()
        .unwrap();
    drop(child.stdout.take());
    let found = child.wait_with_output().unwrap();
    assert_eq!(String::from_utf8_lossy(&found.stderr), "");
    assert_eq!(found.status.code(), Some(1));
}
