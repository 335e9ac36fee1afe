//! Lists as OpenQASM 2.0: what `mqasm qasm` writes, and the texts beside the listings.

mod common;

use common::{declared, gives, openqasm, said, tool, wrote, Scratch};
use programs::{examples, Example};
use std::collections::BTreeSet;
use std::fs;

/// All examples.
fn all() -> Vec<Example> {
    examples(&common::examples()).unwrap()
}

/// Whether an example's list is complete.
fn is_complete(example: &Example) -> bool {
    let end = example.listing.lines().last().unwrap();
    end.starts_with("end 0 ")
}

/// Asks the tool what an example's listing was made by, with another command.
fn asked(command: &str, example: &Example) -> std::process::Output {
    let file = common::examples().join(&example.name);
    let text = fs::read_to_string(file).unwrap();
    let words = text.lines().next().unwrap().split(' ').skip(3);
    let words: Vec<&str> = [command].into_iter().chain(words).collect();
    tool(&words, b"")
}

#[test]
fn complete_lists_and_no_others_have_their_text() {
    let mut due = BTreeSet::new();
    for example in all() {
        assert_eq!(
            example.qasm.is_some(),
            is_complete(&example),
            "{}",
            example.name
        );
        if is_complete(&example) {
            due.insert(example.name.replace(".list", ".qasm"));
        }
    }
    let entries = fs::read_dir(common::examples()).unwrap();
    let names = entries.map(|entry| entry.unwrap().file_name().to_string_lossy().into_owned());
    let found: BTreeSet<String> = names.filter(|name| name.ends_with(".qasm")).collect();
    assert!(found.len() >= 62);
    assert_eq!(found, due);
}

#[test]
fn the_tool_writes_them() {
    for example in all() {
        let found = asked("qasm", &example);
        let Some(due) = &example.qasm else {
            assert_eq!(wrote(&found), "", "{}", example.name);
            assert_eq!(said(&found), said(&asked("list", &example)));
            assert_eq!(found.status.code(), Some(1), "{}", example.name);
            continue;
        };
        assert_eq!(wrote(&found), *due, "{}", example.name);
        assert_eq!(said(&found), "");
        assert_eq!(found.status.code(), Some(0), "{}", example.name);
    }
}

#[test]
fn they_say_what_the_listings_say() {
    /// The wires of instances, reckoned by hand from their parameters.
    const WIRES: [(&str, u32); 19] = [
        ("loop.n0.list", 0),
        ("loop.n3.list", 3),
        ("loop-short.n1.list", 1),
        ("loop-short.n3.list", 3),
        ("two-sizes.m2.n1.list", 3),
        ("ctrladd.m0.list", 6),
        ("ctrladd.m2.list", 10),
        ("ctrladd-guarded.n1.list", 4),
        ("ctrladd-guarded.n2.list", 6),
        ("ctrladd-guarded.n4.list", 10),
        ("adder.n1.list", 8),
        ("qft.n3.list", 3),
        ("qft.unqft.n3.list", 3),
        ("qft.add.n2.list", 4),
        ("qft.sub.n2.list", 4),
        ("multiplier-of.ripple.n0.list", 1),
        ("multiplier-of.ripple.n1.list", 5),
        ("multiplier-of.fourier.n2.list", 9),
        ("multiplier-of.unmult-ripple.n1.list", 5),
    ];
    let (mut runs, mut instances) = (0, 0);
    for example in all().iter().filter(|example| is_complete(example)) {
        let text = fs::read_to_string(common::examples().join(&example.program)).unwrap();
        let by_hand = WIRES.iter().find(|(name, _)| *name == example.name);
        let (wires, bits) = match (example.family, by_hand) {
            (None, _) => (declared(&text, "qreg "), declared(&text, "creg ")),
            (Some(_), Some((_, wires))) => (*wires, 0),
            (Some(_), None) => continue,
        };
        let due = openqasm(&example.listing, wires, bits);
        assert_eq!(example.qasm.as_ref(), Some(&due), "{}", example.name);
        runs += usize::from(example.family.is_none());
        instances += usize::from(example.family.is_some());
    }
    assert!(runs >= 10, "{runs}");
    assert_eq!(instances, WIRES.len());
}

#[test]
fn every_operation_and_both_conditions() {
    let text = "qreg q[2]; creg c[2]; h q[1]; t q[1]; tdg q[0]; cx q[1], q[0]; \
                measure q[0] -> c[1]; reset q[0]; \
                if (c[1] == 1) { h q[1]; } if (c[0] == 0) { cx q[0], q[1]; }";
    let due = "OPENQASM 2.0;\ninclude \"qelib1.inc\";\nqreg q[2];\ncreg c0[1];\ncreg c1[1];\n\
               h q[1];\nt q[1];\ntdg q[0];\ncx q[1],q[0];\nmeasure q[0] -> c1[0];\nreset q[0];\n\
               if(c1==1) h q[1];\nif(c0==0) cx q[0],q[1];\n";
    gives(&["qasm", "-"], text, 0, due, "");
}

#[test]
fn phases_divide_a_turn() {
    let text = "qreg q[2]; creg c[1]; phase(0) q[1]; phase(3) q[0]; cphase(63) q[1], q[0]; \
                reverse { phase(63) q[0]; cphase(1) q[0], q[1]; } \
                if (c[0] == 1) { phase(2) q[1]; reverse { cphase(10) q[0], q[1]; } }";
    let due = "OPENQASM 2.0;\ninclude \"qelib1.inc\";\nqreg q[2];\ncreg c0[1];\n\
               u1(2*pi/1) q[1];\nu1(2*pi/8) q[0];\n\
               cu1(2*pi/9223372036854775808) q[1],q[0];\n\
               cu1(-2*pi/2) q[0],q[1];\nu1(-2*pi/9223372036854775808) q[0];\n\
               if(c0==1) u1(2*pi/4) q[1];\nif(c0==1) cu1(-2*pi/1024) q[0],q[1];\n";
    gives(&["qasm", "-"], text, 0, due, "");
}

#[test]
fn registers_are_those_of_the_run_or_the_instance() {
    let head = "OPENQASM 2.0;\ninclude \"qelib1.inc\";\n";
    let text = "gate g(a: Qbit, b: Qbit) { t b; } qreg q[2]; h q[1]; creg c[1]; qreg r[1]; t r[0];";
    let due = format!("{head}qreg q[3];\ncreg c0[1];\nh q[1];\nt q[2];\n");
    gives(&["qasm", "-"], text, 0, &due, "");
    let due = format!("{head}qreg q[2];\nt q[1];\n");
    gives(&["qasm", "-", "--family=g"], text, 0, &due, "");
    let due = format!("{head}creg c0[1];\ncreg c1[1];\n");
    gives(&["qasm", "-"], "qreg q[0]; creg c[2];", 0, &due, "");
    gives(&["qasm", "-"], "", 0, head, "");
}

#[test]
fn a_list_that_is_not_complete_leaves_the_file_alone() {
    let file = Scratch::new("kept.qasm");
    fs::write(&file.0, "kept").unwrap();
    let words = ["qasm", "bell.mq", "--limit=1", "-o", file.path()];
    let message = "mqasm: bell.mq:6:1: 26: a step is due and the step limit is used up\n  \
                   the limit is 1: allow more steps with --limit\n";
    gives(&words, "", 1, "", message);
    assert_eq!(fs::read_to_string(&file.0).unwrap(), "kept");
    gives(&["qasm", "bell.mq", "-o", file.path()], "", 0, "", "");
    let due = fs::read_to_string(common::examples().join("bell.qasm")).unwrap();
    assert_eq!(fs::read_to_string(&file.0).unwrap(), due);
}

#[test]
fn what_is_said_of_a_list_that_is_not_complete() {
    let says = |words: &[&str], message: &str| {
        gives(words, "", 1, "", &format!("mqasm: {message}\n"));
    };
    says(
        &["qasm", "bell.bytes", "--output=23"],
        "bell.bytes: byte 17: 27: a record is due and the output has no room for it\n  \
         the output has 23 bytes, and a record takes 12: allow more with --output",
    );
    says(
        &["qasm", "loop.mq", "--family=f", "--sizes=3,4"],
        "loop.mq: 21: the sizes are not exactly four bytes for each index variable of the family\n  \
         family 'f' takes 1 size (n), and 2 are given: write --sizes n=3",
    );
    says(
        &["qasm", "phase-64.mq"],
        "phase-64.mq:6:1: 32: the k of a phase is above 63\n  \
         k is 64 here, and in this run it is above 63: choose smaller sizes, \
         or leave out turns that are so small",
    );
    says(
        &["qasm", "loop.mq", "--family=g"],
        "no family 'g' in loop.mq; it declares f",
    );
}
