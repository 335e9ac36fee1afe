//! The reader of OpenQASM 2.0 on programs that no printer here would write.

use compare::openqasm::{
    list, read, Action, Angle, Bit, Condition, Kind, List, Operation, Program, Qubit, Register,
};

/// Several registers, comments and odd white space.
const SPREAD: &str = "// A comment before the header; it says OPENQASM 3.0;
OPENQASM
	2.0 ;include\"qelib1.inc\";
qreg left[2]; creg seen [ 3 ];   // two on a line
qreg right_2[3];creg cOpy[1];\r
h left[1];t   right_2
  [ 0 ] ;
cx left[0] , right_2[2];cx right_2[2],left[0];
tdg right_2[1];

measure left[1]->seen[2] ; measure right_2[0]
->cOpy[0];
if ( seen == 5 ) reset right_2[2];
if(cOpy==0)measure left[0] -> seen[0];
u1 ( - 2 * pi / 4 ) left[0];u1(pi)left[1];
if(cOpy==1)cu1(3*-pi/
6)right_2[0],left[0];
if(cOpy==1) cx left[0],left[1]; // the end, without a line feed";

/// A register.
fn register(kind: Kind, name: &str, first: u64, size: u64) -> Register<'_> {
    Register {
        kind,
        name,
        first,
        size,
    }
}

/// An operation without a condition.
fn always(action: Action) -> Operation {
    Operation {
        condition: None,
        action,
    }
}

/// An operation with a condition on a register, by its place among all.
fn when(register: usize, value: u64, action: Action) -> Operation {
    Operation {
        condition: Some(Condition { register, value }),
        action,
    }
}

/// A cx by its qubits' numbers.
fn cx(control: u64, target: u64) -> Action {
    Action::Cx {
        control: Qubit(control),
        target: Qubit(target),
    }
}

/// A fraction of pi.
fn angle(above: i128, below: i128) -> Angle {
    Angle { above, below }
}

/// A cu1 by its qubits' numbers.
fn cu1(angle: Angle, control: u64, target: u64) -> Action {
    Action::Cu1 {
        angle,
        control: Qubit(control),
        target: Qubit(target),
    }
}

#[test]
fn registers_comments_and_white_space_are_read() {
    let due = Program {
        registers: vec![
            register(Kind::Quantum, "left", 0, 2),
            register(Kind::Classical, "seen", 0, 3),
            register(Kind::Quantum, "right_2", 2, 3),
            register(Kind::Classical, "cOpy", 3, 1),
        ],
        operations: vec![
            always(Action::H(Qubit(1))),
            always(Action::T(Qubit(2))),
            always(cx(0, 4)),
            always(cx(4, 0)),
            always(Action::Tdg(Qubit(3))),
            always(Action::Measure(Qubit(1), Bit(2))),
            always(Action::Measure(Qubit(2), Bit(3))),
            when(1, 5, Action::Reset(Qubit(4))),
            when(3, 0, Action::Measure(Qubit(0), Bit(0))),
            always(Action::U1(angle(-1, 2), Qubit(0))),
            always(Action::U1(angle(1, 1), Qubit(1))),
            when(3, 1, cu1(angle(-1, 2), 2, 0)),
            when(3, 1, cx(0, 1)),
        ],
    };
    assert_eq!(read(SPREAD), Ok(due));
}

#[test]
fn the_header_alone_is_a_program() {
    assert_eq!(read("OPENQASM 2.0;"), Ok(Program::default()));
}

/// What follows the first two lines, and the line and the reason of its refusal.
const REFUSED: &[(&str, &str)] = &[
    ("h q[0];", "line 3: q is not declared"),
    ("qreg q[2];\nh r[0];", "line 4: r is not declared"),
    ("qreg q[2];\nh q[2];", "line 4: q[2] is out of range"),
    (
        "qreg q[1];\ncx q[0],q[0];",
        "line 4: both qubits of a cx are the same",
    ),
    ("qreg q[1];\nif(c==1) h q[0];", "line 4: c is not declared"),
    ("qreg q[1];\nif(q==1) h q[0];", "line 4: q has no bits"),
    ("qreg q[1];\nmeasure q[0] -> q[0];", "line 4: q has no bits"),
    ("creg c[1];\nreset c[0];", "line 4: c has no qubits"),
    ("creg c[1];\ncreg c[1];", "line 4: c is declared twice"),
    ("qreg c[1];creg c[1];", "line 3: c is declared twice"),
    ("qreg h[1];", "line 3: h is declared twice"),
    ("qreg q[0];", "line 3: q has no elements"),
    ("qreg Q[1];", "line 3: a register cannot be named Q"),
    ("qreg if[1];", "line 3: a register cannot be named if"),
    ("qreg q[01];", "line 3: 01 is no number"),
    ("qreg q[1.0];", "line 3: a number is due, not 1.0"),
    ("qreg q[-1];", "line 3: a number is due, not -"),
    (
        "qreg q[18446744073709551616];",
        "line 3: 18446744073709551616 is too large",
    ),
    (
        "qreg q[18446744073709551615];qreg r[1];",
        "line 3: r is too large",
    ),
    ("qreg q;", "line 3: [ is due, not ;"),
    ("qreg q[1;", "line 3: ] is due, not ;"),
    ("qreg q[1]", "line 3: ; is due, not the end"),
    ("qreg [1];", "line 3: a name is due, not ["),
    ("qreg q[2];\nh q;", "line 4: [ is due, not ;"),
    ("qreg q[2];\nh q[0],q[1];", "line 4: ; is due, not ,"),
    ("qreg q[2];\ncx q[0];", "line 4: , is due, not ;"),
    ("qreg q[2];\ncx q[0] q[1];", "line 4: , is due, not q"),
    (
        "qreg q[2];creg c[1];\nmeasure q[0],c[0];",
        "line 4: -> is due, not ,",
    ),
    (
        "qreg q[2];creg c[1];\nmeasure q[0] - > c[0];",
        "line 4: -> is due, not -",
    ),
    (
        "qreg q[2];creg c[1];\nif(c=1) h q[0];",
        "line 4: '=' is no sign that is read here",
    ),
    (
        "qreg q[2];creg c[1];\nif(c[0]==1) h q[0];",
        "line 4: == is due, not [",
    ),
    (
        "qreg q[2];creg c[1];\nif c==1 h q[0];",
        "line 4: ( is due, not c",
    ),
    (
        "qreg q[2];creg c[1];\nif(c==1);",
        "line 4: a name is due, not ;",
    ),
    (
        "qreg q[2];creg c[1];\nif(c==1) if(c==1) h q[0];",
        "line 4: if is no operation that is read here",
    ),
    (
        "creg c[1];\nif(c==1) qreg q[1];",
        "line 4: qreg is no operation that is read here",
    ),
    (
        "qreg q[2];\nH q[0];",
        "line 4: H is no operation that is read here",
    ),
    (
        "qreg q[2];\nx q[0];",
        "line 4: x is no operation that is read here",
    ),
    ("qreg q[2];\nh q[0];;", "line 4: a statement is due, not ;"),
    (
        "qreg q[2];\nh q[0];\n7",
        "line 5: a statement is due, not 7",
    ),
    (
        "qreg q[2];\nh q[0];\nh",
        "line 5: a name is due, not the end",
    ),
    (
        "qreg q[2];\nh q[0];\n\0",
        "line 5: '\\0' is no sign that is read here",
    ),
    ("/ a comment", "line 3: a statement is due, not /"),
    ("+ a sum", "line 3: '+' is no sign that is read here"),
    ("qreg q[2];\nu1 q[0];", "line 4: ( is due, not q"),
    ("qreg q[2];\nu1() q[0];", "line 4: an angle is due, not )"),
    ("qreg q[2];\nu1(2) q[0];", "line 4: an angle has one pi"),
    ("qreg q[2];\nu1(pi*pi) q[0];", "line 4: an angle has one pi"),
    ("qreg q[2];\nu1(2/pi) q[0];", "line 4: an angle has one pi"),
    (
        "qreg q[2];\nu1(pi/0) q[0];",
        "line 4: an angle is out of range",
    ),
    ("qreg q[2];\nu1(2 pi) q[0];", "line 4: ) is due, not pi"),
    ("qreg q[2];\nu1(pi q[0];", "line 4: ) is due, not q"),
    (
        "qreg q[2];\nu1(2**pi) q[0];",
        "line 4: an angle is due, not *",
    ),
    (
        "qreg q[2];\nu1(pi/18446744073709551616) q[0];",
        "line 4: 18446744073709551616 is too large",
    ),
    ("qreg q[2];\nu1(pi) q[0],q[1];", "line 4: ; is due, not ,"),
    ("qreg q[2];\ncu1(pi) q[0];", "line 4: , is due, not ;"),
    (
        "qreg q[2];\ncu1(pi) q[1],q[1];",
        "line 4: both qubits of a cu1 are the same",
    ),
    (
        "include \"other.inc\";",
        "line 3: \"qelib1.inc\" is due, not \"other.inc\"",
    ),
    (
        "include \"qelib1.inc;",
        "line 3: a quotation mark is not closed",
    ),
    (
        "include \"qelib1.inc\";",
        "line 3: qelib1.inc is included twice",
    ),
];

#[test]
fn damaged_programs_are_refused() {
    for (rest, due) in REFUSED {
        let text = format!("OPENQASM 2.0;\ninclude \"qelib1.inc\";\n{rest}");
        assert_eq!(read(&text), Err(due.to_string()), "{rest}");
    }
}

#[test]
fn headers_are_needed() {
    let table = [
        ("", "line 1: OPENQASM is due, not the end"),
        ("qreg q[1];", "line 1: OPENQASM is due, not qreg"),
        ("OPENQASM 3.0;", "line 1: 2.0 is due, not 3.0"),
        ("OPENQASM 2;", "line 1: 2.0 is due, not 2"),
        ("OPENQASM 2.0", "line 1: ; is due, not the end"),
        ("openqasm 2.0;", "line 1: OPENQASM is due, not openqasm"),
        (
            "OPENQASM 2.0;\nqreg q[1];\nh q[0];",
            "line 3: h is not declared: qelib1.inc is not included",
        ),
        (
            "OPENQASM 2.0;\nqreg h[1];\ninclude \"qelib1.inc\";",
            "line 3: h is declared twice",
        ),
    ];
    for (text, due) in table {
        assert_eq!(read(text), Err(due.to_string()), "{text}");
    }
}

/// Reads the list that registers and operations stand for.
fn listed(rest: &str) -> Result<List, String> {
    let text = format!("OPENQASM 2.0;include \"qelib1.inc\";{rest}");
    list(&read(&text)?)
}

#[test]
fn programs_over_q_and_bits_are_lists() {
    let text = "qreg q[300]; creg c0[1]; creg c1[1];
        h q[0]; t q[1]; tdg q[2]; cx q[3],q[299]; measure q[256] -> c1[0]; reset q[5];
        if(c0==0) h q[6]; if(c1==1) cx q[258],q[1];
        u1(2*pi/1) q[0]; u1(-2*pi/8) q[1]; cu1(pi) q[2],q[256]; u1(2*pi/-4) q[0];
        if(c1==0) cu1(-2*pi/9223372036854775808) q[3],q[4];";
    let due = List {
        wires: 300,
        bits: 2,
        records: [
            [1, 0, 0, 0, 0, 0, 0, 0, 0, 0, 0, 0],
            [2, 0, 1, 0, 0, 0, 0, 0, 0, 0, 0, 0],
            [3, 0, 2, 0, 0, 0, 0, 0, 0, 0, 0, 0],
            [4, 0, 3, 0, 43, 1, 0, 0, 0, 0, 0, 0],
            [5, 0, 0, 1, 1, 0, 0, 0, 0, 0, 0, 0],
            [6, 0, 5, 0, 0, 0, 0, 0, 0, 0, 0, 0],
            [1, 1, 6, 0, 0, 0, 0, 0, 0, 0, 0, 0],
            [4, 2, 2, 1, 1, 0, 1, 0, 0, 0, 0, 0],
            [7, 0, 0, 0, 0, 0, 0, 0, 0, 0, 0, 0],
            [8, 0, 1, 0, 0, 0, 0, 0, 3, 0, 0, 0],
            [9, 0, 2, 0, 0, 1, 0, 0, 1, 0, 0, 0],
            [8, 0, 0, 0, 0, 0, 0, 0, 2, 0, 0, 0],
            [10, 1, 3, 0, 4, 0, 1, 0, 63, 0, 0, 0],
        ]
        .concat(),
    };
    assert_eq!(listed(text), Ok(due));
}

#[test]
fn other_programs_are_no_lists() {
    let refused = [
        "qreg r[1];",
        "qreg q[1]; qreg r[1];",
        "creg c[1];",
        "creg c1[1]; creg c0[1];",
        "creg c0[1]; creg c2[1];",
        "creg c0[2];",
        "qreg q[1]; creg c0[1]; if(c0==2) h q[0];",
        "qreg q[65537]; h q[65536];",
        "qreg q[1]; u1(0*pi) q[0];",
        "qreg q[1]; u1(3*pi) q[0];",
        "qreg q[1]; u1(4*pi) q[0];",
        "qreg q[1]; u1(2*pi/3) q[0];",
        "qreg q[1]; u1(2*pi/6) q[0];",
        "qreg q[1]; u1(pi/9223372036854775808) q[0];",
    ];
    for text in refused {
        assert!(listed(text).is_err(), "{text}");
    }
}
