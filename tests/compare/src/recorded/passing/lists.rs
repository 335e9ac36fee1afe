//! What runs write through parameters, forward and backward, and the texts of their lists.

use super::{behind, element, given, parameter_call, passed, reverse, run, FIRST, GATE, OF_FOUR};
use super::{ON_A_WIRE, ON_N_WIRES, QBIT, QUBIT, QUBITS, TAKING, WIRE};
use crate::recorded::examples::L;
use crate::recorded::slices::{between, call, family, gates, looped, number, variable};
use crate::recorded::{bytes, field, joined, Recorded};

/// A family on a wire, 15 bytes: t(x), which stands at 8.
const T_GATE: &str = "01 0c 00 00 01 10 00 00 21 04 00 30 01 00 00";
/// A family on a wire, 22 bytes: h(x) and t(x).
const TWO_GATES: &str = "01 13 00 00 01 10 00 00 20 04 00 30 01 00 00 21 04 00 30 01 00 00";

/// Records of h, t and tdg on the first wire.
const H: &str = "01 00 00 00 00 00 00 00 00 00 00 00";
const T: &str = "02 00 00 00 00 00 00 00 00 00 00 00";
const TDG: &str = "03 00 00 00 00 00 00 00 00 00 00 00";

/// All rows.
pub fn rows() -> Vec<Recorded> {
    let mut rows = once();
    rows.extend(both_directions());
    rows.extend(each_wire());
    rows.extend(sized());
    rows.extend(larger());
    rows.extend(several());
    rows.extend(chains());
    rows.extend(conditions());
    rows.extend(phases());
    rows
}

/// One gate through a parameter: the call, the parameter's call, the gate.
fn once() -> Vec<Recorded> {
    let program = run(&given(&passed(0)));
    let text = "OPENQASM 2.0;\ninclude \"qelib1.inc\";\nqreg q[1];\nh q[0];\n";
    let row = |name| Recorded::run(name, program.clone(), [0, 0, 1, 3], H);
    vec![
        row("a gate through a parameter"),
        row("a gate through a parameter, just enough")
            .limit(3)
            .into_bytes(12),
        row("a gate through a parameter, printed").printed(text),
    ]
}

/// Two gates through a parameter that is called in one direction, in a run in one direction.
fn both_directions() -> Vec<Recorded> {
    let inner = parameter_call(1, &[&bytes(FIRST)]);
    let backward = family(0, &[QBIT, ON_A_WIRE], &reverse(&inner));
    let row = |name, taking: &[u8], statement: &[u8], steps, records: [&str; 2]| {
        let program = joined(&[&bytes(TWO_GATES), taking, &bytes(QUBIT), statement]);
        Recorded::run(name, program, [0, 0, 2, steps], &records.join(" "))
    };
    let forward = bytes(TAKING);
    let call = given(&passed(0));
    vec![
        row("forward in forward", &forward, &call, 4, [H, T]),
        row(
            "forward in backward",
            &forward,
            &reverse(&call),
            5,
            [TDG, H],
        ),
        row("backward in forward", &backward, &call, 5, [TDG, H]),
        row(
            "backward in backward",
            &backward,
            &reverse(&call),
            6,
            [H, T],
        ),
    ]
}

/// A parameter that is called for each of four wires.
fn each_wire() -> Vec<Recorded> {
    let wire = field(0x31, &joined(&[&[0], &variable(0)]));
    let inner = looped(&number(0), &number(3), &parameter_call(1, &[&wire]));
    let taking = family(0, &[OF_FOUR, ON_A_WIRE], &inner);
    let call = call(1, &[&bytes(FIRST), &passed(0)]);
    let row = |name, statement: &[u8], steps, wires: &[u16]| {
        let program = joined(&[&bytes(GATE), &taking, &bytes(QUBITS), statement]);
        Recorded::run(name, program, [0, 0, 4, steps], &gates(wires))
    };
    // A call, a loop, and a round, a parameter's call and a gate for each wire.
    vec![
        row("a parameter in a loop", &call, 14, &[0, 1, 2, 3]),
        row(
            "a parameter in a loop, backward",
            &reverse(&call),
            15,
            &[3, 2, 1, 0],
        ),
    ]
}

/// L for a parameter g: g on two wires of four, then backward on three of them.
fn sized() -> Vec<Recorded> {
    let two = parameter_call(1, &[&number(2), &between(0, 1, 2)]);
    let three = parameter_call(1, &[&number(3), &bytes(FIRST)]);
    let body = joined(&[&two, &reverse(&three)]);
    let taking = family(0, &[OF_FOUR, ON_N_WIRES], &body);
    let program = |statement: &[u8]| {
        let qubits = bytes("02 02 00 01 00 02 02 00 04 00");
        joined(&[&bytes(L), &taking, &qubits, statement])
    };
    let call = call(1, &[&bytes("30 01 00 01"), &passed(0)]);
    let row = |name, statement: &[u8], steps, wires: &[u16]| {
        Recorded::run(name, program(statement), [0, 0, 5, steps], &gates(wires))
    };
    // A call; a parameter's call and its loop with two rounds of two steps; a reversal, a
    // parameter's call and its loop with three. The four qubits begin at wire 1.
    vec![
        row("L through a parameter", &call, 16, &[2, 3, 3, 2, 1]),
        row(
            "L through a parameter, backward",
            &reverse(&call),
            17,
            &[1, 2, 3, 3, 2],
        ),
    ]
}

/// A family that asks for fewer wires than the parameter: h on the first of three.
fn larger() -> Vec<Recorded> {
    let one = family(0, &["11 05 00 40 02 00 01 00"], &field(0x20, &element(0)));
    let formal = "12 0a 00 00 01 11 05 00 40 02 00 03 00";
    let inner = parameter_call(1, &[&between(0, 1, 3)]);
    let taking = family(0, &[OF_FOUR, formal], &inner);
    let call = call(1, &[&bytes(FIRST), &passed(0)]);
    let program = joined(&[&one, &taking, &bytes(QUBITS), &call]);
    let row = Recorded::run("one of three wires", program, [0, 0, 1, 3], &gates(&[1]));
    vec![row]
}

/// x:Qbit and two families f and g, f(x) and g(x), behind two families on a wire.
fn two_parameters(first: u16, second: u16) -> Vec<u8> {
    let [f, g] = [1, 2].map(|operand| parameter_call(operand, &[&bytes(FIRST)]));
    let taking = family(0, &[QBIT, ON_A_WIRE, ON_A_WIRE], &joined(&[&f, &g]));
    let call = call(2, &[&bytes(WIRE), &passed(first), &passed(second)]);
    let families = joined(&[&bytes(GATE), &bytes(T_GATE), &taking]);
    joined(&[&families, &bytes(QUBIT), &call, &reverse(&call)])
}

/// Two families for two parameters, in both orders, and one for both; forward, then backward.
fn several() -> Vec<Recorded> {
    let row = |name, (first, second), records: [&str; 4]| {
        let program = two_parameters(first, second);
        Recorded::run(name, program, [0, 0, 4, 11], &records.join(" "))
    };
    let text = "OPENQASM 2.0;\ninclude \"qelib1.inc\";\nqreg q[1];\n\
        h q[0];\nt q[0];\ntdg q[0];\nh q[0];\n";
    vec![
        row("two families", (0, 1), [H, T, TDG, H]),
        row("two families exchanged", (1, 0), [T, H, H, TDG]),
        row("one family for both", (0, 0), [H, H, H, H]),
        row("the other family for both", (1, 1), [T, T, TDG, TDG]),
        row("two families, printed", (0, 1), [H, T, TDG, H]).printed(text),
    ]
}

/// The first two families; the third passes the first to the second; the fourth is as the
/// second, and the fifth passes the third to it.
fn chain(statements: &[u8]) -> Vec<u8> {
    let passing = |to, given| {
        let call = call(to, &[&bytes(FIRST), &passed(given)]);
        family(0, &[QBIT], &call)
    };
    behind(&joined(&[
        &passing(1, 0),
        &bytes(TAKING),
        &passing(3, 2),
        &bytes(QUBIT),
        statements,
    ]))
}

/// Families that are passed and pass others, unrolled and in a run.
fn chains() -> Vec<Recorded> {
    let wire = bytes(WIRE);
    let last = call(4, &[&wire]);
    let direct = call(3, &[&wire, &passed(0)]);
    let passing = call(3, &[&wire, &passed(2)]);
    let unrolled = |name, family, steps| {
        Recorded::instance(name, chain(&[]), (family, ""), [0, 0, 1, steps], H)
    };
    let row =
        |name, statement: &[u8], steps| Recorded::run(name, chain(statement), [0, 0, 1, steps], H);
    vec![
        unrolled("the first of a chain", 0, 1),
        unrolled("the third of a chain", 2, 3),
        unrolled("the last of a chain", 4, 5),
        row("a chain", &last, 6),
        row("a chain, backward", &reverse(&last), 7),
        row("a chain from its fourth", &passing, 5),
        row("the fourth with the first", &direct, 3),
    ]
}

/// A passed family in an if, and behind it.
fn conditions() -> Vec<Recorded> {
    let call = given(&passed(0));
    let start = bytes("01 31 06 00 01 40 02 00 02 00");
    let tested = field(6, &joined(&[&start, &call]));
    let bits = bytes("03 02 00 03 00");
    let program = behind(&joined(&[&bytes(QUBIT), &bits, &tested, &call]));
    let records = format!("01 02 00 00 00 00 02 00 00 00 00 00 {H}");
    let text = "OPENQASM 2.0;\ninclude \"qelib1.inc\";\nqreg q[1];\n\
        creg c0[1];\ncreg c1[1];\ncreg c2[1];\nif(c2==1) h q[0];\nh q[0];\n";
    let row = |name| Recorded::run(name, program.clone(), [0, 0, 2, 7], &records);
    vec![
        row("a passed family in an if"),
        row("a passed family in an if, printed").printed(text),
    ]
}

/// x:Qbit over k, a phase by k, for a parameter that is called with 3 and backward with 5.
fn phases() -> Vec<Recorded> {
    let turn = field(0x28, &joined(&[&variable(0), &bytes(FIRST)]));
    let formal = "12 05 00 01 01 10 00 00";
    let [three, five] = [3, 5].map(|k| parameter_call(1, &[&number(k), &bytes(FIRST)]));
    let body = joined(&[&three, &reverse(&five)]);
    let program = joined(&[
        &family(1, &[QBIT], &turn),
        &family(0, &[QBIT, formal], &body),
        &bytes(QUBIT),
        &given(&passed(0)),
    ]);
    let records = "07 00 00 00 00 00 00 00 03 00 00 00 08 00 00 00 00 00 00 00 05 00 00 00";
    let row = Recorded::run("phases through a parameter", program, [0, 0, 2, 6], records);
    vec![row]
}
