//! Two wires that are one in a run only: parameters that stand for the same wire, slices that
//! meet, and registers that are passed twice.

use super::gate;
use crate::build::*;
use crate::case::Case;
use crate::random::Random;
use crate::targeted::phases::around;
use crate::targeted::slices::short_of;
use crate::targeted::with;

/// A family on two wires with a gate on them, or at times on the first twice.
fn on_two(random: &mut Random) -> Field {
    let second = match random.percent(10) {
        true => whole(0),
        false => whole(1),
    };
    let gate = gate(whole(0), second, random);
    family(0, vec![qbit(), qbit()], vec![gate])
}

/// A wire of the first register, in a loop of two rounds or outside.
fn some_wire(in_a_loop: bool, random: &mut Random) -> Field {
    match in_a_loop && random.percent(50) {
        true => element(0, plus(0, random.below(2) as u16)),
        false => at(0, random.below(3) as u16),
    }
}

/// A family on two wires that is called with one wire twice or with two, by itself or by a
/// family on one wire or on a register.
pub fn parameters(random: &mut Random) -> Case {
    let twice = call(0, vec![], vec![whole(0), whole(0)]);
    let cells = vec![element(0, variable(1)), element(0, minus(0, 1))];
    let each = repeat(literal(0), minus(0, 1), vec![call(0, vec![], cells)]);
    let in_a_loop = random.percent(50);
    let [one, two] = [0, 1].map(|_| some_wire(in_a_loop, random));
    let statement = match random.below(5) {
        0 => call(1, vec![], vec![one]),
        1 => call(2, vec![literal(random.below(4) as u16)], vec![whole(0)]),
        2 => call(0, vec![], vec![one.clone(), one]),
        _ => call(0, vec![], vec![one, two]),
    };
    let mut fields = vec![
        on_two(random),
        family(0, vec![qbit()], vec![twice]),
        family(1, vec![qbits(variable(0))], vec![each]),
        qreg(3),
    ];
    fields.extend(match in_a_loop {
        true => vec![repeat(literal(0), literal(1), vec![statement])],
        false => around(statement, random),
    });
    let mut case = with(&fields, &[1]);
    case.family = random.below(3) as u32;
    if case.family < 2 {
        case.sizes.clear();
    }
    case
}

/// A family on two registers of two wires and one more, which is called with slices of one
/// register that meet or do not, with a register twice, and with a wire of it.
pub fn meeting_slices(random: &mut Random) -> Case {
    let mut cell = || at(random.below(2) as u8, random.below(2) as u16);
    let (one, two) = (cell(), cell());
    let gates = vec![gate(one, two, random), gate(at(0, 1), whole(2), random)];
    let body = match random.percent(40) {
        true => vec![reverse(gates)],
        false => gates,
    };
    let types = vec![qbits(literal(2)), qbits(literal(2)), qbit()];
    let mut part = || match random.below(8) {
        0 => whole(0),
        from => between(0, from as u16 % 4, from as u16 % 4 + 1),
    };
    let operands = vec![part(), part(), at(0, random.below(5) as u16)];
    let statement = call(0, vec![], operands);
    let mut fields = vec![family(0, types, body), qreg(5)];
    fields.extend(around(statement, random));
    with(&fields, &[])
}

/// A family on two wires that is passed and called as a parameter, with one wire twice or two.
pub fn passed_families(random: &mut Random) -> Case {
    let number = |random: &mut Random| random.pick(&[0, 0, 1]);
    let operands = [0, 1].map(|_| match random.below(3) {
        0 => at(2, random.below(2) as u16),
        _ => whole(number(random)),
    });
    let inner = parameter_call(3, vec![], operands.to_vec());
    let types = vec![
        qbit(),
        qbit(),
        qbits(literal(2)),
        family_type(0, vec![qbit(), qbit()]),
    ];
    let body = match random.percent(30) {
        true => vec![reverse(vec![inner])],
        false => vec![inner],
    };
    let [one, two] = [0, 1].map(|_| at(0, random.below(3) as u16));
    let top = call(1, vec![], vec![one, two, between(0, 0, 1), passed(0)]);
    let mut fields = vec![on_two(random), family(0, types, body), qreg(3)];
    fields.extend(around(top, random));
    let mut case = with(&fields, &[]);
    case.family = random.below(2) as u32;
    case
}

/// Such runs with few steps, or with little room.
pub fn ended(random: &mut Random) -> Case {
    let mut case = match random.below(3) {
        0 => meeting_slices(random),
        1 => passed_families(random),
        _ => parameters(random),
    };
    short_of(&mut case, random);
    case
}
