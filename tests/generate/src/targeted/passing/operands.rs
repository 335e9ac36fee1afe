//! Operands that name families, in all places; parameters that are handed on; and calls of what
//! is a family or is none.

use super::super::phases::around;
use super::super::slices::each;
use super::super::with;
use super::{gate_family, register_family, wire_family};
use crate::build::*;
use crate::case::Case;
use crate::damage;
use crate::random::Random;

/// Five families. The first is on a wire, the second over n on a register; the third takes a
/// wire and a family like the first, the fourth a register and one like the second; the fifth
/// is on a wire again.
fn families() -> Vec<Field> {
    let once = parameter_call(1, vec![], vec![whole(0)]);
    let sized = parameter_call(1, vec![literal(2)], vec![whole(0)]);
    vec![
        gate_family(h),
        each(),
        family(0, vec![qbit(), wire_family()], vec![once]),
        family(0, vec![qbits(literal(3)), register_family()], vec![sized]),
        gate_family(t),
    ]
}

/// The number of families that there are.
const FAMILIES: u16 = 5;

/// A statement behind the families, at the top with three qubits and a bit.
fn at_top(statement: Field, random: &mut Random) -> Case {
    let mut fields = families();
    fields.extend([qreg(3), creg(1)]);
    match random.below(5) {
        0 if statement.tag > 6 => fields.push(when(0, at(1, 0), vec![statement])),
        1 | 2 if statement.tag > 6 => fields.extend(around(statement, random)),
        _ => fields.push(statement),
    }
    with(&fields, &[])
}

/// A statement behind the families, in a family with a wire, a register of three and two
/// families.
fn in_family(statement: Field, random: &mut Random) -> Case {
    let mut fields = families();
    fields.push(within(statement));
    let mut case = with(&fields, &[]);
    case.family = random.pick(&[0, 1, FAMILIES.into()]);
    case
}

/// A family that has a statement, with a wire, a register of three and two families.
fn within(statement: Field) -> Field {
    let types = vec![qbit(), qbits(literal(3)), wire_family(), register_family()];
    family(0, types, vec![statement])
}

/// A number of a family about those that there are.
fn some_number(random: &mut Random) -> u16 {
    match random.below(12) {
        0 => FAMILIES + 1,
        1 => random.pick(&[256, 65_535, 512, 257]),
        _ => random.below(usize::from(FAMILIES) + 1) as u16,
    }
}

/// A passed family whose content may be too short or too long.
fn some_passed(random: &mut Random) -> Field {
    let mut operand = passed(some_number(random));
    match random.below(10) {
        0 => operand.head.truncate(random.below(2)),
        1 | 2 => operand.tail.push(random.byte()),
        _ => {}
    }
    operand
}

/// Calls with a passed family in each place: where a family is due, a wire or a register.
pub fn read(random: &mut Random) -> Case {
    let operand = some_passed(random);
    let statement = match random.below(8) {
        0 => call(0, vec![], vec![operand]),
        1 => call(1, vec![literal(1)], vec![operand]),
        2 => call(2, vec![], vec![operand, passed(0)]),
        3 => call(3, vec![], vec![operand, passed(1)]),
        4 | 5 => call(2, vec![], vec![at(0, 0), operand]),
        _ => call(3, vec![], vec![whole(0), operand]),
    };
    at_top(statement, random)
}

/// Calls in a family whose operands are its own, with passed families of all numbers.
pub fn numbers(random: &mut Random) -> Case {
    let operand = some_passed(random);
    let statement = match random.below(6) {
        0 => call(2, vec![], vec![operand, passed(0)]),
        1 => call(3, vec![], vec![operand, passed(1)]),
        2 | 3 => call(2, vec![], vec![whole(0), operand]),
        _ => call(3, vec![], vec![whole(1), operand]),
    };
    let mut fields = families();
    fields.push(within(statement));
    let mut call = call(FAMILIES, vec![], vec![at(0, 2), whole(0)]);
    call.parts.extend([passed(random.pick(&[0, 4])), passed(1)]);
    fields.extend([qreg(3), call]);
    with(&fields, &[])
}

/// Families that are passed to themselves, to earlier ones and in their own bodies.
pub fn itself(random: &mut Random) -> Case {
    let types = vec![qbit(), wire_family()];
    let called = random.pick(&[1, 1, 1, 2, 0]);
    let inner = call(
        called,
        vec![],
        vec![whole(0), passed(random.below(3) as u16)],
    );
    let taking = |body| family(0, types.clone(), body);
    let once = parameter_call(1, vec![], vec![whole(0)]);
    let own = match random.percent(40) {
        true => vec![once.clone(), inner],
        false => vec![once.clone()],
    };
    let given = passed(random.below(5) as u16);
    let called = random.pick(&[1, 2, 2, 2, 0, 3]);
    let fields = [
        gate_family(h),
        taking(vec![once]),
        taking(own),
        gate_family(t),
        qreg(1),
        call(called, vec![], vec![at(0, 0), given]),
    ];
    with(&fields, &[])
}

/// A passed family where a wire, a bit, an index or a statement is due.
pub fn places(random: &mut Random) -> Case {
    let operand = some_passed(random);
    let inside = random.percent(40);
    let wire = if inside { whole(0) } else { at(0, 0) };
    let kinds = if inside { 11 } else { 15 };
    let statement = match random.below(kinds) {
        0 => h(operand),
        1 => cx(wire, operand),
        2 => cx(operand, wire),
        3 => phase(literal(1), operand),
        4 => phase(operand, wire),
        5 => cphase(literal(1), wire, operand),
        6 => repeat(literal(0), operand, vec![]),
        7 => reverse(vec![operand]),
        8 => call(1, vec![operand], vec![whole(0)]),
        9 => h(element(0, operand)),
        10 => call(0, vec![], vec![operand]),
        11 => measure(operand, at(1, 0)),
        12 => measure(wire, operand),
        13 => reset(operand),
        _ => when(1, operand, vec![]),
    };
    match inside {
        true => in_family(statement, random),
        false => at_top(statement, random),
    }
}

/// An operand that names a parameter of `within`, or none, in any way.
fn some_name(random: &mut Random) -> Field {
    let number = random.pick(&[2, 2, 2, 3, 3, 3, 0, 1, 4]);
    let mut operand = match random.below(4) {
        0 | 1 => whole(number),
        2 => at(number, random.below(4) as u16),
        _ => between(number, random.below(3) as u16, random.below(4) as u16),
    };
    match random.below(12) {
        0 => operand.tail.push(0),
        1 => operand.parts.truncate(random.below(2)),
        2 => operand.head.clear(),
        _ => {}
    }
    operand
}

/// Family parameters named where something else is due, and handed on.
pub fn handed_on(random: &mut Random) -> Case {
    let operand = some_name(random);
    let statement = match random.below(10) {
        0 => h(operand),
        1 => cx(whole(0), operand),
        2 => phase(literal(0), operand),
        3 => call(0, vec![], vec![operand]),
        4 => call(1, vec![literal(1)], vec![operand]),
        5 => parameter_call(2, vec![], vec![operand]),
        6 => parameter_call(3, vec![literal(2)], vec![operand]),
        7 => call(3, vec![], vec![whole(1), operand]),
        _ => call(2, vec![], vec![whole(0), operand]),
    };
    let mut fields = families();
    fields.push(within(statement));
    with(&fields, &[])
}

/// A call of a parameter of `within`, or of what is none, with operands that mostly suit.
fn some_call(random: &mut Random) -> Field {
    let number = random.pick(&[2, 2, 2, 3, 3, 3, 3, 0, 1, 4, 255]);
    let size = match random.below(6) {
        0 => difference(literal(0), literal(1)),
        1 => literal(4),
        2 => literal(3),
        _ => literal(random.below(3) as u16),
    };
    let register = match random.below(5) {
        0 => between(1, 1, 2),
        1 => between(1, random.below(3) as u16, random.below(4) as u16),
        2 => passed(random.below(6) as u16),
        _ => whole(1),
    };
    let wire = match random.below(5) {
        0 => at(1, random.below(4) as u16),
        1 => passed(random.below(6) as u16),
        _ => whole(0),
    };
    let mut statement = match number {
        3 => parameter_call(3, vec![size], vec![register]),
        _ => parameter_call(number, vec![], vec![wire]),
    };
    if random.percent(25) {
        damage::passing_field(&mut statement, random);
    }
    statement
}

/// A call of a parameter, or of what is none, in a family or at the top.
pub fn parameter_calls(random: &mut Random) -> Case {
    let statement = some_call(random);
    if random.percent(12) {
        return at_top(statement, random);
    }
    let looped = match random.below(4) {
        0 => reverse(vec![statement, t(whole(0))]),
        1 => repeat(literal(0), literal(1), vec![statement]),
        _ => statement,
    };
    let mut fields = families();
    let operands = vec![at(0, 3), whole(0), passed(random.pick(&[0, 4])), passed(1)];
    fields.extend([within(looped), qreg(4), call(FAMILIES, vec![], operands)]);
    with(&fields, &[])
}
