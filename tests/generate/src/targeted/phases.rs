//! Phases near their rules: what is shown of k, what k's field is, and how runs end.

use super::with;
use crate::build::*;
use crate::case::Case;
use crate::damage;
use crate::library;
use crate::random::Random;
use reference::RECORD_BYTES;

/// A number about 0 or about the largest k of a run.
fn near(random: &mut Random) -> u16 {
    random.pick(&[0, 0, 1, 2, 62, 63, 64, 65, 65_535])
}

/// A phase or a cphase on wires of register 0.
fn gate(k: Field, wires: [Field; 2], random: &mut Random) -> Field {
    let [first, second] = wires;
    match random.percent(50) {
        true => phase(k, first),
        false => cphase(k, first, second),
    }
}

/// A statement as it is, reversed, in a loop of two rounds, or with a gate before it.
pub(super) fn around(statement: Field, random: &mut Random) -> Vec<Field> {
    match random.below(4) {
        0 => vec![reverse(vec![statement, h(at(0, 0))])],
        1 => vec![repeat(literal(1), literal(2), vec![statement])],
        2 => vec![t(at(0, 1)), statement],
        _ => vec![statement],
    }
}

/// A statement of a program with three qubits and a bit, at the top or in an if.
fn at_top(statement: Field, random: &mut Random) -> Case {
    let mut fields = vec![qreg(3), creg(1)];
    let body = around(statement, random);
    match random.percent(30) {
        true => fields.push(when(random.below(2) as u8, at(1, 0), body)),
        false => fields.extend(body),
    }
    with(&fields, &[])
}

/// An operand that is a wire of register 0, or none, or not in scope.
fn some_operand(random: &mut Random) -> Field {
    match random.below(20) {
        0 => whole(0),
        1 => at(1, 0),
        2 => at(0, 3),
        3 => at(2, 0),
        wire => at(0, wire as u16 % 3),
    }
}

/// A k about 0 that is shown or not, over a size and a loop from 1 to the size.
pub fn shown(random: &mut Random) -> Case {
    let number = near(random);
    let k = match random.below(8) {
        0 => literal(number),
        1 => difference(literal(number), literal(near(random))),
        2 => minus(0, random.below(2) as u16),
        3 => minus(1, random.below(3) as u16),
        4 => difference(variable(0), variable(1)),
        5 => difference(variable(1), variable(0)),
        6 => difference(literal(number), variable(1)),
        _ => difference(product(literal(number), variable(0)), variable(1)),
    };
    let operands = [0, 1].map(|_| some_operand(random));
    let statement = gate(k, operands, random);
    let round = around(statement, random);
    let body = vec![repeat(literal(1), variable(0), round)];
    let types = vec![qbits(literal(3)), qbits(variable(0))];
    with(&[family(1, types, body)], &[random.below(4) as u32])
}

/// A phase whose tag, k or operands are damaged.
pub fn read(random: &mut Random) -> Case {
    let k = literal(near(random));
    let mut statement = gate(k, [at(0, 0), at(0, 1)], random);
    damage::phase_field(&mut statement, random);
    at_top(statement, random)
}

/// Runs in which several ends are near: no step, no room, one wire twice, k too large. The
/// second wire is that of a loop's variable.
pub fn ended(random: &mut Random) -> Case {
    let k = literal(near(random));
    let [first, second] = [0, 1].map(|_| random.below(3) as u16);
    let operands = [at(0, first), element(0, variable(0))];
    let inner = gate(k, operands, random);
    let statement = repeat(literal(second), literal(second), vec![inner]);
    let mut case = at_top(statement, random);
    case.limit = random.pick(&[0, 1, 2, 3, 4, 5, 10_000, 10_000]);
    case.output = random.pick(&[
        0,
        RECORD_BYTES - 1,
        RECORD_BYTES,
        2 * RECORD_BYTES - 1,
        RECORD_BYTES * 500,
    ]);
    case
}

/// Values out of range in k, in an operand or in both, beside a k that is too large and one
/// wire twice.
pub fn far_values(random: &mut Random) -> Case {
    let big = || product(literal(50_000), variable(0));
    let zero = || difference(big(), big());
    let k = match random.below(4) {
        0 => zero(),
        1 => sum(literal(near(random)), zero()),
        2 => big(),
        _ => variable(0),
    };
    let operands = [0, 1].map(|_| match random.below(5) {
        0 => element(0, zero()),
        1 => element(0, sum(variable(1), zero())),
        2 => element(0, variable(1)),
        wire => at(0, wire as u16 - 3),
    });
    let inner = gate(k, operands, random);
    let statement = repeat(literal(0), literal(0), vec![inner]);
    let types = vec![qbits(literal(3)), qbits(variable(0))];
    let body = around(statement, random);
    let number = random.pick(&[0, 1, 63, 64, 40_000, 40_001]);
    let mut case = with(&[family(1, types, body)], &[number]);
    case.output = random.pick(&[0, RECORD_BYTES, RECORD_BYTES * 500]);
    case.limit = random.pick(&[0, 1, 3, 10_000]);
    case
}

/// Fourier transforms and their inverses, at sizes about those whose k is the largest.
pub fn transforms(random: &mut Random) -> Case {
    let number = random.pick(&[0, 1, 2, 3, 5, 9, 62, 63, 64, 70]);
    let mut case = with(&library::fourier(), &[number]);
    case.family = random.below(2) as u32;
    case.output = RECORD_BYTES * random.pick(&[500, 2_500]);
    case
}
