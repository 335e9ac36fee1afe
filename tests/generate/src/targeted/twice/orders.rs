//! Which fault comes first: in a gate that names one wire twice, and beside such a gate.

use super::gate;
use crate::build::*;
use crate::case::Case;
use crate::damage;
use crate::random::Random;
use crate::targeted::slices::short_of;
use crate::targeted::{with, wrapped_index};

/// The index 0 - 1.
fn below() -> Field {
    difference(literal(0), literal(1))
}

/// The index 65,535 times 65,535, which no form may have.
fn past() -> Field {
    product(literal(65_535), literal(65_535))
}

/// A product of a variable with itself, which is no form.
fn square() -> Field {
    product(variable(0), variable(0))
}

/// Statements of a program with three qubits, two bits and two qubits: as they are, in an if,
/// reversed, in a loop with rounds or without, or in a family that may be called or not.
fn placed(statements: Vec<Field>, random: &mut Random) -> Case {
    let inside = match random.below(6) {
        0 => vec![reverse(statements)],
        1 => vec![repeat(literal(0), literal(1), statements)],
        2 => vec![repeat(literal(1), literal(0), statements)],
        _ => statements,
    };
    let mut fields = vec![qreg(3), creg(2), qreg(2)];
    match random.below(5) {
        0 => fields.push(when(random.below(2) as u8, at(1, 1), inside)),
        1 => {
            let types = vec![qbits(literal(3)), qbit(), qbits(literal(2))];
            fields.push(family(0, types, inside));
            if random.percent(50) {
                let called = call(0, vec![], vec![whole(0), at(2, 0), whole(2)]);
                fields.push(called);
            }
        }
        _ => fields.extend(inside),
    }
    with(&fields, &[])
}

/// An operand that is turned down: by its kind, by what is not in scope, by its index or by
/// its content.
fn faulty(random: &mut Random) -> Field {
    match random.below(16) {
        0 => whole(0),
        1 => at(1, 0),
        2 => at(0, 3),
        3 => element(0, below()),
        4 => at(7, 0),
        5 => whole(7),
        6 => element(0, variable(5)),
        7 => between(0, 0, 0),
        8 => passed(random.below(2) as u16),
        9 => element(0, square()),
        10 => element(0, past()),
        11 => element(0, wrapped_index(16, random)),
        12 => Field::new(random.pick(&[16, 35, 52, 64]), &[0], vec![]),
        13 => Field::new(49, &[0], vec![]),
        14 => Field {
            tail: vec![random.byte()],
            ..at(0, 1)
        },
        _ => slice(0, below(), past()),
    }
}

/// A gate whose operands are the same or not, where one of them or both are turned down, or
/// bytes are left over.
pub fn operands(random: &mut Random) -> Case {
    let wire = || at(0, 1);
    let [first, second] = match random.below(6) {
        0 => [faulty(random), wire()],
        1 => [wire(), faulty(random)],
        2 => [faulty(random), faulty(random)],
        3 => {
            let both = faulty(random);
            [both.clone(), both]
        }
        _ => [wire(), wire()],
    };
    let mut gate = gate(first, second, random);
    match random.below(8) {
        0 | 1 => gate.tail = vec![random.byte(); 1 + random.below(4)],
        2 => gate.parts.push(wire()),
        3 => {
            gate.parts.pop();
        }
        _ => {}
    }
    placed(vec![gate], random)
}

/// Gates on what a number in a family names, twice: wires, registers, their elements and
/// slices, and families.
pub fn kinds(random: &mut Random) -> Case {
    let types = vec![
        qbit(),
        qbits(literal(2)),
        family_type(0, vec![qbit()]),
        qbit(),
    ];
    let number = random.below(5) as u8;
    let other = match random.percent(70) {
        true => number,
        false => random.below(5) as u8,
    };
    let [first, second] = [number, other].map(|number| match random.below(5) {
        0 | 1 => whole(number),
        2 | 3 => at(number, 1),
        _ => between(number, 1, 1),
    });
    let body = vec![h(whole(0)), gate(first, second, random)];
    with(&[family(0, types, body)], &[])
}

/// A gate in which one operand is put in the place of the other, in some spelling, and at times
/// something else is damaged.
pub fn damaged(random: &mut Random) -> Case {
    let (one, two) = match random.percent(50) {
        true => (at(0, 1), at(0, 2)),
        false => (element(0, plus(0, 1)), at(2, 1)),
    };
    let mut damaged = gate(one, two, random);
    damage::pair_field(&mut damaged, random);
    let looped = repeat(literal(0), literal(1), vec![damaged]);
    placed(vec![looped], random)
}

/// A statement that is accepted, turned down for one wire twice, or for something else.
fn some_statement(random: &mut Random) -> Field {
    match random.below(12) {
        0..=3 => h(at(0, 1)),
        4..=7 => gate(at(0, 1), at(0, 1), random),
        8 => h(faulty(random)),
        9 => gate(at(0, 1), faulty(random), random),
        10 => Field::new(random.pick(&[0, 4, 43, 48]), &[], vec![]),
        _ => call(9, vec![], vec![]),
    }
}

/// Some statements, of which one or more are turned down, in lists in each other.
pub fn beside(random: &mut Random) -> Case {
    let mut statements: Vec<Field> = (0..random.between(2, 4))
        .map(|_| some_statement(random))
        .collect();
    if random.percent(40) {
        let inner = statements.split_off(random.below(statements.len()));
        statements.push(reverse(inner));
        statements.push(some_statement(random));
    }
    let mut case = placed(statements, random);
    if random.percent(5) {
        case.program.push(random.byte());
    }
    case
}

/// A cphase on one wire or two, by a k that is turned down, that ends a run or that does not;
/// the wires are one by their forms, or in one round only.
pub fn turns(random: &mut Random) -> Case {
    let k = match random.below(12) {
        0 => below(),
        1 => difference(literal(0), variable(0)),
        2 => past(),
        3 => square(),
        4 => variable(4),
        5 => wrapped_index(16, random),
        6 | 7 => literal(random.pick(&[64, 65, 65_535])),
        8 => sum(literal(63), variable(0)),
        _ => literal(random.below(64) as u16),
    };
    let [first, second] = match random.below(5) {
        0 | 1 => [at(0, 1), at(0, 1)],
        2 => [element(0, variable(0)), element(0, plus(0, 0))],
        3 => [element(0, variable(0)), at(0, random.below(3) as u16)],
        _ => [at(0, 1), at(0, 2)],
    };
    let mut turn = cphase(k, first, second);
    if random.percent(10) {
        turn.tail.push(random.byte());
    }
    let looped = repeat(literal(0), literal(random.below(3) as u16), vec![turn]);
    let mut case = placed(vec![looped], random);
    if random.percent(30) {
        short_of(&mut case, random);
    }
    case
}
