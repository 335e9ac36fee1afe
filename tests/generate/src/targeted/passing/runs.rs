//! Runs through parameters: chains of families that are passed, several at once, and how such
//! runs end.

use super::super::phases::around;
use super::super::slices::{each, short_of};
use super::super::with;
use super::{gate_family, register_family, wire_family};
use crate::build::*;
use crate::case::Case;
use crate::library;
use crate::random::Random;
use reference::RECORD_BYTES;

/// Families on a wire and families that take one, by turns: each of the first kind passes an
/// earlier one to the last of the second kind, which calls it.
pub fn chains(random: &mut Random) -> Case {
    let mut fields = vec![gate_family(random.pick(&[h, t, tdg]))];
    let mut plain = vec![0];
    for _ in 0..random.between(1, 5) {
        let number = fields.len() as u16;
        let once = parameter_call(1, vec![], vec![whole(0)]);
        let mut body = around_whole(once, random);
        body.push(random.pick(&[h, t, tdg])(whole(0)));
        fields.push(family(0, vec![qbit(), wire_family()], body));
        let given = random.pick(&plain);
        let passing = call(number, vec![], vec![whole(0), passed(given)]);
        fields.push(family(0, vec![qbit()], around_whole(passing, random)));
        plain.push(number + 1);
    }
    let last = fields.len() as u16 - 1;
    let top = match random.percent(50) {
        true => call(last, vec![], vec![at(0, 1)]),
        false => call(
            last - 1,
            vec![],
            vec![at(0, 1), passed(random.pick(&plain[..plain.len() - 1]))],
        ),
    };
    fields.extend([qreg(2), creg(1)]);
    match random.percent(30) {
        true => fields.push(when(1, at(1, 0), around(top, random))),
        false => fields.extend(around(top, random)),
    }
    let mut case = with(&fields, &[]);
    case.family = random.pick(&[last, last, last - 1, 0]).into();
    case
}

/// A statement as it is, reversed, or in a loop of two rounds.
fn around_whole(statement: Field, random: &mut Random) -> Vec<Field> {
    match random.below(4) {
        0 => vec![reverse(vec![statement, t(whole(0))])],
        1 => vec![repeat(literal(1), literal(2), vec![statement])],
        _ => vec![statement],
    }
}

/// A family with up to six parameters that are families, each called in some order, and a
/// register on which they are called.
pub fn several(random: &mut Random) -> Case {
    let count = random.between(1, 6) as u8;
    let mut types = vec![qbit(), qbits(literal(4))];
    let sized: Vec<bool> = (0..count).map(|_| random.percent(50)).collect();
    types.extend(sized.iter().map(|&sized| match sized {
        true => register_family(),
        false => wire_family(),
    }));
    let once = |random: &mut Random| {
        let place = random.below(sized.len());
        let number = place as u8 + 2;
        match sized[place] {
            true => {
                let first = random.below(3) as u16;
                let part = between(1, first, first + 1);
                parameter_call(number, vec![literal(random.below(3) as u16)], vec![part])
            }
            false => parameter_call(number, vec![], vec![whole(0)]),
        }
    };
    let body = (0..random.between(1, 6)).map(|_| once(random)).collect();
    let mut operands = vec![at(0, 4), between(0, 0, 3)];
    operands.extend(sized.iter().map(|&sized| match sized {
        true => passed(random.pick(&[1, 3])),
        false => passed(random.pick(&[0, 2])),
    }));
    let fields = [
        gate_family(h),
        each(),
        gate_family(t),
        shorter(),
        family(0, types, body),
        qreg(5),
        reverse(vec![call(4, vec![], operands)]),
    ];
    with(&fields, &[])
}

/// A family over n that has nothing to do with its register.
fn shorter() -> Field {
    family(1, vec![qbits(literal(0))], vec![])
}

/// Such runs with few steps or little room.
pub fn ended(random: &mut Random) -> Case {
    let mut case = match random.below(3) {
        0 => several(random),
        1 => multipliers(random),
        _ => chains(random),
    };
    short_of(&mut case, random);
    case
}

/// Values out of range, wires that meet and a k that is too large, all in calls of a parameter.
pub fn values(random: &mut Random) -> Case {
    let big = || product(literal(50_000), variable(0));
    let mut far = |value: u16| match random.below(3) {
        0 => sum(literal(value), difference(big(), big())),
        _ => literal(value),
    };
    let [k, first, other, same] = [1, 0, 1, 0].map(&mut far);
    let second = match random.percent(25) {
        true => same,
        false => other,
    };
    let operands = vec![element(0, first), element(0, second)];
    let inner = parameter_call(1, vec![k], operands);
    let types = vec![
        qbits(literal(2)),
        family_type(1, vec![qbit(), qbit()]),
        qbits(variable(0)),
    ];
    let size = literal(random.pick(&[1, 40_000, 40_001, 40_001]));
    let gate = match random.below(4) {
        0 => cphase(product(literal(64), variable(0)), whole(0), whole(1)),
        1 => cphase(variable(0), whole(0), whole(1)),
        2 => cx(whole(1), whole(0)),
        _ => cx(whole(0), whole(1)),
    };
    let pair = family(1, vec![qbit(), qbit()], vec![gate]);
    let taking = family(1, types, around(inner, random));
    let top = call(1, vec![size], vec![between(0, 0, 1), passed(0), whole(0)]);
    let mut case = with(&[pair, taking, qreg(65_000), top], &[1]);
    if random.percent(40) {
        short_of(&mut case, random);
    }
    case
}

/// Products without carries whose adder is passed, and their inverses, at small sizes.
pub fn multipliers(random: &mut Random) -> Case {
    let size = random.below(4) as u32;
    let mut fields = library::passed_multiplier();
    let wires = size as u16;
    fields.push(qreg(4 * wires));
    let operands = vec![
        slice(0, literal(0), minus_one(wires)),
        slice(0, literal(wires), minus_one(2 * wires)),
        slice(0, literal(2 * wires), minus_one(4 * wires)),
    ];
    let number = random.between(3, 4) as u16;
    let once = call(number, vec![literal(wires)], operands);
    fields.extend(match random.percent(50) {
        true => vec![once],
        false => vec![reverse(vec![once])],
    });
    let mut case = with(&fields, &[size]);
    case.family = random.between(1, 4) as u32;
    case.output = RECORD_BYTES * 1_000;
    case
}

/// A number less 1 as an index.
fn minus_one(number: u16) -> Field {
    difference(literal(number), literal(1))
}

/// Instances of families that take families, of others and of none, with all kinds of sizes.
pub fn instances(random: &mut Random) -> Case {
    let own = vec![qbits(variable(0)), register_family()];
    let once = parameter_call(1, vec![variable(0)], vec![whole(0)]);
    let fields = [
        each(),
        family(1, own, vec![once]),
        family(0, vec![wire_family()], vec![]),
        family(4, vec![qbit(), wire_family()], vec![]),
        family(
            1,
            vec![qbits(variable(0))],
            vec![call(1, vec![variable(0)], vec![whole(0), passed(0)])],
        ),
    ];
    let count = random.below(5);
    let size = random.pick(&[0, 1, 2, 3, 65_535, 65_536, u32::MAX]);
    let mut case = with(&fields, &vec![size; count]);
    if random.percent(20) {
        case.sizes.push(0);
    }
    if random.percent(10) {
        case.program.push(random.byte());
    }
    case.family = random.below(7) as u32;
    case.limit = 1_000;
    case
}

/// About 260 families, of which one is passed by a number that takes two bytes.
pub fn far_numbers(random: &mut Random) -> Case {
    let gates = [h, t, tdg];
    let count = 257 + random.below(5);
    let mut fields: Vec<Field> = (0..count)
        .map(|number| gate_family(gates[number % 3]))
        .collect();
    let once = parameter_call(1, vec![], vec![whole(0)]);
    let taking = random.between(250, count as i64) as usize;
    fields.insert(taking, family(0, vec![qbit(), wire_family()], vec![once]));
    let given = match random.below(6) {
        0 => random.word() as u16,
        1 => random.below(256) as u16,
        2 => random.between(taking as i64 - 2, taking as i64 + 2) as u16,
        _ => random.between(254, 262) as u16,
    };
    let mut operand = passed(given);
    if random.percent(15) {
        damage_passed(&mut operand, random);
    }
    let called = random.between(taking as i64 - 1, taking as i64 + 1) as u16;
    let called = random.pick(&[called, taking as u16, taking as u16]);
    let operands = vec![at(0, 0), operand];
    fields.extend([qreg(1), call(called, vec![], operands)]);
    let mut case = with(&fields, &[]);
    case.family = random.between(taking as i64 - 1, taking as i64 + 1) as u32;
    case
}

/// Gives a passed family one byte, three or the two exchanged.
fn damage_passed(operand: &mut Field, random: &mut Random) {
    match random.below(3) {
        0 => operand.head.truncate(1),
        1 => operand.tail.push(0),
        _ => operand.head.reverse(),
    }
}
