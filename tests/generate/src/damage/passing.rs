//! Damage to families as arguments: to the types of parameters, to what is passed and to the
//! calls of parameters.

use super::{index_field, some_node};
use crate::build::*;
use crate::random::Random;

/// The tags of a family's type, of a call of a parameter and of a family that is passed.
const TYPE: u8 = 18;
const CALL: u8 = 42;
const PASSED: u8 = 51;

/// Changes one family type, call of a parameter or passed family of a program that has any.
pub fn some_passing(fields: &mut [Field], random: &mut Random) {
    let meant = [
        |field: &Field| field.tag == TYPE,
        |field: &Field| field.tag == CALL,
        |field: &Field| field.tag == PASSED,
    ];
    if let Some(field) = some_node(fields, random.pick(&meant), random) {
        passing_field(field, random);
    }
}

/// Changes such a field by its tag.
pub fn passing_field(field: &mut Field, random: &mut Random) {
    match field.tag {
        TYPE => change_type(field, random),
        CALL => change_call(field, random),
        _ => change_passed(field, random),
    }
}

/// Changes a family's type: its counts, its inner types, or where its content ends.
fn change_type(field: &mut Field, random: &mut Random) {
    match random.below(9) {
        0 => change_count(field, 0, random),
        1 => change_count(field, 1, random),
        2 => {
            field.head.truncate(random.below(2));
            field.parts.clear();
        }
        3 => field.tail = vec![random.byte(); 1 + random.below(4)],
        4 => field.tag = random.pick(&[16, 17, 19, 1, 51]),
        5 => field.parts.truncate(random.below(field.parts.len())),
        6 => field
            .parts
            .push(random.pick(&[qbit, one_wire, wire_family])()),
        _ => change_inner(field, random),
    }
}

/// Moves a count at the start of a family's type up or down, or to an end of what it may be.
fn change_count(field: &mut Field, place: usize, random: &mut Random) {
    let Some(count) = field.head.get_mut(place) else {
        return;
    };
    *count = match random.below(3) {
        0 => random.pick(&[0, 4, 5, 8, 9, 255]),
        _ => count.wrapping_add(random.pick(&[1, 255])),
    };
}

/// A register of one wire as a type.
fn one_wire() -> Field {
    qbits(literal(1))
}

/// The type of a family on one wire.
fn wire_family() -> Field {
    family_type(0, vec![qbit()])
}

/// Changes one inner type: its kind, its size, or where its content ends.
fn change_inner(field: &mut Field, random: &mut Random) {
    let count = field.parts.len();
    let Some(inner) = field.parts.get_mut(random.below(count)) else {
        return;
    };
    match random.below(8) {
        0 => *inner = wire_family(),
        1 => inner.tag = random.pick(&[15, 18, 64]),
        2 => inner.tail.push(random.byte()),
        3 => *inner = random.pick(&[qbit, one_wire])(),
        _ => match inner.parts.first_mut() {
            None => inner.tag = 17,
            Some(size) if random.percent(60) => *size = near(size.clone(), random),
            Some(size) => index_field(size, random),
        },
    }
}

/// An index that is one more or less, or a variable more or less.
fn near(index: Field, random: &mut Random) -> Field {
    let by = match random.percent(60) {
        true => literal(1),
        false => variable(random.below(5) as u8),
    };
    random.pick(&[sum, difference])(index, by)
}

/// Changes a call of a parameter: its number, its parts, or where its content ends.
fn change_call(field: &mut Field, random: &mut Random) {
    let count = field.parts.len();
    match random.below(10) {
        0 | 1 => field.head = vec![random.below(9) as u8],
        2 => {
            field.head.clear();
            field.parts.clear();
        }
        3 => field.head.clear(),
        4 => field.parts.truncate(random.below(count)),
        5 => field.tail = vec![random.byte(); 1 + random.below(4)],
        6 => field.tag = random.pick(&[36, 39, 43, 48, 51]),
        7 => field.parts.swap(0, count.saturating_sub(1)),
        8 => field.parts.push(passed(random.below(4) as u16)),
        _ => change_operand(field, random),
    }
}

/// Puts another operand or index in the place of one.
fn change_operand(field: &mut Field, random: &mut Random) {
    let count = field.parts.len();
    let Some(part) = field.parts.get_mut(random.below(count)) else {
        return;
    };
    match part.tag {
        64..=68 => index_field(part, random),
        _ => {
            *part = match random.below(4) {
                0 => passed(random.below(4) as u16),
                1 => at(random.below(4) as u8, random.below(3) as u16),
                _ => whole(random.below(6) as u8),
            }
        }
    }
}

/// Changes a passed family: its number, its tag, or where its content ends.
fn change_passed(field: &mut Field, random: &mut Random) {
    match random.below(9) {
        0..=2 => field.head = (random.below(6) as u16).to_le_bytes().to_vec(),
        3 => field.head.reverse(),
        4 => field.head = vec![random.byte(); 2],
        5 => field.head.truncate(random.below(2)),
        6 => field.tail = vec![random.byte(); 1 + random.below(3)],
        7 => field.tag = random.pick(&[48, 49, 50, 52, 64]),
        _ => {
            let number = field.head.first().copied().unwrap_or(0);
            field.head = vec![number.wrapping_add(random.pick(&[1, 255])), 0];
        }
    }
}
