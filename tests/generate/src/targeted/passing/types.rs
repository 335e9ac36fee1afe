//! The type of a family parameter: its counts, its inner types and their sizes.

use super::super::{library, with, wrapped_index};
use super::{gate_family, register_family, wire_family};
use crate::build::*;
use crate::case::Case;
use crate::damage;
use crate::random::Random;

/// A case in which a family has a parameter of a type, between a wire and a register.
///
/// By turns it does nothing with it, or is passed a family with the same counts and types, or
/// calls it and is passed a family on a wire.
fn of_type(own: Field, random: &mut Random) -> Case {
    let types = vec![qbit(), own.clone(), qbits(literal(3))];
    let passing = call(1, vec![], vec![at(0, 1), passed(0), whole(0)]);
    let (first, body) = match random.below(4) {
        0 => return with(&[family(0, types, vec![])], &[]),
        1 => (
            gate_family(h),
            vec![parameter_call(1, vec![], vec![whole(0)])],
        ),
        2 => (
            gate_family(h),
            vec![parameter_call(1, vec![literal(2)], vec![whole(2)])],
        ),
        _ => (Field { tag: 1, ..own }, vec![]),
    };
    with(&[first, family(0, types, body), qreg(3), passing], &[])
}

/// The type of a family over variables, with a few inner types.
fn some_type(random: &mut Random) -> Field {
    let sizes = random.below(5) as u8;
    let inner = |random: &mut Random| match random.below(5) {
        0 => qbits(literal(random.below(3) as u16)),
        1 | 2 if sizes > 0 => qbits(variable(random.below(sizes.into()) as u8)),
        3 if sizes > 0 => qbits(plus(sizes - 1, 1)),
        _ => qbit(),
    };
    let count = random.pick(&[1, 1, 2, 3, 7, 8]);
    family_type(sizes, (0..count).map(|_| inner(random)).collect())
}

/// A type that is damaged in one or two ways.
pub fn read_types(random: &mut Random) -> Case {
    let mut own = match random.below(4) {
        0 => wire_family(),
        1 => register_family(),
        _ => some_type(random),
    };
    for _ in 0..1 + random.below(2) {
        if own.tag == 18 {
            damage::passing_field(&mut own, random);
        }
    }
    of_type(own, random)
}

/// An inner size that is shown or not, that is none, or that is not over the type's variables.
pub fn sized_types(random: &mut Random) -> Case {
    let sizes = random.below(3) as u8;
    let size = match random.below(8) {
        0 => variable(random.below(4) as u8),
        1 => minus(0, random.below(2) as u16),
        2 => difference(literal(2), literal(1 + random.below(3) as u16)),
        3 => product(variable(0), variable(random.below(2) as u8)),
        4 => product(largest(), literal(random.below(3) as u16)),
        5 => sum(largest(), literal(random.below(2) as u16)),
        6 => wrapped_index(13 + random.below(5), random),
        _ => difference(variable(1), variable(0)),
    };
    let mut types = vec![qbits(size)];
    if random.percent(30) {
        types.insert(0, qbit());
    }
    if random.percent(20) {
        types.push(Field::new(random.pick(&[16, 17, 18, 64]), &[], vec![]));
    }
    let own = family_type(sizes, types);
    let mut case = of_type(own, random);
    if random.percent(30) {
        // The family's own variables are not those of the type.
        let own = family_type(0, vec![qbits(variable(0))]);
        case = with(&[family(2, vec![own, qbit()], vec![])], &[1, 1]);
    }
    case
}

/// Calls of parameters about 16 deep.
pub fn depths(random: &mut Random) -> Case {
    let levels = 13 + random.below(5);
    let innermost = match random.below(8) {
        0 => Field::new(random.pick(&[42, 43, 51]), &[], vec![]),
        1 => parameter_call(0, vec![], vec![whole(0)]),
        _ => parameter_call(1, vec![], vec![whole(0)]),
    };
    let nested = library::wrapped(levels, innermost);
    let types = vec![qbit(), wire_family()];
    let mut fields = vec![gate_family(t), family(0, types, vec![nested]), qreg(1)];
    fields.push(call(1, vec![], vec![at(0, 0), passed(0)]));
    let mut case = with(&fields, &[]);
    case.family = random.below(2) as u32;
    case
}
