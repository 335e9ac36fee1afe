//! Other spellings of an index: indexes that have the same form and are built in another way.

use crate::build::*;
use crate::linear::Linear;
use crate::random::Random;

/// The tags of a literal, a sum and a product.
const LITERAL: u8 = 64;
const SUM: u8 = 66;
const PRODUCT: u8 = 68;

/// An index of a meaning, in one of very many spellings, where so many variables are in scope.
pub fn spelled(linear: &Linear, variables: usize, random: &mut Random) -> Field {
    let plain = linear.render(random);
    let times = random.below(3);
    let longer = (0..times).fold(plain, |index, _| respelled(index, variables, random));
    exchanged(&longer, random)
}

/// Another index of the same form, where so many variables are in scope.
pub fn respelled(index: Field, variables: usize, random: &mut Random) -> Field {
    if index.tag == LITERAL && random.percent(60) {
        return split(&index, random);
    }
    match variables > 0 && random.percent(50) {
        true => with_a_variable(index, variable(random.below(variables) as u8), random),
        false => with_numbers(index, random),
    }
}

/// A literal as a sum, a difference or a product of two.
fn split(index: &Field, random: &mut Random) -> Field {
    let [low, high] = [index.head[0], index.head[1]];
    let value = u16::from_le_bytes([low, high]);
    let part = random.below(usize::from(value) + 1) as u16;
    let more = random.between(0, 9) as u16;
    match (value.checked_add(more), random.below(3)) {
        (Some(whole), 0) => difference(literal(whole), literal(more)),
        (_, 1) if value % 2 == 0 => product(literal(2), literal(value / 2)),
        _ => sum(literal(part), literal(value - part)),
    }
}

/// The same form with numbers that add up to 0 or multiply to 1.
fn with_numbers(index: Field, random: &mut Random) -> Field {
    let number = random.between(0, 9) as u16;
    let one = difference(literal(number + 1), literal(number));
    match random.below(9) {
        0 => sum(index, literal(0)),
        1 => sum(literal(0), index),
        2 => difference(index, literal(0)),
        3 => product(index, literal(1)),
        4 => product(one, index),
        5 => difference(sum(index, literal(number)), literal(number)),
        6 => difference(product(literal(2), index.clone()), index),
        7 => difference(sum(index.clone(), index.clone()), index),
        _ => difference(literal(0), difference(literal(0), index)),
    }
}

/// The same form with a variable that is added and taken away, or taken 0 times.
fn with_a_variable(index: Field, by: Field, random: &mut Random) -> Field {
    match random.below(6) {
        0 => sum(index, product(literal(0), by)),
        1 => sum(product(by, literal(0)), index),
        2 => difference(index, product(literal(0), by)),
        3 => difference(sum(index, by.clone()), by),
        4 => sum(difference(index, by.clone()), by),
        _ => sum(difference(by.clone(), by), index),
    }
}

/// The same index with the sides of some sums and products exchanged.
pub fn exchanged(index: &Field, random: &mut Random) -> Field {
    let mut sides: Vec<Field> = index
        .parts
        .iter()
        .map(|side| exchanged(side, random))
        .collect();
    if matches!(index.tag, SUM | PRODUCT) && random.percent(40) {
        sides.reverse();
    }
    Field {
        parts: sides,
        ..index.clone()
    }
}
