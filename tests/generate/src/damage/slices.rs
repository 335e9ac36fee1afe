//! Damage to slices: ends moved, parts missing or left over, other operands instead.

use super::{index_field, some_node};
use crate::build::*;
use crate::random::Random;

/// The tag of slices.
const SLICE: u8 = 50;

/// Changes one slice of a program that has any.
pub fn some_slice(fields: &mut [Field], random: &mut Random) {
    let is_slice = |field: &Field| field.tag == SLICE;
    if let Some(field) = some_node(fields, is_slice, random) {
        slice_field(field, random);
    }
}

/// Changes a slice in one of three ways.
pub fn slice_field(field: &mut Field, random: &mut Random) {
    match random.below(10) {
        0..=4 => move_ends(&mut field.parts, random),
        5 | 6 => index_field(&mut field.parts[random.below(2)], random),
        _ => change_content(field, random),
    }
}

/// Changes the tag, the number, or where the content ends.
fn change_content(field: &mut Field, random: &mut Random) {
    match random.below(8) {
        0 => field.tag = random.pick(&[48, 49, 51, 52, 64]),
        1 => field.head = vec![random.below(5) as u8],
        2 => field.head.clear(),
        3 => {
            field.head.clear();
            field.parts.clear();
        }
        4 => field.parts.truncate(random.below(2)),
        5 => field.parts.push(field.parts[random.below(2)].clone()),
        6 => field.tail = vec![random.byte(); 1 + random.below(4)],
        _ => {
            field.tag = 49;
            field.parts.truncate(1);
        }
    }
}

/// Moves one end or both: below 0, one too far, too close together or exchanged.
fn move_ends(parts: &mut Vec<Field>, random: &mut Random) {
    let [first, last] = [0, 1].map(|place| parts[place].clone());
    let more = |index: &Field| sum(index.clone(), literal(1));
    let less = |index: &Field| difference(index.clone(), literal(1));
    *parts = match random.below(8) {
        0 => vec![less(&first), last],
        1 => vec![more(&first), last],
        2 => vec![first, more(&last)],
        3 => vec![first, less(&last)],
        4 => vec![less(&first), less(&last)],
        5 => vec![more(&first), more(&last)],
        6 => vec![
            first.clone(),
            difference(first, literal(random.below(4) as u16)),
        ],
        _ => vec![last, first],
    };
}
