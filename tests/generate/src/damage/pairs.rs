//! Damage to gates on two wires: one operand in the place of the other, spelled alike or not.

use super::{index_field, some_node, CPHASE};
use crate::build::*;
use crate::random::Random;
use crate::spelling::respelled;

/// The tag of cx.
const CX: u8 = 35;

/// Changes one gate on two wires of a program that has any.
pub fn some_pair(fields: &mut [Field], random: &mut Random) {
    let is_pair = |field: &Field| matches!(field.tag, CX | CPHASE);
    if let Some(field) = some_node(fields, is_pair, random) {
        pair_field(field, random);
    }
}

/// Puts one operand of a gate in the place of the other, mostly with nothing else wrong.
pub fn pair_field(field: &mut Field, random: &mut Random) {
    let Some(first) = field.parts.len().checked_sub(2) else {
        return;
    };
    let [from, to] = random.pick(&[[first, first + 1], [first + 1, first]]);
    field.parts[to] = field.parts[from].clone();
    if let [index] = &mut field.parts[to].parts[..] {
        for _ in 0..random.below(3) {
            *index = respelled(index.clone(), 0, random);
        }
    }
    if random.percent(40) {
        change_more(field, to, random);
    }
}

/// Changes something else: what is left over, the number, the index, the kind or a tag.
fn change_more(field: &mut Field, to: usize, random: &mut Random) {
    match random.below(10) {
        0 | 1 => field.tail = vec![random.byte(); 1 + random.below(4)],
        2 => field.tag = CX + CPHASE - field.tag,
        3 => field.parts[to].tail.push(random.byte()),
        4 => field.parts[to].tag = random.pick(&[48, 49, 50, 51]),
        5 => field.parts[to] = whole(random.below(4) as u8),
        6 => {
            if let [number] = &mut field.parts[to].head[..] {
                *number = number.wrapping_add(random.pick(&[1, 255]));
            }
        }
        _ => change_index(&mut field.parts[to], random),
    }
}

/// Moves the index of an element by one, by a variable, or damages it.
fn change_index(operand: &mut Field, random: &mut Random) {
    let [index] = &mut operand.parts[..] else {
        return;
    };
    let by = match random.below(3) {
        0 => variable(random.below(4) as u8),
        1 => literal(1),
        _ => return index_field(index, random),
    };
    *index = random.pick(&[sum, difference])(index.clone(), by);
}
