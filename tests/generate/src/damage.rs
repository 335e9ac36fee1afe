//! Damage: small changes to a program's tree or to its bytes.

mod pairs;
mod passing;
mod slices;

pub use pairs::{pair_field, some_pair};
pub use passing::{passing_field, some_passing};
pub use slices::{slice_field, some_slice};

use crate::build::*;
use crate::random::Random;

/// All tags that mean something, and two that do not.
const TAGS: [u8; 31] = [
    1, 2, 3, 4, 5, 6, 16, 17, 18, 32, 33, 34, 35, 36, 37, 38, 39, 40, 41, 42, 48, 49, 50, 51, 64,
    65, 66, 67, 68, 0, 43,
];
/// The tags of calls with a family number of one byte and of two.
const CALL: u8 = 36;
const WIDE_CALL: u8 = 39;
/// The tags of phases on one wire and on two.
const PHASE: u8 = 40;
const CPHASE: u8 = 41;

/// Changes the tree in one to three places, so that all lengths stay right.
pub fn tree(fields: &mut Vec<Field>, random: &mut Random) {
    for _ in 0..random.between(1, 3) {
        if let Some(field) = some_node(fields, |_| true, random) {
            change(field, random);
        }
    }
    if random.percent(10) {
        let extra = fields[random.below(fields.len())].clone();
        fields.insert(random.below(fields.len()), extra);
    }
}

/// Changes the bytes in one or two places, so that lengths may be wrong.
pub fn bytes(fields: &[Field], random: &mut Random) -> Vec<u8> {
    let mut bytes = program(fields);
    if random.percent(30) {
        let header = random.pick(&headers(fields));
        let by = random.pick(&[1, 255, 2, 254]);
        bytes[header + 1] = bytes[header + 1].wrapping_add(by);
    }
    for _ in 0..random.between(0, 2) {
        change_byte(&mut bytes, random);
    }
    bytes
}

/// Changes one call of a program in one top field that has any.
pub fn some_call(fields: &mut [Field], random: &mut Random) {
    let is_call = |field: &Field| matches!(field.tag, CALL | WIDE_CALL);
    let has_calls = |top: &usize| nodes(&fields[*top], is_call) > 0;
    let calling: Vec<usize> = (0..fields.len()).filter(has_calls).collect();
    if calling.is_empty() {
        return;
    }
    let top = random.pick(&calling);
    let in_scope = families(&fields[..top]) as u16;
    if let Some(field) = some_node(&mut fields[top..=top], is_call, random) {
        call(field, in_scope, random);
    }
}

/// Changes a call where so many families are in scope: its number, its tag, or
/// where its content ends.
pub fn call(field: &mut Field, in_scope: u16, random: &mut Random) {
    let number = family_number(&field.head);
    let other_tag = CALL + WIDE_CALL - field.tag;
    match random.below(12) {
        0 | 1 => field.head.reverse(),
        2 => give_number(field, WIDE_CALL, number % 256),
        3 => give_number(field, WIDE_CALL, random.below(256) as u16),
        4 => give_number(field, WIDE_CALL, in_scope),
        5 => give_number(field, field.tag, in_scope.wrapping_sub(1)),
        6 => field.tag = other_tag,
        7 => give_number(field, other_tag, number),
        8 => {
            field.head.truncate(random.below(2));
            field.parts.clear();
        }
        9 => field.head.truncate(random.below(2)),
        10 => field.tail.push(random.byte()),
        _ => field.parts.truncate(field.parts.len().saturating_sub(1)),
    }
}

/// Changes one phase of a program that has any.
pub fn some_phase(fields: &mut [Field], random: &mut Random) {
    let is_phase = |field: &Field| matches!(field.tag, PHASE | CPHASE);
    if let Some(field) = some_node(fields, is_phase, random) {
        phase_field(field, random);
    }
}

/// Changes a phase: its tag, its parts, their order, or where its content ends.
pub fn phase_field(field: &mut Field, random: &mut Random) {
    let last = field.parts.len().saturating_sub(1);
    match random.below(10) {
        0 => field.tag = PHASE + CPHASE - field.tag,
        1 => field.tag = random.pick(&[32, 33, 34, 35, 38, 42, 43]),
        2 => field.parts.truncate(random.below(last + 1)),
        3 => {
            field.parts.remove(0);
        }
        4 => field.parts.swap(0, last),
        5 => field.tail = vec![random.byte(); 1 + random.below(4)],
        6 => field.parts.push(field.parts[random.below(2)].clone()),
        _ => index_field(&mut field.parts[0], random),
    }
}

/// Changes an index: below 0, of another kind, cut off or too deep.
fn index_field(index: &mut Field, random: &mut Random) {
    let before = index.clone();
    match random.below(8) {
        0 => *index = difference(literal(random.below(3) as u16), before),
        1 => *index = difference(before, literal(1 + random.below(64) as u16)),
        2 => *index = product(before.clone(), before),
        3 => *index = product(largest(), before),
        4 => index.tag = random.pick(&[16, 48, 49, 50, 51, 63, 69, 65, 66]),
        5 => *index = variable(random.below(14) as u8),
        6 => {
            index.head.pop();
            index.parts.pop();
        }
        _ => wrap(index, random),
    }
}

/// The family number at the start of a call.
fn family_number(head: &[u8]) -> u16 {
    match *head {
        [] => 0,
        [low] => low.into(),
        [low, high, ..] => u16::from_le_bytes([low, high]),
    }
}

/// Gives a call a tag and a number, in as many bytes as the tag asks for.
fn give_number(field: &mut Field, tag: u8, number: u16) {
    let [low, high] = number.to_le_bytes();
    field.tag = tag;
    field.head = match tag {
        WIDE_CALL => vec![low, high],
        _ => vec![low],
    };
}

/// Fields of any tags in each other, with right lengths.
pub fn soup(depth: usize, random: &mut Random) -> Vec<Field> {
    let count = random.below(5);
    let mut fields = Vec::new();
    for _ in 0..count {
        let head: Vec<u8> = (0..random.below(3))
            .map(|_| random.below(3) as u8)
            .collect();
        let parts = match depth {
            0 => vec![],
            _ => soup(depth - 1, random),
        };
        fields.push(Field::new(random.pick(&TAGS), &head, parts));
    }
    fields
}

/// Changes, removes, adds or cuts off bytes.
fn change_byte(bytes: &mut Vec<u8>, random: &mut Random) {
    if bytes.is_empty() {
        return;
    }
    let place = random.below(bytes.len());
    match random.below(6) {
        0 => bytes[place] = random.byte(),
        1 => bytes[place] = bytes[place].wrapping_add(random.pick(&[1, 255])),
        2 => bytes[place] ^= 1 << random.below(8),
        3 => {
            bytes.remove(place);
        }
        4 => bytes.insert(place, random.byte()),
        _ => bytes.truncate(place),
    }
}

/// Which fields are meant.
type Meant = fn(&Field) -> bool;

/// The number of fields meant in a field, itself included.
fn nodes(field: &Field, meant: Meant) -> usize {
    let inside = field.parts.iter().map(|part| nodes(part, meant));
    usize::from(meant(field)) + inside.sum::<usize>()
}

/// The field meant that has a number in reading order.
fn node(fields: &mut [Field], mut number: usize, meant: Meant) -> Option<&mut Field> {
    for field in fields {
        let inside = nodes(field, meant);
        let before = usize::from(meant(field));
        if number < before {
            return Some(field);
        }
        if number < inside {
            return node(&mut field.parts, number - before, meant);
        }
        number -= inside;
    }
    None
}

/// One of the fields meant, if there is any.
fn some_node<'f>(
    fields: &'f mut [Field],
    meant: Meant,
    random: &mut Random,
) -> Option<&'f mut Field> {
    let count = fields.iter().map(|field| nodes(field, meant)).sum();
    node(fields, random.below(count), meant)
}

/// Changes one field.
fn change(field: &mut Field, random: &mut Random) {
    let parts = field.parts.len();
    match random.below(12) {
        0 => field.tag = random.pick(&TAGS),
        1 => field.tag = field.tag.wrapping_add(random.pick(&[1, 255])),
        2..=4 => change_head(&mut field.head, random),
        5 if parts > 0 => {
            field.parts.remove(random.below(parts));
        }
        6 if parts > 0 => {
            let twice = field.parts[random.below(parts)].clone();
            field.parts.insert(random.below(parts + 1), twice);
        }
        7 if parts > 1 => field.parts.swap(random.below(parts), random.below(parts)),
        8 => field.tail.push(random.byte()),
        9 => field.tail = vec![random.byte(); 1 + random.below(4)],
        10 => wrap(field, random),
        _ => change_head(&mut field.head, random),
    }
}

/// Changes the numbers at the start of a field.
fn change_head(head: &mut Vec<u8>, random: &mut Random) {
    let Some(last) = head.len().checked_sub(1) else {
        return;
    };
    let place = random.below(last + 1);
    match random.below(8) {
        0 => head[place] = random.byte(),
        1 => head[place] = random.pick(&[0, 255, 16, 17]),
        2 => {
            head.remove(place);
        }
        3 => head.insert(place, random.byte()),
        _ => head[place] = head[place].wrapping_add(random.pick(&[1, 255])),
    }
}

/// Wraps an index or a statement, a few times or too often.
fn wrap(field: &mut Field, random: &mut Random) {
    let times = random.pick(&[1, 2, 14, 15, 16, 17]);
    for _ in 0..times {
        let inner = field.clone();
        *field = match inner.tag {
            32..=42 => reverse(vec![inner]),
            64..=68 => match random.below(4) {
                0 => sum(inner, literal(0)),
                1 => sum(literal(0), inner),
                2 => difference(inner, literal(0)),
                _ => product(literal(random.pick(&[1, 1, 1, 2, 60_000])), inner),
            },
            _ => return,
        };
    }
}
