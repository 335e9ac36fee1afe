//! Slices near their rules: where they end, what they are of, and how runs end inside.

use super::phases::around;
use super::with;
use crate::build::*;
use crate::case::Case;
use crate::damage;
use crate::library;
use crate::random::Random;
use reference::RECORD_BYTES;

/// A family over n: t on each wire of x:Qbit[n], and cx on each two that are neighbours.
pub(super) fn each() -> Field {
    let (before, wire) = (|| element(0, minus(1, 1)), || element(0, variable(1)));
    let body = vec![
        repeat(literal(1), variable(0), vec![t(before())]),
        repeat(literal(1), minus(0, 1), vec![cx(before(), wire())]),
    ];
    family(1, vec![qbits(variable(0))], body)
}

/// A whole number as an index.
fn number(value: i64) -> Field {
    match u16::try_from(value) {
        Ok(small) => literal(small),
        Err(_) => difference(literal(0), literal(value.unsigned_abs() as u16)),
    }
}

/// A number, at times one more or one less.
fn near(value: i64, random: &mut Random) -> i64 {
    match random.below(12) {
        0 => value - 1,
        1 => value + 1,
        _ => value,
    }
}

/// A slice passed for a parameter, all of them literals about the ends of a register.
pub fn shown(random: &mut Random) -> Case {
    let have = random.between(0, 5);
    let first = random.between(0, have);
    let last = first - 1 + random.between(0, have - first);
    let asked = match random.percent(60) {
        true => near(last - first + 1, random).max(0),
        false => random.between(0, last - first + 1),
    };
    let [first, last] = [first, last].map(|end| number(near(end, random)));
    let statement = call(0, vec![number(asked)], vec![slice(1, first, last)]);
    let mut fields = vec![each(), qreg(2), qreg(have as u16)];
    fields.extend(around(statement, random));
    with(&fields, &[asked as u32])
}

/// An end of a slice over a size n.
fn end(random: &mut Random) -> Field {
    let more = random.below(4) as u16;
    match random.below(4) {
        0 => literal(more),
        1 => minus(0, more),
        2 => plus(0, more),
        _ => difference(plus(0, 3), literal(more)),
    }
}

/// A slice of x:Qbit[n + 2] passed on at n or about n, as the family's only statement.
pub fn over_sizes(random: &mut Random) -> Case {
    let (first, last) = match random.below(5) {
        0 => (literal(0), minus(0, 1)),
        1 => (literal(2), plus(0, 1)),
        2 => (plus(0, 2), plus(0, 1)),
        _ => (end(random), end(random)),
    };
    let asked = match random.below(4) {
        0 => literal(0),
        1 => plus(0, random.below(3) as u16),
        _ => variable(0),
    };
    let statement = call(0, vec![asked], vec![slice(0, first, last)]);
    let body = match random.percent(40) {
        true => vec![reverse(vec![statement])],
        false => vec![statement],
    };
    let types = vec![qbits(plus(0, 2))];
    let mut case = with(&[each(), family(1, types, body)], &[random.below(5) as u32]);
    case.family = 1;
    case
}

/// z[i..i+n-1] of z:Qbit[n+m], in a loop over i from about 0 to about m.
pub fn sliding(random: &mut Random) -> Case {
    let low = number(near(0, random));
    let high = match random.below(6) {
        0 => plus(1, 1),
        1 => minus(1, 1),
        _ => variable(1),
    };
    let last = match random.below(8) {
        0 => sum(variable(2), variable(0)),
        1 => sum(variable(2), minus(0, 2)),
        _ => sum(variable(2), minus(0, 1)),
    };
    let inner = call(0, vec![variable(0)], vec![slice(0, variable(2), last)]);
    let looped = repeat(low, high, around_calls(inner, random));
    let types = vec![qbits(sum(variable(0), variable(1)))];
    let sizes = [0, 1].map(|_| random.below(4) as u32);
    let calling = family(2, types, vec![looped]);
    let top = call(
        1,
        sizes.map(|n| literal(n as u16)).to_vec(),
        vec![between(1, 1, 6)],
    );
    let mut case = with(&[each(), calling, qreg(1), qreg(7), top], &sizes);
    case.family = 1;
    case
}

/// A call as it is, reversed, or under a loop that goes through once.
fn around_calls(statement: Field, random: &mut Random) -> Vec<Field> {
    match random.below(4) {
        0 => vec![reverse(vec![statement, reverse(vec![])])],
        1 => vec![repeat(literal(5), literal(5), vec![statement])],
        _ => vec![statement],
    }
}

/// A slice of x:Qbit[n + have] that mostly has n + asked wires or more.
fn shorter(have: i64, asked: i64, random: &mut Random) -> Field {
    let front = random.between(0, have - asked);
    let back = 1 + random.between(0, have - asked - front);
    let back = match random.percent(30) {
        true => near(back, random),
        false => back,
    };
    let last = difference(plus(0, have as u16), number(back));
    slice(0, number(front), last)
}

/// Families that each pass a slice of what they are passed, and a run through them.
pub fn chains(random: &mut Random) -> Case {
    let mut fields = vec![each()];
    let mut length = 0;
    let last = random.between(1, 6) as u16;
    for called in 0..last {
        let more = length + random.between(0, 2);
        let passed = shorter(more, length, random);
        let inner = call(called, vec![variable(0)], vec![passed]);
        let body = around_calls(inner, random);
        fields.push(family(1, vec![qbits(plus(0, more as u16))], body));
        length = more;
    }
    let (size, start) = (random.between(0, 3), random.between(0, 2));
    let end = start + size + length;
    let argument = slice(1, number(start), number(near(end, random) - 1));
    let top = call(last, vec![number(size)], vec![argument]);
    fields.extend([qreg(2), qreg(end as u16)]);
    fields.extend(around_calls(top, random));
    let mut case = with(&fields, &[size as u32]);
    case.family = last.into();
    case
}

/// A slice whose tag, number, ends or indexes are damaged.
pub fn read(random: &mut Random) -> Case {
    let mut argument = between(0, 1, 2);
    damage::slice_field(&mut argument, random);
    let statement = call(0, vec![literal(2)], vec![argument]);
    let mut fields = vec![each(), qreg(4), creg(4)];
    fields.extend(around(statement, random));
    with(&fields, &[2])
}

/// An end about those of a register of four, at times far from them.
fn some_end(random: &mut Random) -> Field {
    match random.below(8) {
        0 => number(-1),
        1 => literal(4),
        2 => random.pick(&[largest, smallest])(),
        _ => literal(random.below(4) as u16),
    }
}

/// Slices of registers, bits and wires, for parameters and where none may stand.
pub fn kinds(random: &mut Random) -> Case {
    let types = vec![qbit(), qbits(literal(2))];
    let called = family(0, types.clone(), vec![cx(whole(0), at(1, 1))]);
    if random.percent(30) {
        let argument = slice(random.below(2) as u8, some_end(random), some_end(random));
        let operands = match random.percent(50) {
            true => vec![whole(0), argument],
            false => vec![argument, whole(1)],
        };
        let body = vec![call(0, vec![], operands)];
        let mut case = with(&[called, family(0, types, body)], &[]);
        case.family = 1;
        return case;
    }
    let statement = of_a_kind(random);
    with(&[called, qreg(4), creg(4), qreg(3), statement], &[])
}

/// A statement at the top with a slice among its operands, of any register or of none.
fn of_a_kind(random: &mut Random) -> Field {
    let of = random.pick(&[0, 0, 1, 1, 2, 3]);
    let argument = slice(of, some_end(random), some_end(random));
    let (wire, bit) = (at(0, 0), at(1, 0));
    match random.below(11) {
        0 => h(argument),
        1 => cx(wire, argument),
        2 => phase(literal(1), argument),
        3 => measure(wire, argument),
        4 => measure(argument, bit),
        5 => when(0, argument, vec![]),
        6 => reset(argument),
        7 => call(0, vec![], vec![argument, whole(0)]),
        _ => call(0, vec![], vec![wire, argument]),
    }
}

/// An index with numbers about the largest, or that reaches them in a loop.
fn far_end(random: &mut Random) -> Field {
    let factor = literal(random.pick(&[1, 20_000, 20_001, 40_000, 40_001]));
    let small = literal(random.below(5) as u16);
    match random.below(9) {
        0 => largest(),
        1 => smallest(),
        2 => difference(small, largest()),
        3 => product(factor, variable(0)),
        4 => difference(small, product(factor, variable(0))),
        5 => difference(largest(), product(largest(), variable(0))),
        6 => difference(product(largest(), variable(0)), literal(1)),
        _ => small,
    }
}

/// Slices and sizes with numbers about the largest, in a loop of one round.
pub fn large_ends(random: &mut Random) -> Case {
    let argument = slice(0, far_end(random), far_end(random));
    let size = match random.below(5) {
        0 => literal(40_000),
        1 => difference(literal(0), variable(0)),
        2 => product(literal(20_001), variable(0)),
        _ => literal(random.below(3) as u16),
    };
    let inner = call(random.below(2) as u16, vec![size], vec![argument]);
    let value = literal(random.pick(&[0, 1, 50_000]));
    let looped = repeat(value.clone(), value, vec![inner]);
    let wide = qbits(product(literal(60_000), variable(0)));
    let register = qreg(random.pick(&[0, 1, 2, 4]));
    with(
        &[each(), family(1, vec![wide], vec![]), register, looped],
        &[1],
    )
}

/// Values out of range in the first end, the last or both, beside other ends of a run.
pub fn far_values(random: &mut Random) -> Case {
    let big = || product(literal(50_000), variable(0));
    let mut far = |value: u16| match random.below(3) {
        0 => sum(literal(value), difference(big(), big())),
        _ => literal(value),
    };
    let argument = slice(0, far(1), far(2));
    let inner = call(0, vec![far(2)], vec![argument]);
    let types = vec![qbits(literal(3)), qbits(variable(0))];
    let body = around(inner, random);
    let number = random.pick(&[1, 40_000, 40_001, 40_001]);
    let mut case = with(&[each(), family(1, types, body)], &[number]);
    case.family = 1;
    if random.percent(40) {
        short_of(&mut case, random);
    }
    case
}

/// Runs through slices that end for want of steps or room.
pub fn ended(random: &mut Random) -> Case {
    let mut case = match random.percent(50) {
        true => chains(random),
        false => sliding(random),
    };
    short_of(&mut case, random);
    case
}

/// Leaves few steps, little room, or enough of both.
pub(super) fn short_of(case: &mut Case, random: &mut Random) {
    case.limit = random.pick(&[0, 1, 2, 3, 5, 8, 13, 21, 34, 10_000, 10_000]);
    case.output = random.pick(&[0, RECORD_BYTES - 1, RECORD_BYTES, 40, RECORD_BYTES * 500]);
}

/// Products without carries and their inverses, at small sizes.
pub fn products(random: &mut Random) -> Case {
    let size = random.below(5) as u32;
    let mut case = with(&library::multiplier(), &[size]);
    case.family = random.between(1, 3) as u32;
    case.output = RECORD_BYTES * 1_000;
    case
}
