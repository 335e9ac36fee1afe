//! Programs near one limit or one rule each, for answers that chance misses.

pub mod passing;
mod phases;
pub mod ranges;
mod slices;
pub mod twice;

use crate::build::*;
use crate::case::Case;
use crate::damage;
use crate::library;
use crate::random::Random;
use reference::RECORD_BYTES;

/// A writer of cases near one limit.
pub type Writer = fn(&mut Random) -> Case;

/// The writers of short programs.
const WRITERS: [Writer; 36] = [
    statement_depth,
    index_depth,
    wide_calls,
    many_registers,
    family_counts,
    many_loops,
    many_locations,
    products,
    large_forms,
    large_showings,
    conditions,
    large_layouts,
    large_values,
    same_wires,
    kinds,
    numbers,
    passed_registers,
    deep_calls,
    phases::shown,
    phases::read,
    phases::ended,
    phases::far_values,
    phases::transforms,
    slices::shown,
    slices::over_sizes,
    slices::sliding,
    slices::sliding,
    slices::chains,
    slices::read,
    slices::kinds,
    slices::kinds,
    slices::large_ends,
    slices::large_ends,
    slices::far_values,
    slices::ended,
    slices::products,
];

/// The writers of long programs, which come up less.
const LONG_WRITERS: [Writer; 2] = [full_length, many_families];

/// One case near a limit.
pub fn case(random: &mut Random) -> Case {
    match random.below(40) {
        0 => random.pick(&LONG_WRITERS)(random),
        1..=7 => ranges::case(random),
        8..=15 => passing::case(random),
        16..=20 => twice::case(random),
        _ => random.pick(&WRITERS)(random),
    }
}

/// A case with enough of everything.
fn with(fields: &[Field], numbers: &[u32]) -> Case {
    Case {
        program: program(fields),
        family: 0,
        sizes: sizes(numbers),
        limit: 10_000,
        output: RECORD_BYTES * 500,
    }
}

/// A family over one size with a register of that size and one wire.
fn over_size(body: Vec<Field>) -> Field {
    family(1, vec![qbits(variable(0)), qbit()], body)
}

/// Programs of about 65,535 bytes.
fn full_length(random: &mut Random) -> Case {
    let length = 65_529 + random.below(12);
    let mut case = with(&[], &[]);
    case.program = [37, 0, 0].repeat(length / 3);
    case.program.resize(length, 37);
    case
}

/// Statements nested about 16 deep, in a family, at the top or in an if.
fn statement_depth(random: &mut Random) -> Case {
    let levels = 13 + random.below(5);
    let tag = random.pick(&[5, 6, 32, 37, 38, 40, 41, 42, 43, 48]);
    let innermost = match random.percent(80) {
        true => h(at(0, 0)),
        false => Field::new(tag, &[], vec![]),
    };
    let nested = library::wrapped(levels, innermost);
    match random.below(3) {
        0 => with(&[family(0, vec![qbits(literal(1))], vec![nested])], &[]),
        1 => with(&[qreg(1), nested], &[]),
        _ => with(&[qreg(1), creg(1), when(1, at(1, 0), vec![nested])], &[]),
    }
}

/// An index wrapped so many times, on either side.
fn wrapped_index(times: usize, random: &mut Random) -> Field {
    (0..times).fold(literal(0), |inner, _| match random.below(3) {
        0 => sum(literal(0), inner),
        1 => difference(inner, literal(0)),
        _ => product(inner, literal(1)),
    })
}

/// Indexes nested about 16 deep, in an operand, type, call, loop or phase.
fn index_depth(random: &mut Random) -> Case {
    let times = 13 + random.below(5);
    let deep = wrapped_index(times, random);
    let body = match random.below(5) {
        0 => vec![h(element(0, deep))],
        1 => vec![repeat(deep, literal(1), vec![h(at(0, 0))])],
        2 => vec![call(0, vec![deep], vec![whole(0), at(0, 0)])],
        3 => vec![phase(deep, at(0, 0))],
        _ => {
            let types = vec![qbits(sum(literal(1), deep))];
            return with(&[family(0, types, vec![h(at(0, 0))])], &[]);
        }
    };
    let mut fields = vec![over_size(vec![t(whole(1))])];
    fields.push(family(0, vec![qbits(literal(1))], body));
    let mut case = with(&fields, &[]);
    case.family = 1;
    case
}

/// About 4,096 families, the last of which calls an earlier one.
fn many_families(random: &mut Random) -> Case {
    let count = MOST_FAMILIES - 3 + random.below(4);
    let mut fields = vec![family(0, vec![qbit()], vec![h(whole(0))]); count];
    let called = random.between(4_090, 4_096) as u16;
    let body = vec![call(called, vec![], vec![whole(0)])];
    fields.push(family(0, vec![qbit()], body));
    let mut case = with(&fields, &[]);
    case.family = random.between(4_092, 4_097) as u32;
    case
}

/// About 257 families, the last of which calls one by a number of two bytes.
fn wide_calls(random: &mut Random) -> Case {
    let count = 255 + random.below(5);
    let gates = [h, t, tdg];
    let mut fields: Vec<Field> = (0..count)
        .map(|number| family(0, vec![qbit()], vec![gates[number % 3](whole(0))]))
        .collect();
    let called = match random.below(4) {
        0 => random.below(256) as u16,
        1 => random.word() as u16,
        _ => random.between(254, 261) as u16,
    };
    let mut calling = wide_call(called, vec![], vec![whole(0)]);
    if random.percent(30) {
        damage::call(&mut calling, count as u16, random);
    }
    fields.push(family(0, vec![qbit()], vec![calling]));
    let mut case = with(&fields, &[]);
    case.family = random.between(253, 261) as u32;
    case
}

/// About 255 registers, the last ones named by a gate.
fn many_registers(random: &mut Random) -> Case {
    let count = 252 + random.below(5);
    let mut fields: Vec<Field> = (0..count)
        .map(|_| match random.below(3) {
            0 => creg(random.below(3) as u16),
            _ => qreg(random.below(3) as u16),
        })
        .collect();
    if random.percent(20) {
        fields.push(Field::new(random.pick(&[2, 3]), &[0], vec![]));
    }
    let number = random.between(250, 255) as u8;
    fields.push(h(at(number, 0)));
    with(&fields, &[])
}

/// Families with counts of variables and parameters about the largest.
fn family_counts(random: &mut Random) -> Case {
    let m = random.pick(&[0, 3, 4, 5, 255]);
    let count = random.pick(&[0, 1, 7, 8, 9]);
    let mut declared = family(m, vec![qbit(); count], vec![h(whole(0))]);
    if random.percent(30) {
        declared.head.truncate(random.below(3));
    }
    with(&[declared], &vec![1; usize::from(m)])
}

/// About 8 loops, one inside the other.
fn many_loops(random: &mut Random) -> Case {
    let loops = 7 + random.below(4);
    let mut inner = h(element(0, variable(random.below(loops + 1) as u8)));
    for _ in 0..loops {
        inner = repeat(literal(0), literal(0), vec![inner]);
    }
    let one = vec![qbits(literal(1))];
    match random.below(3) {
        0 => with(&[family(0, one, vec![inner])], &[]),
        1 => with(&[family(4, one, vec![inner])], &[0; 4]),
        _ => with(&[qreg(1), inner], &[]),
    }
}

/// Registers whose sizes add up to about 65,535.
fn many_locations(random: &mut Random) -> Case {
    let first = random.below(65_536);
    let second = (65_533 + random.below(5)).saturating_sub(first).min(65_535);
    let declare = if random.percent(50) { qreg } else { creg };
    let mut last = declare(second as u16);
    if random.percent(20) {
        last.tail.push(0);
    }
    let mut fields = vec![declare(first as u16), creg(9), qreg(9), last];
    fields.push(h(at(3, random.below(3) as u16)));
    with(&fields, &[])
}

/// Products of forms with and without variables.
fn products(random: &mut Random) -> Case {
    let mut side = || match random.below(5) {
        0 => literal(random.below(3) as u16),
        1 => variable(0),
        2 => variable(1),
        3 => difference(variable(1), variable(1)),
        _ => difference(plus(0, 1), variable(0)),
    };
    let index = product(side(), side());
    let gate = h(element(0, index));
    let body = vec![repeat(literal(0), minus(0, 1), vec![gate])];
    with(&[over_size(body)], &[random.below(4) as u32])
}

/// A number near the largest, or far from it, as an index.
fn large(random: &mut Random) -> Field {
    match random.below(6) {
        0 => largest(),
        1 => smallest(),
        2 => product(literal(40_000), literal(50_001)),
        3 => sum(largest(), literal(random.below(2) as u16)),
        4 => difference(smallest(), literal(random.below(2) as u16)),
        _ => product(literal(random.word() as u16), literal(random.word() as u16)),
    }
}

/// Forms with numbers about the largest, as constants and as coefficients.
fn large_forms(random: &mut Random) -> Case {
    let number = large(random);
    let index = match random.below(4) {
        0 => number,
        1 => product(variable(0), number),
        2 => sum(product(number, variable(0)), large(random)),
        _ => difference(sum(variable(0), number.clone()), number),
    };
    let body = match random.below(3) {
        0 => vec![h(element(0, index))],
        1 => vec![repeat(index, large(random), vec![])],
        _ => return with(&[family(1, vec![qbits(index)], vec![])], &[1]),
    };
    let mut case = with(&[over_size(body)], &[random.below(3) as u32]);
    case.limit = 100;
    case
}

/// Showings and calls in which a number is about the largest.
fn large_showings(random: &mut Random) -> Case {
    let factor = literal(random.pick(&[1, 2, 40_000]));
    let (low, high) = (large(random), large(random));
    let inner = match random.below(3) {
        0 => h(element(0, product(factor, variable(1)))),
        1 => h(element(0, difference(variable(1), low.clone()))),
        _ => call(0, vec![product(variable(1), factor)], vec![whole(0)]),
    };
    let called = qbits(product(literal(60_000), plus(0, 1)));
    let fields = [
        family(1, vec![called], vec![]),
        over_size(vec![repeat(low, high, vec![inner])]),
    ];
    let mut case = with(&fields, &[1]);
    case.family = 1;
    case.limit = 100;
    case
}

/// Conditions with values about 1, on bits and on what is none.
fn conditions(random: &mut Random) -> Case {
    let value = random.below(4) as u8;
    let tested = random.pick(&[0, 1, 1, 1, 2]);
    let bit = match random.percent(80) {
        true => at(tested, random.below(4) as u16),
        false => whole(tested),
    };
    let body = vec![h(at(0, 0)), reverse(vec![t(at(0, 1)), h(at(0, 0))])];
    let last = h(at(0, 1));
    with(&[qreg(2), creg(3), when(value, bit, body), last], &[])
}

/// Layouts of about 65,535 wires, or with sizes out of range.
fn large_layouts(random: &mut Random) -> Case {
    let factor = random.pick(&[1, 2, 3, 5, 40_000, 65_535]);
    let size = product(literal(factor), variable(0));
    let types = match random.below(3) {
        0 => vec![qbits(size), qbit()],
        1 => vec![qbit(), qbits(size), qbits(literal(1))],
        _ => vec![qbits(variable(0)), qbits(size)],
    };
    let near = 65_535 / u32::from(factor);
    let number = (near + random.below(3) as u32).saturating_sub(1);
    let number = random.pick(&[number, number, 65_535, 40_000, 30_001]);
    with(&[family(1, types, vec![])], &[number])
}

/// Index values out of range although every form is in range.
fn large_values(random: &mut Random) -> Case {
    let big = || product(literal(50_000), variable(0));
    let zero = difference(big(), big());
    if random.percent(30) {
        let looped = repeat(literal(39_999), literal(40_001), vec![h(element(0, zero))]);
        return with(&[qreg(1), t(at(0, 0)), looped], &[]);
    }
    let body = match random.below(6) {
        0 => vec![t(whole(1)), h(element(2, zero))],
        1 => vec![repeat(zero, literal(0), vec![t(whole(1))])],
        2 => vec![repeat(literal(0), big(), vec![t(whole(1))])],
        3 => vec![call(0, vec![big()], vec![whole(1)])],
        4 => vec![cx(whole(1), element(2, zero))],
        _ => vec![reverse(vec![
            call(0, vec![zero], vec![at(2, 0)]),
            h(whole(1)),
        ])],
    };
    let types = vec![qbits(variable(0)), qbit(), qbits(literal(1))];
    let fields = [
        family(1, vec![qbit()], vec![h(whole(0))]),
        family(1, types, body),
    ];
    let mut case = with(&fields, &[random.pick(&[0, 1, 40_000, 40_001, 65_000])]);
    case.family = 1;
    case.limit = 1_000;
    case
}

/// Gates on two wires that may be the same one.
fn same_wires(random: &mut Random) -> Case {
    let pair = family(0, vec![qbit(), qbit()], vec![cx(whole(0), whole(1))]);
    let [first, second] = [0, 1].map(|_| random.below(3) as u16);
    let inner = match random.below(3) {
        0 => cx(at(0, first), at(0, second)),
        1 => call(0, vec![], vec![at(0, first), at(0, second)]),
        _ => repeat(
            literal(0),
            literal(2),
            vec![cx(element(0, variable(0)), at(0, second))],
        ),
    };
    let statement = match random.percent(50) {
        true => reverse(vec![h(at(0, 0)), inner]),
        false => inner,
    };
    with(&[pair, qreg(3), t(at(0, 1)), statement], &[])
}

/// An operand of any kind.
fn some_operand(random: &mut Random) -> Field {
    let number = random.below(3) as u8;
    match random.below(3) {
        0 => whole(number),
        _ => at(number, random.below(3) as u16),
    }
}

/// Operands of kinds that may be wrong.
fn kinds(random: &mut Random) -> Case {
    let types = vec![qbit(), qbits(literal(2))];
    let called = family(0, types.clone(), vec![cx(whole(0), at(1, 1))]);
    let (one, two) = (some_operand(random), some_operand(random));
    match random.below(6) {
        0 => with(&[called, qreg(2), creg(2), measure(one, two)], &[]),
        1 => with(&[called, qreg(2), creg(2), reset(one)], &[]),
        2 => with(
            &[called, qreg(2), creg(2), call(0, vec![], vec![one, two])],
            &[],
        ),
        3 => with(&[called, qreg(2), creg(2), when(0, one, vec![h(two)])], &[]),
        4 => with(&[family(0, types, vec![cx(one, two)])], &[]),
        _ => {
            let body = vec![call(0, vec![], vec![one, two])];
            let mut case = with(&[called, family(0, types, body)], &[]);
            case.family = 1;
            case
        }
    }
}

/// Numbers of families, operands and variables about the last in scope.
fn numbers(random: &mut Random) -> Case {
    let number = random.below(4) as u8;
    let mut named = match random.below(2) {
        0 => element(number, variable(random.below(3) as u8)),
        _ => whole(number),
    };
    if random.percent(15) {
        named.tail.push(random.byte());
    }
    let inner = match random.below(5) {
        0 | 1 => h(named),
        2 | 3 => call(number.into(), vec![minus(0, 1)], vec![named, whole(1)]),
        _ => wide_call(number.into(), vec![minus(0, 1)], vec![named, whole(1)]),
    };
    let looped = repeat(literal(0), minus(0, 1), vec![inner]);
    let fields = [
        over_size(vec![t(whole(1))]),
        over_size(vec![looped.clone(), h(whole(1))]),
        qreg(3),
        looped,
    ];
    let mut case = with(&fields, &[random.below(4) as u32]);
    case.family = random.below(3) as u32;
    case
}

/// A register passed for a parameter of about its size.
fn passed_registers(random: &mut Random) -> Case {
    let have = random.below(7) as u16;
    let asked = random.below(8) as u16;
    let gate = repeat(literal(0), minus(0, 1), vec![h(element(0, variable(1)))]);
    let called = family(1, vec![qbits(variable(0))], vec![gate]);
    let size = match random.below(3) {
        0 => literal(asked),
        1 => difference(literal(have), literal(random.below(3) as u16)),
        _ => sum(literal(asked), literal(0)),
    };
    let operand = match random.percent(90) {
        true => whole(0),
        false => at(0, 0),
    };
    let statement = call(0, vec![size], vec![operand]);
    with(
        &[called, qreg(have), reverse(vec![statement])],
        &[have.into()],
    )
}

/// A chain of calls, each from some levels down, with a short limit at times.
fn deep_calls(random: &mut Random) -> Case {
    let families = 1 + random.below(20);
    let levels = 1 + random.below(16);
    let mut case = match random.percent(50) {
        true => with(&library::deep_calls(families, levels), &[]),
        false => with(
            &library::deep_loops(families, levels.min(8), levels / 4),
            &[3],
        ),
    };
    case.family = (families - 1) as u32;
    case.limit = random.pick(&[10_000, 10, 100]);
    case.output = random.pick(&[0, RECORD_BYTES - 1, RECORD_BYTES, 100]);
    case
}
