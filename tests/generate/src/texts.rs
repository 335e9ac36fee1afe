//! Programs whose lists are long to print, or have every number in them.

use crate::build::*;

/// The most qubits, and the most bits, of a program.
const MOST: u16 = 65_535;
/// How many qubits, or bits, one of several programs names, so that it is not too long.
const EACH: usize = 1_400;

/// 111,068 times cx on wires of five digits.
pub fn far_pairs() -> Vec<Field> {
    let (wire, before) = (|| element(0, variable(0)), || element(0, minus(0, 1)));
    let round = vec![cx(wire(), before()), cx(before(), wire())];
    vec![
        qreg(MOST),
        repeat(literal(10_001), literal(MOST - 1), round),
    ]
}

/// A loop of so many rounds that has ten gates h on wires of one digit.
fn ten_gates(rounds: u16) -> Field {
    let gates = (0..10).map(|wire| h(at(0, wire))).collect();
    repeat(literal(1), literal(rounds), gates)
}

/// 100,000 times h on wires of one digit.
pub fn near_gates() -> Vec<Field> {
    vec![qreg(10), ten_gates(10_000)]
}

/// A million records: h, t, tdg and cx in turn.
pub fn a_million() -> Vec<Field> {
    let pair = |wire| cx(at(0, wire), at(0, 9 - wire));
    let four = |wire| [h(at(0, wire)), t(at(0, wire)), tdg(at(0, wire)), pair(wire)];
    let gates = (0..5).flat_map(four).collect();
    vec![qreg(10), repeat(literal(1), literal(50_000), gates)]
}

/// 100,000 conditioned gates, half of them for each value.
pub fn conditioned() -> Vec<Field> {
    let when_it_is = |value| when(value, at(1, 5), vec![ten_gates(5_000)]);
    vec![qreg(10), creg(10), when_it_is(0), when_it_is(1)]
}

/// As many measurements as fit into a program, on wires and bits of three digits.
pub fn measured() -> Vec<Field> {
    let one = |place| measure(at(0, place), at(1, 999 - place));
    let mut fields = vec![qreg(1_000), creg(1_000)];
    fields.extend((0..3_000).map(|number| one(100 + number % 800)));
    fields
}

/// Every k that a run takes, in phases on one wire and on two and in their inverses.
pub fn every_k() -> Vec<Field> {
    let (k, far) = (|| variable(0), MOST - 1);
    let pair = cphase(k(), at(0, far), at(0, far - 1));
    let turns = vec![phase(k(), at(0, 7)), pair];
    let backward = reverse(turns.clone());
    let both = [turns, vec![backward]].concat();
    vec![qreg(MOST), repeat(literal(0), literal(63), both)]
}

/// 51,200 phases: for every k, on one wire and, reversed, on two.
pub fn turned() -> Vec<Field> {
    let pair = cphase(variable(0), at(0, 1), at(0, 2));
    let turns = vec![phase(variable(0), at(0, 3)), reverse(vec![pair])];
    let inner = repeat(literal(1), literal(400), turns);
    vec![qreg(10), repeat(literal(0), literal(63), vec![inner])]
}

/// A thousand times the longest line that a list can have.
pub fn longest_lines() -> Vec<Field> {
    let turn = cphase(literal(63), at(0, MOST - 1), at(0, MOST - 2));
    let turns = repeat(literal(1), literal(1_000), vec![reverse(vec![turn])]);
    let condition = when(1, at(1, MOST - 1), vec![turns]);
    vec![qreg(MOST), creg(MOST), condition]
}

/// All bits that a program may have, and nothing else.
pub fn most_bits() -> Vec<Field> {
    vec![creg(MOST)]
}

/// All qubits and bits that a program may have, and a gate on the last qubit.
pub fn most_locations() -> Vec<Field> {
    vec![qreg(MOST), creg(MOST), h(at(0, MOST - 1))]
}

/// Every gate on every wire that there may be.
pub fn every_wire() -> Vec<Field> {
    let (wire, next) = (|| element(0, variable(0)), || element(0, plus(0, 1)));
    let single = vec![h(wire()), t(wire()), tdg(wire())];
    let pairs = vec![cx(wire(), next()), cx(next(), wire())];
    vec![
        qreg(MOST),
        repeat(literal(0), literal(MOST - 1), single),
        repeat(literal(0), literal(MOST - 2), pairs),
    ]
}

/// Programs that together have something for each number below the most.
fn in_parts(registers: &[Field], each: impl Fn(u16) -> [Field; 2]) -> Vec<Vec<Field>> {
    let numbers: Vec<u16> = (0..MOST).collect();
    let part = |numbers: &[u16]| {
        let mut fields = registers.to_vec();
        fields.extend(numbers.iter().flat_map(|&number| each(number)));
        fields
    };
    numbers.chunks(EACH).map(part).collect()
}

/// Programs that together measure and reset every wire that there may be.
pub fn every_wire_measured() -> Vec<Vec<Field>> {
    in_parts(&[qreg(MOST), creg(1)], |wire| {
        [measure(at(0, wire), at(1, 0)), reset(at(0, wire))]
    })
}

/// Programs that together have every bit measured into, and in a condition.
pub fn every_bit() -> Vec<Vec<Field>> {
    in_parts(&[qreg(1), creg(MOST)], |bit| {
        let value = (bit % 2) as u8;
        let gate = when(value, at(1, bit), vec![h(at(0, 0))]);
        [measure(at(0, 0), at(1, bit)), gate]
    })
}
