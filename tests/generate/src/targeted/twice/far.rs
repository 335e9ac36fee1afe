//! A gate on two wires whose forms have numbers far from 0, and may differ in one of them.

use super::forms::{Difference, Pair};
use super::gate;
use crate::build::*;
use crate::case::Case;
use crate::forms::LARGEST;
use crate::linear::Linear;
use crate::random::Random;
use crate::spelling::exchanged;
use crate::targeted::with;

/// Numbers of which some two differ in a few bits only.
const NUMBERS: [i64; 11] = [
    0,
    1,
    255,
    256,
    32_768,
    65_535,
    65_536,
    1 << 24,
    1 << 29,
    999_000_000,
    999_000_001,
];
/// The largest index that has room for each of them before and behind it.
const MIDDLE: i64 = LARGEST / 2;

/// One gate on two wires whose forms have such numbers.
pub fn far_numbers(random: &mut Random) -> Case {
    far_pair(random).case
}

/// Such a form over two variables: loops of one round at 0 at the top; in a family the size n
/// and a loop from 0 to 1.
fn far_form(top: bool, random: &mut Random) -> Linear {
    let [number, one, other] = [0, 1, 2].map(|_| random.pick(&NUMBERS));
    let sign = random.pick(&[1, -1]);
    let mut form = match top {
        true => Linear::number(random.pick(&[0, 1, 255, 256, 257, 65_534])),
        false => Linear::number(MIDDLE + number % 65_536),
    };
    form.coefficients[0] = match (top, random.below(4)) {
        (_, 0) => LARGEST - random.between(0, 1),
        (true, 1) => -one,
        _ => one,
    };
    form.coefficients[1] = sign * other;
    form
}

/// A program with such a gate, and what is due. All indexes are shown inside.
pub fn far_pair(random: &mut Random) -> Pair {
    let top = random.percent(50);
    let [one, another] = [0, 1].map(|_| far_form(top, random));
    let mut other = one;
    match random.below(6) {
        0 | 1 => {}
        2 => other.constant = another.constant,
        3 => other.coefficients[0] = another.coefficients[0],
        4 => other.coefficients[1] = another.coefficients[1],
        _ => other.coefficients[1] = -one.coefficients[1],
    }
    let difference = match (one == other, one.constant == other.constant) {
        (true, _) => Difference::None,
        (_, true) => Difference::Coefficient,
        _ => Difference::Constant,
    };
    let wire = |linear: Linear| element(0, exchanged(&linear.render(random), random));
    let [first, second] = [one, other].map(wire);
    let gate = gate(first, second, random);
    let after = gate.size();
    let case = around(top, gate);
    Pair {
        place: (case.program.len() - after) as u32,
        case,
        difference,
        top,
        loops: if top { 2 } else { 1 },
        no_rounds: false,
        faulty: false,
    }
}

/// The program with the gate: at the top with 65,535 qubits, or in a family with
/// x:Qbit[2,000,000,000n + 2,000,000,000].
fn around(top: bool, gate: Field) -> Case {
    if top {
        let once = |inside| repeat(literal(0), literal(0), vec![inside]);
        return with(&[qreg(65_535), once(once(gate))], &[]);
    }
    let looped = repeat(literal(0), literal(1), vec![gate]);
    let size = sum(product(largest(), variable(0)), largest());
    with(&[family(1, vec![qbits(size)], vec![looped])], &[0])
}
