//! Cases of hundreds to thousands of families: sound ones and damaged ones.

use crate::build::{program, MOST_FAMILIES};
use crate::case::{arguments, Case};
use crate::damage;
use crate::random::Random;
use crate::typed::{library, Written};

/// How many families there are: about the numbers that take two bytes, and up to the most.
const COUNTS: [usize; 12] = [
    200,
    255,
    256,
    257,
    258,
    300,
    520,
    1_000,
    2_000,
    3_000,
    MOST_FAMILIES - 1,
    MOST_FAMILIES,
];

/// A library as it was written.
pub fn sound(seed: u64) -> Case {
    let mut random = Random::new(seed);
    let written = written(&mut random);
    arguments(program(&written.fields), &written.families, &mut random)
}

/// A library with one damaged call, with damage to what is passed, to a gate on two wires or,
/// less often, any other.
pub fn damaged(seed: u64) -> Case {
    let mut random = Random::new(seed);
    let mut written = written(&mut random);
    match random.below(100) {
        0..=59 => damage::some_call(&mut written.fields, &mut random),
        60..=79 => damage::some_passing(&mut written.fields, &mut random),
        80..=88 => damage::some_pair(&mut written.fields, &mut random),
        _ => damage::tree(&mut written.fields, &mut random),
    }
    arguments(program(&written.fields), &written.families, &mut random)
}

/// A library of one of the counts.
fn written(random: &mut Random) -> Written {
    let count = random.pick(&COUNTS);
    library(count, random)
}
