//! A case: a program and the arguments with which it is checked and run.

use crate::build::{program, sizes};
use crate::random::Random;
use crate::typed::{Signature, Written};
use crate::{damage, targeted, typed};
use reference::RECORD_BYTES;

/// One program with arguments for all calls.
#[derive(Clone, Debug, PartialEq, Eq)]
pub struct Case {
    pub program: Vec<u8>,
    pub family: u32,
    pub sizes: Vec<u8>,
    pub limit: u64,
    /// The number of output bytes.
    pub output: usize,
}

/// The case that belongs to a seed.
pub fn case(seed: u64) -> Case {
    let mut random = Random::new(seed);
    match random.below(100) {
        0..=54 => whole_case(&mut random),
        55..=70 => damaged_tree(&mut random),
        71..=80 => damaged_bytes(&mut random),
        81 | 82 => mixed(&mut random),
        _ => targeted::case(&mut random),
    }
}

/// A program as it was written.
fn whole_case(random: &mut Random) -> Case {
    let written = typed::program(random);
    let bytes = program(&written.fields);
    arguments(bytes, &written.families, random)
}

/// A program with changes that keep its lengths right.
fn damaged_tree(random: &mut Random) -> Case {
    let Written {
        mut fields,
        families,
    } = typed::program(random);
    match random.below(100) {
        0..=14 => damage::some_phase(&mut fields, random),
        15..=34 => damage::some_slice(&mut fields, random),
        35..=59 => damage::some_passing(&mut fields, random),
        60..=69 => damage::some_pair(&mut fields, random),
        _ => damage::tree(&mut fields, random),
    }
    arguments(program(&fields), &families, random)
}

/// A program with changed, removed, added or cut-off bytes.
fn damaged_bytes(random: &mut Random) -> Case {
    let written = typed::program(random);
    let bytes = damage::bytes(&written.fields, random);
    arguments(bytes, &written.families, random)
}

/// A sound program with any fields behind it.
fn mixed(random: &mut Random) -> Case {
    let mut written = typed::program(random);
    if random.percent(50) {
        written.fields.clear();
    }
    written.fields.extend(damage::soup(3, random));
    arguments(program(&written.fields), &written.families, random)
}

/// Arguments that mostly suit the families declared.
pub(crate) fn arguments(program: Vec<u8>, families: &[Signature], random: &mut Random) -> Case {
    let family = match random.percent(96) {
        true => some_family(families, random),
        false => families.len() + random.below(3),
    };
    let count = families.get(family).map_or(1, |called| called.sizes);
    let numbers: Vec<u32> = (0..count).map(|_| some_size(random)).collect();
    let mut sizes = sizes(&numbers);
    match random.below(60) {
        0 => sizes.push(0),
        1 => sizes.truncate(sizes.len().saturating_sub(1)),
        2 => sizes.extend([0; 4]),
        _ => {}
    }
    Case {
        program,
        family: family as u32,
        sizes,
        limit: some_limit(random),
        output: some_length(random),
    }
}

/// The number of a family, mostly of one that takes no families.
fn some_family(families: &[Signature], random: &mut Random) -> usize {
    let plain = |number: &usize| !families[*number].takes_families();
    let numbers: Vec<usize> = (0..families.len()).filter(plain).collect();
    match numbers.is_empty() || random.percent(12) {
        true => random.below(families.len()),
        false => random.pick(&numbers),
    }
}

/// A size: mostly small, sometimes at or past the largest.
fn some_size(random: &mut Random) -> u32 {
    match random.below(60) {
        0 => 65_535,
        1 => random.pick(&[65_536, 65_537, 1 << 31, u32::MAX]),
        2 => random.below(65_536) as u32,
        _ => random.below(6) as u32,
    }
}

/// A step limit: mostly enough, never so much that a case takes long.
fn some_limit(random: &mut Random) -> u64 {
    match random.below(100) {
        0..=19 => random.below(40) as u64,
        20..=24 => random.below(400) as u64,
        _ => 10_000,
    }
}

/// A number of output bytes: mostly enough.
fn some_length(random: &mut Random) -> usize {
    match random.below(100) {
        0..=19 => random.below(100),
        20..=24 => RECORD_BYTES * random.below(50),
        _ => RECORD_BYTES * 1_250,
    }
}
