//! The large libraries are what they are meant to be, by the reference.

use generate::build::{families, length, program, Field, MOST_BYTES, MOST_FAMILIES};
use generate::libraries::{damaged, sound};
use generate::shapes::SHAPES;
use generate::{library, Case};
use std::collections::BTreeMap;

/// How many seeds are looked at.
const SEEDS: u64 = 60;

/// How often each number is the answer of check.
fn numbers(made: fn(u64) -> Case) -> BTreeMap<u32, u64> {
    let mut counts = BTreeMap::new();
    for seed in 0..SEEDS {
        let answer = reference::check(&made(seed).program);
        *counts.entry(answer.number).or_default() += 1;
    }
    counts
}

/// How many fields have a tag, at any depth.
fn with_tag(fields: &[Field], tag: u8) -> usize {
    let inside = |field: &Field| usize::from(field.tag == tag) + with_tag(&field.parts, tag);
    fields.iter().map(inside).sum()
}

#[test]
fn sound_libraries_are_accepted_and_most_list_gates() {
    assert_eq!(numbers(sound), BTreeMap::from([(0, SEEDS)]));
    let listed = (0..SEEDS).map(sound).filter(|case| {
        let mut output = vec![0; case.output];
        reference::run(&case.program, case.limit, &mut output).records > 0
    });
    assert!(listed.count() as u64 * 2 > SEEDS, "half with records");
}

#[test]
fn damaged_libraries_are_turned_down_for_the_numbers_of_calls() {
    let counts = numbers(damaged);
    for number in [0, 3, 4, 8, 31] {
        assert!(counts.contains_key(&number), "{number}: {counts:?}");
    }
}

#[test]
fn a_seed_always_makes_the_same_library() {
    for seed in 0..5 {
        assert_eq!(sound(seed), sound(seed));
        assert_eq!(damaged(seed), damaged(seed));
    }
}

#[test]
fn every_shape_is_accepted_and_no_family_more_would_fit() {
    for shape in SHAPES {
        let fields = shape.deepest();
        let bytes = program(&fields);
        let declared = families(&fields);
        println!(
            "{:24} {declared:5} families, {} bytes",
            shape.name,
            bytes.len()
        );
        let indexes = program(&shape.deepest_indexes());
        assert_eq!(reference::check(&bytes).number, 0, "{}", shape.name);
        assert_eq!(reference::check(&indexes).number, 0, "{}", shape.name);
        let more = shape.at_a_time();
        let most = length(&fields[declared + 1 - more..=declared]);
        let full = bytes.len() + most > MOST_BYTES || declared + more > MOST_FAMILIES;
        assert!(bytes.len() <= MOST_BYTES && full, "{}", shape.name);
    }
}

#[test]
fn the_library_of_small_families_has_thousands_of_both_calls() {
    let fields = library::small_families();
    let bytes = program(&fields);
    assert_eq!(reference::check(&bytes).number, 0);
    assert_eq!(families(&fields), 4_000);
    assert!(with_tag(&fields, 36) > 1_000 && with_tag(&fields, 39) > 1_000);
    assert!(
        (60_000..=MOST_BYTES).contains(&bytes.len()),
        "{}",
        bytes.len()
    );
}
