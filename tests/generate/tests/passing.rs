//! The programs about families as arguments are what they are meant to be, by the reference.

use generate::build::{families, program, sizes, Field, MOST_BYTES};
use generate::damage::some_passing;
use generate::histogram::Histogram;
use generate::library::{multiplier, packed, passed_multiplier, passed_on};
use generate::random::Random;
use generate::targeted::passing;
use generate::targeted::Writer;
use generate::{build, libraries, read, typed, Case};
use reference::{Outcome, RECORD_BYTES};
use std::collections::BTreeSet;

/// The answer about a family at sizes, and its records.
fn unrolled(fields: &[Field], family: u32, numbers: &[u32]) -> (Outcome, Vec<u8>) {
    let mut output = vec![0; RECORD_BYTES * 1_000];
    let sizes = sizes(numbers);
    let answer = reference::instance(&program(fields), family, &sizes, 1_000_000, &mut output);
    output.truncate(RECORD_BYTES * answer.records as usize);
    (answer, output)
}

/// How many fields have a tag, at any depth.
fn with_tag(fields: &[Field], tag: u8) -> usize {
    let inside = |field: &Field| usize::from(field.tag == tag) + with_tag(&field.parts, tag);
    fields.iter().map(inside).sum()
}

/// The answers of a writer: the numbers that check, instance and run give.
fn numbers(writer: Writer) -> BTreeSet<u32> {
    let mut found = BTreeSet::new();
    for seed in 0..2_000 {
        let Case {
            program,
            family,
            sizes,
            limit,
            output,
        } = writer(&mut Random::new(seed));
        let mut output = vec![0; output];
        found.insert(reference::check(&program).number);
        found.insert(reference::instance(&program, family, &sizes, limit, &mut output).number);
        found.insert(reference::run(&program, limit, &mut output).number);
    }
    found
}

/// Tests that a writer reaches all of some numbers.
fn hold(writer: Writer, due: &[u32]) {
    let found = numbers(writer);
    for number in due {
        assert!(found.contains(number), "{number}: {found:?}");
    }
}

#[test]
fn counts_kinds_and_sizes_agree_or_not() {
    hold(passing::counts, &[0, 9, 12, 34]);
    hold(passing::sizes, &[0, 11, 12, 34]);
    hold(passing::loops_of_the_caller, &[0, 12]);
}

#[test]
fn operands_are_refused_in_all_ways() {
    hold(passing::read, &[0, 4, 8, 9, 33]);
    hold(passing::numbers, &[0, 4, 8, 9, 33]);
    hold(passing::itself, &[0, 4, 8, 9, 33]);
    hold(passing::places, &[3, 4, 8, 9, 33]);
    hold(passing::handed_on, &[0, 4, 8, 9, 12]);
    hold(passing::far_numbers, &[0, 4, 8, 20, 33, 34]);
}

#[test]
fn calls_and_types_are_refused_in_all_ways() {
    hold(passing::parameter_calls, &[0, 3, 4, 8, 9, 12]);
    hold(passing::read_types, &[0, 2, 3, 4, 5, 6, 8, 9, 10, 12]);
    hold(passing::sized_types, &[0, 3, 4, 5, 8, 9, 10, 11, 12]);
    hold(passing::depths, &[0, 3, 4, 5, 9, 34]);
}

#[test]
fn runs_through_parameters_end_in_all_ways() {
    hold(passing::instances, &[0, 2, 20, 21, 22, 34]);
    hold(passing::ended, &[0, 26, 27, 34]);
    hold(passing::values, &[0, 24, 25, 26, 27, 32]);
    for writer in [passing::chains, passing::several, passing::multipliers] {
        let found = numbers(writer);
        assert!(found.is_subset(&BTreeSet::from([0, 21, 34])), "{found:?}");
    }
}

#[test]
fn sound_programs_are_accepted_and_never_stuck() {
    let mut through = 0;
    for seed in 0..6_000 {
        let written = typed::sound(&mut Random::new(seed));
        let bytes = program(&written.fields);
        assert_eq!(reference::check(&bytes).number, 0, "seed {seed}");
        let mut output = vec![0; RECORD_BYTES * 1_000];
        let ran = reference::run(&bytes, 10_000, &mut output);
        let without = program(&read::without_parameter_calls(&written.fields));
        let less = reference::run(&without, 10_000, &mut output);
        through += u32::from(ran.steps > less.steps);
        for (number, family) in written.families.iter().enumerate() {
            let sizes = build::sizes(&vec![2; family.sizes]);
            let answer = reference::instance(&bytes, number as u32, &sizes, 1_000, &mut output);
            assert_eq!(answer.number == 34, family.takes_families(), "seed {seed}");
        }
    }
    assert!(through > 600, "{through} runs through parameters");
}

#[test]
fn many_programs_call_parameters_and_many_of_them_have_records_through_them() {
    let histogram = Histogram::of(0..6_000);
    let [accepted, passing, through] = [
        histogram.accepted,
        histogram.passing,
        histogram.through_passed,
    ];
    assert!(passing * 4 > accepted, "{passing} of {accepted}");
    assert!(through * 6 > passing, "{through} of {passing}");
}

#[test]
fn damaged_passing_is_turned_down_in_all_ways() {
    let mut found = BTreeSet::new();
    for seed in 0..3_000 {
        let mut fields = passed_multiplier();
        some_passing(&mut fields, &mut Random::new(seed));
        found.insert(reference::check(&program(&fields)).number);
    }
    for number in [0, 2, 3, 4, 5, 6, 8, 9, 10, 12, 33] {
        assert!(found.contains(&number), "{number}: {found:?}");
    }
}

#[test]
fn libraries_pass_families_whose_numbers_take_two_bytes() {
    let mut far = 0;
    for seed in 0..40 {
        let fields = read::fields(&libraries::sound(seed).program);
        let passes = |field: &Field| field.tag == 51 && field.head[1] > 0;
        far += count(&fields, &passes);
    }
    assert!(far > 500, "{far}");
}

/// How many fields are meant, at any depth.
fn count(fields: &[Field], meant: &dyn Fn(&Field) -> bool) -> usize {
    let inside = |field: &Field| usize::from(meant(field)) + count(&field.parts, meant);
    fields.iter().map(inside).sum()
}

#[test]
fn a_product_is_the_same_with_what_adds_passed_to_it() {
    for n in 0..5 {
        for (own, other) in [(2, 3), (3, 4)] {
            let (one, list) = unrolled(&multiplier(), own, &[n]);
            let (two, same) = unrolled(&passed_multiplier(), other, &[n]);
            assert_eq!([one.number, two.number], [0, 0], "{n}");
            assert_eq!(list, same, "{n}");
        }
        let (taking, _) = unrolled(&passed_multiplier(), 2, &[n]);
        assert_eq!(taking.number, 34);
    }
}

#[test]
fn half_of_the_families_that_are_passed_on_are_called_as_parameters() {
    let fields = passed_on(10, 4);
    assert_eq!((families(&fields), with_tag(&fields, 42)), (19, 9));
    let (answer, list) = unrolled(&fields, 18, &[]);
    // Three reversals and a statement for each family.
    assert_eq!((answer.number, answer.steps), (0, 4 * 19));
    assert_eq!(list.len(), RECORD_BYTES);
}

#[test]
fn packed_programs_are_as_long_as_they_are_meant_to_be() {
    for inner in [build::qbit(), build::qbits(build::variable(0))] {
        for (bytes, registers) in [(4_096, 0), (4_096, 254), (MOST_BYTES, 254)] {
            let bytes_of = |wires| program(&packed(bytes, registers, &inner, wires));
            let length = bytes_of(7).len();
            assert!((bytes - 64..=bytes).contains(&length), "{length}");
            let answers = [7, 6].map(|wires| reference::check(&bytes_of(wires)).number);
            assert_eq!(answers, [0, 12]);
        }
    }
}
