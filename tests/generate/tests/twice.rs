//! The programs about one wire twice are what they are meant to be, by the reference.

use generate::build::{program, Field};
use generate::damage::some_pair;
use generate::library::{fourier, reversed_adder};
use generate::linear::Linear;
use generate::random::Random;
use generate::spelling::spelled;
use generate::targeted::twice::{self, far_pair, pair, Difference, Pair, DIFFERENCES};
use generate::targeted::Writer;
use generate::{build, typed, Case};
use reference::Outcome;
use std::collections::{BTreeMap, BTreeSet};

/// How many programs with two wires are looked at.
const PROGRAMS: u64 = 20_000;

/// The answers about a case: check, instance and run.
fn answers(case: &Case) -> [Outcome; 3] {
    let mut output = vec![0; case.output];
    let (program, sizes) = (&case.program, &case.sizes);
    [
        reference::check(program),
        reference::instance(program, case.family, sizes, case.limit, &mut output),
        reference::run(program, case.limit, &mut output),
    ]
}

/// The numbers that check, instance and run give to what a writer makes.
fn numbers(writer: Writer) -> BTreeSet<u32> {
    let cases = (0..3_000).map(|seed| writer(&mut Random::new(seed)));
    cases
        .flat_map(|case| answers(&case))
        .map(|answer| answer.number)
        .collect()
}

/// Tests that a writer reaches all of some numbers.
fn hold(writer: Writer, due: &[u32]) {
    let found = numbers(writer);
    for number in due {
        assert!(found.contains(number), "{number}: {found:?}");
    }
}

/// The programs of some seeds, with numbers near 0 and far from it.
fn pairs() -> Vec<Pair> {
    let made = |seed| {
        let mut random = Random::new(seed);
        match seed % 4 {
            0 => far_pair(&mut random),
            _ => pair(&mut random),
        }
    };
    (0..PROGRAMS).map(made).collect()
}

#[test]
fn a_gate_is_refused_exactly_where_the_forms_are_equal() {
    for (seed, made) in pairs().iter().enumerate() {
        let found = reference::check(&made.case.program);
        let place = (found.number, found.place);
        assert_eq!(place, made.due(), "seed {seed}, {:?}", made.difference);
    }
}

#[test]
fn every_difference_is_made_in_families_and_at_the_top() {
    let mut counts: BTreeMap<(Difference, bool, bool), u64> = BTreeMap::new();
    let mut loops: BTreeMap<(bool, usize), u64> = BTreeMap::new();
    for made in pairs() {
        let key = (made.difference, made.top, made.no_rounds);
        *counts.entry(key).or_default() += 1;
        *loops.entry((made.is_same(), made.loops)).or_default() += 1;
    }
    println!("{counts:?}\n{loops:?}");
    for difference in DIFFERENCES {
        let whole = [Difference::Wire, Difference::SameWire].contains(&difference);
        let tops: &[bool] = if whole { &[false] } else { &[false, true] };
        for &top in tops {
            for no_rounds in [false, true] {
                let key = (difference, top, no_rounds);
                assert!(counts.get(&key).is_some_and(|&n| n > 20), "{key:?}");
            }
        }
    }
    for count in [0, 1, 2, 3, 8] {
        for same in [false, true] {
            let found = loops.get(&(same, count)).copied().unwrap_or(0);
            assert!(found > 100, "{same}, {count} loops: {found}");
        }
    }
}

#[test]
fn unequal_forms_run_or_end_with_one_wire() {
    let mut counts: BTreeMap<(Difference, u32), u64> = BTreeMap::new();
    for made in pairs() {
        let [_, unrolled, ran] = answers(&made.case);
        let answer = if made.top { ran } else { unrolled };
        *counts.entry((made.difference, answer.number)).or_default() += 1;
    }
    println!("{counts:?}");
    for difference in [Difference::Coefficient, Difference::Variable] {
        for number in [0, 25] {
            let found = counts.get(&(difference, number)).copied().unwrap_or(0);
            assert!(found > 50, "{difference:?}, {number}: {found}");
        }
    }
    assert!(!counts.contains_key(&(Difference::Constant, 25)));
    assert!(!counts.contains_key(&(Difference::Register, 25)));
}

#[test]
fn faults_of_a_gate_and_beside_it_are_found_in_all_ways() {
    hold(twice::operands, &[0, 3, 4, 5, 8, 9, 10, 11, 12, 35]);
    hold(twice::kinds, &[0, 8, 9, 34, 35]);
    hold(twice::damaged, &[0, 3, 4, 8, 9, 12, 35]);
    hold(twice::beside, &[0, 2, 3, 4, 5, 8, 9, 11, 12, 35]);
    hold(twice::turns, &[0, 4, 5, 8, 10, 11, 12, 25, 26, 27, 32, 35]);
}

#[test]
fn one_wire_twice_by_value_ends_a_run() {
    hold(twice::parameters, &[0, 25, 35]);
    hold(twice::meeting_slices, &[0, 25, 35]);
    hold(twice::passed_families, &[0, 25, 34, 35]);
    hold(twice::ended, &[0, 25, 26, 27, 34, 35]);
}

#[test]
fn every_answer_of_35_is_that_of_all_calls() {
    let mut refused = 0;
    for seed in 0..PROGRAMS {
        let case = twice::case(&mut Random::new(seed));
        let [checked, unrolled, ran] = answers(&case);
        if [checked, unrolled, ran].iter().any(|one| one.number == 35) {
            assert!(checked == unrolled && checked == ran, "seed {seed}");
            assert_eq!((checked.records, checked.steps), (0, 0), "seed {seed}");
            let tag = case.program[checked.place as usize];
            assert!([35, 41].contains(&tag), "seed {seed}: {tag}");
            refused += 1;
        }
    }
    assert!(refused * 5 > PROGRAMS, "{refused}");
}

/// The value of an index by its tree, at values of its variables.
fn value(index: &Field, values: &[i64]) -> i64 {
    let side = |place: usize| value(&index.parts[place], values);
    match (index.tag, index.head.as_slice()) {
        (64, &[low, high]) => u16::from_le_bytes([low, high]).into(),
        (65, &[variable]) => values[usize::from(variable)],
        (66, _) => side(0) + side(1),
        (67, _) => side(0) - side(1),
        (68, _) => side(0) * side(1),
        other => panic!("no index: {other:?}"),
    }
}

#[test]
fn every_spelling_has_the_same_values() {
    let mut spellings = BTreeSet::new();
    for seed in 0..5_000 {
        let mut random = Random::new(seed);
        let linear = Linear::number(3)
            .plus(2, &Linear::variable(0))
            .plus(-1, &Linear::variable(2));
        let index = spelled(&linear, 3, &mut random);
        for values in [[0, 0, 0], [1, 0, 0], [0, 1, 0], [0, 0, 1], [7, 11, 13]] {
            let due = 3 + 2 * values[0] - values[2];
            assert_eq!(value(&index, &values), due, "seed {seed}");
        }
        spellings.insert(program(&[index]));
    }
    assert!(spellings.len() > 1_000, "{}", spellings.len());
}

#[test]
fn damaged_pairs_are_turned_down_in_all_ways() {
    let mut found: BTreeMap<u32, u64> = BTreeMap::new();
    for seed in 0..3_000 {
        let mut fields = match seed % 2 {
            0 => reversed_adder(),
            _ => fourier(),
        };
        some_pair(&mut fields, &mut Random::new(seed));
        let number = reference::check(&program(&fields)).number;
        *found.entry(number).or_default() += 1;
    }
    for number in [0, 3, 4, 8, 9, 12, 35] {
        assert!(found.contains_key(&number), "{number}: {found:?}");
    }
    assert!(found[&35] > 1_000, "{found:?}");
}

/// The gates on two wires of a program.
fn gates(fields: &[Field]) -> Vec<&Field> {
    let inside = |field| {
        let own = matches!(field, &Field { tag: 35 | 41, .. }).then_some(field);
        own.into_iter().chain(gates(&field.parts))
    };
    fields.iter().flat_map(inside).collect()
}

#[test]
fn sound_programs_have_gates_on_two_elements_of_one_register() {
    let mut close = 0;
    for seed in 0..1_000 {
        let written = typed::sound(&mut Random::new(seed));
        let one_register = |gate: &&Field| {
            let [.., first, second] = &gate.parts[..] else {
                return false;
            };
            first.tag == 49 && second.tag == 49 && first.head == second.head
        };
        close += gates(&written.fields)
            .into_iter()
            .filter(one_register)
            .count();
        let checked = reference::check(&build::program(&written.fields));
        assert_eq!(checked.number, 0, "seed {seed}");
    }
    assert!(close > 300, "{close}");
}
