//! The checks notice unrollers that are wrong in ways that look finished, multipliers with wrong
//! slices or a wrong adder passed, and controlled adders with wrong loops around them.

use physics::{checks, Calls, Outcome, REFERENCE};
use reference::RECORD_BYTES;

/// The bytes of a record.
type Record = [u8; RECORD_BYTES];

/// Changes all records written.
fn change(outcome: Outcome, output: &mut [u8], change: fn(&mut Record)) -> Outcome {
    let records = usize::try_from(outcome.records).unwrap();
    let (whole, _) = output.as_chunks_mut::<RECORD_BYTES>();
    whole.iter_mut().take(records).for_each(change);
    outcome
}

/// The reference, but every record of a family's list is changed.
macro_rules! changed {
    ($change:expr) => {
        Calls {
            instance: |program, family, sizes, limit, output| {
                let outcome = (REFERENCE.instance)(program, family, sizes, limit, output);
                change(outcome, output, $change)
            },
            run: REFERENCE.run,
        }
    };
}

/// The reference, but tdg is written as t.
const NO_TDG: Calls = changed!(|record| record[0] -= u8::from(record[0] == 3));

/// The reference, but phasedg is written as phase, and cphasedg as cphase.
const NO_INVERSE_PHASES: Calls = changed!(|record| {
    record[0] -= u8::from(matches!(record[0], 8 | 10));
});

/// The reference, but k is one more.
const LARGER_K: Calls = changed!(|record| record[8] += u8::from(record[0] >= 7));

/// The reference, but k is one less where it is 3.
const SMALLER_K: Calls = changed!(|record| record[8] -= u8::from(record[8] == 3));

/// The reference, but a cphase on wires 0 and 2 is on 1 and 2.
const OTHER_PAIR: Calls = changed!(|record| {
    let pair = record[0] >= 9 && record[2] == 0 && record[4] == 2;
    record[2] += u8::from(pair);
});

/// The reference, but the wires of a cphase are exchanged, which is the same gate.
const SAME_PAIR: Calls = changed!(|record| {
    if record[0] >= 9 {
        record.swap(2, 4);
        record.swap(3, 5);
    }
});

/// The reference, but the last record is missing.
const ONE_SHORT: Calls = Calls {
    instance: |program, family, sizes, limit, output| {
        let outcome = (REFERENCE.instance)(program, family, sizes, limit, output);
        let records = outcome.records.saturating_sub(1);
        Outcome { records, ..outcome }
    },
    run: |program, limit, output| {
        let outcome = (REFERENCE.run)(program, limit, output);
        let records = outcome.records.saturating_sub(1);
        Outcome { records, ..outcome }
    },
};

/// The reference, but conditions are forgotten.
const UNCONDITIONAL: Calls = Calls {
    instance: REFERENCE.instance,
    run: |program, limit, output| {
        let outcome = (REFERENCE.run)(program, limit, output);
        change(outcome, output, |record| record[1] = 0)
    },
};

/// The program with its family 3 passed wherever another one is.
fn passing_family_3(program: &[u8]) -> Vec<u8> {
    let mut changed = program.to_vec();
    for at in 0..program.len().saturating_sub(4) {
        if program[at..at + 3] == [51, 2, 0] {
            changed[at + 3..at + 5].copy_from_slice(&[3, 0]);
        }
    }
    changed
}

/// The reference, but one and the same family stands for every one that is passed.
const ALWAYS_FAMILY_3: Calls = Calls {
    instance: |program, family, sizes, limit, output| {
        let changed = passing_family_3(program);
        (REFERENCE.instance)(&changed, family, sizes, limit, output)
    },
    run: REFERENCE.run,
};

/// Nothing is ever written.
const SILENT: Calls = Calls {
    instance: |_, _, _, _, _| NOTHING,
    run: |_, _, _| NOTHING,
};

const NOTHING: Outcome = Outcome {
    number: 0,
    place: 0,
    records: 0,
    steps: 0,
};

/// Every program is turned down.
const REFUSING: Calls = Calls {
    instance: |_, _, _, _, _| Outcome {
        number: 3,
        ..NOTHING
    },
    run: |_, _, _| Outcome {
        number: 3,
        ..NOTHING
    },
};

/// The names of the checks that fail.
fn failing(calls: &Calls) -> Vec<&'static str> {
    let failed = checks::ALL
        .iter()
        .filter(|(_, check)| check(calls).is_err());
    failed.map(|(name, _)| *name).collect()
}

#[test]
fn the_reference_fails_nowhere() {
    assert!(failing(&REFERENCE).is_empty());
}

#[test]
fn tdg_written_as_t_is_noticed() {
    let failed = failing(&NO_TDG);
    assert!(failed.contains(&"toffoli_is_a_toffoli"));
    assert!(failed.contains(&"adder_adds"));
    assert!(failed.contains(&"ctrladd_guarded_adds_from_two_cells_on"));
    assert!(failed.contains(&"there_and_back_is_no_change"));
    assert!(failed.contains(&"reversed_lists_are_mirrored"));
    assert!(PASSED.iter().all(|name| failed.contains(name)));
}

/// The checks of the Fourier transform's families.
const FOURIER: [&str; 3] = [
    "fourier_transforms",
    "fourier_and_back_is_no_change",
    "fourier_adder_adds",
];

/// The checks of what the multiplier's families give.
const MULTIPLIER: [&str; 2] = [
    "multiplier_multiplies",
    "multiplier_as_printed_loses_carries",
];

/// The checks of what the adders and multipliers with passed families give.
const PASSED: [&str; 3] = [
    "passed_adders_add_under_control",
    "multiplier_of_multiplies",
    "multiplier_of_both_adders_is_the_same",
];

#[test]
fn inverse_phases_that_are_not_exchanged_are_noticed() {
    let mirrored = ["reversed_lists_are_mirrored"];
    let due = [&FOURIER[1..], &MULTIPLIER, &PASSED, &mirrored].concat();
    assert_eq!(failing(&NO_INVERSE_PHASES), due);
}

#[test]
fn a_k_that_is_one_off_is_noticed() {
    let fourier = [FOURIER[0], FOURIER[2]];
    let due = [&fourier, &MULTIPLIER[..], &PASSED].concat();
    assert_eq!(failing(&LARGER_K), due);
    let due = [&fourier, &MULTIPLIER[..1], &PASSED].concat();
    assert_eq!(failing(&SMALLER_K), due);
}

#[test]
fn a_phase_on_another_pair_of_wires_is_noticed() {
    let due = [&[FOURIER[0], FOURIER[2]], &MULTIPLIER[..], &PASSED].concat();
    assert_eq!(failing(&OTHER_PAIR), due);
}

#[test]
fn another_family_than_the_passed_one_is_noticed() {
    let due = ["passed_adder_lists_as_called"];
    assert_eq!(failing(&ALWAYS_FAMILY_3), due);
}

#[test]
fn a_phase_is_the_same_with_its_wires_exchanged() {
    assert!(failing(&SAME_PAIR).is_empty());
}

#[test]
fn a_missing_record_is_noticed() {
    let failed = failing(&ONE_SHORT);
    for name in [
        "bell_pair_agrees",
        "teleport_moves_the_state",
        "toffoli_is_a_toffoli",
        "adder_adds",
        "ctrladd_adds_under_control",
        "ctrladd_guarded_adds_from_two_cells_on",
        "there_and_back_is_no_change",
        "library_flips_what_it_names",
        "fourier_transforms",
        "fourier_and_back_is_no_change",
        "fourier_adder_adds",
        "fourier_run_adds_one_and_one",
        "multiplier_multiplies",
        "multiplier_and_back_is_no_change",
        "multiplier_run_gives_nine",
        "passed_adders_add_under_control",
        "multiplier_of_multiplies",
        "multiplier_of_both_adders_is_the_same",
        "multiplier_of_and_back_is_no_change",
        "multiplier_of_run_gives_nine_twice",
    ] {
        assert!(failed.contains(&name), "{name}");
    }
}

#[test]
fn forgotten_conditions_are_noticed() {
    let failed = failing(&UNCONDITIONAL);
    assert_eq!(failed, ["coin_is_put_back", "teleport_moves_the_state"]);
}

#[test]
fn writing_nothing_and_refusing_all_are_noticed() {
    assert!(failing(&SILENT).len() >= 10);
    assert_eq!(failing(&REFUSING).len(), checks::ALL.len());
}

/// Shows that a multiplier with another slice is accepted and does not multiply two bits by two.
fn wrong_slice(right: &str, wrong: &str) {
    assert!(checks::MULTIPLIER.contains(right), "{right}");
    let text = checks::MULTIPLIER.replace(right, wrong);
    let bytes = programs::assemble(&text).unwrap().bytes;
    assert_eq!(reference::check(&bytes).number, 0, "{wrong}");
    assert!(
        checks::multiplies(&REFERENCE, &text, "mult", 2).is_err(),
        "{wrong}"
    );
}

#[test]
fn wrong_slices_are_noticed() {
    wrong_slice("x[0..n-i]", "x[i-1..n-1]");
    wrong_slice("b[j..n+m-1]", "b[0..n+m-1-j]");
    wrong_slice("z[i..i+n]", "z[n-1-i..2*n-1-i]");
    wrong_slice("(n, 1)(x[i], y, z[i..i+n])", "(n, 0)(x[i], y, z[i+1..i+n])");
    wrong_slice("(n, 1)(x[i], y, z[i..i+n])", "(n, 0)(x[i], y, z[i..i+n-1])");
    checks::multiplies(&REFERENCE, checks::MULTIPLIER, "mult", 2).unwrap();
}

/// Shows that the multiplier that takes its adder, with one text put for another, is accepted, and
/// whether it multiplies two bits by two with each of both adders.
fn with_adders(right: &str, put: &str, multiplies: [bool; 2]) {
    assert!(checks::MULTIPLIER_OF.contains(right), "{right}");
    let nothing = "family(n) nothing(ctrl: Qbit, a: Qbit[n], b: Qbit[n+1], c: Qbit) {}";
    let text = format!("{nothing}{}", checks::MULTIPLIER_OF.replace(right, put));
    let bytes = programs::assemble(&text).unwrap().bytes;
    assert_eq!(reference::check(&bytes).number, 0, "{put}");
    let found = ["mult_ripple", "mult_fourier"]
        .map(|family| checks::multiplies(&REFERENCE, &text, family, 2).is_ok());
    assert_eq!(found, multiplies, "{put}");
}

#[test]
fn wrong_adders_are_noticed() {
    with_adders("anc, ripple_add", "anc, ripple_add", [true, true]);
    with_adders("anc, ripple_add", "anc, fourier_add", [true, true]);
    with_adders("anc, ripple_add", "anc, nothing", [false, true]);
    with_adders("anc, fourier_add", "anc, nothing", [true, false]);
    with_adders("toffoli(a[n-1], ctrl, b[n]);", "", [false, true]);
    with_adders("a[j], b[i]", "a[j], b[n-i+j]", [true, false]);
    with_adders("z[i..i+n], anc", "z[n-1-i..2*n-1-i], anc", [false, false]);
    with_adders("ctrladd(n)(x[i]", "ctrladd(0)(x[i]", [false, false]);
}

/// Shows that a controlled adder with one loop put for another is accepted, and whether it adds on
/// two cells and on three.
fn with_loop(right: &str, put: &str, adds: [bool; 2]) {
    assert!(checks::CTRLADD_GUARDED.contains(right), "{right}");
    let text = checks::CTRLADD_GUARDED.replace(right, put);
    let bytes = programs::assemble(&text).unwrap().bytes;
    assert_eq!(reference::check(&bytes).number, 0, "{put}");
    let found = [2, 3].map(|n| checks::adds_under_control(&REFERENCE, &text, n, n).is_ok());
    assert_eq!(found, adds, "{put}");
}

#[test]
fn wrong_loops_are_noticed() {
    with_loop("for j = i..1", "for j = i..1", [true, true]);
    with_loop("for j = i..1", "for j = 1..1", [true, false]);
    with_loop("for j = i..1", "for j = i..2", [false, false]);
    with_loop("for i = 1..n-1", "for i = 2..n", [false, false]);
    with_loop("for k = 1..n-2", "for k = 2..n-2", [true, false]);
    with_loop("for k = 2..n-1", "for k = 3..n-1", [true, false]);
}
