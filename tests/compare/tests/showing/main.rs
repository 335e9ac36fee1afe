//! Showings of forms: recorded ones, generated ones, and wrong rules that these tell apart.

mod scan;
mod trials;

use compare::harness::hold;
use compare::recorded::showings::{rows, RecordedShowing};
use compare::{Tally, Who};
use generate::forms::{showing, Showing};
use reference::{ShowingOutcome, NO_FORMS};
use scan::Rules;
use std::collections::BTreeMap;
use trials::{answer, Trials};

/// How many generated showings are compared.
const COMPARED: u64 = 400_000;
/// How many are looked at for what they have.
const LOOKED_AT: u64 = 200_000;

/// Holds someone to the recorded showings, and says how many it answered.
fn hold_rows(who: Who, rows: &[RecordedShowing]) -> usize {
    let held: Vec<Result<bool, String>> = rows.iter().map(|row| row.hold(who)).collect();
    let wrong: Vec<&String> = held.iter().filter_map(|row| row.as_ref().err()).collect();
    assert!(wrong.is_empty(), "{wrong:#?}");
    held.iter().filter(|row| **row == Ok(true)).count()
}

#[test]
fn the_reference_gives_every_recorded_showing() {
    assert_eq!(hold_rows(Who::Reference, &rows()), rows().len());
}

#[test]
#[cfg_attr(
    not(has_showing),
    ignore = "no archive with this call; run `bash tools/build.sh showing` first"
)]
fn the_library_gives_every_recorded_showing() {
    assert_eq!(hold_rows(Who::Library, &rows()), rows().len());
}

#[test]
fn the_recorded_showings_have_every_number_and_count() {
    let rows = rows();
    for due in all_answers() {
        let found = rows.iter().flat_map(|row| sides(&row.due));
        assert!(found.into_iter().any(|side| side == due), "{due:?}");
    }
}

/// What the counts of an answer are of.
#[derive(Clone, Copy, Debug, PartialEq, Eq, PartialOrd, Ord)]
enum Counted {
    Through,
    Trials,
}

/// The number of an answer with each of its counts.
fn sides(answer: &ShowingOutcome) -> [(u32, Counted, u32); 2] {
    let number = answer.number;
    [
        (number, Counted::Through, answer.through),
        (number, Counted::Trials, answer.trials),
    ]
}

/// Every number with every count that it can have in the loops of a program.
fn all_answers() -> Vec<(u32, Counted, u32)> {
    let of = |number, counted, counts: std::ops::RangeInclusive<u32>| {
        counts.map(move |count| (number, counted, count))
    };
    let plain = of(0, Counted::Through, 0..=8)
        .chain(of(12, Counted::Through, 0..=8))
        .chain(of(11, Counted::Through, 1..=8));
    let tried = of(0, Counted::Trials, 0..=8).chain(of(12, Counted::Trials, 0..=8));
    let none = of(NO_FORMS, Counted::Through, 0..=0);
    plain.chain(tried).chain(none).collect()
}

/// Compares the generated showings.
fn generated(tally: &mut Tally) -> Result<(), String> {
    for seed in 0..COMPARED {
        let compared = tally.showing(&showing(seed));
        compared.map_err(|message| format!("seed {seed}: {message}"))?;
    }
    Ok(())
}

#[test]
#[cfg_attr(
    not(has_showing),
    ignore = "no archive with this call; run `bash tools/build.sh showing` first"
)]
fn generated_showings_are_compared_with_the_library() {
    hold(generated);
}

#[test]
fn the_generated_showings_have_every_number_and_count_often() {
    let mut counts: BTreeMap<(u32, Counted, u32), u64> = BTreeMap::new();
    for seed in 0..LOOKED_AT {
        for side in sides(&showing(seed).answer()) {
            *counts.entry(side).or_default() += 1;
        }
    }
    for ((number, counted, times), count) in &counts {
        println!("number {number:3}, {counted:?} {times:2}: {count:6}");
    }
    for answer in all_answers() {
        let count = counts.get(&answer).copied().unwrap_or(0);
        assert!(count * 400 > LOOKED_AT, "{answer:?}: {count}");
    }
}

/// How many of some showings of forms are answered differently by some rules.
fn differing(rules: &Rules, trials: &Trials, showings: &[Showing]) -> usize {
    let differs = |asked: &&Showing| answer(rules, trials, asked) != asked.answer();
    showings.iter().filter(differs).count()
}

/// The showings whose arguments are forms.
fn of_forms(showings: impl Iterator<Item = Showing>) -> Vec<Showing> {
    showings
        .filter(|asked| asked.answer().number != NO_FORMS)
        .collect()
}

/// Every wrong set of rules with its name: of the scan, and of the trials.
fn wrong() -> Vec<(&'static str, Rules, Trials)> {
    let scans = scan::WRONG.map(|(name, rules)| (name, rules, trials::RIGHT));
    let tried = trials::WRONG.map(|(name, trials)| (name, scan::RIGHT, trials));
    scans.into_iter().chain(tried).collect()
}

#[test]
fn wrong_rules_differ_on_many_generated_showings() {
    let showings = of_forms((0..LOOKED_AT).map(showing));
    let right = differing(&scan::RIGHT, &trials::RIGHT, &showings);
    assert_eq!(right, 0, "the right rules");
    println!("{} showings of forms", showings.len());
    for (name, rules, trials) in wrong() {
        let count = differing(&rules, &trials, &showings);
        println!("{name}: {count} differ");
        assert!(count * 200 > showings.len(), "{name}: {count}");
    }
}

#[test]
fn wrong_rules_differ_on_recorded_showings() {
    let showings = of_forms(rows().into_iter().map(|row| row.asked));
    let right = differing(&scan::RIGHT, &trials::RIGHT, &showings);
    assert_eq!(right, 0, "the right rules");
    for (name, rules, trials) in wrong() {
        let count = differing(&rules, &trials, &showings);
        println!("{name}: {count} differ");
        assert!(count > 0, "{name}");
    }
}
