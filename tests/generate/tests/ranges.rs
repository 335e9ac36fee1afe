//! The showings and programs that ranges decide are what they are meant to be, by the
//! reference.

use generate::forms::{showing, Showing, LARGEST};
use generate::random::Random;
use generate::targeted::ranges::{ranged, Need, Ranged, NEEDS};
use reference::{FormNumbers, ShowingOutcome};
use std::collections::BTreeMap;

/// How many showings are looked at.
const SHOWINGS: u64 = 40_000;
/// How many programs are looked at.
const PROGRAMS: u64 = 20_000;

/// One form less another; none where a number is out of range.
fn less(one: &FormNumbers, other: &FormNumbers) -> Option<FormNumbers> {
    let mut left = *one;
    for (mine, theirs) in left.iter_mut().zip(other) {
        *mine -= theirs;
    }
    let kept = left
        .iter()
        .all(|number| (-LARGEST..=LARGEST).contains(number));
    kept.then_some(left)
}

/// How a trial comes out by itself.
#[derive(Clone, Copy, Debug, PartialEq, Eq, PartialOrd, Ord)]
enum Trial {
    Shows,
    Fails,
    RangeOut,
    DifferenceOut,
    ScanOut,
}

/// What the plain rule finds: trials are made only where it does not show a form.
fn plain(asked: &Showing) -> u32 {
    let ShowingOutcome { number, trials, .. } = asked.answer();
    if trials > 0 {
        12
    } else {
        number
    }
}

/// A showing of the same form less the range of a loop, or how the trial leaves the range.
fn without_range(asked: &Showing, depth: usize) -> Result<Showing, Trial> {
    let range = less(&asked.highs[depth], &asked.lows[depth]).ok_or(Trial::RangeOut)?;
    let form = less(&asked.form, &range).ok_or(Trial::DifferenceOut)?;
    Ok(Showing {
        form,
        ..asked.clone()
    })
}

/// How the trial of the loop at a depth comes out.
fn trial(asked: &Showing, depth: usize) -> Trial {
    match without_range(asked, depth).map(|left| plain(&left)) {
        Err(out) => out,
        Ok(0) => Trial::Shows,
        Ok(11) => Trial::ScanOut,
        Ok(_) => Trial::Fails,
    }
}

/// How the trials of all loops come out, from the innermost on.
fn all_trials(asked: &Showing) -> Vec<Trial> {
    let depths = (0..asked.loops as usize).rev();
    depths.map(|depth| trial(asked, depth)).collect()
}

/// Whether the form is shown with the ranges of two different loops, or twice with one.
fn takes_two(asked: &Showing, same: bool) -> bool {
    let loops = asked.loops as usize;
    let pairs = (0..loops).flat_map(|one| (0..loops).map(move |two| (one, two)));
    pairs
        .filter(|(one, two)| (one == two) == same)
        .any(|(one, two)| {
            without_range(asked, one).is_ok_and(|left| trial(&left, two) == Trial::Shows)
        })
}

/// The same showing with a form that is more by a number.
fn shifted(asked: &Showing, more: i64) -> Showing {
    let mut other = asked.clone();
    other.form[0] += more;
    other
}

/// What a showing is an instance of.
fn kinds(asked: &Showing) -> Vec<String> {
    let ShowingOutcome { number, trials, .. } = asked.answer();
    let all = all_trials(asked);
    let mut kinds = vec![format!("number {number} after {trials}")];
    let passed = all.iter().take(trials.saturating_sub(1) as usize);
    match number {
        0 if trials > 0 => {
            kinds.extend(passed.map(|trial| format!("shown behind {trial:?}")));
            let further = all.iter().skip(trials as usize);
            kinds.extend(further.map(|trial| format!("shown before {trial:?}")));
            if shifted(asked, -1).answer().number == 12 {
                kinds.push("shown just".into());
            }
        }
        12 if trials > 0 => {
            kinds.extend(all.iter().map(|trial| format!("refused with {trial:?}")));
            if shifted(asked, 1).answer().number == 0 {
                kinds.push("refused just".into());
            }
            if takes_two(asked, false) {
                kinds.push("takes two ranges".into());
            }
            if takes_two(asked, true) {
                kinds.push("takes a range twice".into());
            }
        }
        11 if all.contains(&Trial::Shows) => kinds.push("11 though a trial shows".into()),
        _ => {}
    }
    kinds
}

/// How many showings are instances of each kind.
fn counted<'a>(showings: impl Iterator<Item = &'a Showing>) -> BTreeMap<String, u64> {
    let mut counts = BTreeMap::new();
    for asked in showings {
        let mut kinds = kinds(asked);
        kinds.sort();
        kinds.dedup();
        for kind in kinds {
            *counts.entry(kind).or_default() += 1;
        }
    }
    counts
}

/// The kinds that have to occur beside the numbers of trials.
const DUE: [&str; 14] = [
    "shown behind Fails",
    "shown behind RangeOut",
    "shown behind DifferenceOut",
    "shown behind ScanOut",
    "shown before Shows",
    "shown before RangeOut",
    "shown just",
    "refused with RangeOut",
    "refused with DifferenceOut",
    "refused with ScanOut",
    "refused just",
    "takes two ranges",
    "takes a range twice",
    "11 though a trial shows",
];

/// Tests that each of the kinds that have to occur does so at least so often.
fn hold(counts: &BTreeMap<String, u64>, trials: std::ops::RangeInclusive<u32>, least: u64) {
    for (kind, count) in counts {
        println!("{count:6} {kind}");
    }
    let by_trials = trials.flat_map(|trials| [0, 12].map(|number| (number, trials)));
    let numbers = by_trials.map(|(number, trials)| format!("number {number} after {trials}"));
    for kind in numbers.chain(DUE.map(String::from)) {
        let count = counts.get(&kind).copied().unwrap_or(0);
        assert!(count >= least, "{kind}: {count}");
    }
}

#[test]
fn showings_are_decided_by_trials_of_all_kinds() {
    let sound = |asked: &Showing| asked.answer().number != reference::NO_FORMS;
    let showings: Vec<Showing> = (0..SHOWINGS).map(showing).filter(sound).collect();
    let counts = counted(showings.iter());
    hold(&counts, 1..=8, SHOWINGS / 1_000);
    let by_trials = showings.iter().filter(|asked| asked.answer().trials > 0);
    assert!(by_trials.count() * 4 > showings.len(), "a quarter is tried");
}

/// The number and the trials that are due, by how each trial comes out by itself.
fn due(asked: &Showing) -> (u32, u32) {
    let trials = all_trials(asked);
    match (
        plain(asked),
        trials.iter().position(|&found| found == Trial::Shows),
    ) {
        (12, Some(before)) => (0, before as u32 + 1),
        (12, None) => (12, asked.loops),
        (number, _) => (number, 0),
    }
}

#[test]
fn the_first_loop_from_the_inside_that_shows_a_form_ends_the_trials() {
    let made = (0..PROGRAMS).map(|seed| ranged(&mut Random::new(seed)).showing);
    let sound = |asked: &Showing| asked.answer().number != reference::NO_FORMS;
    for asked in (0..SHOWINGS).map(showing).filter(sound).chain(made) {
        let ShowingOutcome { number, trials, .. } = asked.answer();
        assert_eq!((number, trials), due(&asked), "{asked:?}");
    }
}

/// The programs of some seeds.
fn programs() -> Vec<Ranged> {
    let made = (0..PROGRAMS).map(|seed| ranged(&mut Random::new(seed)));
    made.collect()
}

#[test]
fn programs_are_checked_as_their_showing_is_answered() {
    for (seed, made) in programs().iter().enumerate() {
        let found = reference::check(&made.case.program).number;
        assert_eq!(found, made.due(), "seed {seed}, {:?}", made.need);
    }
}

#[test]
fn programs_are_decided_by_trials_of_all_kinds() {
    let programs = programs();
    hold(
        &counted(programs.iter().map(|made| &made.showing)),
        1..=6,
        10,
    );
}

/// What a program is an instance of: its need, the number and whether trials are made, and
/// where it stands.
type Place = (Need, u32, bool, bool, bool);

#[test]
fn every_need_is_decided_in_families_and_at_the_top_both_ways() {
    let mut counts: BTreeMap<Place, u64> = BTreeMap::new();
    for made in programs() {
        let ShowingOutcome { number, trials, .. } = made.showing.answer();
        let place = (made.need, number, trials > 0, made.top, made.reversed);
        *counts.entry(place).or_default() += 1;
    }
    for need in NEEDS {
        for (top, reversed) in [(false, false), (false, true), (true, false), (true, true)] {
            for (number, tried) in [(0, true), (12, true), (11, false)] {
                let place = (need, number, tried, top, reversed);
                let count = counts.get(&place).copied().unwrap_or(0);
                assert!(count > 0, "{place:?}");
            }
        }
    }
}

/// The answer about a program's family, or about its run.
fn run(made: &Ranged) -> reference::Outcome {
    let case = &made.case;
    let mut output = vec![0; case.output];
    match made.top {
        true => reference::run(&case.program, case.limit, &mut output),
        false => {
            let sizes = &case.sizes;
            reference::instance(&case.program, case.family, sizes, case.limit, &mut output)
        }
    }
}

#[test]
fn what_a_trial_shows_runs_with_no_round_one_and_several() {
    let mut counts: BTreeMap<(Need, bool, i64), u64> = BTreeMap::new();
    for made in programs() {
        if made.due() == 0 && made.showing.answer().trials > 0 {
            let answer = run(&made);
            assert!([0, 24, 26, 27].contains(&answer.number), "{answer:?}");
            if answer.number == 0 {
                let rounds = made.rounds.min(2);
                *counts.entry((made.need, made.top, rounds)).or_default() += 1;
            }
        }
    }
    for need in NEEDS {
        for (top, rounds) in [false, true]
            .into_iter()
            .flat_map(|top| [0, 1, 2].map(|n| (top, n)))
        {
            let count = counts.get(&(need, top, rounds)).copied().unwrap_or(0);
            assert!(count > 2, "{need:?}, top {top}, {rounds} rounds: {count}");
        }
    }
}
