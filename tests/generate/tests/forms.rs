//! The generated showings are what they are meant to be.

use generate::forms::{showing, Showing, LARGEST, VARIABLES};
use reference::{FormNumbers, NO_FORMS};

/// How many seeds are looked at.
const SEEDS: u64 = 20_000;

/// What a showing may have, and how many of a thousand have it at least.
type Property = (&'static str, usize, fn(&Showing) -> bool);

/// Whether the arguments are forms, by the reference.
fn are_forms(asked: &Showing) -> bool {
    asked.answer().number != NO_FORMS
}

/// Whether forms have a number out of range.
fn out<'a>(mut forms: impl Iterator<Item = &'a FormNumbers>) -> bool {
    forms.any(|form| {
        form.iter()
            .any(|number| !(-LARGEST..=LARGEST).contains(number))
    })
}

/// Whether some of the coefficients are other than 0.
fn names(coefficients: &[i64]) -> bool {
    coefficients.iter().any(|&number| number != 0)
}

/// The place of the first loop's variable, and that after the last's.
fn places(asked: &Showing) -> (usize, usize) {
    let first = 1 + asked.variables as usize;
    (first, first + asked.loops as usize)
}

/// The bounds of the loops, each with its depth.
fn bounds(asked: &Showing) -> impl Iterator<Item = (usize, &FormNumbers)> {
    let lows = asked.lows.iter().take(asked.loops as usize).enumerate();
    let highs = asked.highs.iter().take(asked.loops as usize).enumerate();
    lows.chain(highs)
}

/// The bounds for which there is no loop.
fn more_bounds(asked: &Showing) -> impl Iterator<Item = &FormNumbers> {
    let lows = asked.lows.iter().skip(asked.loops as usize);
    lows.chain(asked.highs.iter().skip(asked.loops as usize))
}

/// Variables and loops together.
fn together(asked: &Showing) -> usize {
    asked.variables as usize + asked.loops as usize
}

/// How many loop variables the form names.
fn named(asked: &Showing) -> usize {
    let (first, end) = places(asked);
    let coefficients = asked.form[first..end].iter();
    coefficients.filter(|&&number| number != 0).count()
}

/// Whether a bound names its own loop's variable or an inner one.
fn names_inner(asked: &Showing) -> bool {
    let (first, end) = places(asked);
    bounds(asked).any(|(depth, bound)| names(&bound[first + depth..end]))
}

/// Whether there are four loops or more, and each low form names the loop right around.
fn is_chain(asked: &Showing) -> bool {
    let (first, end) = places(asked);
    let mut inner = (first..end).zip(asked.lows.iter().skip(1));
    asked.loops >= 4 && inner.all(|(around, low)| low[around] != 0)
}

/// How many loop variables there are from the highest down to the lowest that the form names.
fn named_through(asked: &Showing) -> u32 {
    let (first, end) = places(asked);
    let lowest = (first..end).find(|&place| asked.form[place] != 0);
    lowest.map_or(0, |place| (end - place) as u32)
}

/// Whether a showing goes on to a variable that the form does not name.
fn brings_in(asked: &Showing) -> bool {
    asked.answer().through > named_through(asked)
}

/// Whether a showing comes to its end before a variable that the form names.
fn takes_away(asked: &Showing) -> bool {
    asked.answer().number != 11 && asked.answer().through < named_through(asked)
}

/// Properties of showings whose arguments are forms.
const SOUND: [Property; 14] = [
    ("no loops", 50, |asked| asked.loops == 0),
    ("eight loops", 200, |asked| asked.loops == 8),
    ("more loops", 20, |asked| asked.loops > 8),
    ("more variables", 20, |asked| asked.variables > 4),
    ("no loop variable", 50, |asked| named(asked) == 0),
    ("one loop variable", 400, |asked| named(asked) == 1),
    ("a chain", 40, is_chain),
    ("a variable is brought in", 100, brings_in),
    ("a variable is taken away", 20, takes_away),
    ("an inner variable in a bound", 20, names_inner),
    ("a variable that is not there in the form", 10, |asked| {
        names(&asked.form[places(asked).1..])
    }),
    ("a variable that is not there in a bound", 10, |asked| {
        bounds(asked).any(|(_, bound)| names(&bound[places(asked).1..]))
    }),
    ("a bound more", 20, |asked| more_bounds(asked).count() > 0),
    ("a bound more that is out of range", 10, |asked| {
        out(more_bounds(asked))
    }),
];

/// Properties of showings whose arguments are no forms.
const DAMAGED: [Property; 7] = [
    ("a form out of range", 100, |asked| {
        out([&asked.form].into_iter())
    }),
    ("a bound out of range", 100, |asked| {
        out(bounds(asked).map(|(_, bound)| bound))
    }),
    ("a low form too few", 50, |asked| {
        asked.loops < 9 && asked.lows.len() < asked.loops as usize
    }),
    ("a high form too few", 50, |asked| {
        asked.loops < 9 && asked.highs.len() < asked.loops as usize
    }),
    ("a variable too many", 20, |asked| {
        together(asked) == VARIABLES + 1
    }),
    ("more too many", 50, |asked| together(asked) > VARIABLES + 1),
    ("few in 32 bits", 20, |asked| {
        let sum = asked.variables.wrapping_add(asked.loops) as usize;
        sum <= VARIABLES && sum < together(asked)
    }),
];

/// Tests that enough showings have each property.
fn hold(showings: &[Showing], properties: &[Property]) {
    for (name, least, has) in properties {
        let count = showings.iter().filter(|asked| has(asked)).count();
        println!("{count:6} of {}: {name}", showings.len());
        assert!(count * 1_000 > least * showings.len(), "{name}: {count}");
    }
}

#[test]
fn showings_are_of_all_kinds() {
    let (sound, damaged): (Vec<Showing>, _) = (0..SEEDS).map(showing).partition(are_forms);
    assert!(sound.len() > 8 * damaged.len(), "most are forms");
    hold(&sound, &SOUND);
    hold(&damaged, &DAMAGED);
}

#[test]
fn a_seed_always_makes_the_same_showing() {
    for seed in 0..200 {
        assert_eq!(showing(seed), showing(seed));
    }
}
