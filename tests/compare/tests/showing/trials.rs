//! The rules of trials: the right ones, and wrong ones that the showings tell apart.

use crate::scan::{in_range, scan, Rules};
use generate::forms::Showing;
use reference::{FormNumbers, ShowingOutcome};

/// The rules of trials; a wrong one differs from the right one in one of them.
#[derive(Clone, Copy)]
pub struct Trials {
    /// Whether trials follow a number of the plain rule.
    follow: fn(u32) -> bool,
    /// Whether they come before the plain rule.
    come_first: bool,
    /// Whether the outer loops are tried first.
    outer_first: bool,
    /// The most trials that are made.
    most: usize,
    /// What is taken from the form, one after the other, for the loop at a depth.
    taken: fn(&Showing, usize) -> Vec<FormNumbers>,
    /// Whether what is taken and what is left are in range.
    kept: fn(&FormNumbers, &FormNumbers) -> bool,
    /// Whether a number out of range ends the trials.
    out_ends: bool,
    /// Whether the loop that is tried stays open.
    open: bool,
    /// The count, by that of the plain scan and that of the trial that shows the form.
    count: fn(u32, u32) -> u32,
}

/// One form plus a number times another.
fn plus(one: &FormNumbers, factor: i64, other: &FormNumbers) -> FormNumbers {
    let mut sum = *one;
    for (mine, theirs) in sum.iter_mut().zip(other) {
        *mine += factor * theirs;
    }
    sum
}

/// The high form of a loop less its low form.
fn range(asked: &Showing, depth: usize) -> FormNumbers {
    plus(&asked.highs[depth], -1, &asked.lows[depth])
}

/// The range of a loop, and its sum with that of each other loop.
fn one_or_two(asked: &Showing, depth: usize) -> Vec<FormNumbers> {
    let one = range(asked, depth);
    let others = (0..asked.loops as usize).filter(|&other| other != depth);
    let sums = others.map(|other| plus(&one, 1, &range(asked, other)));
    [one].into_iter().chain(sums).collect()
}

/// The right rules.
pub const RIGHT: Trials = Trials {
    follow: |number| number == 12,
    come_first: false,
    outer_first: false,
    most: usize::MAX,
    taken: |asked, depth| vec![range(asked, depth)],
    kept: |taken, left| in_range(taken) && in_range(left),
    out_ends: false,
    open: true,
    count: |plain, _| plain,
};

/// The wrong rules, each with its name.
pub const WRONG: [(&str, Trials); 14] = [
    (
        "tries nothing",
        Trials {
            follow: |_| false,
            ..RIGHT
        },
    ),
    (
        "tries though the plain rule leaves the range",
        Trials {
            follow: |number| number != 0,
            ..RIGHT
        },
    ),
    (
        "tries before the plain rule",
        Trials {
            come_first: true,
            ..RIGHT
        },
    ),
    (
        "tries the outer loops first",
        Trials {
            outer_first: true,
            ..RIGHT
        },
    ),
    ("tries the innermost loop only", Trials { most: 1, ..RIGHT }),
    (
        "takes low less high",
        Trials {
            taken: |asked, depth| vec![range(asked, depth).map(|number| -number)],
            ..RIGHT
        },
    ),
    (
        "takes one more",
        Trials {
            taken: |asked, depth| {
                let mut more = range(asked, depth);
                more[0] += 1;
                vec![more]
            },
            ..RIGHT
        },
    ),
    (
        "takes the ranges of two loops together",
        Trials {
            taken: one_or_two,
            ..RIGHT
        },
    ),
    (
        "takes a range twice",
        Trials {
            taken: |asked, depth| {
                let once = range(asked, depth);
                vec![once, once.map(|number| 2 * number)]
            },
            ..RIGHT
        },
    ),
    (
        "does not test the range",
        Trials {
            kept: |_, left| in_range(left),
            ..RIGHT
        },
    ),
    (
        "does not test what is left",
        Trials {
            kept: |taken, _| in_range(taken),
            ..RIGHT
        },
    ),
    (
        "ends where a trial leaves the range",
        Trials {
            out_ends: true,
            ..RIGHT
        },
    ),
    (
        "closes the loop that is tried",
        Trials {
            open: false,
            ..RIGHT
        },
    ),
    (
        "counts what the trial goes through",
        Trials {
            count: |_, last| last,
            ..RIGHT
        },
    ),
];

/// The number and the count that the trial of the loop at a depth finds.
fn trial(rules: &Rules, trials: &Trials, asked: &Showing, depth: usize) -> (u32, u32) {
    let left_out = (!trials.open).then_some(depth);
    let attempt = |taken: &FormNumbers| {
        let left = plus(&asked.form, -1, taken);
        match (trials.kept)(taken, &left) {
            true => scan(rules, &left, asked, left_out),
            false => (11, 0),
        }
    };
    let found: Vec<(u32, u32)> = (trials.taken)(asked, depth).iter().map(attempt).collect();
    let shown = found.iter().find(|(number, _)| *number == 0);
    *shown.unwrap_or(&found[0])
}

/// What trials answer where the plain rule found a number and a count.
fn made(
    rules: &Rules,
    trials: &Trials,
    asked: &Showing,
    (otherwise, through): (u32, u32),
) -> ShowingOutcome {
    let mut depths: Vec<usize> = (0..asked.loops as usize).rev().collect();
    if trials.outer_first {
        depths.reverse();
    }
    depths.truncate(trials.most);
    let outcome = |number, through, trials| ShowingOutcome {
        number,
        through,
        trials,
    };
    for (before, &depth) in depths.iter().enumerate() {
        let count = before as u32 + 1;
        match trial(rules, trials, asked, depth) {
            (0, last) => return outcome(0, (trials.count)(through, last), count),
            (11, _) if trials.out_ends => return outcome(11, through, count),
            _ => {}
        }
    }
    outcome(otherwise, through, depths.len() as u32)
}

/// The answer about forms by some rules.
pub fn answer(rules: &Rules, trials: &Trials, asked: &Showing) -> ShowingOutcome {
    let plain = scan(rules, &asked.form, asked, None);
    let (number, through) = plain;
    if (trials.follow)(number) {
        return made(rules, trials, asked, plain);
    }
    let first = made(rules, trials, asked, plain);
    match trials.come_first && first.number == 0 && first.trials > 0 {
        true => first,
        false => ShowingOutcome {
            number,
            through,
            trials: 0,
        },
    }
}
