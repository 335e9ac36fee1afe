//! The rules of a plain scan: the right ones, and wrong ones that the showings tell apart.

use generate::forms::{Showing, LARGEST};
use reference::FormNumbers;

/// What a scan went through, and the form that it came to.
pub struct Gone {
    form: FormNumbers,
    /// How many variables were replaced, one whose replacement leaves the range too.
    replaced: usize,
    /// Where the last of them stands, from 1 on.
    last: usize,
    loops: usize,
    out: bool,
}

/// The rules of a scan; a wrong one differs from the right one in one of them.
#[derive(Clone, Copy)]
pub struct Rules {
    /// Whether the variables of the outer loops come first.
    outer_first: bool,
    /// Whether the scan ends: by the form at the start, the form now and the places of the
    /// variables that are left.
    ends: fn(&FormNumbers, &FormNumbers, &[usize]) -> bool,
    /// Whether the high form is put for a variable with a coefficient.
    high: fn(i64) -> bool,
    /// Whether the multiple and the sum are in range.
    kept: fn(&FormNumbers, &FormNumbers) -> bool,
    /// Whether the last form is 0 or more, in which so many numbers are in scope.
    natural: fn(&FormNumbers, usize) -> bool,
    count: fn(&Gone) -> usize,
}

/// Whether a number is in range.
fn number_in_range(number: &i64) -> bool {
    (-LARGEST..=LARGEST).contains(number)
}

/// Whether all numbers of a form are in range.
pub fn in_range(numbers: &FormNumbers) -> bool {
    numbers.iter().all(number_in_range)
}

/// The right rules.
pub const RIGHT: Rules = Rules {
    outer_first: false,
    ends: |_, now, left| left.iter().all(|&place| now[place] == 0),
    high: |coefficient| coefficient < 0,
    kept: |multiple, sum| in_range(multiple) && in_range(sum),
    natural: |form, _| form.iter().all(|&number| number >= 0),
    count: |gone| gone.last,
};

/// The wrong rules, each with its name.
pub const WRONG: [(&str, Rules); 13] = [
    (
        "ends where a coefficient is 0",
        Rules {
            ends: |_, now, left| now[left[0]] == 0,
            ..RIGHT
        },
    ),
    (
        "counts the variables behind the last replaced",
        Rules {
            count: |gone| if gone.out { gone.last } else { gone.loops },
            ..RIGHT
        },
    ),
    (
        "counts those replaced only",
        Rules {
            count: |gone| gone.replaced,
            ..RIGHT
        },
    ),
    (
        "ends before what is brought in",
        Rules {
            ends: |start, _, left| left.iter().all(|&place| start[place] == 0),
            ..RIGHT
        },
    ),
    (
        "puts the low form for a negative one",
        Rules {
            high: |_| false,
            ..RIGHT
        },
    ),
    (
        "goes through the outer loops first",
        Rules {
            outer_first: true,
            ..RIGHT
        },
    ),
    (
        "puts the high form for a positive one",
        Rules {
            high: |_| true,
            ..RIGHT
        },
    ),
    (
        "leaves the one out that leaves the range",
        Rules {
            count: |gone| gone.last - usize::from(gone.out),
            ..RIGHT
        },
    ),
    (
        "does not test the multiple",
        Rules {
            kept: |_, sum| in_range(sum),
            ..RIGHT
        },
    ),
    (
        "does not test the sum",
        Rules {
            kept: |multiple, _| in_range(multiple),
            ..RIGHT
        },
    ),
    (
        "tests the constant only",
        Rules {
            kept: |multiple, sum| number_in_range(&multiple[0]) && number_in_range(&sum[0]),
            ..RIGHT
        },
    ),
    (
        "asks for the coefficients only",
        Rules {
            natural: |form, _| form[1..].iter().all(|&number| number >= 0),
            ..RIGHT
        },
    ),
    (
        "asks for those in scope only",
        Rules {
            natural: |form, scope| form[..scope].iter().all(|&number| number >= 0),
            ..RIGHT
        },
    ),
];

/// A multiple of a bound, and the form with it in place of a variable's term.
fn replaced(form: &FormNumbers, place: usize, bound: &FormNumbers) -> [FormNumbers; 2] {
    let multiple = bound.map(|number| number.wrapping_mul(form[place]));
    let mut sum = *form;
    sum[place] = 0;
    for (mine, theirs) in sum.iter_mut().zip(&multiple) {
        *mine = mine.wrapping_add(*theirs);
    }
    [multiple, sum]
}

/// Goes through loop variables, whose places in the form are given in order.
fn go_through(rules: &Rules, start: &FormNumbers, asked: &Showing, places: &[usize]) -> Gone {
    let mut gone = Gone {
        form: *start,
        replaced: 0,
        last: 0,
        loops: places.len(),
        out: false,
    };
    for (before, &place) in places.iter().enumerate() {
        if gone.out || (rules.ends)(start, &gone.form, &places[before..]) {
            break;
        }
        let rows = match (rules.high)(gone.form[place]) {
            true => &asked.highs,
            false => &asked.lows,
        };
        if gone.form[place] != 0 {
            let bound = &rows[place - 1 - asked.variables as usize];
            let [multiple, sum] = replaced(&gone.form, place, bound);
            gone.form = sum;
            gone.replaced += 1;
            gone.last = before + 1;
            gone.out = !(rules.kept)(&multiple, &sum);
        }
    }
    gone
}

/// The number and the count that a scan of a form finds in the loops of a showing, of which
/// one may be left out.
pub fn scan(
    rules: &Rules,
    form: &FormNumbers,
    asked: &Showing,
    left_out: Option<usize>,
) -> (u32, u32) {
    let first = 1 + asked.variables as usize;
    let scope = first + asked.loops as usize;
    let mut places: Vec<usize> = (first..scope).collect();
    places.retain(|&place| left_out != Some(place - first));
    if !rules.outer_first {
        places.reverse();
    }
    let gone = go_through(rules, form, asked, &places);
    let number = match gone.out {
        true => 11,
        false if (rules.natural)(&gone.form, scope) => 0,
        false => 12,
    };
    (number, (rules.count)(&gone) as u32)
}
