//! The showing of a form that is given by its numbers.

use crate::form::{in_range, Bounds, Form, VARIABLES};
use crate::trial::Tried;

/// How many numbers a form has.
pub const FORM_NUMBERS: usize = 1 + VARIABLES;

/// The numbers of a form: its constant, then a coefficient for each variable.
pub type FormNumbers = [i64; FORM_NUMBERS];

/// The number where the arguments are no forms, which is no number of a refusal.
pub const NO_FORMS: u32 = 255;

/// The answer to a showing: number is 0 for shown, 12 for not shown, 11 for a
/// number out of range on the way, and [`NO_FORMS`] where the arguments are none.
#[derive(Clone, Copy, Debug, PartialEq, Eq)]
pub struct ShowingOutcome {
    pub number: u32,
    /// How many loop variables the plain scan of the form went through.
    pub through: u32,
    /// How many loops' ranges were tried behind it.
    pub trials: u32,
}

impl From<Tried> for ShowingOutcome {
    /// What the plain rule and the trials find as an answer.
    fn from(tried: Tried) -> ShowingOutcome {
        ShowingOutcome {
            number: match tried.shown {
                Ok(true) => 0,
                Ok(false) => 12,
                Err(_) => 11,
            },
            through: tried.through as u32,
            trials: tried.trials as u32,
        }
    }
}

/// Says whether a form is shown to be 0 or more in loops, the outermost first, whose
/// variables follow the family's own.
pub fn showing(
    form: &FormNumbers,
    variables: u32,
    loops: u32,
    lows: &[FormNumbers],
    highs: &[FormNumbers],
) -> ShowingOutcome {
    let few = u64::from(variables) + u64::from(loops) <= VARIABLES as u64;
    let forms = read(form).zip(bounds(loops as usize, lows, highs));
    match forms {
        Some((form, loops)) if few => form.tried(variables as usize, &loops).into(),
        _ => ShowingOutcome {
            number: NO_FORMS,
            through: 0,
            trials: 0,
        },
    }
}

/// The form that has the numbers, if all of them are in range.
fn read(numbers: &FormNumbers) -> Option<Form> {
    let kept = numbers.iter().all(|&number| in_range(number).is_ok());
    let [constant, coefficients @ ..] = *numbers;
    kept.then_some(Form {
        constant,
        coefficients,
    })
}

/// The bounds of so many loops, if there are forms for all of them.
fn bounds(loops: usize, lows: &[FormNumbers], highs: &[FormNumbers]) -> Option<Vec<Bounds>> {
    let pairs = lows.get(..loops)?.iter().zip(highs.get(..loops)?);
    let both = |(low, high)| {
        Some(Bounds {
            low: read(low)?,
            high: read(high)?,
        })
    };
    pairs.map(both).collect()
}
