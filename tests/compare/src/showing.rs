//! The showing of a form: a safe binding to the library's call, and the comparison.

use crate::ask::Who;
use generate::forms::Showing;
use reference::{FormNumbers, ShowingOutcome, FORM_NUMBERS};

/// Whether there is an archive with the call.
pub const THERE: bool = cfg!(has_showing);
/// What to do where there is none.
pub const MISSING: &str = "showing: NOT COMPARED, there is no archive with the call; \
    run `bash tools/build.sh showing` first";

/// The numbers before and after the form that is lent to the library, which it may not change.
const GUARD: FormNumbers = [0x3C5A_C3A5; FORM_NUMBERS];

/// Shows a form, which is lent so that a change of its numbers would be seen; none where
/// there is no archive.
#[cfg(has_showing)]
pub fn show(
    form: &mut FormNumbers,
    variables: u32,
    loops: u32,
    lows: &[FormNumbers],
    highs: &[FormNumbers],
) -> Option<ShowingOutcome> {
    /// The result structure of the call.
    #[repr(C)]
    struct Returned {
        number: u32,
        through: u32,
        trials: u32,
    }
    extern "C" {
        fn metaqasm_showing(
            form: *const i64,
            variables: u32,
            loops: u32,
            lows: *const FormNumbers,
            lows_count: usize,
            highs: *const FormNumbers,
            highs_count: usize,
        ) -> Returned;
    }
    let (lows_count, highs_count) = (lows.len(), highs.len());
    let form = form.as_mut_ptr().cast_const();
    let (lows, highs) = (lows.as_ptr(), highs.as_ptr());
    // SAFETY: pointers and counts are those of slices that outlive the call, and the
    // form is borrowed by this call alone.
    let returned =
        unsafe { metaqasm_showing(form, variables, loops, lows, lows_count, highs, highs_count) };
    Some(ShowingOutcome {
        number: returned.number,
        through: returned.through,
        trials: returned.trials,
    })
}

/// Shows a form; none where there is no archive.
#[cfg(not(has_showing))]
pub fn show(
    _: &mut FormNumbers,
    _: u32,
    _: u32,
    _: &[FormNumbers],
    _: &[FormNumbers],
) -> Option<ShowingOutcome> {
    None
}

/// Asks the library about a showing; none where there is no archive.
fn ask_library(asked: &Showing) -> Result<Option<ShowingOutcome>, String> {
    let (lows, highs) = (&asked.lows, &asked.highs);
    let mut lent = [GUARD, asked.form, GUARD];
    let outcome = show(&mut lent[1], asked.variables, asked.loops, lows, highs);
    match lent == [GUARD, asked.form, GUARD] {
        true => Ok(outcome),
        false => Err(format!(
            "the library changed the form of {asked:?}, or wrote beside it"
        )),
    }
}

/// Asks about a showing; none where there is no archive.
pub fn ask(who: Who, asked: &Showing) -> Result<Option<ShowingOutcome>, String> {
    match who {
        Who::Reference => Ok(Some(asked.answer())),
        Who::Library => ask_library(asked),
    }
}

/// Compares both answers to a showing; no where there is no archive.
pub fn compare(asked: &Showing) -> Result<bool, String> {
    let expected = asked.answer();
    match ask_library(asked)? {
        None => Ok(false),
        Some(answer) if answer == expected => Ok(true),
        Some(answer) => Err(format!(
            "the reference answers {expected:?}, the library {answer:?}\n{asked:?}"
        )),
    }
}
