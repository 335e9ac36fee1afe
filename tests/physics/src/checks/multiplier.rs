//! Checks of the multiplier, which adds to slices of its last register.

use super::{fails, family_list, no_change, run_list, takes, Answer, MULTIPLIER, QFT};
use crate::Calls;

/// The sizes at which the multiplier is checked; it has four wires for each.
const SIZES: std::ops::RangeInclusive<u32> = 0..=4;
/// The sizes at which every setting goes there and back.
const BOTH_WAYS: std::ops::RangeInclusive<u32> = 0..=2;

/// z becomes x * y for all x and y, and back; x and y stay.
pub fn multiplier_multiplies(calls: &Calls) -> Answer {
    SIZES.into_iter().try_for_each(|n| {
        multiplies(calls, MULTIPLIER, "mult", n)?;
        let back = family_list(calls, MULTIPLIER, "unmult", &[n])?;
        products(n).try_for_each(|(from, to)| takes(&back, wires(n), to, from))
    })
}

/// Shows that a family of a text multiplies all x and y of n cells; a qubit for carries behind
/// them starts at 0 and ends there.
pub fn multiplies(calls: &Calls, text: &str, family: &str, n: u32) -> Answer {
    let list = family_list(calls, text, family, &[n])?;
    products(n).try_for_each(|(from, to)| takes(&list, wires(n) + 1, from, to))
}

/// How many wires x, y and z have.
fn wires(n: u32) -> usize {
    4 * n as usize
}

/// The settings of x, y and z before and after, for all x and y, where z starts at 0.
pub(super) fn products(n: u32) -> impl Iterator<Item = (usize, usize)> {
    let mask = (1 << n) - 1;
    (0..1 << (2 * n)).map(move |from: usize| {
        let (x, y) = (from & mask, from >> n);
        (from, from | (x * y) << (2 * n))
    })
}

/// The multiplier and then its reverse change no setting, and the multiplier alone does.
pub fn multiplier_and_back_is_no_change(calls: &Calls) -> Answer {
    for n in BOTH_WAYS {
        let mut list = family_list(calls, MULTIPLIER, "mult", &[n])?;
        if n > 0 {
            fails(no_change(&list, wires(n)), "the multiplier changes nothing")?;
        }
        list.extend(family_list(calls, MULTIPLIER, "unmult", &[n])?);
        no_change(&list, wires(n))?;
    }
    Ok(())
}

/// As printed, the slices have no cell for the carry, so that only one bit by one is right.
pub fn multiplier_as_printed_loses_carries(calls: &Calls) -> Answer {
    (0..2).try_for_each(|n| multiplies(calls, MULTIPLIER, "mult_printed", n))?;
    (2..4).try_for_each(|n| {
        family_list(calls, MULTIPLIER, "mult_printed", &[n])?;
        let wrong = multiplies(calls, MULTIPLIER, "mult_printed", n);
        fails(wrong, "it multiplies")
    })
}

/// The run multiplies 3 by 3 in slices of one register.
pub fn multiplier_run_gives_nine(calls: &Calls) -> Answer {
    takes(&run_list(calls, MULTIPLIER)?, 8, 0, 3 | 3 << 2 | 9 << 4)
}

/// The transform that hands on slices lists what the one that counts cells lists.
pub fn fourier_by_slices_is_the_same(calls: &Calls) -> Answer {
    for n in 0..12 {
        let by_slices = family_list(calls, MULTIPLIER, "qft", &[n])?;
        if by_slices != family_list(calls, QFT, "qft", &[n])? {
            return Err(format!("the transforms of {n} cells differ"));
        }
    }
    Ok(())
}
