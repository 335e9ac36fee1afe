//! Checks of the controlled adders: indexed for two cells more than their size, as printed, and
//! on as many cells as their size.

use super::{fails, family_list, takes, Answer, CTRLADD, CTRLADD_GUARDED, CTRLADD_PRINTED};
use crate::Calls;

/// Where the control is 1, y becomes x + y + c; else nothing changes.
pub fn ctrladd_adds_under_control(calls: &Calls) -> Answer {
    (0..3).try_for_each(|m| adds_under_control(calls, CTRLADD, m, m + 2))
}

/// As printed, the loops do not add, so that only two cells are right.
pub fn ctrladd_as_printed_adds_two_cells_only(calls: &Calls) -> Answer {
    adds_under_control(calls, CTRLADD_PRINTED, 0, 2)?;
    family_list(calls, CTRLADD_PRINTED, "ctrladd", &[1])?;
    fails(adds_under_control(calls, CTRLADD_PRINTED, 1, 3), "it adds")
}

/// On n cells it adds where n is 2 or more, and its list is empty otherwise.
pub fn ctrladd_guarded_adds_from_two_cells_on(calls: &Calls) -> Answer {
    (2..5).try_for_each(|n| adds_under_control(calls, CTRLADD_GUARDED, n, n))?;
    (0..2).try_for_each(|n| {
        let list = family_list(calls, CTRLADD_GUARDED, "ctrladd", &[n])?;
        match list.len() {
            0 => Ok(()),
            count => Err(format!("{count} records at {n}")),
        }
    })
}

/// Shows that a controlled adder of some size adds all inputs of so many cells.
pub fn adds_under_control(calls: &Calls, text: &str, size: u32, cells: u32) -> Answer {
    let list = family_list(calls, text, "ctrladd", &[size])?;
    let cells = cells as usize;
    let wires = 2 * cells + 2;
    let mask = (1 << cells) - 1;
    (0..1 << wires).try_for_each(|from: usize| {
        let (x, y) = ((from >> 1) & mask, (from >> (1 + cells)) & mask);
        let carry = from >> (wires - 1);
        let sum = (x + y + carry) & mask;
        let changed = if from & 1 == 1 { sum ^ y } else { 0 };
        takes(&list, wires, from, from ^ (changed << (1 + cells)))
    })
}
