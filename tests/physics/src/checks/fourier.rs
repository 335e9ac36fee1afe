//! Checks of the quantum Fourier transform and of what is built on it.

use super::{fails, family_list, no_change, run_list, takes, Answer, QFT};
use crate::{play, Calls, Complex, State};

/// The sizes at which the transform is checked.
const SIZES: std::ops::RangeInclusive<u32> = 0..=5;
/// The sizes at which the adder is checked, which has twice as many wires.
const ADDER_SIZES: std::ops::RangeInclusive<u32> = 0..=4;

/// Every x goes to all y, each with its own part of a turn.
pub fn fourier_transforms(calls: &Calls) -> Answer {
    for n in SIZES {
        let list = family_list(calls, QFT, "qft", &[n])?;
        let wires = n as usize;
        for x in 0..1 << wires {
            let mut state = State::setting(wires, x);
            play(&list, &mut state)?;
            if !state.equals(&transformed(wires, x)) {
                return Err(format!(
                    "{x} of {wires} wires is not transformed: {state:?}"
                ));
            }
        }
    }
    Ok(())
}

/// The state that x is due to go to, with the lowest bit of y on the last wire.
fn transformed(wires: usize, x: usize) -> State {
    let count = f64::from(1u32 << wires);
    State::with(wires, |setting| {
        let y = (0..wires).fold(0, |y, wire| 2 * y + ((setting >> wire) & 1));
        Complex::turned((x * y) as f64 / count).times(1.0 / count.sqrt())
    })
}

/// The transform and then its reverse change nothing, and the transform alone does.
pub fn fourier_and_back_is_no_change(calls: &Calls) -> Answer {
    for n in SIZES {
        let mut list = family_list(calls, QFT, "qft", &[n])?;
        if n > 0 {
            fails(
                no_change(&list, n as usize),
                "the transform changes nothing",
            )?;
        }
        list.extend(family_list(calls, QFT, "unqft", &[n])?);
        no_change(&list, n as usize)?;
    }
    Ok(())
}

/// b becomes a + b, or b - a, for all inputs; a stays.
pub fn fourier_adder_adds(calls: &Calls) -> Answer {
    for n in ADDER_SIZES {
        let add = family_list(calls, QFT, "add", &[n])?;
        let sub = family_list(calls, QFT, "sub", &[n])?;
        let cells = n as usize;
        for from in 0..1 << (2 * cells) {
            let to = added(cells, from);
            takes(&add, 2 * cells, from, to)?;
            takes(&sub, 2 * cells, to, from)?;
        }
    }
    Ok(())
}

/// The setting of a and b after an addition without the last carry.
fn added(cells: usize, from: usize) -> usize {
    let mask = (1 << cells) - 1;
    let (a, b) = (from & mask, from >> cells);
    a | ((a + b) & mask) << cells
}

/// The run adds 1 and 1 on two cells.
pub fn fourier_run_adds_one_and_one(calls: &Calls) -> Answer {
    takes(&run_list(calls, QFT)?, 4, 0, 1 | 2 << 2)
}
