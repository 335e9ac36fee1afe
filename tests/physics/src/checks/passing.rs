//! Checks of the multiplier that takes its adder as an argument, with two adders.

use super::multiplier::{multiplies, products};
use super::{fails, family_list, no_change, run_list, takes, Answer, MULTIPLIER, MULTIPLIER_OF};
use crate::{play, Calls, Record, State};

/// The sizes at which the multiplier and its adders are checked.
const SIZES: std::ops::RangeInclusive<u32> = 0..=4;
/// The sizes at which every setting is checked.
const EVERY_SETTING: std::ops::RangeInclusive<u32> = 0..=2;
/// The two adders, each with the families that pass it: to multiply, and to take that back.
const ADDERS: [(&str, &str, &str); 2] = [
    ("ripple_add", "mult_ripple", "unmult_ripple"),
    ("fourier_add", "mult_fourier", "unmult_fourier"),
];

/// Where the control is 1, b becomes a + b, which has a cell more than a; the qubit for carries
/// starts at 0 and ends there.
pub fn passed_adders_add_under_control(calls: &Calls) -> Answer {
    for (adder, ..) in ADDERS {
        for n in SIZES {
            let list = family_list(calls, MULTIPLIER_OF, adder, &[n])?;
            let cells = n as usize;
            let mask = (2 << cells) - 1;
            for from in 0..1usize << (2 * cells + 2) {
                let (a, b) = ((from >> 1) & (mask >> 1), from >> (1 + cells));
                let added = if from & 1 == 1 { (a + b) & mask } else { b };
                let to = from ^ ((b ^ added) << (1 + cells));
                takes(&list, 2 * cells + 3, from, to)?;
            }
        }
    }
    Ok(())
}

/// With each of both adders z becomes x * y for all x and y, and back; x and y stay.
pub fn multiplier_of_multiplies(calls: &Calls) -> Answer {
    for (_, forward, backward) in ADDERS {
        for n in SIZES {
            multiplies(calls, MULTIPLIER_OF, forward, n)?;
            let back = family_list(calls, MULTIPLIER_OF, backward, &[n])?;
            products(n).try_for_each(|(from, to)| takes(&back, wires(n), to, from))?;
        }
    }
    Ok(())
}

/// How many wires x, y, z and the qubit for carries have.
fn wires(n: u32) -> usize {
    4 * n as usize + 1
}

/// Both adders make the same of every x, y and z, where the qubit for carries starts at 0.
pub fn multiplier_of_both_adders_is_the_same(calls: &Calls) -> Answer {
    for n in EVERY_SETTING {
        let lists: Vec<Vec<Record>> = ADDERS
            .iter()
            .map(|(_, forward, _)| family_list(calls, MULTIPLIER_OF, forward, &[n]))
            .collect::<Result<_, _>>()?;
        for from in 0..1 << (4 * n) {
            let mut states = [(); 2].map(|()| State::setting(wires(n), from));
            for (list, state) in lists.iter().zip(&mut states) {
                play(list, state)?;
            }
            if !states[0].equals(&states[1]) {
                return Err(format!("the adders differ on {from:b} of {n} cells"));
            }
        }
    }
    Ok(())
}

/// The multiplier and then its reverse change no setting, and the multiplier alone does.
pub fn multiplier_of_and_back_is_no_change(calls: &Calls) -> Answer {
    for (_, forward, backward) in ADDERS {
        for n in EVERY_SETTING {
            let mut list = family_list(calls, MULTIPLIER_OF, forward, &[n])?;
            if n > 0 {
                fails(no_change(&list, wires(n)), "the multiplier changes nothing")?;
            }
            list.extend(family_list(calls, MULTIPLIER_OF, backward, &[n])?);
            no_change(&list, wires(n))?;
        }
    }
    Ok(())
}

/// The run multiplies 3 by 3 onto z and, with the other adder, onto w.
pub fn multiplier_of_run_gives_nine_twice(calls: &Calls) -> Answer {
    let to = 3 | 3 << 2 | 9 << 4 | 9 << 8;
    takes(&run_list(calls, MULTIPLIER_OF)?, 13, 0, to)
}

/// The multiplier with the passed adder in Fourier space lists what the one that calls it lists.
pub fn passed_adder_lists_as_called(calls: &Calls) -> Answer {
    for n in 0..12 {
        let passed = family_list(calls, MULTIPLIER_OF, "mult_fourier", &[n])?;
        if passed != family_list(calls, MULTIPLIER, "mult", &[n])? {
            return Err(format!("the multipliers of {n} cells differ"));
        }
    }
    Ok(())
}
