//! Gates on two wires that may be one: by the numbers and forms of their operands, which the
//! check refuses, or by values and parameters, which ends a run.

mod far;
mod forms;
mod orders;
mod values;

pub use far::{far_numbers, far_pair};
pub use forms::{pair, Difference, Pair, DIFFERENCES};
pub use orders::{beside, damaged, kinds, operands, turns};
pub use values::{ended, meeting_slices, parameters, passed_families};

use super::Writer;
use crate::build::*;
use crate::case::Case;
use crate::random::Random;

/// All writers of cases about one wire twice.
const WRITERS: [Writer; 14] = [
    spelled,
    spelled,
    spelled,
    spelled,
    far_numbers,
    operands,
    kinds,
    damaged,
    beside,
    turns,
    parameters,
    meeting_slices,
    passed_families,
    ended,
];

/// One case about one wire twice.
pub fn case(random: &mut Random) -> Case {
    random.pick(&WRITERS)(random)
}

/// A gate on two elements or wires, alike by their forms or not.
pub fn spelled(random: &mut Random) -> Case {
    pair(random).case
}

/// A cx, or a cphase by a k that a run takes.
fn gate(first: Field, second: Field, random: &mut Random) -> Field {
    match random.below(5) {
        0 | 1 => {
            let k = literal(random.pick(&[0, 1, 3, 63]));
            cphase(k, first, second)
        }
        _ => cx(first, second),
    }
}
