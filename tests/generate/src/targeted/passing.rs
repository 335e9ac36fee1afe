//! Families as arguments near their rules: what agrees, what is passed where, what is called,
//! and how runs through parameters end.

mod agreeing;
mod operands;
mod runs;
mod types;

pub use agreeing::{counts, loops_of_the_caller, sizes};
pub use operands::{handed_on, itself, numbers, parameter_calls, places, read};
pub use runs::{chains, ended, far_numbers, instances, multipliers, several, values};
pub use types::{depths, read_types, sized_types};

use super::Writer;
use crate::build::*;
use crate::case::Case;
use crate::random::Random;

/// All writers of cases about families as arguments.
const WRITERS: [Writer; 20] = [
    counts,
    sizes,
    loops_of_the_caller,
    read,
    numbers,
    itself,
    places,
    handed_on,
    parameter_calls,
    parameter_calls,
    read_types,
    sized_types,
    depths,
    instances,
    chains,
    several,
    ended,
    values,
    multipliers,
    far_numbers,
];

/// One case about families as arguments.
pub fn case(random: &mut Random) -> Case {
    random.pick(&WRITERS)(random)
}

/// A family of one wire with a gate.
fn gate_family(gate: fn(Field) -> Field) -> Field {
    family(0, vec![qbit()], vec![gate(whole(0))])
}

/// The type of a family of one wire.
fn wire_family() -> Field {
    family_type(0, vec![qbit()])
}

/// The type of a family over n of a register of n wires.
fn register_family() -> Field {
    family_type(1, vec![qbits(variable(0))])
}
