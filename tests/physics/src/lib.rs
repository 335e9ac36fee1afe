//! What lists of records do to qubits: a small state-vector simulator, and
//! checks that the examples' lists do what their families are meant to do.
//!
//! The unroller is a parameter of every check, so that any unroller with the
//! same calls can be put to it.

pub mod checks;
mod complex;
mod record;
mod state;

pub use complex::Complex;
pub use record::{branches, play, records, Branch, Op, Record};
pub use reference::Outcome;
pub use state::State;

/// A listing of a family: program, family, sizes, step limit, output.
pub type Instance = fn(&[u8], u32, &[u8], u64, &mut [u8]) -> Outcome;

/// A listing of a whole run: program, step limit, output.
pub type Run = fn(&[u8], u64, &mut [u8]) -> Outcome;

/// The calls of an unroller.
#[derive(Clone, Copy)]
pub struct Calls {
    pub instance: Instance,
    pub run: Run,
}

/// The calls of the reference.
pub const REFERENCE: Calls = Calls {
    instance: reference::instance,
    run: reference::run,
};
