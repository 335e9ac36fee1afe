//! A second checker and unroller for metaQASM programs, in plain Rust.
//!
//! It is written from the scope alone and shares nothing with the proved
//! library. Tests compare the two; benchmarks use it as the baseline. It also
//! prints lists as OpenQASM 2.0 text, and shows a form by itself.

mod bytes;
mod checker;
mod form;
mod index;
mod machine;
mod operand;
mod pair;
mod showing;
mod text;
mod tree;
mod trial;

use bytes::Refusal;
use machine::{Layout, Locations, Machine};
use tree::Program;

pub use machine::RECORD_BYTES;
pub use showing::{showing, FormNumbers, ShowingOutcome, FORM_NUMBERS, NO_FORMS};
pub use text::{instance_qasm, instance_text, run_qasm, run_text, TextOutcome};

/// The answer to a call: number is 0 for done, else why it was turned down.
#[derive(Clone, Copy, Debug, PartialEq, Eq)]
pub struct Outcome {
    pub number: u32,
    pub place: u32,
    pub records: u64,
    pub steps: u64,
}

impl Outcome {
    /// Accepted, or ended with nothing run.
    const DONE: Outcome = Outcome::before_run(0, 0);

    /// An answer given before the first step.
    const fn before_run(number: u32, place: u32) -> Outcome {
        Outcome {
            number,
            place,
            records: 0,
            steps: 0,
        }
    }
}

impl From<Refusal> for Outcome {
    /// A refusal as an answer.
    fn from(refusal: Refusal) -> Outcome {
        Outcome::before_run(refusal.number, refusal.place)
    }
}

/// Says whether a program is accepted.
pub fn check(program: &[u8]) -> Outcome {
    match checker::program(program) {
        Ok(_) => Outcome::DONE,
        Err(refusal) => refusal.into(),
    }
}

/// Lists the gates of one family at the sizes given, four bytes for each.
pub fn instance(
    program: &[u8],
    family: u32,
    sizes: &[u8],
    limit: u64,
    output: &mut [u8],
) -> Outcome {
    outcome(listed_instance(program, family, sizes, limit, output))
}

/// Lists the gates, measurements and resets of the whole program.
pub fn run(program: &[u8], limit: u64, output: &mut [u8]) -> Outcome {
    outcome(listed_run(program, limit, output))
}

/// How a run ended and what it had laid out, or why it was not begun.
type Listed = Result<(Outcome, Locations), Outcome>;

/// The answer alone.
fn outcome(listed: Listed) -> Outcome {
    match listed {
        Ok((outcome, _)) | Err(outcome) => outcome,
    }
}

/// Runs one family at the sizes given.
fn listed_instance(
    program: &[u8],
    family: u32,
    sizes: &[u8],
    limit: u64,
    output: &mut [u8],
) -> Listed {
    let (tree, layout) = laid_out(program, family, sizes)?;
    let body = &tree.families[family as usize].body;
    let outcome = Machine::new(&tree, limit, output).run(body, &layout);
    Ok((outcome, layout.locations))
}

/// Runs the whole program.
fn listed_run(program: &[u8], limit: u64, output: &mut [u8]) -> Listed {
    let tree = checker::program(program)?;
    let layout = Layout::of_registers(&tree);
    let outcome = Machine::new(&tree, limit, output).run(&tree.top, &layout);
    Ok((outcome, layout.locations))
}

/// Everything an instance does before its first statement.
fn laid_out(program: &[u8], family: u32, sizes: &[u8]) -> Result<(Program, Layout), Outcome> {
    let tree = checker::program(program)?;
    let Some(called) = tree.families.get(family as usize) else {
        return Err(Outcome::before_run(20, 0));
    };
    if called.takes_families() {
        return Err(Outcome::before_run(34, 0));
    }
    if sizes.len() != 4 * called.sizes {
        return Err(Outcome::before_run(21, 0));
    }
    let sizes = read_sizes(sizes).ok_or(Outcome::before_run(22, 0))?;
    let layout = Layout::of_parameters(&tree, family as usize, &sizes)?;
    Ok((tree, layout))
}

/// The sizes as numbers, or none where one is above 65,535.
fn read_sizes(bytes: &[u8]) -> Option<Vec<i64>> {
    bytes
        .chunks_exact(4)
        .map(|four| u32::from_le_bytes([four[0], four[1], four[2], four[3]]))
        .map(|size| u16::try_from(size).ok().map(i64::from))
        .collect()
}
