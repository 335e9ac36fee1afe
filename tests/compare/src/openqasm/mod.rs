//! A small reader of OpenQASM 2.0, written from the published grammar
//! (arXiv:1707.03429) and not from any printer.
//!
//! It reads the header, includes of qelib1.inc, registers of any name and size,
//! the gates h, t, tdg, cx, u1 and cu1, measure, reset and if, with comments and
//! any white space. An angle is a product or quotient of whole numbers and pi, with
//! signs. Gates of other names, gate declarations, barriers and operations on whole
//! registers are refused.

mod angle;
mod parse;
mod records;
mod token;

pub use angle::Angle;
pub use parse::read;
pub use records::{list, List};

/// A program as it was read, in the order of its text.
#[derive(Clone, Debug, Default, PartialEq, Eq)]
pub struct Program<'t> {
    pub registers: Vec<Register<'t>>,
    pub operations: Vec<Operation>,
}

/// Whether a register holds qubits or bits.
#[derive(Clone, Copy, Debug, PartialEq, Eq)]
pub enum Kind {
    Quantum,
    Classical,
}

/// A register; its qubits, or bits, are numbered on from those declared before.
#[derive(Clone, Copy, Debug, PartialEq, Eq)]
pub struct Register<'t> {
    pub kind: Kind,
    pub name: &'t str,
    pub first: u64,
    pub size: u64,
}

/// An operation, and when it is done.
#[derive(Clone, Copy, Debug, PartialEq, Eq)]
pub struct Operation {
    pub condition: Option<Condition>,
    pub action: Action,
}

/// That a classical register, by its place among all registers, has a value.
#[derive(Clone, Copy, Debug, PartialEq, Eq)]
pub struct Condition {
    pub register: usize,
    pub value: u64,
}

/// A qubit of the whole program.
#[derive(Clone, Copy, Debug, PartialEq, Eq)]
pub struct Qubit(pub u64);

/// A bit of the whole program.
#[derive(Clone, Copy, Debug, PartialEq, Eq)]
pub struct Bit(pub u64);

/// What an operation does.
#[derive(Clone, Copy, Debug, PartialEq, Eq)]
pub enum Action {
    H(Qubit),
    T(Qubit),
    Tdg(Qubit),
    Cx {
        control: Qubit,
        target: Qubit,
    },
    U1(Angle, Qubit),
    Cu1 {
        angle: Angle,
        control: Qubit,
        target: Qubit,
    },
    Measure(Qubit, Bit),
    Reset(Qubit),
}
