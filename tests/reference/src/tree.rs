//! The tree of an accepted program: what the machine runs.

use crate::form::Form;
use std::rc::Rc;

/// A quantum location of the source or the list.
#[derive(Clone, Copy, Debug, PartialEq, Eq)]
pub struct Wire(pub u16);

/// A classical location.
#[derive(Clone, Copy, Debug, PartialEq, Eq)]
pub struct Bit(pub u16);

/// A whole program.
#[derive(Default)]
pub struct Program {
    pub families: Vec<Family>,
    pub registers: Vec<Register>,
    pub top: Vec<Statement>,
}

/// A declared register, with its first location and its size.
#[derive(Clone, Copy)]
pub enum Register {
    Quantum { first: Wire, size: u16 },
    Classical { first: Bit, size: u16 },
}

/// A family over `sizes` index variables.
pub struct Family {
    pub sizes: usize,
    pub parameters: Vec<Parameter>,
    pub body: Vec<Statement>,
}

impl Family {
    /// Whether a family has to be passed to this one.
    pub fn takes_families(&self) -> bool {
        let is_family = |parameter: &Parameter| matches!(parameter.kind, Type::Family(_));
        self.parameters.iter().any(is_family)
    }
}

/// A parameter with the place of its type field.
pub struct Parameter {
    pub place: u32,
    pub kind: Type,
}

/// What a parameter takes: one wire, a register with a size, or a family.
pub enum Type {
    Wire,
    Wires(Size),
    Family(Rc<FamilyType>),
}

/// A family's type: how many index variables it has and what each parameter takes, which is
/// a wire where there is no size. Nothing of it is evaluated.
pub struct FamilyType {
    pub sizes: usize,
    pub parameters: Vec<Option<Form>>,
}

/// The size in a type, as a tree to evaluate and as a form to type with.
pub struct Size {
    pub index: Index,
    pub form: Form,
}

/// An index field.
pub enum Index {
    Literal(u16),
    Variable(u8),
    Sum(Box<[Index; 2]>),
    Difference(Box<[Index; 2]>),
    Product(Box<[Index; 2]>),
}

/// An operand that stands for one wire.
pub enum WireOperand {
    Whole(u8),
    Element(u8, Index),
}

impl WireOperand {
    /// The number of the operand.
    pub fn number(&self) -> u8 {
        match self {
            WireOperand::Whole(number) | WireOperand::Element(number, _) => *number,
        }
    }
}

/// An operand that stands for one bit.
pub struct BitOperand(pub u8, pub Index);

/// What a call hands to a parameter.
pub enum Argument {
    Wire(WireOperand),
    Register(u8),
    Slice(Box<Slice>),
    /// A declared family by its number.
    Family(u16),
}

/// The part of a register from a first to a last element; it may be empty.
pub struct Slice {
    pub number: u8,
    pub first: Index,
    pub last: Index,
}

/// A gate on one wire.
#[derive(Clone, Copy, PartialEq, Eq)]
pub enum Gate {
    H,
    T,
    Tdg,
}

/// A statement and the place of its tag.
pub struct Statement {
    pub place: u32,
    pub action: Action,
}

/// What a statement does.
pub enum Action {
    Gate(Gate, WireOperand),
    Cx(WireOperand, WireOperand),
    Phase(Index, WireOperand),
    Cphase(Box<Cphase>),
    Measure(WireOperand, BitOperand),
    Reset(WireOperand),
    If(bool, BitOperand, Vec<Statement>),
    Call(Box<Call>),
    Reverse(Vec<Statement>),
    For(Box<Loop>),
}

/// A part of a turn, one by 2 to the k, on two wires.
pub struct Cphase {
    pub k: Index,
    pub control: WireOperand,
    pub target: WireOperand,
}

/// A call with its sizes and arguments.
pub struct Call {
    pub called: Called,
    pub sizes: Vec<Index>,
    pub arguments: Vec<Argument>,
}

/// What a call names: a declared family, or a parameter that stands for one.
#[derive(Clone, Copy)]
pub enum Called {
    Family(u16),
    Parameter(u8),
}

/// A loop over `variable`, from low to high.
pub struct Loop {
    pub variable: u8,
    pub low: Index,
    pub high: Index,
    pub body: Vec<Statement>,
}
