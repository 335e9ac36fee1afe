//! The machine: runs a statement list and writes records.

use crate::bytes::{refuse, Refusal};
use crate::form::{in_range, OutOfRange, VARIABLES};
use crate::tree::{
    Action, Argument, Bit, BitOperand, Call, Called, Cphase, Family, Gate, Index, Loop, Parameter,
    Program, Register, Slice, Statement, Type, Wire, WireOperand,
};
use crate::Outcome;

/// The bytes of a record.
pub const RECORD_BYTES: usize = 12;
/// The largest k by which a turn may be divided into 2 to the k parts.
const LARGEST_K: u16 = 63;
/// The most wires that an instance may lay out.
const WIRES: i64 = 65_535;
/// The most parameters that a family may have.
const PARAMETERS: usize = 8;

/// What an operand stands for, a family by its number.
#[derive(Clone, Copy)]
enum Meaning {
    Wire(Wire),
    Wires { first: Wire, size: u16 },
    Bits { first: Bit, size: u16 },
    Family(u16),
}

/// The direction in which lists are run.
#[derive(Clone, Copy, PartialEq, Eq)]
enum Direction {
    Forward,
    Backward,
}

impl Direction {
    /// The other direction.
    fn flipped(self) -> Direction {
        match self {
            Direction::Forward => Direction::Backward,
            Direction::Backward => Direction::Forward,
        }
    }

    /// The op of a gate forward, or of its inverse backward.
    fn op(self, gate: u8, inverse: u8) -> u8 {
        match self {
            Direction::Forward => gate,
            Direction::Backward => inverse,
        }
    }
}

/// The machine's ends carry a number and a place, as refusals do.
type End = Refusal;

/// How many wires and bits are laid out.
#[derive(Clone, Copy)]
pub struct Locations {
    pub wires: u16,
    pub bits: u16,
}

/// The values and meanings with which a run starts.
pub struct Layout {
    values: [i64; VARIABLES],
    meanings: Vec<Meaning>,
    /// How many families the statements can name.
    families: usize,
    pub locations: Locations,
}

impl Layout {
    /// The registers of a whole run, numbered as declared.
    pub fn of_registers(program: &Program) -> Layout {
        let registers = &program.registers;
        let meaning = |register: &Register| match *register {
            Register::Quantum { first, size } => Meaning::Wires { first, size },
            Register::Classical { first, size } => Meaning::Bits { first, size },
        };
        Layout {
            values: [0; VARIABLES],
            meanings: registers.iter().map(meaning).collect(),
            families: program.families.len(),
            locations: declared(registers),
        }
    }

    /// The parameters of an instance of a family, laid out from wire 0.
    pub fn of_parameters(program: &Program, family: usize, sizes: &[i64]) -> Result<Layout, End> {
        let parameters = &program.families[family].parameters;
        let mut values = [0; VARIABLES];
        values[..sizes.len()].copy_from_slice(sizes);
        let mut meanings = Vec::with_capacity(parameters.len());
        let mut used = 0;
        for parameter in parameters {
            let (meaning, size) = laid_out(parameter, Wire(used as u16), &values)?;
            used += size;
            if used > WIRES {
                return refuse(23, parameter.place);
            }
            meanings.push(meaning);
        }
        let locations = Locations {
            wires: used as u16,
            bits: 0,
        };
        Ok(Layout {
            values,
            meanings,
            families: family,
            locations,
        })
    }
}

/// What a parameter of an instance stands for from a first wire on, and how many wires it has;
/// where these are too many the meaning is of no use.
fn laid_out(
    parameter: &Parameter,
    first: Wire,
    values: &[i64; VARIABLES],
) -> Result<(Meaning, i64), End> {
    match &parameter.kind {
        Type::Wire => Ok((Meaning::Wire(first), 1)),
        Type::Wires(size) => match evaluate(&size.index, values, parameter.place)? {
            ..=-1 => stuck("a parameter's size is below 0"),
            count => {
                let size = count as u16;
                Ok((Meaning::Wires { first, size }, count))
            }
        },
        Type::Family(_) => stuck("an instance has a family parameter"),
    }
}

/// All qubits and bits that registers declare.
fn declared(registers: &[Register]) -> Locations {
    let mut locations = Locations { wires: 0, bits: 0 };
    for register in registers {
        match register {
            Register::Quantum { size, .. } => locations.wires += size,
            Register::Classical { size, .. } => locations.bits += size,
        }
    }
    locations
}

/// The values and meanings of the body that is being run.
struct Frame<'m> {
    values: [i64; VARIABLES],
    meanings: &'m [Meaning],
    /// How many families are declared before the one whose body this is.
    families: usize,
}

/// A run under way.
pub struct Machine<'r> {
    program: &'r Program,
    output: &'r mut [u8],
    limit: u64,
    records: u64,
    steps: u64,
    /// The condition and its bit, already where a record has them.
    condition: u64,
}

impl<'r> Machine<'r> {
    /// A machine before its first step.
    pub fn new(program: &'r Program, limit: u64, output: &'r mut [u8]) -> Machine<'r> {
        Machine {
            program,
            output,
            limit,
            records: 0,
            steps: 0,
            condition: 0,
        }
    }

    /// Runs a list to its end, or to the first thing that ends it.
    pub fn run(mut self, list: &[Statement], layout: &Layout) -> Outcome {
        let mut frame = Frame {
            values: layout.values,
            meanings: &layout.meanings,
            families: layout.families,
        };
        let ended = self.list(list, &mut frame, Direction::Forward);
        let (number, place) = match ended {
            Ok(()) => (0, 0),
            Err(end) => (end.number, end.place),
        };
        Outcome {
            number,
            place,
            records: self.records,
            steps: self.steps,
        }
    }

    /// Runs statement by statement, backward when reversed.
    fn list(
        &mut self,
        list: &[Statement],
        frame: &mut Frame,
        direction: Direction,
    ) -> Result<(), End> {
        match direction {
            Direction::Forward => {
                for statement in list {
                    self.statement(statement, frame, direction)?;
                }
            }
            Direction::Backward => {
                for statement in list.iter().rev() {
                    self.statement(statement, frame, direction)?;
                }
            }
        }
        Ok(())
    }

    /// Enters one statement.
    fn statement(
        &mut self,
        statement: &Statement,
        frame: &mut Frame,
        direction: Direction,
    ) -> Result<(), End> {
        let place = statement.place;
        self.step(place)?;
        match &statement.action {
            Action::Gate(gate, wire) => {
                let wires = frame.one_wire(wire, place)?;
                self.record(place, gate_op(*gate, direction), wires, 0)
            }
            Action::Cx(control, target) => {
                let wires = frame.two_wires(control, target, place)?;
                self.record(place, 4, wires, 0)
            }
            Action::Phase(k, wire) => {
                let (wires, k) = frame.phase(k, wire, place)?;
                self.record(place, direction.op(7, 8), wires, k)
            }
            Action::Cphase(cphase) => {
                let (wires, k) = frame.cphase(cphase, place)?;
                self.record(place, direction.op(9, 10), wires, k)
            }
            Action::Measure(wire, bit) => {
                let (wire, bit) = (frame.wire(wire, place)?, frame.bit(bit, place)?);
                self.record(place, 5, [wire.0, bit.0], 0)
            }
            Action::Reset(wire) => self.record(place, 6, frame.one_wire(wire, place)?, 0),
            Action::If(value, bit, body) => {
                let condition = condition(*value, frame.bit(bit, place)?);
                self.conditioned(condition, body, frame, direction)
            }
            Action::Call(call) => self.call(call, frame, place, direction),
            Action::Reverse(body) => self.list(body, frame, direction.flipped()),
            Action::For(looped) => self.rounds(looped, frame, place, direction),
        }
    }

    /// Runs a list with a condition on its gates.
    fn conditioned(
        &mut self,
        condition: u64,
        body: &[Statement],
        frame: &mut Frame,
        direction: Direction,
    ) -> Result<(), End> {
        self.condition = condition;
        self.list(body, frame, direction)?;
        self.condition = 0;
        Ok(())
    }

    /// Runs the rounds of a loop.
    fn rounds(
        &mut self,
        looped: &Loop,
        frame: &mut Frame,
        place: u32,
        direction: Direction,
    ) -> Result<(), End> {
        let low = evaluate(&looped.low, &frame.values, place)?;
        let high = evaluate(&looped.high, &frame.values, place)?;
        let variable = usize::from(looped.variable);
        let mut round = |value: i64| {
            self.step(place)?;
            frame.values[variable] = value;
            self.list(&looped.body, frame, direction)
        };
        match direction {
            Direction::Forward => (low..=high).try_for_each(&mut round),
            Direction::Backward => (low..=high).rev().try_for_each(&mut round),
        }
    }

    /// Evaluates a call's sizes and arguments, and runs the body with them.
    fn call(
        &mut self,
        call: &Call,
        frame: &Frame,
        place: u32,
        direction: Direction,
    ) -> Result<(), End> {
        let number = frame.called(call.called);
        let mut values = [0; VARIABLES];
        for (value, index) in values.iter_mut().zip(&call.sizes) {
            *value = evaluate(index, &frame.values, place)?;
        }
        let mut meanings = [Meaning::Wire(Wire(0)); PARAMETERS];
        for (meaning, argument) in meanings.iter_mut().zip(&call.arguments) {
            *meaning = frame.argument(argument, place)?;
        }
        let family = &self.program.families[number];
        if !family.fits(call) {
            stuck("a call has other counts or kinds than the family that is passed");
        }
        let mut called = Frame {
            values,
            meanings: &meanings[..call.arguments.len()],
            families: number,
        };
        self.list(&family.body, &mut called, direction)
    }

    /// Takes one step.
    fn step(&mut self, place: u32) -> Result<(), End> {
        if self.steps == self.limit {
            return refuse(26, place);
        }
        self.steps += 1;
        Ok(())
    }

    /// Writes one record.
    fn record(&mut self, place: u32, op: u8, numbers: [u16; 2], k: u16) -> Result<(), End> {
        let start = self.records as usize * RECORD_BYTES;
        let Some(slot) = self.output[start..].first_chunk_mut::<RECORD_BYTES>() else {
            return refuse(27, place);
        };
        let [first, second] = numbers.map(u64::from);
        let front = u64::from(op) | first << 16 | second << 32 | self.condition;
        slot[..8].copy_from_slice(&front.to_le_bytes());
        slot[8..].copy_from_slice(&u32::from(k).to_le_bytes());
        self.records += 1;
        Ok(())
    }
}

impl Family {
    /// Whether a call hands over what this family takes; typing has compared the two where
    /// the call names the family itself.
    fn fits(&self, call: &Call) -> bool {
        let Called::Parameter(_) = call.called else {
            return true;
        };
        let counts = (self.sizes, self.parameters.len());
        let mut pairs = self.parameters.iter().zip(&call.arguments);
        counts == (call.sizes.len(), call.arguments.len())
            && pairs.all(|(parameter, argument)| match argument {
                Argument::Wire(_) => matches!(parameter.kind, Type::Wire),
                Argument::Register(_) | Argument::Slice(_) => {
                    matches!(parameter.kind, Type::Wires(_))
                }
                Argument::Family(_) => false,
            })
    }
}

impl Frame<'_> {
    /// The number of the family that a call names, which is declared before the one whose
    /// body this is.
    fn called(&self, called: Called) -> usize {
        let number = match called {
            Called::Family(number) => number,
            Called::Parameter(operand) => match self.meanings[usize::from(operand)] {
                Meaning::Family(number) => number,
                _ => stuck("a parameter that is called is no family"),
            },
        };
        match usize::from(number) {
            number if number < self.families => number,
            _ => stuck("a family is called that is not declared before"),
        }
    }

    /// The wire of a phase and its k, which is looked at first and last.
    fn phase(&self, k: &Index, wire: &WireOperand, place: u32) -> Result<([u16; 2], u16), End> {
        let k = self.k(k, place)?;
        let wires = self.one_wire(wire, place)?;
        Ok((wires, small(k, place)?))
    }

    /// The wires of a cphase and its k, likewise.
    fn cphase(&self, cphase: &Cphase, place: u32) -> Result<([u16; 2], u16), End> {
        let k = self.k(&cphase.k, place)?;
        let wires = self.two_wires(&cphase.control, &cphase.target, place)?;
        Ok((wires, small(k, place)?))
    }

    /// The k of a phase, which typing shows to be 0 or more.
    fn k(&self, index: &Index, place: u32) -> Result<i64, End> {
        match evaluate(index, &self.values, place)? {
            ..=-1 => stuck("the k of a phase is below 0"),
            k => Ok(k),
        }
    }

    /// The one wire of a gate, and nothing beside it.
    fn one_wire(&self, wire: &WireOperand, place: u32) -> Result<[u16; 2], End> {
        Ok([self.wire(wire, place)?.0, 0])
    }

    /// The two wires of a cx or cphase, which must not be the same.
    fn two_wires(
        &self,
        control: &WireOperand,
        target: &WireOperand,
        place: u32,
    ) -> Result<[u16; 2], End> {
        let control = self.wire(control, place)?;
        let target = self.wire(target, place)?;
        match control == target {
            true => refuse(25, place),
            false => Ok([control.0, target.0]),
        }
    }

    /// The wire that an operand stands for.
    fn wire(&self, operand: &WireOperand, place: u32) -> Result<Wire, End> {
        match operand {
            WireOperand::Whole(number) => match self.meanings[usize::from(*number)] {
                Meaning::Wire(wire) => Ok(wire),
                _ => stuck("a whole operand is not one wire"),
            },
            WireOperand::Element(number, index) => {
                let value = evaluate(index, &self.values, place)?;
                let (first, size) = self.wires(*number);
                Ok(Wire(first.0 + inside(value, size)))
            }
        }
    }

    /// The first wire and the size of what a number stands for.
    fn wires(&self, number: u8) -> (Wire, u16) {
        match self.meanings[usize::from(number)] {
            Meaning::Wires { first, size } => (first, size),
            _ => stuck("the operand of an element or slice is no quantum register"),
        }
    }

    /// The bit that an operand stands for.
    fn bit(&self, operand: &BitOperand, place: u32) -> Result<Bit, End> {
        let BitOperand(number, index) = operand;
        let value = evaluate(index, &self.values, place)?;
        match self.meanings[usize::from(*number)] {
            Meaning::Bits { first, size } => Ok(Bit(first.0 + inside(value, size))),
            _ => stuck("an element's operand is no classical register"),
        }
    }

    /// What a call hands on.
    fn argument(&self, argument: &Argument, place: u32) -> Result<Meaning, End> {
        match argument {
            Argument::Wire(wire) => Ok(Meaning::Wire(self.wire(wire, place)?)),
            Argument::Register(number) => Ok(self.meanings[usize::from(*number)]),
            Argument::Slice(slice) => self.slice(slice, place),
            Argument::Family(number) => Ok(Meaning::Family(*number)),
        }
    }

    /// The run of wires that a slice stands for.
    fn slice(&self, slice: &Slice, place: u32) -> Result<Meaning, End> {
        let from = evaluate(&slice.first, &self.values, place)?;
        let to = evaluate(&slice.last, &self.values, place)?;
        let (first, size) = self.wires(slice.number);
        let (skipped, size) = span(from, to, size);
        Ok(Meaning::Wires {
            first: Wire(first.0 + skipped),
            size,
        })
    }
}

/// The op byte of a gate, which a backward run turns around.
fn gate_op(gate: Gate, direction: Direction) -> u8 {
    match gate {
        Gate::H => 1,
        Gate::T => direction.op(2, 3),
        Gate::Tdg => direction.op(3, 2),
    }
}

/// A k as it stands in a record, which is not for one that is too large.
fn small(k: i64, place: u32) -> Result<u16, End> {
    match u16::try_from(k) {
        Ok(k @ ..=LARGEST_K) => Ok(k),
        _ => refuse(32, place),
    }
}

/// A condition as it stands in a record.
fn condition(value: bool, bit: Bit) -> u64 {
    let kind = if value { 2 } else { 1 };
    kind << 8 | u64::from(bit.0) << 48
}

/// The value of an index, with every node in range.
fn evaluate(index: &Index, values: &[i64; VARIABLES], place: u32) -> Result<i64, End> {
    value(index, values).or_else(|OutOfRange| refuse(24, place))
}

/// The value of an index as a tree, left side first.
fn value(index: &Index, values: &[i64; VARIABLES]) -> Result<i64, OutOfRange> {
    match index {
        Index::Literal(number) => Ok(i64::from(*number)),
        Index::Variable(number) => in_range(values[usize::from(*number)]),
        Index::Sum(sides) => in_range(value(&sides[0], values)? + value(&sides[1], values)?),
        Index::Difference(sides) => in_range(value(&sides[0], values)? - value(&sides[1], values)?),
        Index::Product(sides) => in_range(value(&sides[0], values)? * value(&sides[1], values)?),
    }
}

/// An element's number, which typing shows to lie inside the register.
fn inside(value: i64, size: u16) -> u16 {
    match u16::try_from(value) {
        Ok(number) if number < size => number,
        _ => stuck("an element lies outside its register"),
    }
}

/// How many wires of a register come before a slice and how many it has, which typing
/// shows to lie inside.
fn span(from: i64, to: i64, size: u16) -> (u16, u16) {
    let behind = i64::from(size) - 1 - to;
    match (u16::try_from(from), u16::try_from(to - from + 1)) {
        (Ok(skipped), Ok(held)) if behind >= 0 => (skipped, held),
        _ => stuck("a slice lies outside its register"),
    }
}

/// An accepted program can never come here: only a fault of this crate could.
#[cold]
fn stuck(what: &str) -> ! {
    unreachable!("the reference accepted a program on which the machine is stuck: {what}")
}
