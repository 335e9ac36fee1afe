//! Programs as lists of records: the qubits of `q` are wires, and `cK` is bit K.

use super::{Action, Angle, Bit, Condition, Kind, Operation, Program, Qubit};
use reference::RECORD_BYTES;

/// A list of records and what it is over.
#[derive(Clone, Debug, PartialEq, Eq)]
pub struct List {
    pub wires: u64,
    pub bits: u64,
    /// Twelve bytes for each record.
    pub records: Vec<u8>,
}

/// The list that a program stands for, or why it stands for none.
pub fn list(program: &Program) -> Result<List, String> {
    let (wires, bits) = laid_out(program)?;
    let mut records = Vec::with_capacity(RECORD_BYTES * program.operations.len());
    for operation in &program.operations {
        records.extend(record(program, operation)?);
    }
    Ok(List {
        wires,
        bits,
        records,
    })
}

/// The wires of `q` and the number of registers `cK`, where there are no others.
fn laid_out(program: &Program) -> Result<(u64, u64), String> {
    let (mut wires, mut bits) = (0, 0);
    for register in &program.registers {
        match register.kind {
            Kind::Quantum if register.name == "q" => wires = register.size,
            Kind::Classical if register.size == 1 && register.name == format!("c{bits}") => {
                bits += 1
            }
            _ => return Err(format!("{register:?} is no register of a list")),
        }
    }
    Ok((wires, bits))
}

/// One operation as a record.
fn record(program: &Program, operation: &Operation) -> Result<[u8; RECORD_BYTES], String> {
    let (op, [first, second, k]) = named(&operation.action)?;
    let (condition, bit) = match operation.condition {
        None => (0, 0),
        Some(Condition { register, value }) if value < 2 => {
            (1 + value as u8, program.registers[register].first)
        }
        Some(condition) => return Err(format!("{condition:?} is no condition of a list")),
    };
    let mut record = [0; RECORD_BYTES];
    [record[0], record[1]] = [op, condition];
    for (place, number) in [(2, first), (4, second), (6, bit), (8, k)] {
        record[place..place + 2].copy_from_slice(&two_bytes(number)?);
    }
    Ok(record)
}

/// An action's op, and what it names: first and second number, and k.
fn named(action: &Action) -> Result<(u8, [u64; 3]), String> {
    Ok(match *action {
        Action::H(Qubit(wire)) => (1, [wire, 0, 0]),
        Action::T(Qubit(wire)) => (2, [wire, 0, 0]),
        Action::Tdg(Qubit(wire)) => (3, [wire, 0, 0]),
        Action::Cx { control, target } => (4, [control.0, target.0, 0]),
        Action::Measure(Qubit(wire), Bit(bit)) => (5, [wire, bit, 0]),
        Action::Reset(Qubit(wire)) => (6, [wire, 0, 0]),
        Action::U1(angle, Qubit(wire)) => {
            let (k, inverse) = turn(angle)?;
            (7 + u8::from(inverse), [wire, 0, k])
        }
        Action::Cu1 {
            angle,
            control,
            target,
        } => {
            let (k, inverse) = turn(angle)?;
            (9 + u8::from(inverse), [control.0, target.0, k])
        }
    })
}

/// The k of an angle, at most 63, and whether it is an inverse.
fn turn(angle: Angle) -> Result<(u64, bool), String> {
    match angle.part_of_a_turn() {
        Some((k @ 0..=63, inverse)) => Ok((k, inverse)),
        _ => Err(format!("{angle:?} is no phase of a list")),
    }
}

/// A number as a record has it.
fn two_bytes(number: u64) -> Result<[u8; 2], String> {
    u16::try_from(number)
        .map(u16::to_le_bytes)
        .map_err(|_| format!("{number} is past two bytes"))
}
