//! The rows of a drawing and their labels.

use crate::field::{tags, Field};
use crate::form::Form;
use crate::names::clipped;
use crate::operations::{Line, Record};
use crate::scope::{own_variables, parameter_count, parameter_name, two_bytes, Scope};
use crate::tool::family_field;

/// The most characters of a name that a label shows.
const MOST_NAME: usize = 16;
/// The most characters of the label of a wire that a gate names twice.
const MOST_LABEL: usize = 35;

/// The labels of the rows: qubits first, then bits.
#[derive(Default)]
pub struct Rows {
    wires: Vec<String>,
    bits: Vec<String>,
}

impl Rows {
    /// How many rows there are.
    pub fn count(&self) -> usize {
        self.wires.len() + self.bits.len()
    }

    /// Whether a row is a qubit and not a bit.
    pub fn is_wire(&self, row: usize) -> bool {
        row < self.wires.len()
    }

    /// The row of a qubit or bit by its number.
    pub fn row(&self, line: Line, number: u16) -> Option<usize> {
        let number = usize::from(number);
        match line {
            Line::Wire if number < self.wires.len() => Some(number),
            Line::Bit if number < self.bits.len() => Some(self.wires.len() + number),
            _ => None,
        }
    }

    /// The label of a row.
    pub fn label(&self, row: usize) -> &str {
        match row.checked_sub(self.wires.len()) {
            None => &self.wires[row],
            Some(bit) => &self.bits[bit],
        }
    }

    /// Adds rows, labelled by name and index, or by number where there is no name.
    fn add(&mut self, line: Line, name: Option<&str>, size: usize) {
        let (labels, word) = match line {
            Line::Wire => (&mut self.wires, "wire"),
            Line::Bit => (&mut self.bits, "bit"),
        };
        let name = name.map(|name| clipped(name, MOST_NAME));
        for index in 0..size {
            labels.push(match &name {
                Some(name) => format!("{name}[{index}]"),
                None => format!("{word} {}", labels.len()),
            });
        }
    }
}

/// The rows of a whole run: every register of the program.
pub fn registers(fields: &[Field]) -> Rows {
    let mut rows = Rows::default();
    let mut scope = Scope::default();
    fields.iter().for_each(|field| scope.declare(field));
    for (number, field) in scope.registers.iter().enumerate() {
        let line = match field.tag {
            Some(tags::QREG) => Line::Wire,
            _ => Line::Bit,
        };
        let name = scope.register(number);
        rows.add(line, Some(&name), usize::from(two_bytes(field)));
    }
    rows
}

/// The rows of an instance: the parameters of a family at some sizes.
pub fn parameters(fields: &[Field], family: u32, sizes: &[u32]) -> Rows {
    let mut rows = Rows::default();
    let Some(family) = family_field(fields, family) else {
        return rows;
    };
    let named = !family.names.is_empty();
    for number in 0..parameter_count(family) {
        let name = parameter_name(family, number);
        match family.parts[number].parts.first() {
            None if named => rows.wires.push(clipped(&name, MOST_NAME)),
            None => rows.add(Line::Wire, None, 1),
            Some(index) => {
                let form = Form::of(index, own_variables(family));
                let size = form.map_or(0, |form| form.at(sizes));
                let name = named.then_some(name.as_str());
                rows.add(Line::Wire, name, usize::try_from(size).unwrap_or(0));
            }
        }
    }
    rows
}

/// The row of the wire that a gate names twice: as the program writes it, or both ways.
pub fn named_twice(gate: &Field, scope: &Scope) -> Rows {
    let operands = gate.operands().map(|operand| written(operand, scope));
    let mut spellings: Vec<String> = operands.collect();
    spellings.dedup();
    Rows {
        wires: vec![clipped(&spellings.join(" = "), MOST_LABEL)],
        bits: Vec::new(),
    }
}

/// A wire as the program writes it, with its name cut where that is long.
fn written(operand: &Field, scope: &Scope) -> String {
    let name = scope.operand_name(usize::from(operand.head[0]));
    let name = clipped(&name, MOST_NAME);
    match operand.parts.first() {
        None => name,
        Some(index) => format!("{name}[{}]", scope.index(index)),
    }
}

/// The rows that records name, by number.
pub fn numbered(records: &[Record]) -> Rows {
    let (mut wires, mut bits) = (0, 0);
    for record in records {
        let marks = record.operation().map_or(&[][..], |known| known.marks);
        for ((line, _), number) in marks.iter().zip(record.numbers) {
            let most = match line {
                Line::Wire => &mut wires,
                Line::Bit => &mut bits,
            };
            *most = (*most).max(usize::from(number) + 1);
        }
        if let Some((bit, _)) = record.condition {
            bits = bits.max(usize::from(bit) + 1);
        }
    }
    let mut rows = Rows::default();
    rows.add(Line::Wire, None, wires);
    rows.add(Line::Bit, None, bits);
    rows
}
