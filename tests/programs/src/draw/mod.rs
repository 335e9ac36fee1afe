//! A list of records as a circuit: rows for qubits and bits, columns of gates.
//!
//! A gate stands in the first column in which every row from its uppermost to
//! its lowest one is free, so that the order on each row is kept. What each
//! operation looks like is said in the table of operations.

mod paint;
mod rows;

pub use rows::{named_twice, numbered, parameters, registers, Rows};

use crate::listing::line;
use crate::operations::{Line, Record, CONDITION_MARKS, TWICE_MARK};

/// The most rows that are drawn.
pub const MOST_ROWS: usize = 100;
/// The most columns that are drawn.
pub const MOST_COLUMNS: usize = 300;

/// One column: what stands on each row, and what joins it with the next row.
#[derive(Clone)]
struct Column {
    marks: Vec<String>,
    links: Vec<Option<char>>,
}

/// A circuit that is laid out.
pub struct Circuit {
    rows: Rows,
    columns: Vec<Column>,
    /// For each row the first column that is free.
    free: Vec<usize>,
}

/// A gate's marks, each with its row.
struct Gate {
    marks: Vec<(usize, String)>,
    top: usize,
    bottom: usize,
    /// The lowest row that is a qubit of the gate; below it the bits are joined.
    last_wire: usize,
}

impl Circuit {
    /// Lays records out, unless the drawing would be too large.
    pub fn of(rows: Rows, records: impl Iterator<Item = Record>) -> Result<Circuit, String> {
        let count = rows.count();
        if count > MOST_ROWS {
            return Err(format!(
                "there are {count} qubits and bits, and a drawing has at most {MOST_ROWS} rows: \
                 choose smaller sizes, or use 'mqasm list'"
            ));
        }
        let mut circuit = Circuit {
            rows,
            columns: Vec::new(),
            free: vec![0; count],
        };
        for (number, record) in records.enumerate() {
            let gate = circuit.gate(&record).ok_or_else(|| {
                let line = line(&record);
                format!("record {number} cannot be drawn, as it is none of a list: {line}")
            })?;
            circuit.add(&format!("record {number}"), &gate)?;
        }
        Ok(circuit)
    }

    /// The same circuit, with a mark at its end where a gate names a wire twice.
    pub fn with_wire_twice(mut self, wire: u16) -> Result<Circuit, String> {
        if let Some(row) = self.rows.row(Line::Wire, wire) {
            let mark = Gate {
                marks: vec![(row, TWICE_MARK.to_string())],
                top: row,
                bottom: row,
                last_wire: row,
            };
            self.add(&format!("the mark {TWICE_MARK}"), &mark)?;
        }
        Ok(self)
    }

    /// Puts a gate into the first column that is free for it.
    fn add(&mut self, what: &str, gate: &Gate) -> Result<(), String> {
        let span = gate.top..=gate.bottom;
        let column = self.free[span.clone()].iter().max().copied().unwrap_or(0);
        if column == MOST_COLUMNS {
            return Err(format!(
                "{what} needs a further column, and a drawing has at most {MOST_COLUMNS}: \
                 choose smaller sizes, draw the first steps only with --limit, or use 'mqasm list'"
            ));
        }
        self.free[span].fill(column + 1);
        self.put(column, gate);
        Ok(())
    }

    /// The marks of a record, unless it names no row or one row twice.
    fn gate(&self, record: &Record) -> Option<Gate> {
        let operation = record.operation()?;
        let mut marks = Vec::new();
        let mut last_wire = 0;
        for ((line, mark), number) in operation.marks.iter().zip(record.numbers) {
            let row = self.rows.row(*line, number)?;
            marks.push((row, mark.to_string()));
            if *line == Line::Wire {
                last_wire = last_wire.max(row);
            }
        }
        if operation.has_k {
            let (_, mark) = marks.last_mut()?;
            mark.push_str(&format!("({})", record.k));
        }
        if let Some((bit, value)) = record.condition {
            let mark = CONDITION_MARKS.get(usize::from(value))?;
            marks.push((self.rows.row(Line::Bit, bit)?, mark.to_string()));
        }
        marks.sort_unstable();
        if marks.windows(2).any(|pair| pair[0].0 == pair[1].0) {
            return None;
        }
        Some(Gate {
            top: marks.first()?.0,
            bottom: marks.last()?.0,
            last_wire,
            marks,
        })
    }

    /// Writes a gate into a column: its marks, what it crosses and its links.
    fn put(&mut self, column: usize, gate: &Gate) {
        let count = self.rows.count();
        let empty = Column {
            marks: vec![String::new(); count],
            links: vec![None; count],
        };
        while self.columns.len() <= column {
            self.columns.push(empty.clone());
        }
        let column = &mut self.columns[column];
        for row in gate.top..gate.bottom {
            let quantum = row < gate.last_wire;
            column.links[row] = Some(if quantum { '│' } else { '║' });
            let crossing = match (quantum, self.rows.is_wire(row)) {
                (true, _) => "┼",
                (false, true) => "╫",
                (false, false) => "╬",
            };
            column.marks[row] = crossing.to_string();
        }
        for (row, mark) in &gate.marks {
            column.marks[*row] = mark.clone();
        }
    }
}
