//! The operations of a record: how each is written in a list and drawn.
//!
//! A new operation is one more row of the table.

use reference::RECORD_BYTES;

/// A row of a drawing that an operand names.
#[derive(Clone, Copy, Debug, PartialEq, Eq)]
pub enum Line {
    Wire,
    Bit,
}

/// An operation of a record.
#[derive(Debug)]
pub struct Operation {
    /// The record's first byte.
    pub code: u8,
    /// The word in a list.
    pub word: &'static str,
    /// Whether it has a k, which stands behind the word in a list and in the last mark.
    pub has_k: bool,
    /// For each operand what it names and how it is drawn there.
    pub marks: &'static [(Line, &'static str)],
}

use Line::{Bit, Wire};

/// Every operation.
pub const OPERATIONS: [Operation; 10] = [
    operation(1, "h", &[(Wire, "H")]),
    operation(2, "t", &[(Wire, "T")]),
    operation(3, "tdg", &[(Wire, "T†")]),
    operation(4, "cx", &[(Wire, "●"), (Wire, "⊕")]),
    operation(5, "measure", &[(Wire, "M"), (Bit, "╩")]),
    operation(6, "reset", &[(Wire, "|0⟩")]),
    operation(7, "phase", &[(Wire, "P")]).with_k(),
    operation(8, "phasedg", &[(Wire, "P†")]).with_k(),
    operation(9, "cphase", &[(Wire, "●"), (Wire, "P")]).with_k(),
    operation(10, "cphasedg", &[(Wire, "●"), (Wire, "P†")]).with_k(),
];

/// One row of the table.
const fn operation(
    code: u8,
    word: &'static str,
    marks: &'static [(Line, &'static str)],
) -> Operation {
    Operation {
        code,
        word,
        has_k: false,
        marks,
    }
}

/// The largest k.
pub const MOST_K: u16 = 63;

impl Operation {
    /// The same operation with a k.
    const fn with_k(self) -> Operation {
        Operation {
            has_k: true,
            ..self
        }
    }

    /// Whether a record of the operation can have this k; without one it is 0.
    pub fn takes(&self, k: u16) -> bool {
        k == 0 || self.has_k && k <= MOST_K
    }
}

/// How a condition is drawn at its bit, by the value that the bit must have.
pub const CONDITION_MARKS: [&str; 2] = ["○", "●"];

/// How a gate is drawn that names its wire twice; no gate has this mark.
pub const TWICE_MARK: &str = "✗";

/// A record as its parts.
#[derive(Clone, Copy, Debug)]
pub struct Record {
    pub code: u8,
    /// The condition's bit and the value that it must have.
    pub condition: Option<(u16, u8)>,
    pub numbers: [u16; 2],
    pub k: u16,
}

impl Record {
    /// Takes the bytes of a record apart.
    pub fn of(bytes: &[u8; RECORD_BYTES]) -> Record {
        let two = |at: usize| u16::from_le_bytes([bytes[at], bytes[at + 1]]);
        Record {
            code: bytes[0],
            condition: bytes[1].checked_sub(1).map(|value| (two(6), value)),
            numbers: [two(2), two(4)],
            k: two(8),
        }
    }

    /// Whether what stands behind its condition bit is what a record of its operation has there.
    pub fn ends_well(&self, bytes: &[u8; RECORD_BYTES]) -> bool {
        let takes = self.operation().is_none_or(|known| known.takes(self.k));
        takes && bytes[10..] == [0, 0]
    }

    /// The row of the table, unless the code has none.
    pub fn operation(&self) -> Option<&'static Operation> {
        OPERATIONS.iter().find(|known| known.code == self.code)
    }
}
