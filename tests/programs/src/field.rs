//! Fields as a tree: a tag, the field's own bytes, then the fields inside it.

use crate::token::Spot;

/// The tags of the byte form.
pub mod tags {
    pub const FAMILY: u8 = 1;
    pub const QREG: u8 = 2;
    pub const CREG: u8 = 3;
    pub const MEASURE: u8 = 4;
    pub const RESET: u8 = 5;
    pub const IF: u8 = 6;
    pub const QBIT: u8 = 16;
    pub const QBITS: u8 = 17;
    pub const FAMILY_TYPE: u8 = 18;
    pub const H: u8 = 32;
    pub const T: u8 = 33;
    pub const TDG: u8 = 34;
    pub const CX: u8 = 35;
    pub const CALL: u8 = 36;
    pub const REVERSE: u8 = 37;
    pub const FOR: u8 = 38;
    pub const LONG_CALL: u8 = 39;
    pub const PHASE: u8 = 40;
    pub const CPHASE: u8 = 41;
    pub const PARAMETER_CALL: u8 = 42;
    pub const WHOLE: u8 = 48;
    pub const ELEMENT: u8 = 49;
    pub const SLICE: u8 = 50;
    pub const PASSED: u8 = 51;
    pub const LITERAL: u8 = 64;
    pub const VARIABLE: u8 = 65;
    pub const SUM: u8 = 66;
    pub const DIFFERENCE: u8 = 67;
    pub const PRODUCT: u8 = 68;

    /// The word that starts a declaration or statement.
    pub fn word(tag: u8) -> Option<&'static str> {
        Some(match tag {
            FAMILY => "family",
            QREG => "qreg",
            CREG => "creg",
            MEASURE => "measure",
            RESET => "reset",
            IF => "if",
            H => "h",
            T => "t",
            TDG => "tdg",
            CX => "cx",
            CALL | LONG_CALL | PARAMETER_CALL => "call",
            REVERSE => "reverse",
            FOR => "for",
            PHASE => "phase",
            CPHASE => "cphase",
            _ => return None,
        })
    }

    /// Whether a field with this tag is a call.
    pub fn is_call(tag: u8) -> bool {
        matches!(tag, CALL | LONG_CALL | PARAMETER_CALL)
    }

    /// Whether a field with this tag is a statement that may stand anywhere.
    pub fn is_statement(tag: u8) -> bool {
        (H..=PARAMETER_CALL).contains(&tag)
    }

    /// Whether a field with this tag is an index.
    pub fn is_index(tag: u8) -> bool {
        (LITERAL..=PRODUCT).contains(&tag)
    }

    /// Whether a field with this tag is an operand.
    pub fn is_operand(tag: u8) -> bool {
        (WHOLE..=PASSED).contains(&tag)
    }

    /// Whether a field with this tag stands at the top only.
    pub fn at_top_only(tag: u8) -> bool {
        (FAMILY..=IF).contains(&tag)
    }
}

/// How deep fields may lie in each other here; the checker's own limits are lower.
pub const DEEPEST: usize = 64;

/// A field of the byte form.
#[derive(Clone, Debug)]
pub struct Field {
    /// The tag; none for bare bytes, which have no header.
    pub tag: Option<u8>,
    /// The field's own bytes, before the fields inside it.
    pub head: Vec<u8>,
    /// The fields inside it.
    pub parts: Vec<Field>,
    /// Where it stands in the text.
    pub spot: Spot,
    /// How many fields lie in each other, this one counting 1.
    pub depth: usize,
    /// The names that the text gives: a register's or a loop variable's one, a
    /// family's own and then its index variables' and parameters', or, for a
    /// family type, the parameter's and then the type's index variables'.
    pub names: Vec<String>,
}

impl Field {
    /// A field with its tag, own bytes and inner fields.
    pub fn new(tag: u8, head: Vec<u8>, parts: Vec<Field>, spot: Spot) -> Self {
        let inner = parts.iter().map(|part| part.depth).max().unwrap_or(0);
        Field {
            tag: Some(tag),
            head,
            parts,
            spot,
            depth: inner + 1,
            names: Vec::new(),
        }
    }

    /// Whether it is a call: of a family, by a number of one byte or of two, or of a parameter.
    pub fn is_call(&self) -> bool {
        self.tag.is_some_and(tags::is_call)
    }

    /// Whether it is the type of a parameter that takes a family.
    pub fn is_family_type(&self) -> bool {
        self.tag == Some(tags::FAMILY_TYPE)
    }

    /// The operands among the fields inside it.
    pub fn operands(&self) -> impl Iterator<Item = &Field> {
        let is_operand = |part: &&Field| part.tag.is_some_and(tags::is_operand);
        self.parts.iter().filter(is_operand)
    }

    /// The same field with the names that the text gives.
    pub fn named(self, names: Vec<String>) -> Self {
        Field { names, ..self }
    }

    /// How many bytes the field takes, its header included.
    pub fn length(&self) -> usize {
        let header = if self.tag.is_some() { 3 } else { 0 };
        let parts: usize = self.parts.iter().map(Field::length).sum();
        header + self.head.len() + parts
    }

    /// Whether bytes stand in it as they are.
    pub fn has_bare(&self) -> bool {
        self.tag.is_none() || self.parts.iter().any(Field::has_bare)
    }

    /// Bytes that stand in a list as they are.
    pub fn bare(bytes: Vec<u8>, spot: Spot) -> Self {
        Field {
            tag: None,
            head: bytes,
            parts: Vec::new(),
            spot,
            depth: 1,
            names: Vec::new(),
        }
    }
}
