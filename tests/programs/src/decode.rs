//! Bytes to fields, as far as they read as fields of the form.
//!
//! This reads the shape only: headers, tags, parts and leftover bytes. Numbers
//! out of scope, sizes and kinds do not matter here, and a call may have any
//! number of indexes and operands.

use crate::field::{tags, Field, DEEPEST};
use crate::token::Spot;
use std::fmt;

/// Why bytes cannot be read as fields, and at which offset.
#[derive(Clone, Debug, PartialEq, Eq)]
pub struct ByteError {
    pub place: usize,
    pub message: String,
}

impl fmt::Display for ByteError {
    fn fmt(&self, out: &mut fmt::Formatter<'_>) -> fmt::Result {
        write!(out, "byte {}: {}", self.place, self.message)
    }
}

/// What may stand at a place in a list.
#[derive(Clone, Copy, PartialEq)]
enum Class {
    Top,
    Statement,
    Type,
    PlainType,
    Operand,
    Index,
    Argument,
}

impl Class {
    /// Whether a field with this tag may stand there.
    fn allows(self, tag: u8) -> bool {
        match self {
            Class::Top => tags::at_top_only(tag) || tags::is_statement(tag),
            Class::Statement => tags::is_statement(tag),
            Class::Type => Class::PlainType.allows(tag) || tag == tags::FAMILY_TYPE,
            Class::PlainType => matches!(tag, tags::QBIT | tags::QBITS),
            Class::Operand => tags::is_operand(tag),
            Class::Index => tags::is_index(tag),
            Class::Argument => Class::Operand.allows(tag) || Class::Index.allows(tag),
        }
    }

    fn name(self) -> &'static str {
        match self {
            Class::Top => "a declaration or statement",
            Class::Statement => "a statement",
            Class::Type => "a type",
            Class::PlainType => "a type Qbit or Qbit[..]",
            Class::Operand => "an operand",
            Class::Index => "an index",
            Class::Argument => "an index or operand",
        }
    }
}

/// Reads a program as a list of fields.
pub fn decode(bytes: &[u8]) -> Result<Vec<Field>, ByteError> {
    let reader = Reader { bytes };
    reader.list(0, bytes.len(), Class::Top, 1)
}

/// Reads the fields at the top as far as they can be read.
pub fn readable(bytes: &[u8]) -> Vec<Field> {
    let reader = Reader { bytes };
    let (mut found, mut at) = (Vec::new(), 0);
    while at < bytes.len() {
        let Ok((field, next)) = reader.field(at, bytes.len(), Class::Top, 1) else {
            break;
        };
        found.push(field);
        at = next;
    }
    found
}

/// A refusal at an offset.
fn refuse<T>(place: usize, message: impl Into<String>) -> Result<T, ByteError> {
    let message = message.into();
    Err(ByteError { place, message })
}

/// How many own bytes a field has.
fn head_length(tag: u8) -> usize {
    match tag {
        tags::FAMILY | tags::FAMILY_TYPE | tags::QREG | tags::CREG => 2,
        tags::LONG_CALL | tags::PASSED | tags::LITERAL => 2,
        tags::IF | tags::CALL | tags::PARAMETER_CALL | tags::VARIABLE => 1,
        tags::WHOLE | tags::ELEMENT | tags::SLICE => 1,
        _ => 0,
    }
}

/// Which parts are due in a field, and what may follow them.
fn parts_due(tag: u8, head: &[u8]) -> (Vec<Class>, Option<Class>) {
    match tag {
        tags::FAMILY => (
            vec![Class::Type; usize::from(head[1])],
            Some(Class::Statement),
        ),
        tags::FAMILY_TYPE => (vec![Class::PlainType; usize::from(head[1])], None),
        tags::QBITS | tags::ELEMENT => (vec![Class::Index], None),
        tags::SLICE => (vec![Class::Index; 2], None),
        tags::SUM | tags::DIFFERENCE | tags::PRODUCT => (vec![Class::Index; 2], None),
        tags::MEASURE | tags::CX => (vec![Class::Operand; 2], None),
        tags::RESET | tags::H | tags::T | tags::TDG => (vec![Class::Operand], None),
        tags::PHASE => (vec![Class::Index, Class::Operand], None),
        tags::CPHASE => (vec![Class::Index, Class::Operand, Class::Operand], None),
        tags::IF => (vec![Class::Operand], Some(Class::Statement)),
        tag if tags::is_call(tag) => (Vec::new(), Some(Class::Argument)),
        tags::REVERSE => (Vec::new(), Some(Class::Statement)),
        tags::FOR => (vec![Class::Index; 2], Some(Class::Statement)),
        _ => (Vec::new(), None),
    }
}

/// The bytes being read.
struct Reader<'a> {
    bytes: &'a [u8],
}

impl Reader<'_> {
    /// Reads fields of one class up to an end.
    fn list(
        &self,
        mut at: usize,
        end: usize,
        class: Class,
        depth: usize,
    ) -> Result<Vec<Field>, ByteError> {
        let mut found = Vec::new();
        while at < end {
            let (field, next) = self.field(at, end, class, depth)?;
            found.push(field);
            at = next;
        }
        Ok(found)
    }

    /// Reads one field and tells where the next one starts.
    fn field(
        &self,
        at: usize,
        end: usize,
        class: Class,
        depth: usize,
    ) -> Result<(Field, usize), ByteError> {
        if end - at < 3 {
            return refuse(at, "fewer than 3 bytes are left for a field");
        }
        let tag = self.bytes[at];
        let length = u16::from_le_bytes([self.bytes[at + 1], self.bytes[at + 2]]);
        let next = at + 3 + usize::from(length);
        if next > end {
            return refuse(at, "this field reaches past its enclosing end");
        }
        if !class.allows(tag) {
            let due = class.name();
            return refuse(at, format!("{due} is due here, and tag {tag} is none"));
        }
        if depth > DEEPEST {
            return refuse(at, format!("fields lie deeper than {DEEPEST}"));
        }
        Ok((self.content(at, next, tag, depth)?, next))
    }

    /// Reads the content of a field from its own bytes on.
    fn content(&self, at: usize, end: usize, tag: u8, depth: usize) -> Result<Field, ByteError> {
        let mut next = at + 3 + head_length(tag);
        if next > end {
            return refuse(at, "this field ends before its own bytes do");
        }
        let head = self.bytes[at + 3..next].to_vec();
        let (due, rest) = parts_due(tag, &head);
        let mut parts = Vec::new();
        for class in due {
            if next == end {
                return refuse(at, format!("this field ends where {} is due", class.name()));
            }
            let (part, after) = self.field(next, end, class, depth + 1)?;
            parts.push(part);
            next = after;
        }
        if let Some(class) = rest {
            parts.extend(self.list(next, end, class, depth + 1)?);
        } else if next < end {
            return refuse(at, "this field has bytes left over");
        }
        if tags::is_call(tag) && !indexes_first(&parts) {
            return refuse(at, "this call has an index after an operand");
        }
        Ok(Field::new(tag, head, parts, Spot::default()))
    }
}

/// Whether no index stands after an operand.
fn indexes_first(parts: &[Field]) -> bool {
    let is_index = |part: &Field| part.tag.is_some_and(tags::is_index);
    parts
        .iter()
        .skip_while(|part| is_index(part))
        .all(|part| !is_index(part))
}
