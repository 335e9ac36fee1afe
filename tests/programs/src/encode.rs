//! Fields to bytes, with the place of each field in the text.

use crate::field::Field;
use crate::token::{Spot, TextError};

/// Offsets of fields and where each field stands in the text.
#[derive(Clone, Debug, Default)]
pub struct Spots(Vec<(usize, Spot)>);

impl Spots {
    /// Where the field at an offset stands in the text.
    pub fn of(&self, place: usize) -> Option<Spot> {
        let found = self.0.binary_search_by_key(&place, |(offset, _)| *offset);
        found.ok().map(|number| self.0[number].1)
    }
}

/// Writes a list of fields.
pub fn encode(fields: &[Field]) -> Result<(Vec<u8>, Spots), TextError> {
    let mut bytes = Vec::new();
    let mut spots = Spots::default();
    for field in fields {
        write(field, &mut bytes, &mut spots)?;
    }
    Ok((bytes, spots))
}

/// Writes one field: tag, length, own bytes, inner fields.
fn write(field: &Field, bytes: &mut Vec<u8>, spots: &mut Spots) -> Result<(), TextError> {
    let Some(tag) = field.tag else {
        bytes.extend(&field.head);
        return Ok(());
    };
    let start = bytes.len();
    spots.0.push((start, field.spot));
    bytes.extend([tag, 0, 0]);
    bytes.extend(&field.head);
    for part in &field.parts {
        write(part, bytes, spots)?;
    }
    let content = bytes.len() - start - 3;
    let Ok(length) = u16::try_from(content) else {
        let message = format!("this takes {content} bytes, and a field holds at most 65535");
        return Err(TextError::new(field.spot, message));
    };
    bytes[start + 1..start + 3].copy_from_slice(&length.to_le_bytes());
    Ok(())
}
