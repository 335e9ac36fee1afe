//! Accepted programs read back as trees, to tell what they are made of.

use crate::build::{reverse, Field};

/// How many bytes of numbers a field with this tag begins with.
fn head(tag: u8) -> usize {
    match tag {
        1..=3 | 18 | 39 | 51 | 64 => 2,
        6 | 36 | 42 | 48..=50 | 65 => 1,
        _ => 0,
    }
}

/// The fields of an accepted program, or of what is left of one.
pub fn fields(mut bytes: &[u8]) -> Vec<Field> {
    let mut fields = Vec::new();
    while let [tag, low, high, rest @ ..] = bytes {
        let length = u16::from_le_bytes([*low, *high]);
        let (content, next) = rest.split_at(length.into());
        let (numbers, parts) = content.split_at(head(*tag));
        fields.push(Field::new(*tag, numbers, self::fields(parts)));
        bytes = next;
    }
    fields
}

/// Whether an operand is a slice.
fn is_slice(field: &Field) -> bool {
    field.tag == 50
}

/// Whether there is a slice among fields, at any depth.
pub fn has_slices(fields: &[Field]) -> bool {
    let inside = |field: &Field| is_slice(field) || has_slices(&field.parts);
    fields.iter().any(inside)
}

/// The same fields with every call that passes a slice replaced by an empty reversal.
pub fn without_slices(fields: &[Field]) -> Vec<Field> {
    without(fields, |field| field.parts.iter().any(is_slice))
}

/// Whether a statement calls a parameter.
fn calls_parameter(field: &Field) -> bool {
    field.tag == 42
}

/// Whether a parameter is called among fields, at any depth.
pub fn has_parameter_calls(fields: &[Field]) -> bool {
    let inside = |field: &Field| calls_parameter(field) || has_parameter_calls(&field.parts);
    fields.iter().any(inside)
}

/// The same fields with every call of a parameter replaced by an empty reversal.
pub fn without_parameter_calls(fields: &[Field]) -> Vec<Field> {
    without(fields, calls_parameter)
}

/// The same fields with the statements meant replaced by empty reversals.
fn without(fields: &[Field], meant: fn(&Field) -> bool) -> Vec<Field> {
    let replaced = |field: &Field| match meant(field) {
        true => reverse(vec![]),
        false => Field {
            parts: without(&field.parts, meant),
            ..field.clone()
        },
    };
    fields.iter().map(replaced).collect()
}
