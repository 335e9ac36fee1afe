//! The field at a place of a program, what is around it, and what it can name.

use crate::field::{tags, Field};
use crate::scope::{parameter_name, Scope};

/// A field with those around it.
pub struct Found<'a> {
    /// The fields from the top one to the one at the place.
    path: Vec<&'a Field>,
    pub scope: Scope<'a>,
}

impl<'a> Found<'a> {
    /// The field at the place.
    pub fn field(&self) -> &'a Field {
        self.path[self.path.len() - 1]
    }

    /// The field directly around it.
    pub fn around(&self) -> Option<&'a Field> {
        self.above(1)
    }

    /// The field so many levels above it.
    fn above(&self, levels: usize) -> Option<&'a Field> {
        let number = self.path.len().checked_sub(1 + levels)?;
        self.path.get(number).copied()
    }

    /// Which part of the field around it this is.
    pub fn part_number(&self) -> Option<usize> {
        part_of(self.around()?, self.field())
    }

    /// The name of the parameter that has the type around it.
    pub fn parameter_around(&self) -> Option<String> {
        let family = self.above(2)?;
        let number = part_of(family, self.around()?)?;
        Some(parameter_name(family, number))
    }
}

/// Which part of a field another one is.
fn part_of(field: &Field, inner: &Field) -> Option<usize> {
    let mut parts = field.parts.iter();
    parts.position(|part| std::ptr::eq(part, inner))
}

/// Finds the field whose tag is at a place.
pub fn locate(fields: &[Field], place: usize) -> Option<Found<'_>> {
    let mut scope = Scope::default();
    let mut start = 0;
    for field in fields {
        let end = start + field.length();
        if place < end {
            let mut found = Found {
                path: Vec::new(),
                scope,
            };
            descend(field, start, place, &mut found)?;
            return Some(found);
        }
        scope.declare(field);
        start = end;
    }
    None
}

/// Goes from a field to the part that holds the place.
fn descend<'a>(field: &'a Field, start: usize, place: usize, found: &mut Found<'a>) -> Option<()> {
    found.path.push(field);
    if start == place {
        return Some(());
    }
    let mut start = start + 3 + field.head.len();
    for (number, part) in field.parts.iter().enumerate() {
        let end = start + part.length();
        if place < end {
            match field.tag {
                // A loop's bounds do not see its variable.
                Some(tags::FOR) if number <= 1 => {}
                Some(tags::FAMILY_TYPE) => found.scope = Scope::of_type(field),
                _ => found.scope.enter(field),
            }
            return descend(part, start, place, found);
        }
        start = end;
    }
    None
}
