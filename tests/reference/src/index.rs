//! Reading index fields: the tree for the machine and the form for typing.

use crate::bytes::{refuse, Content, Field, Refusal};
use crate::form::{Bounds, Form, OutOfRange};
use crate::tree::{Family, FamilyType, Index};
use std::rc::Rc;

/// How deep index fields may nest.
const INDEX_NESTING: u32 = 16;

/// What an operand number names, for typing.
pub enum Kind {
    /// A parameter that is one wire.
    Wire,
    /// A quantum register or a parameter with a size.
    Wires(Form),
    /// A classical register.
    Bits(Form),
    /// A parameter that is a family.
    Family(Rc<FamilyType>),
}

/// What the statements being read can name.
pub struct Scope<'a> {
    pub families: &'a [Family],
    pub kinds: &'a [Kind],
    /// How many index variables the family itself has.
    pub sizes: usize,
    /// The open loops from the outside.
    pub loops: Vec<Bounds>,
}

/// Turns a number out of range down at the field whose rule it is.
pub fn ranged<T>(built: Result<T, OutOfRange>, place: u32) -> Result<T, Refusal> {
    built.or_else(|OutOfRange| refuse(11, place))
}

impl Scope<'_> {
    /// Reads an index field that stands directly in another kind of field.
    pub fn index(&self, content: &mut Content) -> Result<(Index, Form), Refusal> {
        self.index_at(content.field()?, 1)
    }

    /// Asks for a form to be shown 0 or more, on behalf of a field.
    pub fn show(&self, form: &Form, place: u32) -> Result<(), Refusal> {
        if ranged(form.shown(self.sizes, &self.loops), place)? {
            Ok(())
        } else {
            refuse(12, place)
        }
    }

    /// Reads the index field whose header is given, at a nesting depth.
    fn index_at(&self, mut field: Field, depth: u32) -> Result<(Index, Form), Refusal> {
        if !(64..=68).contains(&field.tag) {
            return refuse(3, field.place);
        }
        if depth > INDEX_NESTING {
            return refuse(5, field.place);
        }
        match field.tag {
            64 => literal(&mut field.content),
            65 => self.variable(field),
            _ => self.pair(field, depth),
        }
    }

    /// Reads a variable, whose number is tested before leftover bytes.
    fn variable(&self, mut field: Field) -> Result<(Index, Form), Refusal> {
        let number = field.content.byte()?;
        if usize::from(number) >= self.sizes + self.loops.len() {
            return refuse(8, field.place);
        }
        field.content.end()?;
        Ok((Index::Variable(number), Form::variable(usize::from(number))))
    }

    /// Reads a sum, difference or product.
    fn pair(&self, mut field: Field, depth: u32) -> Result<(Index, Form), Refusal> {
        let content = &mut field.content;
        let (left, left_form) = self.index_at(content.field()?, depth + 1)?;
        let (right, right_form) = self.index_at(content.field()?, depth + 1)?;
        content.end()?;
        let sides = Box::new([left, right]);
        let (index, built) = match field.tag {
            66 => (Index::Sum(sides), left_form.plus(&right_form)),
            67 => (Index::Difference(sides), left_form.minus(&right_form)),
            _ if left_form.is_constant() => {
                (Index::Product(sides), right_form.times(left_form.constant))
            }
            _ if right_form.is_constant() => {
                (Index::Product(sides), left_form.times(right_form.constant))
            }
            _ => return refuse(10, field.place),
        };
        Ok((index, ranged(built, field.place)?))
    }
}

/// Reads a literal.
fn literal(content: &mut Content) -> Result<(Index, Form), Refusal> {
    let number = content.number()?;
    content.end()?;
    Ok((Index::Literal(number), Form::constant(i64::from(number))))
}
