//! Operands and indexes of the text form.

use super::{field, resolve, resolve_byte, Answer, Parser};
use crate::field::{tags, Field};
use crate::names::Names;
use crate::token::{Spot, TextError, Token, Word};

/// Operands and indexes.
impl Parser {
    /// `x`, `x[i]` or `x[i..j]`; also `#2`, `#2[i]` or `#2[i..j]`. A family that is passed is
    /// written by its name, or as `##2`.
    pub(super) fn operand(&mut self) -> Answer<Field> {
        let Token { word, spot } = self.take();
        let number = match word {
            Word::Symbol("#") if self.accept("#") => {
                let number = self.number(u16::MAX)?;
                return passed(number, spot);
            }
            Word::Symbol("#") => self.byte()?,
            Word::Name(name) if self.names_family(&name) => {
                let number = resolve(&name, &self.families, "family", u16::MAX, spot)?;
                return passed(number, spot);
            }
            Word::Name(name) => self.operand_number(&name, spot)?,
            other => {
                let message = format!("expected an operand, found {other}");
                return Err(TextError::new(spot, message));
            }
        };
        if !self.accept("[") {
            return field(tags::WHOLE, vec![number], vec![], spot);
        }
        let index = self.index()?;
        if self.accept("]") {
            return field(tags::ELEMENT, vec![number], vec![index], spot);
        }
        if !self.accept("..") {
            return self.wrong("']', or '..' and the last index of a slice (as q[0..2])");
        }
        let last = self.index()?;
        self.expect("]")?;
        field(tags::SLICE, vec![number], vec![index, last], spot)
    }

    /// The names of the operands in scope, and what these are.
    fn operand_names(&self) -> (&Names, &'static str) {
        match &self.parameters {
            Some(parameters) => (&parameters.names, "parameter"),
            None => (&self.registers, "register"),
        }
    }

    /// Whether a name that has been taken stands for a family: no register or parameter has it,
    /// and no index follows.
    fn names_family(&self, name: &str) -> bool {
        let (names, _) = self.operand_names();
        names.number(name).is_none() && self.families.number(name).is_some() && !self.at("[")
    }

    /// The number of the register or parameter of a name.
    fn operand_number(&self, name: &str, spot: Spot) -> Answer<u8> {
        let (names, what) = self.operand_names();
        if names.number(name).is_none() && self.indexes.number(name).is_some() {
            let message = format!("expected an operand, and '{name}' is an index variable");
            return Err(TextError::new(spot, message));
        }
        resolve_byte(name, names, what, spot)
    }

    /// Sums and differences, the left ones first.
    pub(super) fn index(&mut self) -> Answer<Field> {
        let mut left = self.product()?;
        loop {
            let spot = self.spot();
            let tag = if self.accept("+") {
                tags::SUM
            } else if self.accept("-") {
                tags::DIFFERENCE
            } else {
                return Ok(left);
            };
            let right = self.product()?;
            left = field(tag, vec![], vec![left, right], spot)?;
        }
    }

    /// Products, the left ones first.
    fn product(&mut self) -> Answer<Field> {
        let mut left = self.single_index()?;
        loop {
            let spot = self.spot();
            if !self.accept("*") {
                return Ok(left);
            }
            let right = self.single_index()?;
            left = field(tags::PRODUCT, vec![], vec![left, right], spot)?;
        }
    }

    /// A literal, a variable, or an index in parentheses.
    fn single_index(&mut self) -> Answer<Field> {
        let Token { word, spot } = self.take();
        match word {
            Word::Number(number) => {
                field(tags::LITERAL, number.to_le_bytes().to_vec(), vec![], spot)
            }
            Word::Name(name) => {
                let number = resolve_byte(&name, &self.indexes, "index variable", spot)?;
                field(tags::VARIABLE, vec![number], vec![], spot)
            }
            Word::Symbol("#") => {
                let number = self.byte()?;
                field(tags::VARIABLE, vec![number], vec![], spot)
            }
            Word::Symbol("(") => {
                self.deeper()?;
                let inner = self.index()?;
                self.expect(")")?;
                self.open -= 1;
                Ok(inner)
            }
            other => {
                let message = format!("expected an index, found {other}");
                Err(TextError::new(spot, message))
            }
        }
    }
}

/// A family that is passed, by its number.
fn passed(number: u16, spot: Spot) -> Answer<Field> {
    field(tags::PASSED, number.to_le_bytes().to_vec(), vec![], spot)
}
