//! What a place in a program can name, and the texts of operands and indexes there.
//!
//! Names are those of the text. Where there is no text they are invented:
//! families `f0`, parameters `x0`, index variables `n0` (a family's own) and
//! `i1` (loops), registers `q0` and `c1`. A number out of scope is `#3`; that of a
//! family that is passed is `##3`, and that of a parameter that is called `###3`.

use crate::field::{tags, Field};
use crate::print::join;

/// The declarations in scope and what is open around a place.
#[derive(Clone, Default)]
pub struct Scope<'a> {
    pub families: Vec<&'a Field>,
    pub registers: Vec<&'a Field>,
    /// The family whose body this is.
    pub inside: Option<&'a Field>,
    /// The open loops from the outside.
    pub loops: Vec<&'a Field>,
}

/// Reading a program in order.
impl<'a> Scope<'a> {
    /// What the sizes of a family type can name: its own index variables.
    pub fn of_type(family_type: &'a Field) -> Self {
        Scope {
            inside: Some(family_type),
            ..Scope::default()
        }
    }

    /// Opens a family or loop; other fields open nothing.
    pub fn enter(&mut self, field: &'a Field) {
        match field.tag {
            Some(tags::FAMILY) => self.inside = Some(field),
            Some(tags::FOR) => self.loops.push(field),
            _ => {}
        }
    }

    /// Closes a family or loop that was opened.
    pub fn leave(&mut self, field: &Field) {
        match field.tag {
            Some(tags::FAMILY) => self.inside = None,
            Some(tags::FOR) => drop(self.loops.pop()),
            _ => {}
        }
    }

    /// Adds what a field that has been read declares.
    pub fn declare(&mut self, field: &'a Field) {
        match field.tag {
            Some(tags::FAMILY) => self.families.push(field),
            Some(tags::QREG | tags::CREG) => self.registers.push(field),
            _ => {}
        }
    }
}

/// How many index variables a family or a family type declares.
pub fn own_variables(family: &Field) -> usize {
    usize::from(family.head[0])
}

/// How many parameters a family or a family type declares.
pub fn parameter_count(family: &Field) -> usize {
    usize::from(family.head[1])
}

/// The types of the parameters that a family or a family type declares.
pub fn parameter_types(family: &Field) -> &[Field] {
    let count = parameter_count(family).min(family.parts.len());
    &family.parts[..count]
}

/// The name of one of the index variables of a family or a family type.
pub fn variable_name(family: &Field, number: usize) -> String {
    given(family, 1 + number).unwrap_or(format!("n{number}"))
}

/// The name of one of a family's parameters.
pub fn parameter_name(family: &Field, number: usize) -> String {
    given(family, 1 + own_variables(family) + number).unwrap_or(format!("x{number}"))
}

/// A name that the text gives in a field.
fn given(field: &Field, number: usize) -> Option<String> {
    field.names.get(number).cloned()
}

/// The two-byte number in a field's own bytes.
pub fn two_bytes(field: &Field) -> u16 {
    u16::from_le_bytes([field.head[0], field.head[1]])
}

/// The number of the family or parameter that a call names, by one byte or by two.
pub fn called_number(call: &Field) -> usize {
    match call.tag {
        Some(tags::LONG_CALL) => usize::from(two_bytes(call)),
        _ => usize::from(call.head[0]),
    }
}

/// A count with its word, as `no size`, `1 size` or `2 families`.
pub fn counted(count: usize, word: &str) -> String {
    match (count, word.strip_suffix('y')) {
        (0, _) => format!("no {word}"),
        (1, _) => format!("1 {word}"),
        (_, Some(stem)) => format!("{count} {stem}ies"),
        _ => format!("{count} {word}s"),
    }
}

/// Names by number.
impl<'a> Scope<'a> {
    /// How many index variables are in scope.
    pub fn variables(&self) -> usize {
        self.inside.map_or(0, own_variables) + self.loops.len()
    }

    pub fn family(&self, number: usize) -> String {
        match self.families.get(number) {
            Some(family) => given(family, 0).unwrap_or(format!("f{number}")),
            None => format!("#{number}"),
        }
    }

    pub fn register(&self, number: usize) -> String {
        match self.registers.get(number) {
            Some(field) if field.tag == Some(tags::QREG) => {
                given(field, 0).unwrap_or(format!("q{number}"))
            }
            Some(field) => given(field, 0).unwrap_or(format!("c{number}")),
            None => format!("#{number}"),
        }
    }

    pub fn variable(&self, number: usize) -> String {
        let own = self.inside.map_or(0, own_variables);
        match (self.inside, number.checked_sub(own)) {
            (Some(family), None) => variable_name(family, number),
            (_, Some(depth)) if depth < self.loops.len() => {
                given(self.loops[depth], 0).unwrap_or(format!("i{number}"))
            }
            _ => format!("#{number}"),
        }
    }

    /// The family that a call calls, or the type of the parameter that it calls.
    pub fn called(&self, call: &Field) -> Option<&'a Field> {
        let number = called_number(call);
        match call.tag {
            Some(tags::PARAMETER_CALL) => self.family_parameter(number),
            _ => self.families.get(number).copied(),
        }
    }

    /// The name of what a call calls.
    pub fn called_name(&self, call: &Field) -> String {
        let number = called_number(call);
        match call.tag {
            Some(tags::PARAMETER_CALL) => match self.family_parameter(number) {
                Some(_) => self.operand_name(number),
                None => format!("###{number}"),
            },
            _ => self.family(number),
        }
    }

    /// The type of the parameter of a number, where it takes a family.
    fn family_parameter(&self, number: usize) -> Option<&'a Field> {
        let found = parameter_types(self.inside?).get(number)?;
        found.is_family_type().then_some(found)
    }

    /// The name of an operand, without its index.
    pub fn operand_name(&self, number: usize) -> String {
        match self.inside {
            None => self.register(number),
            Some(family) if number < parameter_count(family) => parameter_name(family, number),
            Some(_) => format!("#{number}"),
        }
    }
}

/// Texts of fields.
impl Scope<'_> {
    /// The text of an operand.
    pub fn operand(&self, field: &Field) -> String {
        if field.tag == Some(tags::PASSED) {
            return self.passed(usize::from(two_bytes(field)));
        }
        let name = self.operand_name(usize::from(field.head[0]));
        match &field.parts[..] {
            [] => name,
            [index] => format!("{name}[{}]", self.index(index)),
            [first, last, ..] => format!("{name}[{}..{}]", self.index(first), self.index(last)),
        }
    }

    /// The text of a family that is passed.
    fn passed(&self, number: usize) -> String {
        match number < self.families.len() {
            true => self.family(number),
            false => format!("##{number}"),
        }
    }

    /// The text of an index.
    pub fn index(&self, field: &Field) -> String {
        self.nested_index(field, 0)
    }

    /// Writes an index; a level says what needs parentheses: 1 sums, 2 products too.
    fn nested_index(&self, field: &Field, level: usize) -> String {
        let (symbol, own_level) = match field.tag.unwrap_or_default() {
            tags::LITERAL => return two_bytes(field).to_string(),
            tags::VARIABLE => return self.variable(usize::from(field.head[0])),
            tags::SUM => (" + ", 0),
            tags::DIFFERENCE => (" - ", 0),
            _ => (" * ", 1),
        };
        let left = self.nested_index(&field.parts[0], own_level);
        let right = self.nested_index(&field.parts[1], own_level + 1);
        match level > own_level {
            true => format!("({left}{symbol}{right})"),
            false => format!("{left}{symbol}{right}"),
        }
    }

    /// The text of a parameter's type.
    pub fn parameter_type(&self, field: &Field) -> String {
        if field.is_family_type() {
            return family_type(field);
        }
        match field.parts.first() {
            None => "Qbit".to_string(),
            Some(size) => format!("Qbit[{}]", self.index(size)),
        }
    }
}

/// The text of a family type, or of the type of a family, as `family(n)(Qbit, Qbit[n])`.
pub fn family_type(family: &Field) -> String {
    let scope = Scope::of_type(family);
    let variables = join(0..own_variables(family), |number| {
        variable_name(family, number)
    });
    let types = join(parameter_types(family), |one| scope.parameter_type(one));
    format!("family({variables})({types})")
}
