//! Fields to text, with invented names where the fields have none.

use crate::field::{tags, Field};
use crate::scope::{own_variables, parameter_count, parameter_name};
use crate::scope::{two_bytes, variable_name, Scope};

/// Writes a program as text.
pub fn print(fields: &[Field]) -> String {
    let mut printer = Printer::default();
    for field in fields {
        printer.statement(field);
        printer.scope.declare(field);
    }
    printer.text
}

/// The text so far and what is in scope.
#[derive(Default)]
struct Printer<'a> {
    text: String,
    /// Open blocks.
    open: usize,
    scope: Scope<'a>,
}

impl<'a> Printer<'a> {
    /// Starts a line.
    fn line(&mut self, words: &str) {
        self.text.push_str(&"    ".repeat(self.open));
        self.text.push_str(words);
    }

    /// Writes one declaration or statement.
    fn statement(&mut self, field: &'a Field) {
        match field.tag.unwrap_or_default() {
            tags::FAMILY => self.family(field),
            tags::QREG => self.register("qreg", 'q', field),
            tags::CREG => self.register("creg", 'c', field),
            tags::MEASURE => self.operands("measure ", " -> ", field),
            tags::RESET => self.operands("reset ", ", ", field),
            tags::H => self.operands("h ", ", ", field),
            tags::T => self.operands("t ", ", ", field),
            tags::TDG => self.operands("tdg ", ", ", field),
            tags::CX => self.operands("cx ", ", ", field),
            tags::PHASE => self.phase("phase", field),
            tags::CPHASE => self.phase("cphase", field),
            tag if tags::is_call(tag) => self.call(field),
            tags::IF => {
                let bit = self.scope.operand(&field.parts[0]);
                self.line(&format!("if ({bit} == {})", field.head[0]));
                self.block(&field.parts[1..]);
            }
            tags::REVERSE => {
                self.line("reverse");
                self.block(&field.parts);
            }
            _ => self.counted_loop(field),
        }
    }

    /// Writes statements between braces.
    fn block(&mut self, fields: &'a [Field]) {
        self.text.push_str(" {\n");
        self.open += 1;
        for field in fields {
            self.statement(field);
        }
        self.open -= 1;
        self.line("}\n");
    }

    fn family(&mut self, field: &'a Field) {
        let name = match field.names.first() {
            Some(name) => name.clone(),
            None => format!("f{}", self.scope.families.len()),
        };
        let (types, body) = field.parts.split_at(parameter_count(field));
        self.scope.enter(field);
        let kind = match own_variables(field) {
            0 => "gate".to_string(),
            count => format!(
                "family({})",
                join(0..count, |number| variable_name(field, number))
            ),
        };
        let list = join(0..types.len(), |number| {
            let name = parameter_name(field, number);
            format!("{name}: {}", self.scope.parameter_type(&types[number]))
        });
        self.line(&format!("{kind} {name}({list})"));
        self.block(body);
        self.scope.leave(field);
    }

    fn register(&mut self, word: &str, letter: char, field: &Field) {
        let name = match field.names.first() {
            Some(name) => name.clone(),
            None => format!("{letter}{}", self.scope.registers.len()),
        };
        self.line(&format!("{word} {name}[{}];\n", two_bytes(field)));
    }

    /// Writes a statement of a word and its operands.
    fn operands(&mut self, word: &str, between: &str, field: &Field) {
        let parts = field.operands();
        let names: Vec<_> = parts.map(|part| self.scope.operand(part)).collect();
        self.line(&format!("{word}{};\n", names.join(between)));
    }

    /// Writes a phase: its word, k, and the operands.
    fn phase(&mut self, word: &str, field: &Field) {
        let k = self.scope.index(&field.parts[0]);
        self.operands(&format!("{word}({k}) "), ", ", field);
    }

    fn call(&mut self, field: &Field) {
        let is_index = |part: &&Field| part.tag.is_some_and(tags::is_index);
        let (indexes, operands): (Vec<_>, Vec<_>) = field.parts.iter().partition(is_index);
        let name = match low_by_two(field) {
            Some(number) => format!("##{number}"),
            None => self.scope.called_name(field),
        };
        let sizes = match indexes.is_empty() {
            true => String::new(),
            false => format!("({})", join(indexes, |part| self.scope.index(part))),
        };
        let list = join(operands, |part| self.scope.operand(part));
        self.line(&format!("{name}{sizes}({list});\n"));
    }

    fn counted_loop(&mut self, field: &'a Field) {
        let low = self.scope.index(&field.parts[0]);
        let high = self.scope.index(&field.parts[1]);
        self.scope.enter(field);
        let name = self.scope.variable(self.scope.variables() - 1);
        self.line(&format!("for {name} = {low}..{high}"));
        self.block(&field.parts[2..]);
        self.scope.leave(field);
    }
}

/// The number of a call by two bytes where one byte would hold it; no name stands for that.
fn low_by_two(call: &Field) -> Option<u8> {
    let number = (call.tag == Some(tags::LONG_CALL)).then(|| two_bytes(call))?;
    u8::try_from(number).ok()
}

/// Texts with commas between them.
pub fn join<T>(parts: impl IntoIterator<Item = T>, text: impl Fn(T) -> String) -> String {
    let texts: Vec<_> = parts.into_iter().map(text).collect();
    texts.join(", ")
}
