//! Statements of the text form: gates, calls, loops and what stands at the top.

use super::{field, resolve, resolve_byte, Answer, Parser};
use crate::field::{tags, Field};
use crate::token::{Spot, TextError, Word};

/// The tag and own bytes of a call: by one byte where that holds the family's number.
fn shortest_call(number: u16) -> (u8, Vec<u8>) {
    match u8::try_from(number) {
        Ok(byte) => (tags::CALL, vec![byte]),
        Err(_) => long_call(number),
    }
}

/// The tag and own bytes of a call by two bytes.
fn long_call(number: u16) -> (u8, Vec<u8>) {
    (tags::LONG_CALL, number.to_le_bytes().to_vec())
}

/// The tag and own bytes of a call of a parameter.
fn parameter_call(number: u8) -> (u8, Vec<u8>) {
    (tags::PARAMETER_CALL, vec![number])
}

/// Statements.
impl Parser {
    /// One declaration or statement.
    pub(super) fn statement(&mut self) -> Answer<Field> {
        let start = self.take();
        let spot = start.spot;
        let Word::Name(name) = &start.word else {
            if start.word == Word::Symbol("#") {
                return self.numbered_call(spot);
            }
            let message = format!("expected a statement, found {}", start.word);
            return Err(TextError::new(spot, message));
        };
        match name.as_str() {
            "family" => self.family(spot, true),
            "gate" => self.family(spot, false),
            "qreg" => self.register(tags::QREG, spot),
            "creg" => self.register(tags::CREG, spot),
            "measure" => self.measure(spot),
            "reset" => self.gate(tags::RESET, 1, spot),
            "if" => self.condition(spot),
            "h" => self.gate(tags::H, 1, spot),
            "t" => self.gate(tags::T, 1, spot),
            "tdg" => self.gate(tags::TDG, 1, spot),
            "cx" => self.gate(tags::CX, 2, spot),
            "phase" => self.phase(tags::PHASE, 1, spot),
            "cphase" => self.phase(tags::CPHASE, 2, spot),
            "reverse" => {
                let parts = self.block()?;
                field(tags::REVERSE, vec![], parts, spot)
            }
            "for" => self.counted_loop(spot),
            "bytes" => self.bare_bytes(spot),
            _ => {
                let start = self.named_call(name, spot)?;
                self.call(start, spot)
            }
        }
    }

    /// Statements between braces.
    pub(super) fn block(&mut self) -> Answer<Vec<Field>> {
        let start = self.spot();
        self.expect("{")?;
        self.deeper()?;
        let mut parts = Vec::new();
        while !self.accept("}") {
            if self.peek() == &Word::End {
                return Err(TextError::new(start, "this '{' is not closed"));
            }
            parts.push(self.statement()?);
        }
        self.open -= 1;
        Ok(parts)
    }

    /// The semicolon after a statement; it may be missing before a brace.
    pub(super) fn end_of_statement(&mut self) -> Answer<()> {
        if self.at("}") {
            return Ok(());
        }
        self.expect(";")
    }

    /// `cx q[0], q[1];`: a gate and its operands.
    fn gate(&mut self, tag: u8, operands: usize, spot: Spot) -> Answer<Field> {
        let parts = self.gate_operands(operands)?;
        field(tag, vec![], parts, spot)
    }

    /// `cphase(j - i) q[j], q[i];`: k, then the operands of a gate.
    fn phase(&mut self, tag: u8, operands: usize, spot: Spot) -> Answer<Field> {
        if !self.accept("(") {
            return self.wrong("'(' (k stands before the operands, as phase(3) q[0])");
        }
        let mut parts = vec![self.index()?];
        self.expect(")")?;
        parts.extend(self.gate_operands(operands)?);
        field(tag, vec![], parts, spot)
    }

    /// The operands of a gate, with or without parentheses, and the end of the statement.
    fn gate_operands(&mut self, count: usize) -> Answer<Vec<Field>> {
        let closed = self.accept("(");
        let mut parts = Vec::new();
        for number in 0..count {
            self.comma(number)?;
            parts.push(self.operand()?);
        }
        if closed {
            self.expect(")")?;
        }
        self.end_of_statement()?;
        Ok(parts)
    }

    /// `measure q[0] -> c[1];`.
    fn measure(&mut self, spot: Spot) -> Answer<Field> {
        let wire = self.operand()?;
        self.expect("->")?;
        let bit = self.operand()?;
        self.end_of_statement()?;
        field(tags::MEASURE, vec![], vec![wire, bit], spot)
    }

    /// `if (c[0] == 1) { .. }`.
    fn condition(&mut self, spot: Spot) -> Answer<Field> {
        self.expect("(")?;
        let mut parts = vec![self.operand()?];
        self.expect("==")?;
        let value = self.byte()?;
        self.expect(")")?;
        parts.extend(self.block()?);
        field(tags::IF, vec![value], parts, spot)
    }

    /// `for i = 1..n { .. }`; the bounds do not see the loop's variable.
    fn counted_loop(&mut self, spot: Spot) -> Answer<Field> {
        let name = self.new_name("an index variable", &self.indexes)?;
        self.pass();
        self.expect("=")?;
        let low = self.index()?;
        self.expect("..")?;
        let high = self.index()?;
        if self.peek() == &Word::Name("do".to_string()) {
            self.pass();
        }
        self.indexes.add(name.clone());
        let mut parts = vec![low, high];
        parts.extend(self.block()?);
        self.indexes.pop();
        Ok(field(tags::FOR, vec![], parts, spot)?.named(vec![name]))
    }

    /// The start of a call by name: of a parameter that takes a family, or of a family.
    fn named_call(&self, name: &str, spot: Spot) -> Answer<(u8, Vec<u8>)> {
        if let Some(parameters) = &self.parameters {
            let number = parameters.names.number(name);
            if number.is_some_and(|number| parameters.take_families[number]) {
                let number = resolve_byte(name, &parameters.names, "parameter", spot)?;
                return Ok(parameter_call(number));
            }
        }
        let what = "statement or family";
        let number = resolve(name, &self.families, what, u16::MAX, spot)?;
        Ok(shortest_call(number))
    }

    /// `#3(x);`, or `##3(x);` for a call by two bytes, whatever the number, or `###3(x);` for a
    /// call of parameter 3, whatever it is.
    fn numbered_call(&mut self, spot: Spot) -> Answer<Field> {
        let start = match (self.accept("#"), self.accept("#")) {
            (true, true) => parameter_call(self.byte()?),
            (true, false) => long_call(self.number(u16::MAX)?),
            _ => shortest_call(self.number(u16::MAX)?),
        };
        self.call(start, spot)
    }

    /// `f(n - 1)(x, y[0]);`, or `f(x, y[0]);` without indexes.
    fn call(&mut self, (tag, head): (u8, Vec<u8>), spot: Spot) -> Answer<Field> {
        let mut parts = Vec::new();
        if self.two_groups() {
            self.expect("(")?;
            while !self.accept(")") {
                self.comma(parts.len())?;
                parts.push(self.index()?);
            }
        }
        let before = parts.len();
        self.expect("(")?;
        while !self.accept(")") {
            self.comma(parts.len() - before)?;
            parts.push(self.call_operand(before == 0)?);
        }
        self.end_of_statement()?;
        field(tag, head, parts, spot)
    }

    /// An operand of a call; a number in its place may be a size without operands.
    fn call_operand(&mut self, first: bool) -> Answer<Field> {
        if first && matches!(self.peek(), Word::Number(_)) {
            return self.wrong("an operand (sizes stand before the operands, as f(3)(q))");
        }
        self.operand()
    }

    /// Whether the parenthesis that starts here is followed by another one.
    fn two_groups(&self) -> bool {
        let mut open = 0;
        for (number, token) in self.tokens.iter().enumerate().skip(self.next) {
            match token.word {
                Word::Symbol("(") => open += 1,
                Word::Symbol(")") => open -= 1,
                Word::Symbol(";" | "{" | "}") => return false,
                _ => {}
            }
            if open <= 0 {
                let after = self.tokens.get(number + 1);
                return after.is_some_and(|token| token.word == Word::Symbol("("));
            }
        }
        false
    }

    /// `bytes "20 00 00";`.
    fn bare_bytes(&mut self, spot: Spot) -> Answer<Field> {
        let start = self.spot();
        let Word::Quoted(text) = self.peek().clone() else {
            return self.wrong("bytes in hexadecimal between quotes");
        };
        self.pass();
        let mut bytes = Vec::new();
        for pair in text.split_whitespace() {
            let digits = pair.len() == 2 && pair.bytes().all(|b| b.is_ascii_hexdigit());
            match u8::from_str_radix(pair, 16) {
                Ok(byte) if digits => bytes.push(byte),
                _ => {
                    let message = format!("'{pair}' is not a byte of two hexadecimal digits");
                    return Err(TextError::new(start, message));
                }
            }
        }
        self.end_of_statement()?;
        Ok(Field::bare(bytes, spot))
    }
}
