//! Text to fields: names get their numbers, nothing is type-checked.
//!
//! Wherever a name stands for a number, `#3` gives the number itself, in scope
//! or not. A call names its family by one byte where that holds the number, and
//! by two where it does not; `##3(..)` is a call by two bytes, whatever the number,
//! and `###3(..)` calls parameter 3. As an operand, `##3` is family 3.
//! `bytes "20 00 00";` puts bytes into a list of statements as they are.

mod declarations;
mod operands;
mod statements;

use crate::field::{Field, DEEPEST};
use crate::foreign;
use crate::names::Names;
use crate::token::{tokens, Spot, TextError, Token, Word};

/// Words that cannot be names.
const TAKEN: [&str; 19] = [
    "family", "gate", "qreg", "creg", "measure", "reset", "if", "h", "t", "tdg", "cx", "phase",
    "cphase", "reverse", "for", "do", "in", "bytes", "Qbit",
];

/// The fields of a text and the names of its families.
pub struct Parsed {
    pub fields: Vec<Field>,
    pub families: Vec<String>,
}

type Answer<T> = Result<T, TextError>;

/// Reads a whole text.
pub fn parse(text: &str) -> Answer<Parsed> {
    foreign::refuse(text)?;
    let mut parser = Parser {
        tokens: tokens(text)?,
        next: 0,
        open: 0,
        families: Names::default(),
        registers: Names::default(),
        parameters: None,
        indexes: Names::default(),
    };
    let mut fields = Vec::new();
    while parser.peek() != &Word::End {
        fields.push(parser.statement()?);
    }
    Ok(Parsed {
        fields,
        families: parser.families.list().to_vec(),
    })
}

/// The tokens, how far they are read, and the names in scope.
struct Parser {
    tokens: Vec<Token>,
    next: usize,
    /// Open blocks and parentheses.
    open: usize,
    families: Names,
    registers: Names,
    /// The parameters, inside a family.
    parameters: Option<Parameters>,
    indexes: Names,
}

/// The parameters of a family.
struct Parameters {
    names: Names,
    /// For each whether it takes a family.
    take_families: Vec<bool>,
}

/// Tokens.
impl Parser {
    fn peek(&self) -> &Word {
        &self.tokens[self.next].word
    }

    fn spot(&self) -> Spot {
        self.tokens[self.next].spot
    }

    /// Takes a token; the end stays.
    fn take(&mut self) -> Token {
        let token = self.tokens[self.next].clone();
        if token.word != Word::End {
            self.next += 1;
        }
        token
    }

    fn at(&self, symbol: &str) -> bool {
        matches!(self.peek(), Word::Symbol(found) if *found == symbol)
    }

    /// Takes a symbol if it is there.
    fn accept(&mut self, symbol: &str) -> bool {
        let there = self.at(symbol);
        if there {
            self.next += 1;
        }
        there
    }

    /// Takes a symbol that must be there.
    fn expect(&mut self, symbol: &str) -> Answer<()> {
        if self.accept(symbol) {
            return Ok(());
        }
        self.wrong(&format!("'{symbol}'"))
    }

    /// Says what is due at the next token.
    fn wrong<T>(&self, due: &str) -> Answer<T> {
        let message = format!("expected {due}, found {}", self.peek());
        Err(TextError::new(self.spot(), message))
    }

    /// Takes a number up to a largest one.
    fn number(&mut self, largest: u16) -> Answer<u16> {
        match *self.peek() {
            Word::Number(number) if number <= largest => {
                self.next += 1;
                Ok(number)
            }
            _ => self.wrong(&format!("a number from 0 to {largest}")),
        }
    }

    /// Takes a number that one byte holds.
    fn byte(&mut self) -> Answer<u8> {
        Ok(self.number(255)?.to_le_bytes()[0])
    }

    /// Reads a name that is not yet among others; the caller passes it.
    fn new_name(&self, what: &str, others: &Names) -> Answer<String> {
        let Word::Name(name) = self.peek().clone() else {
            return self.wrong(&format!("a name for {what}"));
        };
        if TAKEN.contains(&name.as_str()) {
            let message = format!("'{name}' has a meaning of its own and cannot name {what}");
            return Err(TextError::new(self.spot(), message));
        }
        if others.number(&name).is_some() {
            let message = format!("the name '{name}' is already in use here");
            return Err(TextError::new(self.spot(), message));
        }
        Ok(name)
    }

    /// Passes a token that has been looked at.
    fn pass(&mut self) {
        self.next += 1;
    }

    /// Opens a block or parenthesis, and no more than can be followed.
    fn deeper(&mut self) -> Answer<()> {
        self.open += 1;
        if self.open > DEEPEST {
            let message = format!("blocks or parentheses lie deeper than {DEEPEST}");
            return Err(TextError::new(self.spot(), message));
        }
        Ok(())
    }
}

/// The number of a name, or a message that it has none up to a largest one.
fn resolve(name: &str, names: &Names, what: &str, largest: u16, spot: Spot) -> Answer<u16> {
    let Some(number) = names.number(name) else {
        return Err(TextError::new(
            spot,
            format!("no {what} named '{name}' here"),
        ));
    };
    match u16::try_from(number) {
        Ok(number) if number <= largest => Ok(number),
        _ => {
            let message = format!("'{name}' is number {number}, and numbers go up to {largest}");
            Err(TextError::new(spot, message))
        }
    }
}

/// The number of a name, which one byte must hold.
fn resolve_byte(name: &str, names: &Names, what: &str, spot: Spot) -> Answer<u8> {
    Ok(resolve(name, names, what, 255, spot)?.to_le_bytes()[0])
}

/// A count that one byte must hold.
fn count(number: usize, what: &str, spot: Spot) -> Answer<u8> {
    u8::try_from(number).map_err(|_| TextError::new(spot, format!("more than 255 {what}")))
}

/// A field, unless its parts lie too deep in each other.
fn field(tag: u8, head: Vec<u8>, parts: Vec<Field>, spot: Spot) -> Answer<Field> {
    let made = Field::new(tag, head, parts, spot);
    if made.depth > DEEPEST {
        let message = format!("parts lie deeper in each other than {DEEPEST}");
        return Err(TextError::new(spot, message));
    }
    Ok(made)
}
