//! The tokens of OpenQASM 2.0.

use std::fmt;

/// One token.
#[derive(Clone, Copy, Debug, PartialEq, Eq)]
pub enum Token<'t> {
    /// A name or a keyword.
    Word(&'t str),
    Integer(u64),
    Real(&'t str),
    /// What stands between quotation marks.
    Quoted(&'t str),
    /// One of `SIGNS`.
    Sign(&'static str),
    /// The end of the text.
    End,
}

impl fmt::Display for Token<'_> {
    fn fmt(&self, out: &mut fmt::Formatter) -> fmt::Result {
        match self {
            Token::Integer(number) => write!(out, "{number}"),
            Token::Word(text) | Token::Real(text) | Token::Sign(text) => write!(out, "{text}"),
            Token::Quoted(text) => write!(out, "\"{text}\""),
            Token::End => write!(out, "the end"),
        }
    }
}

/// The signs that are read; of those that begin alike, the longer one comes first.
const SIGNS: [&str; 11] = [";", ",", "[", "]", "(", ")", "==", "->", "-", "*", "/"];

/// The tokens that are left of a text.
pub struct Tokens<'t> {
    rest: &'t str,
    /// The line of the token taken last, from 1.
    pub line: usize,
}

impl<'t> Tokens<'t> {
    /// All tokens of a text.
    pub fn of(text: &'t str) -> Tokens<'t> {
        Tokens {
            rest: text,
            line: 1,
        }
    }

    /// Takes one token.
    pub fn take(&mut self) -> Result<Token<'t>, String> {
        self.skip_blanks();
        let Some(first) = self.rest.chars().next() else {
            return Ok(Token::End);
        };
        match first {
            'a'..='z' | 'A'..='Z' | '_' => Ok(Token::Word(self.while_all(in_word))),
            '0'..='9' | '.' => number(self.while_all(in_number)),
            '"' => self.quoted(),
            _ => self.sign(first),
        }
    }

    /// Skips white space and comments, and counts lines.
    fn skip_blanks(&mut self) {
        loop {
            let blanks = self.while_all(|c| c.is_ascii_whitespace());
            self.line += blanks.matches('\n').count();
            if !self.rest.starts_with("//") {
                return;
            }
            self.while_all(|c| c != '\n');
        }
    }

    /// Takes the characters that are of a kind.
    fn while_all(&mut self, kind: impl Fn(char) -> bool) -> &'t str {
        let end = self.rest.find(|c| !kind(c)).unwrap_or(self.rest.len());
        let (taken, rest) = self.rest.split_at(end);
        self.rest = rest;
        taken
    }

    /// Takes what stands between quotation marks on one line.
    fn quoted(&mut self) -> Result<Token<'t>, String> {
        let inside = &self.rest[1..];
        match inside.find(['"', '\n']) {
            Some(end) if inside[end..].starts_with('"') => {
                self.rest = &inside[end + 1..];
                Ok(Token::Quoted(&inside[..end]))
            }
            _ => Err("a quotation mark is not closed".into()),
        }
    }

    /// Takes a sign.
    fn sign(&mut self, first: char) -> Result<Token<'t>, String> {
        let sign = SIGNS.into_iter().find(|sign| self.rest.starts_with(sign));
        let sign = sign.ok_or(format!("{first:?} is no sign that is read here"))?;
        self.rest = &self.rest[sign.len()..];
        Ok(Token::Sign(sign))
    }
}

/// Whether a character may stand in a word.
fn in_word(c: char) -> bool {
    c.is_ascii_alphanumeric() || c == '_'
}

/// Whether a character may stand in a number without an exponent.
fn in_number(c: char) -> bool {
    c.is_ascii_digit() || c == '.'
}

/// A number: digits without a leading zero, or digits around one point.
fn number(text: &str) -> Result<Token<'_>, String> {
    let points = text.matches('.').count();
    match points {
        0 if text == "0" || !text.starts_with('0') => text
            .parse()
            .map(Token::Integer)
            .map_err(|_| format!("{text} is too large")),
        1 if text != "." => Ok(Token::Real(text)),
        _ => Err(format!("{text} is no number")),
    }
}
