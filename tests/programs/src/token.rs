//! The words and symbols of the text form, each with its line and column.

use crate::names::clipped;
use std::fmt;
use std::iter::Peekable;
use std::str::Chars;

/// A line and a column, counted from 1; 0 where there is no text.
#[derive(Clone, Copy, Debug, Default, PartialEq, Eq)]
pub struct Spot {
    pub line: u32,
    pub column: u32,
}

/// Why a text cannot be read, and where.
#[derive(Clone, Debug, PartialEq, Eq)]
pub struct TextError {
    pub spot: Spot,
    pub message: String,
}

/// The most characters of a message.
const MOST_MESSAGE: usize = 400;

impl TextError {
    pub fn new(spot: Spot, message: impl Into<String>) -> Self {
        let message = clipped(&message.into(), MOST_MESSAGE);
        TextError { spot, message }
    }
}

impl fmt::Display for TextError {
    fn fmt(&self, out: &mut fmt::Formatter<'_>) -> fmt::Result {
        let Spot { line, column } = self.spot;
        write!(out, "{line}:{column}: {}", self.message)
    }
}

/// One word or symbol.
#[derive(Clone, Debug, PartialEq, Eq)]
pub enum Word {
    Name(String),
    Number(u16),
    Quoted(String),
    Symbol(&'static str),
    End,
}

impl fmt::Display for Word {
    fn fmt(&self, out: &mut fmt::Formatter<'_>) -> fmt::Result {
        match self {
            Word::Name(name) => write!(out, "'{name}'"),
            Word::Number(number) => write!(out, "'{number}'"),
            Word::Quoted(_) => write!(out, "a quoted text"),
            Word::Symbol(symbol) => write!(out, "'{symbol}'"),
            Word::End => write!(out, "the end of the text"),
        }
    }
}

/// A word and where it stands.
#[derive(Clone, Debug)]
pub struct Token {
    pub word: Word,
    pub spot: Spot,
}

/// The symbols, those of two characters first.
const SYMBOLS: [&str; 17] = [
    "==", "->", "..", "(", ")", "{", "}", "[", "]", ",", ";", ":", "=", "+", "-", "*", "#",
];

/// The name that a text starts with, after blanks and comments.
pub fn first_name(text: &str) -> Option<(String, Spot)> {
    let mut reader = Reader::new(text);
    reader.skip_blanks().ok()?;
    let spot = reader.spot;
    let name = reader.take_while(in_name);
    Some((name, spot))
}

/// Splits a text into tokens; the last one is the end.
pub fn tokens(text: &str) -> Result<Vec<Token>, TextError> {
    let mut reader = Reader::new(text);
    let mut found = Vec::new();
    loop {
        reader.skip_blanks()?;
        let spot = reader.spot;
        let word = reader.word()?;
        let last = word == Word::End;
        found.push(Token { word, spot });
        if last {
            return Ok(found);
        }
    }
}

/// The rest of the text and the place it starts at.
struct Reader<'a> {
    rest: Peekable<Chars<'a>>,
    spot: Spot,
}

impl<'a> Reader<'a> {
    /// A reader at the start of a text.
    fn new(text: &'a str) -> Self {
        Reader {
            rest: text.chars().peekable(),
            spot: Spot { line: 1, column: 1 },
        }
    }

    /// Takes one character and moves the place past it.
    fn take(&mut self) -> Option<char> {
        let taken = self.rest.next()?;
        if taken == '\n' {
            self.spot.line += 1;
            self.spot.column = 1;
        } else {
            self.spot.column += 1;
        }
        Some(taken)
    }

    /// Takes characters as long as they fit.
    fn take_while(&mut self, fits: impl Fn(char) -> bool) -> String {
        let mut taken = String::new();
        while self.rest.peek().is_some_and(|c| fits(*c)) {
            taken.extend(self.take());
        }
        taken
    }

    /// Skips blanks and comments.
    fn skip_blanks(&mut self) -> Result<(), TextError> {
        loop {
            self.take_while(char::is_whitespace);
            if self.rest.peek() != Some(&'/') {
                return Ok(());
            }
            let spot = self.spot;
            self.take();
            if self.rest.peek() != Some(&'/') {
                return Err(TextError::new(spot, "a comment starts with '//'"));
            }
            self.take_while(|c| c != '\n');
        }
    }

    /// Reads the word that starts here.
    fn word(&mut self) -> Result<Word, TextError> {
        match self.rest.peek() {
            None => Ok(Word::End),
            Some('"') => self.quoted(),
            Some(c) if c.is_ascii_digit() => self.number(),
            Some(c) if starts_name(*c) => Ok(Word::Name(self.take_while(in_name))),
            Some(_) => self.symbol(),
        }
    }

    /// Reads a number, which two bytes must hold.
    fn number(&mut self) -> Result<Word, TextError> {
        let spot = self.spot;
        let digits = self.take_while(in_name);
        if !digits.bytes().all(|b| b.is_ascii_digit()) {
            let message = format!("'{digits}' is neither a number nor a name");
            return Err(TextError::new(spot, message));
        }
        match digits.parse() {
            Ok(number) => Ok(Word::Number(number)),
            Err(_) => {
                let message = format!("the number {digits} is above 65535");
                Err(TextError::new(spot, message))
            }
        }
    }

    /// Reads a quoted text, which ends on its own line.
    fn quoted(&mut self) -> Result<Word, TextError> {
        let spot = self.spot;
        self.take();
        let content = self.take_while(|c| c != '"' && c != '\n');
        match self.take() {
            Some('"') => Ok(Word::Quoted(content)),
            _ => Err(TextError::new(spot, "this quoted text is not closed")),
        }
    }

    /// Reads a symbol, the longest that fits.
    fn symbol(&mut self) -> Result<Word, TextError> {
        let spot = self.spot;
        let start: String = self.rest.clone().take(2).collect();
        for symbol in SYMBOLS {
            if start.starts_with(symbol) {
                for _ in symbol.chars() {
                    self.take();
                }
                return Ok(Word::Symbol(symbol));
            }
        }
        let message = format!("the character {:?} has no meaning here", first(&start));
        Err(TextError::new(spot, message))
    }
}

/// The first character of a text that has one.
fn first(text: &str) -> char {
    text.chars().next().unwrap_or(' ')
}

/// A name starts with a letter or an underscore.
fn starts_name(c: char) -> bool {
    c.is_ascii_alphabetic() || c == '_'
}

/// A name goes on with letters, digits and underscores.
fn in_name(c: char) -> bool {
    c.is_ascii_alphanumeric() || c == '_'
}
