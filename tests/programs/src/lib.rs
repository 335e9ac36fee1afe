//! Programs as people write them: an assembler from a readable text form of
//! metaQASM to the byte form and back, listings of records, and the examples.
//!
//! The assembler gives names their numbers and builds fields. It does not
//! type-check: what is refused is the checker's business.

mod decode;
mod draw;
mod encode;
mod examples;
mod explain;
mod field;
mod foreign;
mod form;
mod listing;
mod names;
mod numbers;
mod operations;
mod parse;
mod print;
mod scope;
mod token;
pub mod tool;

pub use decode::ByteError;
pub use encode::Spots;
pub use examples::{examples, Example};
pub use listing::listing;
pub use numbers::{meaning, numbers, version, Number};
pub use operations::MOST_K;
pub use token::{Spot, TextError};

/// A program put into bytes, with what its text said about it.
#[derive(Clone, Debug)]
pub struct Assembled {
    /// The program bytes.
    pub bytes: Vec<u8>,
    /// The names of the families, by number.
    pub families: Vec<String>,
    /// Where in the text each field stands.
    pub spots: Spots,
    /// The fields; without the text's names where bytes are put in as they are.
    pub(crate) fields: Vec<field::Field>,
}

/// Puts a text into bytes.
pub fn assemble(text: &str) -> Result<Assembled, TextError> {
    let parsed = parse::parse(text)?;
    let (bytes, spots) = encode::encode(&parsed.fields)?;
    let fields = match parsed.fields.iter().any(field::Field::has_bare) {
        true => decode::readable(&bytes),
        false => parsed.fields,
    };
    Ok(Assembled {
        bytes,
        families: parsed.families,
        spots,
        fields,
    })
}

/// Puts bytes into a text that assembles to the same bytes.
pub fn disassemble(bytes: &[u8]) -> Result<String, ByteError> {
    let fields = decode::decode(bytes)?;
    Ok(print::print(&fields))
}
