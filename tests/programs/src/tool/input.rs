//! Reading files and standard input, never more than a program can need.

use super::options::Holds;
use super::{unreadable, Answer, Options};
use crate::decode::readable;
use crate::field::Field;
use crate::listing::read_listing;
use crate::operations::Record;
use crate::scope::Scope;
use crate::{assemble, Assembled, Spots};
use reference::RECORD_BYTES;
use std::ffi::OsString;
use std::fs::File;
use std::io::{self, Read};

/// The most bytes that a program may have.
pub const MOST_BYTES: usize = 65_535;
/// The most bytes of text that are read: 32 for each byte of a program.
pub const MOST_TEXT: usize = 32 * (MOST_BYTES + 1);
/// The most records that are read to be drawn.
const MOST_RECORDS: usize = 65_536;

/// A program to check, list or draw, with what is known of its text.
#[derive(Debug)]
pub struct Loaded {
    pub bytes: Vec<u8>,
    pub(crate) fields: Vec<Field>,
    pub(crate) families: Vec<String>,
    pub(crate) spots: Spots,
}

/// A file's name for messages.
pub fn shown(file: &OsString) -> String {
    match file.to_string_lossy().as_ref() {
        "-" => "standard input".to_string(),
        name => name.to_string(),
    }
}

/// Reads a file or standard input, and at most one byte past a limit.
fn read(file: &OsString, most: usize, input: &mut dyn Read) -> Answer<Vec<u8>> {
    let mut bytes = Vec::new();
    let result = match file.to_string_lossy().as_ref() {
        "-" => take(input, most, &mut bytes),
        _ => File::open(file).and_then(|mut file| take(&mut file, most, &mut bytes)),
    };
    match result {
        Ok(_) => Ok(bytes),
        Err(error) => unreadable(format!("cannot read {}: {error}", shown(file))),
    }
}

/// Reads at most one byte past a limit.
fn take(input: &mut dyn Read, most: usize, bytes: &mut Vec<u8>) -> io::Result<usize> {
    input.take(most as u64 + 1).read_to_end(bytes)
}

/// Says that a file is too long to be read to its end.
fn too_long<T>(file: &OsString, most: usize, what: &str) -> Answer<T> {
    let file = shown(file);
    unreadable(format!(
        "{file}: longer than {most} bytes, which is past what {what}; reading stopped there"
    ))
}

/// Reads program bytes; one byte past the limit shows that there are too many.
pub fn read_bytes(file: &OsString, input: &mut dyn Read) -> Answer<Vec<u8>> {
    read(file, MOST_BYTES, input)
}

/// Reads records as the library writes them.
pub fn read_records(file: &OsString, input: &mut dyn Read) -> Answer<Vec<Record>> {
    let most = MOST_RECORDS * RECORD_BYTES;
    let bytes = read(file, most, input)?;
    if bytes.len() > most {
        return too_long(file, most, "can be drawn");
    }
    let (whole, rest) = bytes.as_chunks::<RECORD_BYTES>();
    let file = shown(file);
    if !rest.is_empty() {
        let length = bytes.len();
        return unreadable(format!(
            "{file}: {length} bytes are not records of {RECORD_BYTES} bytes each"
        ));
    }
    let records: Vec<Record> = whole.iter().map(Record::of).collect();
    let mut pairs = records.iter().zip(whole);
    if let Some(number) = pairs.position(|(record, bytes)| !record.ends_well(bytes)) {
        let end = &whole[number][8..];
        return unreadable(format!(
            "{file}: record {number} is none of a list, as its last bytes are {end:?}; \
             a record has {RECORD_BYTES} bytes, and had 8 before version 1.3"
        ));
    }
    Ok(records)
}

/// Reads a text.
fn read_text(file: &OsString, input: &mut dyn Read) -> Answer<String> {
    let bytes = read(file, MOST_TEXT, input)?;
    if bytes.len() > MOST_TEXT {
        return too_long(file, MOST_TEXT, "the text of a program needs");
    }
    String::from_utf8(bytes).or_else(|error| {
        let place = error.utf8_error().valid_up_to();
        unreadable(format!("{}: no text at byte {place}", shown(file)))
    })
}

/// Assembles a file, with its name in the message.
pub fn assemble_file(file: &OsString, input: &mut dyn Read) -> Answer<Assembled> {
    let text = read_text(file, input)?;
    assemble(&text).or_else(|error| unreadable(format!("{}:{error}", shown(file))))
}

/// Reads the lines of a list: its records and the number that it ended with.
pub fn read_list(file: &OsString, input: &mut dyn Read) -> Answer<(Vec<Record>, u32)> {
    let text = read_text(file, input)?;
    read_listing(&text).or_else(|error| unreadable(format!("{}: {error}", shown(file))))
}

/// A hint for a text that was read as bytes.
pub fn looks_like_text(bytes: &[u8]) -> &'static str {
    let plain = |byte: &u8| matches!(byte, b'\t' | b'\r' | b'\n' | b' '..=b'~');
    match bytes.len() > 3 && bytes.iter().all(plain) {
        true => "; this looks like text, which 'mqasm check' and 'mqasm assemble' read",
        false => "",
    }
}

/// Loads a program from bytes or text.
pub fn load(options: &Options, input: &mut dyn Read) -> Answer<Loaded> {
    if options.holds == Holds::Bytes {
        let bytes = read_bytes(&options.file, input)?;
        let fields = readable(&bytes);
        return Ok(Loaded {
            families: invented_families(&fields),
            spots: Spots::default(),
            bytes,
            fields,
        });
    }
    let Assembled {
        bytes,
        families,
        spots,
        fields,
    } = assemble_file(&options.file, input)?;
    Ok(Loaded {
        bytes,
        fields,
        families,
        spots,
    })
}

/// The names that the text of bytes would give to their families.
fn invented_families(fields: &[Field]) -> Vec<String> {
    let mut scope = Scope::default();
    fields.iter().for_each(|field| scope.declare(field));
    (0..scope.families.len())
        .map(|number| scope.family(number))
        .collect()
}

impl Loaded {
    /// The number of the family to list, if one is named.
    pub fn family(&self, options: &Options) -> Answer<Option<u32>> {
        let Some(name) = &options.family else {
            return Ok(None);
        };
        let known = self.families.iter().position(|family| family == name);
        match (known.map(u32::try_from), name.parse()) {
            (Some(Ok(number)), _) | (None, Ok(number)) => Ok(Some(number)),
            _ => {
                let message = format!("no family '{name}' in {}", shown(&options.file));
                unreadable(format!("{message}{}", self.known_families()))
            }
        }
    }

    /// The families that there are, for a message.
    pub(crate) fn known_families(&self) -> String {
        match self.families.len() {
            0 => "; it declares none".to_string(),
            count if count > 12 => format!("; it declares {count} families"),
            _ => format!("; it declares {}", self.families.join(", ")),
        }
    }
}
