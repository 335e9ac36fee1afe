//! The numbers that a call answers, each with its plain sentence, and the
//! version. Both come from the files that C programs include, so that mqasm
//! says what the library says.

use std::sync::OnceLock;

const NUMBERS: &str = include_str!("../../../include/metaqasm_numbers.def");
const HEADER: &str = include_str!("../../../include/metaqasm.h");

/// One number that a call answers.
#[derive(Clone, Copy, Debug, PartialEq, Eq)]
pub struct Number {
    pub value: u32,
    pub name: &'static str,
    pub message: &'static str,
}

/// Every number that a call answers.
pub fn numbers() -> &'static [Number] {
    static READ: OnceLock<Vec<Number>> = OnceLock::new();
    READ.get_or_init(|| NUMBERS.lines().filter_map(entry).collect())
}

/// Reads a line such as `METAQASM_NUMBER(1, TOO_LONG, "the program ..")`.
fn entry(line: &'static str) -> Option<Number> {
    let inner = line.trim().strip_prefix("METAQASM_NUMBER(")?;
    let (value, rest) = inner.strip_suffix(')')?.split_once(',')?;
    let (name, quoted) = rest.split_once(',')?;
    Some(Number {
        value: value.trim().parse().ok()?,
        name: name.trim(),
        message: quoted.trim().strip_prefix('"')?.strip_suffix('"')?,
    })
}

/// What a result's number says, in plain words.
pub fn meaning(number: u32) -> &'static str {
    let found = numbers().iter().find(|known| known.value == number);
    found.map_or("a number without a meaning", |known| known.message)
}

/// The library's version, as the header defines it.
pub fn version() -> &'static str {
    let defined = |line: &'static str| {
        let rest = line.trim().strip_prefix("#define METAQASM_VERSION ")?;
        rest.split('"').nth(1)
    };
    HEADER.lines().find_map(defined).unwrap_or("unknown")
}
