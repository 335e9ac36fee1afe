//! The commands that work on a file, and the words that follow them.

use super::{misuse, Answer};
use std::ffi::OsString;
use std::path::Path;

/// The largest room for records.
const MOST_OUTPUT: usize = 1 << 30;
/// The widths that a drawing can have.
const WIDTHS: std::ops::RangeInclusive<usize> = 40..=10_000;

/// A command that works on a file.
#[derive(Clone, Copy, Debug, PartialEq, Eq)]
pub enum Command {
    Assemble,
    Text,
    Check,
    List,
    Qasm,
    Draw,
}

/// The commands, and for each the options that it takes.
const COMMANDS: [(&str, Command, &[&str]); 6] = [
    ("assemble", Command::Assemble, &["-o"]),
    ("text", Command::Text, &["-o"]),
    ("check", Command::Check, &["-o", "--text", "--bytes"]),
    ("list", Command::List, LISTING),
    ("qasm", Command::Qasm, LISTING),
    ("draw", Command::Draw, DRAWING),
];

const LISTING: &[&str] = &[
    "-o", "--text", "--bytes", "--family", "--sizes", "--limit", "--output",
];

const DRAWING: &[&str] = &[
    "-o",
    "--text",
    "--bytes",
    "--family",
    "--sizes",
    "--limit",
    "--output",
    "--records",
    "--listing",
    "--width",
];

/// The options that stand alone; the others take a value.
const ALONE: [&str; 4] = ["--text", "--bytes", "--records", "--listing"];

impl Command {
    /// The command of a name.
    pub fn named(name: &str) -> Option<Command> {
        let found = COMMANDS.iter().find(|(known, ..)| *known == name);
        found.map(|(_, command, _)| *command)
    }

    /// Whether the command takes an option.
    fn takes(self, option: &str) -> bool {
        let found = COMMANDS.iter().find(|(_, command, _)| *command == self);
        found.is_some_and(|(.., options)| options.contains(&option))
    }
}

/// What a file holds.
#[derive(Clone, Copy, Debug, PartialEq, Eq)]
pub enum Holds {
    Text,
    Bytes,
    /// Records, as the library writes them.
    Records,
    /// The lines of a list.
    Listing,
}

/// A size, with the name of its variable where one is given.
pub type Size = (Option<String>, u32);

/// What a command works on and how.
#[derive(Clone, Debug)]
pub struct Options {
    pub file: OsString,
    pub holds: Holds,
    pub family: Option<String>,
    pub sizes: Vec<Size>,
    pub limit: u64,
    pub output: usize,
    pub width: usize,
    /// The file to write to; none for standard output.
    pub to: Option<OsString>,
}

/// Reads the words after a command.
pub fn options(words: &[OsString], command: Command) -> Answer<Options> {
    let mut found = Options {
        file: OsString::new(),
        holds: Holds::Text,
        family: None,
        sizes: Vec::new(),
        limit: 1_000_000,
        output: 65_536,
        width: 100,
        to: None,
    };
    let mut files = Vec::new();
    let mut holds = None;
    let mut rest = words.iter();
    while let Some(word) = rest.next() {
        if !is_option(word) {
            files.push(word.clone());
            continue;
        }
        let (name, attached) = split(&word.to_string_lossy());
        if !command.takes(&name) {
            return misuse(format!("no option '{name}' here"));
        }
        if ALONE.contains(&name.as_str()) {
            holds = Some(alone(&name, attached)?);
            continue;
        }
        let Some(value) = attached.or_else(|| rest.next().cloned()) else {
            return misuse(format!("{name} needs a value"));
        };
        set(&mut found, &name, value)?;
    }
    found.file = single_file(&files)?;
    found.holds = holds.unwrap_or(by_name(&found.file));
    consistent(found)
}

/// Options that make sense together.
fn consistent(found: Options) -> Answer<Options> {
    if found.family.is_none() && !found.sizes.is_empty() {
        return misuse("--sizes needs --family");
    }
    let listed = matches!(found.holds, Holds::Records | Holds::Listing);
    if listed && found.family.is_some() {
        return misuse("--family chooses from a program, and not from a list");
    }
    Ok(found)
}

/// Whether a word is an option and not a file.
fn is_option(word: &OsString) -> bool {
    let text = word.to_string_lossy();
    text.starts_with('-') && text != "-"
}

/// The name of an option and the value that is attached to it, as in `--limit=7` or `-oFILE`.
fn split(word: &str) -> (String, Option<OsString>) {
    if let Some(value) = word.strip_prefix("-o").filter(|value| !value.is_empty()) {
        let value = value.strip_prefix('=').unwrap_or(value);
        return ("-o".to_string(), Some(value.into()));
    }
    match word.split_once('=') {
        Some((name, value)) => (name.to_string(), Some(value.into())),
        None => (word.to_string(), None),
    }
}

/// What a file holds by an option that stands alone.
fn alone(name: &str, attached: Option<OsString>) -> Answer<Holds> {
    if attached.is_some() {
        return misuse(format!("{name} takes no value"));
    }
    Ok(match name {
        "--text" => Holds::Text,
        "--bytes" => Holds::Bytes,
        "--records" => Holds::Records,
        _ => Holds::Listing,
    })
}

/// What a file holds by its name.
fn by_name(file: &OsString) -> Holds {
    match Path::new(file).extension() {
        Some(ending) if ending == "bytes" => Holds::Bytes,
        _ => Holds::Text,
    }
}

/// The one file of a command.
fn single_file(files: &[OsString]) -> Answer<OsString> {
    match files {
        [file] => Ok(file.clone()),
        [] => misuse("no file given"),
        _ => misuse("more than one file given"),
    }
}

/// Sets one option that takes a value.
fn set(options: &mut Options, name: &str, value: OsString) -> Answer<()> {
    let text = value.to_string_lossy();
    match name {
        "-o" if value.is_empty() => return misuse("-o needs a file"),
        "-o" => options.to = Some(value).filter(|file| file != "-"),
        "--family" => options.family = Some(text.to_string()),
        "--sizes" => options.sizes = sizes(&text)?,
        "--limit" => options.limit = number(name, &text)?,
        "--output" => options.output = room(&text)?,
        _ => options.width = number(name, &text)?,
    }
    if !WIDTHS.contains(&options.width) {
        let (least, most) = WIDTHS.into_inner();
        return misuse(format!("--width goes from {least} to {most}"));
    }
    Ok(())
}

/// The room for records in bytes.
fn room(text: &str) -> Answer<usize> {
    if !text.starts_with(|first: char| first.is_ascii_digit() || first == '-') {
        let message = format!("'{text}' is not a number that --output takes");
        return misuse(format!("{message} (-o names the file to write)"));
    }
    match number("--output", text)? {
        room if room <= MOST_OUTPUT => Ok(room),
        _ => misuse(format!("--output goes up to {MOST_OUTPUT}")),
    }
}

/// Sizes such as `3,4` or `n=3,m=4`.
fn sizes(text: &str) -> Answer<Vec<Size>> {
    let parts = text.split(',').filter(|part| !part.is_empty());
    let size = |part: &str| match part.split_once('=') {
        Some((name, value)) => Ok((Some(name.trim().to_string()), number("--sizes", value)?)),
        None => Ok((None, number("--sizes", part)?)),
    };
    parts.map(size).collect()
}

/// A number given to an option.
fn number<T: std::str::FromStr>(name: &str, text: &str) -> Answer<T> {
    let message = format!("'{text}' is not a number that {name} takes");
    text.trim().parse().or_else(|_| misuse(message))
}
