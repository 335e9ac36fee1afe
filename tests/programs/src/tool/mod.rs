//! The `mqasm` tool: assemble, write as text, check, list, write as OpenQASM
//! and draw programs.

mod asked;
mod drawings;
mod help;
mod input;
mod options;
mod output;
mod sizes;

pub use help::USAGE;
pub use input::{load, Loaded};
pub use options::{options, Command, Options};
pub(crate) use sizes::{example as size_example, family_field, size_names};
pub use sizes::{in_order as sizes_in_order, size_bytes};

use crate::explain::explain;
use crate::names::clipped;
use crate::numbers::{meaning, version};
use crate::{disassemble, listing, Assembled};
use asked::Asked;
use input::{assemble_file, read_bytes, shown};
use options::Holds;
use reference::Outcome;
use std::ffi::OsString;
use std::io::{Read, Write};

/// The most characters that are said of what to mend.
const MOST_DETAILS: usize = 400;

/// Why the tool stops: exit code and message.
pub struct Stop {
    pub code: u8,
    pub message: String,
}

type Answer<T> = Result<T, Stop>;

/// Where the tool reads and writes.
pub struct Streams<'a> {
    pub input: &'a mut dyn Read,
    pub output: &'a mut dyn Write,
    pub messages: &'a mut dyn Write,
}

/// A command that is not one of the tool's.
fn misuse<T>(message: impl Into<String>) -> Answer<T> {
    let message = format!("{}; 'mqasm help' shows the commands", message.into());
    Err(Stop { code: 2, message })
}

/// Input that cannot be used.
fn unreadable<T>(message: impl Into<String>) -> Answer<T> {
    let message = message.into();
    Err(Stop { code: 1, message })
}

/// What a command has to write, and why its number is not 0.
struct Done {
    content: Vec<u8>,
    note: Option<String>,
}

/// Content without a note.
fn done(content: impl Into<Vec<u8>>) -> Answer<Done> {
    Ok(Done {
        content: content.into(),
        note: None,
    })
}

/// Runs one command and gives the exit code.
pub fn run(words: &[OsString], streams: &mut Streams) -> u8 {
    match command(words, streams) {
        Ok(None) => 0,
        Ok(Some(note)) => {
            let _ = writeln!(streams.messages, "mqasm: {note}");
            1
        }
        Err(stop) => {
            if !stop.message.is_empty() {
                let _ = writeln!(streams.messages, "mqasm: {}", stop.message);
            }
            stop.code
        }
    }
}

/// Runs one command; a note says why the number is not 0.
fn command(words: &[OsString], streams: &mut Streams) -> Answer<Option<String>> {
    let Some((name, rest)) = words.split_first() else {
        return misuse("no command");
    };
    let name = name.to_string_lossy();
    let text = match name.as_ref() {
        "help" | "--help" | "-h" => help::about(rest)?.to_string(),
        "version" | "--version" | "-V" => format!("mqasm {}\n", version()),
        other => return named_command(other, rest, streams),
    };
    output::write(&None, text.as_bytes(), streams.output)?;
    Ok(None)
}

/// Runs a command that works on a file.
fn named_command(name: &str, words: &[OsString], streams: &mut Streams) -> Answer<Option<String>> {
    let Some(command) = Command::named(name) else {
        return misuse(format!("no command '{name}'"));
    };
    if words.iter().any(|word| word == "--help" || word == "-h") {
        output::write(&None, help::of(command).as_bytes(), streams.output)?;
        return Ok(None);
    }
    let options = options(words, command)?;
    output::refuse_overwriting(&options)?;
    let done = work(command, &options, streams.input)?;
    output::write(&options.to, &done.content, streams.output)?;
    Ok(done.note)
}

/// What a command makes of its file.
fn work(command: Command, options: &Options, input: &mut dyn Read) -> Answer<Done> {
    match command {
        Command::Assemble => {
            let Assembled { bytes, .. } = assemble_file(&options.file, input)?;
            done(bytes)
        }
        Command::Text => text(options, input),
        Command::Check => {
            let program = load(options, input)?;
            let outcome = reference::check(&program.bytes);
            Ok(Done {
                content: listing(&[], &outcome).into_bytes(),
                note: note(&program, options, &outcome),
            })
        }
        Command::List => list(options, input),
        Command::Qasm => qasm(options, input),
        Command::Draw => match options.holds {
            Holds::Records => drawings::of_records(options, input),
            Holds::Listing => drawings::of_list(options, input),
            _ => drawings::of_program(options, input),
        },
    }
}

/// Writes program bytes as text.
fn text(options: &Options, input: &mut dyn Read) -> Answer<Done> {
    let bytes = read_bytes(&options.file, input)?;
    let file = shown(&options.file);
    if bytes.len() > input::MOST_BYTES {
        return unreadable(format!("{file}: {}; reading stopped there", meaning(1)));
    }
    match disassemble(&bytes) {
        Ok(text) => done(text),
        Err(error) => unreadable(format!("{file}: {error}{}", input::looks_like_text(&bytes))),
    }
}

/// Lists a run or an instance: its records and the result.
fn list(options: &Options, input: &mut dyn Read) -> Answer<Done> {
    let asked = Asked::read(options, input)?;
    let (outcome, records) = asked.answer(options, reference::run, reference::instance);
    Ok(Done {
        content: listing(&records, &outcome).into_bytes(),
        note: note(&asked.program, options, &outcome),
    })
}

/// Writes a complete list as OpenQASM; for any other, only the message is written.
fn qasm(options: &Options, input: &mut dyn Read) -> Answer<Done> {
    let asked = Asked::read(options, input)?;
    let ((outcome, text), _) = asked.answer(options, reference::run_qasm, reference::instance_qasm);
    match note(&asked.program, options, &outcome) {
        None => done(text),
        Some(note) => unreadable(note),
    }
}

/// Why a number is not 0, with the place in the text where it is known.
fn note(program: &Loaded, options: &Options, outcome: &Outcome) -> Option<String> {
    let number = outcome.number;
    if number == 0 {
        return None;
    }
    let file = shown(&options.file);
    let place = usize::try_from(outcome.place).unwrap_or(usize::MAX);
    let placed = !matches!(number, 1 | 20..=22 | 34);
    let spot = program.spots.of(place).filter(|_| placed);
    let spoken = format!("{number}: {}", meaning(number));
    let mut said = match spot {
        Some(spot) => format!("{file}:{}:{}: {spoken}", spot.line, spot.column),
        None if placed => format!("{file}: byte {place}: {spoken}"),
        None => format!("{file}: {spoken}"),
    };
    if let Some(details) = explain(program, options, outcome) {
        said.push_str(&format!("\n  {}", clipped(&details, MOST_DETAILS)));
    }
    Some(said)
}
