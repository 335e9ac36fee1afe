//! Compares the library with the reference and says how much was compared.
//!
//! Use: `compare [FIRST_SEED [COUNT]]`. It holds both to the recorded answers
//! and asks them about a range of generated programs, as many about families as
//! arguments, as many about one wire twice and as many showings of forms, and for
//! every hundredth seed about two libraries of many families. It fails where an
//! archive lacks a call.

use compare::recorded::{recorded, showings};
use compare::{library, showing, Tally};
use generate::random::Random;
use generate::targeted::{passing, twice};
use generate::{forms, libraries, Case};
use std::io::Write;
use std::process::ExitCode;

/// One seed in so many makes libraries too: they take longer.
const LIBRARY_SEEDS: usize = 100;

/// Reads one argument as a number, or takes what stands in for it.
fn number(argument: Option<&String>, otherwise: u64) -> Result<u64, String> {
    match argument {
        None => Ok(otherwise),
        Some(text) => text
            .parse()
            .map_err(|_| format!("not a number of 64 bits: {text:?}")),
    }
}

/// The first seed and the one after the last.
fn seeds() -> Result<(u64, u64), String> {
    let arguments: Vec<String> = std::env::args_os()
        .skip(1)
        .map(|argument| argument.to_string_lossy().into_owned())
        .collect();
    if arguments.len() > 2 {
        return Err("use: compare [FIRST_SEED [COUNT]]".into());
    }
    let first = number(arguments.first(), 0)?;
    let count = number(arguments.get(1), 20_000)?;
    match first.checked_add(count) {
        Some(last) => Ok((first, last)),
        None => Err("the last seed is past 64 bits".into()),
    }
}

/// Writes one line to standard output.
fn say(line: &str) -> Result<(), String> {
    writeln!(std::io::stdout(), "{line}").map_err(|error| format!("standard output: {error}"))
}

/// Compares what some seeds make and says how much there was.
fn compare_made<T>(
    what: &str,
    made: fn(u64) -> T,
    compared: fn(&mut Tally, &T) -> Result<(), String>,
    seeds: impl Iterator<Item = u64>,
) -> Result<(), String> {
    let mut tally = Tally::default();
    let mut count = 0;
    for seed in seeds {
        let compared = compared(&mut tally, &made(seed));
        compared.map_err(|message| format!("{what}, seed {seed}: {message}"))?;
        count += 1;
    }
    say(&format!("{count} {what}: {}", tally.line()))
}

/// Holds both to the recorded answers and says how many there were.
fn compare_recorded() -> Result<(), String> {
    let mut tally = Tally::default();
    let (rows, showings) = (recorded(), showings::rows());
    tally.recorded(&rows)?;
    tally.recorded_showings(&showings)?;
    let count = rows.len() + showings.len();
    say(&format!("{count} recorded answers: {}", tally.line()))
}

/// A program about families as arguments.
fn passing_case(seed: u64) -> Case {
    passing::case(&mut Random::new(seed))
}

/// A program about one wire twice.
fn twice_case(seed: u64) -> Case {
    twice::case(&mut Random::new(seed))
}

/// Compares everything and prints what was counted.
fn compare_all() -> Result<(), String> {
    let (first, last) = seeds()?;
    if !library::missing().is_empty() {
        return Err(library::status());
    }
    if !showing::THERE {
        return Err(showing::MISSING.into());
    }
    say(&library::status())?;
    compare_recorded()?;
    let all = || first..last;
    let some = || all().step_by(LIBRARY_SEEDS);
    compare_made("generated programs", generate::case, Tally::case, all())?;
    compare_made("that pass families", passing_case, Tally::case, all())?;
    compare_made("of one wire twice", twice_case, Tally::case, all())?;
    compare_made("generated showings", forms::showing, Tally::showing, all())?;
    compare_made("libraries", libraries::sound, Tally::case, some())?;
    compare_made("damaged libraries", libraries::damaged, Tally::case, some())
}

fn main() -> ExitCode {
    match compare_all() {
        Ok(()) => ExitCode::SUCCESS,
        Err(message) => {
            eprintln!("compare: {message}");
            ExitCode::FAILURE
        }
    }
}
