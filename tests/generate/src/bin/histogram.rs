//! Prints how often each answer occurs among generated cases.
//!
//! Use: `histogram [FIRST_SEED [COUNT]]`.

use generate::histogram::Histogram;
use std::io::Write;
use std::process::ExitCode;

/// Reads one argument as a number, or takes what stands in for it.
fn number(argument: Option<&String>, otherwise: u64) -> Result<u64, String> {
    match argument {
        None => Ok(otherwise),
        Some(text) => text
            .parse()
            .map_err(|_| format!("not a number of 64 bits: {text:?}")),
    }
}

/// Writes one line to standard output.
fn say(line: &str) -> Result<(), String> {
    writeln!(std::io::stdout(), "{line}").map_err(|error| format!("standard output: {error}"))
}

/// Prints the table of a range of seeds and says whether it is complete.
fn print(first: u64, count: u64) -> Result<(), String> {
    let last = first
        .checked_add(count)
        .ok_or("the last seed is past 64 bits")?;
    let histogram = Histogram::of(first..last);
    say("number    check instance      run")?;
    for (number, [check, instance, run]) in &histogram.counts {
        say(&format!("{number:6} {check:8} {instance:8} {run:8}"))?;
    }
    let ops: Vec<String> = histogram.ops.iter().map(by_op).collect();
    say(&format!("records by op: {}", ops.join(", ")))?;
    println!(
        "{} cases, {} accepted, {} with records, {} records, {} in the longest list",
        histogram.cases, histogram.accepted, histogram.listed, histogram.records, histogram.longest,
    );
    println!(
        "{} accepted with slices, {} with records through slices",
        histogram.sliced, histogram.through_slices,
    );
    println!(
        "{} accepted with calls of parameters, {} with records through them",
        histogram.passing, histogram.through_passed,
    );
    let (numbers, ops) = (histogram.missing(), histogram.missing_ops());
    match numbers.is_empty() && ops.is_empty() {
        true => Ok(()),
        false => Err(format!(
            "these numbers did not occur: {numbers:?}, and these ops: {ops:?}"
        )),
    }
}

/// An op and how many records have it.
fn by_op((op, count): (&u8, &u64)) -> String {
    format!("{count} of {op}")
}

/// Reads the arguments and prints.
fn tell() -> Result<(), String> {
    let arguments: Vec<String> = std::env::args_os()
        .skip(1)
        .map(|argument| argument.to_string_lossy().into_owned())
        .collect();
    if arguments.len() > 2 {
        return Err("use: histogram [FIRST_SEED [COUNT]]".into());
    }
    let first = number(arguments.first(), 0)?;
    print(first, number(arguments.get(1), 20_000)?)
}

fn main() -> ExitCode {
    match tell() {
        Ok(()) => ExitCode::SUCCESS,
        Err(message) => {
            eprintln!("histogram: {message}");
            ExitCode::FAILURE
        }
    }
}
