//! Records and results as lines for people.

use crate::names::clipped;
use crate::operations::{Record, OPERATIONS};
use reference::{Outcome, RECORD_BYTES};
use std::fmt::Write;

/// One line for each record, then the line of the result.
pub fn listing(output: &[u8], outcome: &Outcome) -> String {
    let mut text = String::new();
    for record in written(output, outcome) {
        text.push_str(&line(&record));
        text.push('\n');
    }
    text.push_str(&end_line(outcome));
    text
}

/// The records that a run wrote.
pub fn written<'a>(output: &'a [u8], outcome: &Outcome) -> impl Iterator<Item = Record> + 'a {
    let records = usize::try_from(outcome.records).unwrap_or(usize::MAX);
    let (whole, _) = output.as_chunks::<RECORD_BYTES>();
    whole.iter().take(records).map(Record::of)
}

/// The line of the result.
pub fn end_line(outcome: &Outcome) -> String {
    let Outcome {
        number,
        place,
        records,
        steps,
    } = outcome;
    format!("end {number} {place} {records} {steps}\n")
}

/// The line of one record.
pub fn line(record: &Record) -> String {
    let mut text = String::new();
    if let Some((bit, value)) = record.condition {
        let _ = write!(text, "if {bit} {value} ");
    }
    let Some(operation) = record.operation() else {
        let _ = write!(text, "unknown {}", record.code);
        return text;
    };
    text.push_str(operation.word);
    if operation.has_k {
        let _ = write!(text, " {}", record.k);
    }
    for number in record.numbers.iter().take(operation.marks.len()) {
        let _ = write!(text, " {number}");
    }
    text
}

/// The records of a list's lines, and the number of its last line.
pub fn read_listing(text: &str) -> Result<(Vec<Record>, u32), String> {
    let mut records = Vec::new();
    for (number, line) in text.lines().enumerate() {
        let words: Vec<&str> = line.split_whitespace().collect();
        let comment = words.first().is_none_or(|word| word.starts_with("//"));
        if let ["end", ended, ..] = words[..] {
            let ended = ended.parse().map_err(|_| no_line(number, line))?;
            return Ok((records, ended));
        }
        if !comment {
            records.push(record(&words).ok_or_else(|| no_line(number, line))?);
        }
    }
    Err("there is no line 'end ..', so the list may be cut off".to_string())
}

/// Says that a line is none of a list.
fn no_line(number: usize, line: &str) -> String {
    let start = clipped(line, 40);
    let start = start.escape_debug();
    format!("line {}: '{start}' is no line of a list", number + 1)
}

/// The record of a line's words.
fn record(words: &[&str]) -> Option<Record> {
    let (condition, words) = match words {
        ["if", bit, value, rest @ ..] => {
            let value = value.parse().ok().filter(|value| *value < 2)?;
            (Some((bit.parse().ok()?, value)), rest)
        }
        _ => (None, words),
    };
    let (word, rest) = words.split_first()?;
    let operation = OPERATIONS.iter().find(|known| known.word == *word)?;
    let (k, numbers) = match operation.has_k {
        true => {
            let (k, numbers) = rest.split_first()?;
            (k.parse().ok().filter(|k| operation.takes(*k))?, numbers)
        }
        false => (0, rest),
    };
    let mut record = Record {
        code: operation.code,
        condition,
        numbers: [0; 2],
        k,
    };
    if numbers.len() != operation.marks.len() {
        return None;
    }
    for (slot, number) in record.numbers.iter_mut().zip(numbers) {
        *slot = number.parse().ok()?;
    }
    Some(record)
}
