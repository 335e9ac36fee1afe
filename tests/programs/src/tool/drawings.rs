//! Drawings of programs, records and lists.

use super::asked::Asked;
use super::input::{read_list, read_records, shown};
use super::{done, note, unreadable, Answer, Done, Options};
use crate::draw::{self, Circuit, Rows};
use crate::explain::locate;
use crate::listing::{end_line, written};
use crate::numbers::meaning;
use crate::operations::Record;
use reference::Outcome;
use std::io::Read;

/// Draws a run or an instance.
pub fn of_program(options: &Options, input: &mut dyn Read) -> Answer<Done> {
    let asked = Asked::read(options, input)?;
    let (outcome, records) = asked.answer(options, reference::run, reference::instance);
    let drawing = match rows(&asked, &outcome) {
        None => String::new(),
        Some(rows) => {
            let twice = wire_twice(&asked, &outcome);
            drawn(options, rows, written(&records, &outcome), twice)?
        }
    };
    Ok(Done {
        content: (drawing + &end_line(&outcome)).into_bytes(),
        note: note(&asked.program, options, &outcome),
    })
}

/// The rows of an answer. A program that is refused has none, but for a wire that is named twice.
fn rows(asked: &Asked, outcome: &Outcome) -> Option<Rows> {
    let fields = &asked.program.fields;
    match outcome.number {
        1..=23 | 31 | 33 | 34 => None,
        35 => {
            let found = locate(fields, usize::try_from(outcome.place).ok()?)?;
            Some(draw::named_twice(found.field(), &found.scope))
        }
        _ => Some(match asked.family {
            None => draw::registers(fields),
            Some(number) => draw::parameters(fields, number, &asked.sizes),
        }),
    }
}

/// The wire that a gate names twice: the one row of a program that is refused for it, or that
/// at which a run has ended.
fn wire_twice(asked: &Asked, outcome: &Outcome) -> Option<u16> {
    match outcome.number {
        35 => Some(0),
        25 => asked.wire_twice(outcome),
        _ => None,
    }
}

/// Draws records as the library writes them.
pub fn of_records(options: &Options, input: &mut dyn Read) -> Answer<Done> {
    let records = read_records(&options.file, input)?;
    let rows = draw::numbered(&records);
    done(drawn(options, rows, records.into_iter(), None)?)
}

/// Draws the lines of a list.
pub fn of_list(options: &Options, input: &mut dyn Read) -> Answer<Done> {
    let (records, number) = read_list(&options.file, input)?;
    let rows = draw::numbered(&records);
    let spoken = || format!("the list ended with {number}: {}", meaning(number));
    Ok(Done {
        content: drawn(options, rows, records.into_iter(), None)?.into_bytes(),
        note: (number != 0).then(|| format!("{}: {}", shown(&options.file), spoken())),
    })
}

/// A drawing, with a mark where a wire is named twice, or why there is none.
fn drawn(
    options: &Options,
    rows: Rows,
    records: impl Iterator<Item = Record>,
    twice: Option<u16>,
) -> Answer<String> {
    let circuit = Circuit::of(rows, records).and_then(|circuit| match twice {
        None => Ok(circuit),
        Some(wire) => circuit.with_wire_twice(wire),
    });
    match circuit {
        Ok(circuit) => Ok(circuit.text(options.width)),
        Err(message) => unreadable(format!("{}: {message}", shown(&options.file))),
    }
}
