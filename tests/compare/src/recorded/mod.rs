//! Recorded answers: programs as bytes, with results worked out by hand.

mod examples;
mod families;
mod limits;
mod passing;
mod phases;
mod ranges;
mod refusals;
pub mod showings;
mod slices;
mod states;
mod texts;
mod twice;

use crate::ask::{ask, untouched, Answer, Call, Question, Who};
use reference::{Outcome, TextOutcome};

/// The step limit of rows that are not about it.
const LIMIT: u64 = 1_000_000;
/// The output bytes, and the text bytes, of rows that are not about them.
const LENGTH: usize = 65_536;

/// A call that owns its sizes.
enum Made {
    Check,
    Instance { family: u32, sizes: Vec<u8> },
    Run,
}

/// A question and the answer that is due.
pub struct Recorded {
    pub name: String,
    program: Vec<u8>,
    call: Made,
    limit: u64,
    length: usize,
    expected: Outcome,
    /// The records that are due, twelve bytes for each.
    records: Vec<u8>,
    /// The text bytes of a row that prints, and the text that is due.
    text: Option<(usize, String)>,
}

/// All recorded answers.
pub fn recorded() -> Vec<Recorded> {
    let mut rows = examples::rows();
    rows.extend(refusals::rows());
    rows.extend(limits::rows());
    rows.extend(families::rows());
    rows.extend(phases::rows());
    rows.extend(slices::rows());
    rows.extend(ranges::rows());
    rows.extend(passing::rows());
    rows.extend(twice::rows());
    rows.extend(states::rows());
    rows.extend(texts::rows());
    rows
}

impl Recorded {
    /// A check that gives a number and a place.
    fn check(name: &str, program: Vec<u8>, number: u32, place: u32) -> Recorded {
        Recorded {
            name: name.into(),
            program,
            call: Made::Check,
            limit: LIMIT,
            length: LENGTH,
            expected: outcome([number, place, 0, 0]),
            records: Vec::new(),
            text: None,
        }
    }

    /// A whole run that gives number, place, records and steps.
    fn run(name: &str, program: Vec<u8>, expected: [u32; 4], records: &str) -> Recorded {
        Recorded {
            call: Made::Run,
            expected: outcome(expected),
            records: bytes(records),
            ..Recorded::check(name, program, 0, 0)
        }
    }

    /// An instance that gives number, place, records and steps.
    fn instance(
        name: &str,
        program: Vec<u8>,
        (family, sizes): (u32, &str),
        expected: [u32; 4],
        records: &str,
    ) -> Recorded {
        let sizes = bytes(sizes);
        Recorded {
            call: Made::Instance { family, sizes },
            ..Recorded::run(name, program, expected, records)
        }
    }

    /// The same with a step limit.
    fn limit(self, limit: u64) -> Recorded {
        Recorded { limit, ..self }
    }

    /// The same with so many output bytes.
    fn into_bytes(self, length: usize) -> Recorded {
        Recorded { length, ..self }
    }

    /// The same printed, with the text that is due.
    fn printed(self, text: &str) -> Recorded {
        let text = Some((LENGTH, text.into()));
        Recorded { text, ..self }
    }

    /// The same with so many text bytes.
    fn text_bytes(self, room: usize) -> Recorded {
        let text = self.text.map(|(_, text)| (room, text));
        Recorded { text, ..self }
    }

    /// The number that is due.
    pub fn number(&self) -> u32 {
        self.expected.number
    }

    /// Whether the row is about a call that prints.
    pub fn prints(&self) -> bool {
        self.text.is_some()
    }

    /// The question as it is asked.
    pub fn question(&self) -> Question<'_> {
        Question {
            program: &self.program,
            call: match &self.call {
                Made::Check => Call::Check,
                Made::Instance { family, sizes } => Call::Instance {
                    family: *family,
                    sizes,
                },
                Made::Run => Call::Run,
            },
            limit: self.limit,
            length: self.length,
            text: self.text.as_ref().map(|(room, _)| *room),
        }
    }

    /// The answer that is due.
    fn due(&self) -> Result<Answer, String> {
        let length = match self.call {
            Made::Check => 0,
            _ => self.length,
        };
        let (room, text) = match &self.text {
            None => (0, ""),
            Some((room, text)) => (*room, text.as_str()),
        };
        Ok(Answer {
            outcome: TextOutcome {
                length: text.len() as u64,
                ..self.expected.into()
            },
            output: begun_with(&self.records, length)?,
            text: begun_with(text.as_bytes(), room)?,
            guarded: true,
        })
    }

    /// Holds someone to the answer; no where the library lacks the call.
    pub fn hold(&self, who: Who) -> Result<bool, String> {
        let Some(answer) = ask(who, &self.question()) else {
            return Ok(false);
        };
        let told = |message: &str| format!("{}: {who:?} {message}", self.name);
        let due = self.due().map_err(|message| told(&message))?;
        if answer.outcome != due.outcome {
            let (found, due) = (answer.outcome, due.outcome);
            return Err(told(&format!("answers {found:?}, due is {due:?}")));
        }
        let rules = [
            (answer.output == due.output, "writes other records"),
            (answer.text == due.text, "writes another text"),
            (answer.guarded, "writes past its output or text"),
        ];
        match rules.into_iter().find(|(holds, _)| !holds) {
            Some((_, message)) => Err(told(message)),
            None => Ok(true),
        }
    }
}

/// So many bytes as they stand before a call, but for those that are written.
fn begun_with(written: &[u8], length: usize) -> Result<Vec<u8>, String> {
    let mut bytes = untouched(length);
    let room = bytes.get_mut(..written.len());
    room.ok_or("has no room for what its row is due")?
        .copy_from_slice(written);
    Ok(bytes)
}

/// A result from its four numbers.
fn outcome([number, place, records, steps]: [u32; 4]) -> Outcome {
    Outcome {
        number,
        place,
        records: records.into(),
        steps: steps.into(),
    }
}

/// Bytes from hexadecimal words.
fn bytes(text: &str) -> Vec<u8> {
    let byte = |word| u8::from_str_radix(word, 16);
    text.split_whitespace()
        .map(|word| byte(word).expect("the recorded answers are written in hexadecimal"))
        .collect()
}

/// One string of bytes after the other.
fn joined(parts: &[&[u8]]) -> Vec<u8> {
    parts.concat()
}

/// A field around content.
fn field(tag: u8, content: &[u8]) -> Vec<u8> {
    let length = (content.len() as u16).to_le_bytes();
    joined(&[&[tag], &length, content])
}

/// Content inside so many fields of one tag, with bytes before it in each.
fn nested(tag: u8, times: usize, before: &[u8], content: &[u8]) -> Vec<u8> {
    (0..times).fold(content.to_vec(), |inner, _| {
        field(tag, &joined(&[before, &inner]))
    })
}
