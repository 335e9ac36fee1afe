//! Asking the reference or the library, with guarded output and text.

use crate::library;
use reference::TextOutcome;

/// Bytes before and after a lent buffer that no call may change.
const GUARD: usize = 32;
const BEFORE: [u8; GUARD] = [0xC3; GUARD];
const AFTER: [u8; GUARD] = [0x3C; GUARD];

/// Who is asked.
#[derive(Clone, Copy, Debug, PartialEq, Eq)]
pub enum Who {
    Reference,
    Library,
}

/// Which call is made.
#[derive(Clone, Copy, Debug, PartialEq, Eq)]
pub enum Call<'a> {
    Check,
    Instance { family: u32, sizes: &'a [u8] },
    Run,
}

/// A call with all that it is given.
#[derive(Clone, Copy, Debug)]
pub struct Question<'a> {
    pub program: &'a [u8],
    pub call: Call<'a>,
    pub limit: u64,
    /// The number of output bytes.
    pub length: usize,
    /// The number of text bytes of an instance or run that prints; none for one that only lists.
    pub text: Option<usize>,
}

/// A result, the output bytes and the text bytes, those that were not written too.
#[derive(Clone, Debug, PartialEq, Eq)]
pub struct Answer {
    /// A call that prints nothing has length 0.
    pub outcome: TextOutcome,
    pub output: Vec<u8>,
    pub text: Vec<u8>,
    /// Whether the bytes around output and text stayed as they were.
    pub guarded: bool,
}

/// So many bytes as they stand before a call.
pub fn untouched(length: usize) -> Vec<u8> {
    // The bytes repeat after a prime number of them, so that no two records
    // near each other stand on the same ones.
    let once: Vec<u8> = (0..251u8)
        .map(|place| place.wrapping_mul(151) ^ 0xA5)
        .collect();
    let mut bytes = once.repeat(length / once.len() + 1);
    bytes.truncate(length);
    bytes
}

/// A buffer that is lent to a call, between guard bytes.
struct Lent(Vec<u8>);

impl Lent {
    /// So many bytes to lend.
    fn new(length: usize) -> Lent {
        Lent([&BEFORE[..], &untouched(length), &AFTER].concat())
    }

    /// The bytes that the call is given.
    fn bytes(&mut self) -> &mut [u8] {
        let end = self.0.len() - GUARD;
        &mut self.0[GUARD..end]
    }

    /// Whether the guard bytes stayed as they were.
    fn guarded(&self) -> bool {
        self.0.starts_with(&BEFORE) && self.0.ends_with(&AFTER)
    }

    /// The bytes as the call left them.
    fn back(mut self) -> Vec<u8> {
        self.0.truncate(self.0.len() - GUARD);
        self.0.split_off(GUARD)
    }
}

/// Asks; none where the library lacks the call.
pub fn ask(who: Who, question: &Question) -> Option<Answer> {
    let (length, text) = match question.call {
        Call::Check => (0, 0),
        _ => (question.length, question.text.unwrap_or(0)),
    };
    let (mut output, mut text) = (Lent::new(length), Lent::new(text));
    let outcome = match who {
        Who::Reference => Some(ask_reference(question, output.bytes(), text.bytes())),
        Who::Library => ask_library(question, output.bytes(), text.bytes()),
    }?;
    Some(Answer {
        outcome,
        guarded: output.guarded() && text.guarded(),
        output: output.back(),
        text: text.back(),
    })
}

/// Calls the reference.
pub fn ask_reference(question: &Question, output: &mut [u8], text: &mut [u8]) -> TextOutcome {
    let (program, limit) = (question.program, question.limit);
    match (question.call, question.text) {
        (Call::Check, _) => reference::check(program).into(),
        (Call::Instance { family, sizes }, None) => {
            reference::instance(program, family, sizes, limit, output).into()
        }
        (Call::Instance { family, sizes }, Some(_)) => {
            reference::instance_text(program, family, sizes, limit, output, text)
        }
        (Call::Run, None) => reference::run(program, limit, output).into(),
        (Call::Run, Some(_)) => reference::run_text(program, limit, output, text),
    }
}

/// Calls the library; none where it lacks the call.
pub fn ask_library(question: &Question, output: &mut [u8], text: &mut [u8]) -> Option<TextOutcome> {
    let (program, limit) = (question.program, question.limit);
    match (question.call, question.text) {
        (Call::Check, _) => library::check(program).map(TextOutcome::from),
        (Call::Instance { family, sizes }, None) => {
            library::instance(program, family, sizes, limit, output).map(TextOutcome::from)
        }
        (Call::Instance { family, sizes }, Some(_)) => {
            library::instance_text(program, family, sizes, limit, output, text)
        }
        (Call::Run, None) => library::run(program, limit, output).map(TextOutcome::from),
        (Call::Run, Some(_)) => library::run_text(program, limit, output, text),
    }
}
