//! Promises that hold of every answer by itself.

use crate::ask::{untouched, Answer, Call, Question};
use crate::openqasm;
use reference::{TextOutcome, RECORD_BYTES};

/// Tests what holds of every answer, whoever gives it.
pub fn promises(question: &Question, answer: &Answer) -> Result<(), String> {
    let outcome = &answer.outcome;
    let fits = written(RECORD_BYTES, outcome.records, &answer.output).is_some();
    let printed = written(1, outcome.length, &answer.text).is_some();
    let rules = [
        (answer.guarded, "bytes around output or text were changed"),
        (fits, "more records than the output holds"),
        (printed, "more text than there is room for"),
        (outcome.steps <= question.limit, "more steps than the limit"),
        (outcome.records <= outcome.steps, "more records than steps"),
        (known(question, outcome), "a number that means nothing"),
        (place_fits(question, outcome), "a place that cannot be"),
        (counts_fit(question, outcome), "counts without a run"),
        (length_fits(question, outcome), "a wrong length of text"),
    ];
    match first_broken(&rules) {
        Some(message) => Err(format!("{message}: {outcome:?}")),
        None => bytes_hold(question, answer),
    }
}

/// Tests what holds of the bytes of output and text.
fn bytes_hold(question: &Question, answer: &Answer) -> Result<(), String> {
    let outcome = &answer.outcome;
    let length = RECORD_BYTES * outcome.records as usize;
    let (records, rest) = answer.output.split_at(length);
    if !records.chunks_exact(RECORD_BYTES).all(sound_record) {
        return Err("a record has bytes that no record can have".into());
    }
    if question.call == Call::Run && !all_declared(question.program, records) {
        return Err("a record names a wire or bit that is not declared".into());
    }
    if !untouched(answer.output.len()).ends_with(rest) {
        return Err("output past the last record was changed".into());
    }
    let (text, rest) = answer.text.split_at(outcome.length as usize);
    if !untouched(answer.text.len()).ends_with(rest) {
        return Err("text past its length was changed".into());
    }
    match outcome.length {
        0 => Ok(()),
        _ => read_back(question, text, records),
    }
}

/// Tests that a text, read as OpenQASM 2.0, is the list that was written, over
/// the wires and bits laid out, with a line for each part.
fn read_back(question: &Question, text: &[u8], records: &[u8]) -> Result<(), String> {
    let text = std::str::from_utf8(text).map_err(|error| format!("the text: {error}"))?;
    let list = openqasm::list(&openqasm::read(text)?)?;
    let laid_out = match question.call {
        Call::Run => (list.wires, list.bits) == declared(question.program),
        _ => list.bits == 0,
    };
    let operations = (list.records.len() / RECORD_BYTES) as u64;
    let lines = 2 + u64::from(list.wires > 0) + list.bits + operations;
    let rules = [
        (list.records == records, "the text is another list"),
        (laid_out, "the text is over other wires or bits"),
        (text.ends_with('\n'), "the last line is not ended"),
        (
            text.lines().count() as u64 == lines,
            "lines too many or few",
        ),
    ];
    first_broken(&rules).map_or(Ok(()), |message| Err(message.into()))
}

/// The message of the first rule that does not hold.
fn first_broken<'m>(rules: &[(bool, &'m str)]) -> Option<&'m str> {
    let broken = rules.iter().find(|(holds, _)| !holds);
    broken.map(|(_, message)| *message)
}

/// The qubits and bits that an accepted program declares.
fn declared(program: &[u8]) -> (u64, u64) {
    let (mut qubits, mut bits) = (0, 0);
    let mut rest = program;
    while let [tag, low, high, after @ ..] = rest {
        let length = u16::from_le_bytes([*low, *high]);
        let (content, next) = after.split_at(length.into());
        match (tag, content) {
            (2, &[low, high]) => qubits += u64::from(u16::from_le_bytes([low, high])),
            (3, &[low, high]) => bits += u64::from(u16::from_le_bytes([low, high])),
            _ => {}
        }
        rest = next;
    }
    (qubits, bits)
}

/// Whether the records of a run name wires and bits of its program's registers only.
fn all_declared(program: &[u8], records: &[u8]) -> bool {
    if records.is_empty() {
        return true;
    }
    let (qubits, bits) = declared(program);
    let within = |record: &[u8]| {
        let number = |place| u64::from(u16::from_le_bytes([record[place], record[place + 1]]));
        let second = match record[0] {
            4 | 9 | 10 => number(4) < qubits,
            5 => number(4) < bits,
            _ => true,
        };
        number(2) < qubits && second && (record[1] == 0 || number(6) < bits)
    };
    records.chunks_exact(RECORD_BYTES).all(within)
}

/// The bytes of so many records or characters at the beginning of a buffer, if it holds them.
fn written(each: usize, count: u64, buffer: &[u8]) -> Option<&[u8]> {
    buffer.get(..each.checked_mul(usize::try_from(count).ok()?)?)
}

/// Whether a number is one of those that have a meaning for the call.
fn known(question: &Question, outcome: &TextOutcome) -> bool {
    match outcome.number {
        0..=13 | 31 | 33 | 35 => true,
        20..=23 | 34 => matches!(question.call, Call::Instance { .. }),
        24..=27 | 32 => question.call != Call::Check,
        30 => prints(question),
        _ => false,
    }
}

/// Whether a place stands in the program, and is 0 where it is about nothing there.
fn place_fits(question: &Question, outcome: &TextOutcome) -> bool {
    match outcome.number {
        0 | 1 | 20..=22 | 30 | 34 => outcome.place == 0,
        _ => (outcome.place as usize) < question.program.len(),
    }
}

/// Whether an answer given before the first step has no counts.
fn counts_fit(question: &Question, outcome: &TextOutcome) -> bool {
    let ran = question.call != Call::Check && matches!(outcome.number, 0 | 24..=27 | 30 | 32);
    ran || (outcome.records == 0 && outcome.steps == 0)
}

/// Whether there is a text exactly where a call prints and comes to its end.
fn length_fits(question: &Question, outcome: &TextOutcome) -> bool {
    (outcome.length > 0) == (prints(question) && outcome.number == 0)
}

/// Whether a call prints what it lists.
fn prints(question: &Question) -> bool {
    question.call != Call::Check && question.text.is_some()
}

/// Whether the bytes of a record can be one.
fn sound_record(record: &[u8]) -> bool {
    let number = |place| u16::from_le_bytes([record[place], record[place + 1]]);
    let [first, second, bit] = [number(2), number(4), number(6)];
    let [k, last] = [number(8), number(10)];
    let [op, condition] = [record[0], record[1]];
    let pair = matches!(op, 4 | 5 | 9 | 10);
    let phase = (7..=10).contains(&op);
    (1..=10).contains(&op)
        && condition <= 2
        && (pair || second == 0)
        && (first != second || !pair || op == 5)
        && (condition != 0 || bit == 0)
        && (condition == 0 || !matches!(op, 5 | 6))
        && (phase || k == 0)
        && k <= 63
        && last == 0
}
