//! Every promise about a single answer is noticed where it is broken.

use compare::ask::{Answer, Call, Question};
use compare::harness::reference_answer;
use compare::promises;
use generate::build::{at, cphase, literal, phase, program, qreg, Field};
use generate::library;

/// A change to an answer, and how the refusal of what it makes begins.
type Damage = (fn(&mut Answer), &'static str);

/// Tests that the reference's answer about a program holds, and no damaged one.
fn hold(fields: &[Field], text: Option<usize>, table: &[Damage]) {
    let bytes = program(fields);
    let question = Question {
        program: &bytes,
        call: Call::Run,
        limit: 10,
        length: 28,
        text,
    };
    let sound = reference_answer(&question).expect("the reference has every call");
    assert_eq!(promises(&question, &sound), Ok(()));
    for (damage, due) in table {
        let mut answer = sound.clone();
        damage(&mut answer);
        let found = promises(&question, &answer).expect_err(due);
        assert!(found.starts_with(due), "{found}, due is {due}");
    }
}

/// Damage to an answer without text.
const LIST: &[Damage] = &[
    (
        |answer| answer.guarded = false,
        "bytes around output or text",
    ),
    (
        |answer| answer.outcome.records = 3,
        "more records than the output",
    ),
    (
        |answer| answer.outcome.records = 1 << 61,
        "more records than the output",
    ),
    (
        |answer| answer.outcome.steps = 11,
        "more steps than the limit",
    ),
    (|answer| answer.outcome.steps = 1, "more records than steps"),
    (
        |answer| answer.outcome.number = 14,
        "a number that means nothing",
    ),
    (
        |answer| answer.outcome.number = 20,
        "a number that means nothing",
    ),
    (
        |answer| answer.outcome.number = 34,
        "a number that means nothing",
    ),
    (
        |answer| answer.outcome.number = 36,
        "a number that means nothing",
    ),
    (
        |answer| answer.outcome.number = 30,
        "a number that means nothing",
    ),
    (|answer| answer.outcome.place = 5, "a place that cannot be"),
    (|answer| answer.outcome.number = 4, "counts without a run"),
    (|answer| answer.outcome.number = 31, "counts without a run"),
    (|answer| answer.outcome.number = 33, "counts without a run"),
    (|answer| answer.outcome.number = 35, "counts without a run"),
    (
        |answer| answer.outcome.length = 1,
        "more text than there is room",
    ),
    (|answer| answer.output[0] = 11, "a record has bytes"),
    (|answer| answer.output[8] = 1, "a record has bytes"),
    (|answer| answer.output[16] = 0, "a record has bytes"),
    (|answer| answer.output[22] = 1, "a record has bytes"),
    (|answer| answer.output[2] = 2, "a record names a wire"),
    (|answer| answer.output[3] = 1, "a record names a wire"),
    (|answer| answer.output[16] = 2, "a record names a wire"),
    (|answer| answer.output[1] = 1, "a record names a wire"),
    (
        |answer| answer.output[24] ^= 1,
        "output past the last record",
    ),
];

/// Damage to an answer with 80 text bytes, of which 69 are written.
const TEXT: &[Damage] = &[
    (
        |answer| answer.guarded = false,
        "bytes around output or text",
    ),
    (
        |answer| answer.outcome.length = 81,
        "more text than there is room",
    ),
    (|answer| answer.outcome.length = 0, "a wrong length of text"),
    (
        |answer| answer.outcome.number = 30,
        "a wrong length of text",
    ),
    (
        |answer| answer.outcome.number = 27,
        "a wrong length of text",
    ),
    (
        |answer| answer.outcome.number = 32,
        "a wrong length of text",
    ),
    (|answer| refuse(answer, 30, 5), "a place that cannot be"),
    (|answer| refuse(answer, 30, 0), "text past its length"),
    (|answer| refuse(answer, 26, 5), "text past its length"),
    (|answer| answer.text[69] ^= 1, "text past its length"),
    (|answer| answer.outcome.length = 68, "text past its length"),
    (|answer| answer.text[0] = b'o', "line 1: OPENQASM is due"),
    (|answer| answer.text[0] = 0xFF, "the text: invalid utf-8"),
    (|answer| answer.text[47] = b't', "the text is another list"),
    (
        |answer| answer.text[43] = b'3',
        "the text is over other wires",
    ),
    (|answer| answer.text[43] = b'0', "line 3: q has no elements"),
    (
        |answer| answer.text[68] = b' ',
        "the last line is not ended",
    ),
    (|answer| answer.text[54] = b' ', "lines too many or few"),
];

/// Another number and place, without text.
fn refuse(answer: &mut Answer, number: u32, place: u32) {
    answer.outcome.number = number;
    answer.outcome.place = place;
    answer.outcome.length = 0;
}

#[test]
fn broken_promises_about_a_list_are_noticed() {
    hold(&library::bell(), None, LIST);
}

#[test]
fn broken_promises_about_a_text_are_noticed() {
    hold(&library::bell(), Some(80), TEXT);
}

/// A phase by 5 and a cphase by 63.
fn phases() -> Vec<Field> {
    let pair = cphase(literal(63), at(0, 0), at(0, 1));
    vec![qreg(2), phase(literal(5), at(0, 1)), pair]
}

/// Damage to the answer about phases, with their text.
const PHASES: &[Damage] = &[
    (|answer| answer.output[4] = 1, "a record has bytes"),
    (|answer| answer.output[8] = 64, "a record has bytes"),
    (|answer| answer.output[9] = 1, "a record has bytes"),
    (|answer| answer.output[10] = 1, "a record has bytes"),
    (|answer| answer.output[11] = 1, "a record has bytes"),
    (|answer| answer.output[6] = 1, "a record has bytes"),
    (|answer| answer.output[8] = 4, "the text is another list"),
    (|answer| answer.output[0] = 8, "the text is another list"),
    (|answer| answer.output[12] = 10, "the text is another list"),
    (|answer| answer.text[55] = b' ', "the text is another list"),
    (|answer| answer.text[56] = b'3', "Angle"),
];

#[test]
fn broken_promises_about_phases_are_noticed() {
    hold(&phases(), Some(200), PHASES);
}
