//! The slow programs are what they are meant to be, by the reference: full, accepted, and with
//! as many showings as they are meant to have; those of trials by the last of them only.

use compare::slow;
use generate::build::{program, Field};
use generate::forms::Showing;
use reference::{FormNumbers, ShowingOutcome, FORM_NUMBERS};

/// The form 0.
const ZERO: FormNumbers = [0; FORM_NUMBERS];

/// One form plus a number times another.
fn plus(one: &FormNumbers, factor: i64, other: &FormNumbers) -> FormNumbers {
    let mut sum = *one;
    for (mine, theirs) in sum.iter_mut().zip(other) {
        *mine += factor * theirs;
    }
    sum
}

/// The form of a number.
fn constant(number: i64) -> FormNumbers {
    let mut form = ZERO;
    form[0] = number;
    form
}

/// The form of an index field, whose products have a number on the left.
fn form(index: &Field) -> FormNumbers {
    let side = |place: usize| form(&index.parts[place]);
    match (index.tag, index.head.as_slice()) {
        (64, &[low, high]) => constant(u16::from_le_bytes([low, high]).into()),
        (65, &[variable]) => {
            let mut form = ZERO;
            form[1 + usize::from(variable)] = 1;
            form
        }
        (66, _) => plus(&side(0), 1, &side(1)),
        (67, _) => plus(&side(0), -1, &side(1)),
        (68, _) => plus(&ZERO, side(0)[0], &side(1)),
        other => panic!("no index: {other:?}"),
    }
}

/// The loops around the first statement that is none, and that statement.
fn innermost(body: &Field) -> (Vec<[FormNumbers; 2]>, &Field) {
    let mut loops = Vec::new();
    let mut field = body;
    while field.tag == 38 {
        loops.push([form(&field.parts[0]), form(&field.parts[1])]);
        field = &field.parts[2];
    }
    (loops, field)
}

/// What is shown of an operand of a register: an element or a slice for one wire.
fn shown(operand: &Field, size: &FormNumbers) -> Vec<FormNumbers> {
    let first = form(&operand.parts[0]);
    let last = form(operand.parts.last().unwrap_or(operand));
    let room = plus(&plus(size, -1, &last), -1, &constant(1));
    match operand.tag {
        49 => vec![first, room],
        _ => {
            let distance = plus(&last, -1, &first);
            vec![first, room, plus(&distance, 1, &constant(1)), distance]
        }
    }
}

/// The answers to all showings of the first statement inside the loops of a program's last
/// family, whose register is its only parameter.
fn answers(fields: &[Field]) -> Vec<ShowingOutcome> {
    let family = &fields[1];
    let size = form(&family.parts[0].parts[0]);
    let (loops, statement) = innermost(&family.parts[1]);
    let operands = statement.parts.iter();
    let forms = operands.flat_map(|operand| shown(operand, &size));
    forms
        .map(|form| Showing {
            form,
            variables: 4,
            loops: loops.len() as u32,
            lows: loops.iter().map(|bounds| bounds[0]).collect(),
            highs: loops.iter().map(|bounds| bounds[1]).collect(),
        })
        .map(|asked| asked.answer())
        .collect()
}

/// Tests that a program is full and accepted.
fn hold_full(fields: &[Field]) {
    let bytes = program(fields);
    assert!((65_400..=65_535).contains(&bytes.len()), "{}", bytes.len());
    assert_eq!(reference::check(&bytes).number, 0);
}

/// Tests that a program is full and accepted, with so many showings in each statement, all by
/// the eighth trial, and through all loops by the plain rule.
fn hold(fields: &[Field], showings: usize) {
    hold_full(fields);
    let answers = answers(fields);
    assert_eq!(answers.len(), showings);
    for answer in answers {
        assert_eq!((answer.number, answer.trials), (0, 8), "{answer:?}");
        assert_eq!(answer.through, 8, "{answer:?}");
    }
}

#[test]
fn every_gate_takes_all_trials() {
    hold(&slow::tried_check(), 2);
}

#[test]
fn every_slice_takes_all_trials() {
    hold(&slow::tried_slices(), 32);
}

/// The forms of the sizes of eight types, all of which are registers.
fn eight_forms(types: &[Field]) -> Vec<FormNumbers> {
    assert!(types.len() == 8 && types.iter().all(|one| one.tag == 17));
    types.iter().map(|one| form(&one.parts[0])).collect()
}

#[test]
fn every_parameter_is_a_family_of_eight_sizes() {
    let fields = slow::typed_check();
    hold_full(&fields);
    let [most @ .., last] = &fields[..] else {
        panic!("no families");
    };
    assert!(most.iter().all(|family| family.parts.len() == 8));
    assert!((1..8).contains(&last.parts.len()), "{}", last.parts.len());
    for formal in fields.iter().flat_map(|family| &family.parts) {
        assert_eq!(formal.tag, 18);
        eight_forms(&formal.parts);
    }
}

#[test]
fn every_pass_shows_eight_differences_in_all_numbers() {
    let fields = slow::passed_check();
    hold_full(&fields);
    let own = eight_forms(&fields[0].parts);
    assert_eq!(fields[1].parts.len(), 8);
    for formal in &fields[1].parts {
        for (given, asked) in eight_forms(&formal.parts).iter().zip(&own) {
            let spare = plus(given, -1, asked);
            assert!(spare[..5].iter().all(|&number| number > 0), "{spare:?}");
        }
    }
    for call in &fields[2..] {
        assert_eq!(call.head, [1]);
        assert!(call.parts.len() == 8 && call.parts.iter().all(|one| one.tag == 51));
    }
    assert!(fields.len() > 1_300, "{}", fields.len());
}

/// The statements inside the loops of a program's only family.
fn statements(fields: &[Field]) -> &[Field] {
    let mut inside = &fields[0].parts[1..];
    while let [Field { tag: 38, parts, .. }] = inside {
        inside = &parts[2..];
    }
    inside
}

#[test]
fn every_two_wires_differ_in_the_last_coefficient_or_in_the_constant() {
    let fields = slow::paired_check();
    hold_full(&fields);
    let gates = statements(&fields);
    assert!(gates.len() > 3_000, "{}", gates.len());
    for (place, gate) in gates.iter().enumerate() {
        let [first, second] = &gate.parts[..] else {
            panic!("no gate on two wires: {gate:?}");
        };
        assert_eq!((gate.tag, &first.head), (35, &second.head));
        let [one, other] = [first, second].map(|wire| form(&wire.parts[0]));
        let differs = |number: &usize| one[*number] != other[*number];
        let numbers: Vec<usize> = (0..FORM_NUMBERS).filter(differs).collect();
        assert_eq!(numbers, [[FORM_NUMBERS - 1], [0]][place % 2]);
    }
}

#[test]
fn parameters_are_called_as_families_are() {
    let [called, other] = [slow::parameter_check(), slow::called_check()];
    hold_full(&called);
    let call = |fields: &[Field]| innermost(fields[1].parts.last().expect("a body")).1.clone();
    let [one, two] = [call(&called), call(&other)];
    assert_eq!((one.tag, two.tag), (42, 36));
    assert_eq!(one.parts, two.parts);
    assert_eq!(called[1].parts[1].parts, called[0].parts);
}
