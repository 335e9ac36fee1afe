//! Texts that are long, or have every number in them.

use compare::harness::{reference_answer, whole_text};
use compare::header;
use compare::{compared, Call, Question, Tally};
use generate::build::{family, literal, program, qbits, qreg, Field};
use generate::{library, texts};
use reference::{TextOutcome, RECORD_BYTES};

compared!(all_bits_declared, has_run_text, most_bits);
compared!(all_qubits_and_bits, has_run_text, most_locations);
compared!(all_wires_of_an_instance, has_instance_text, most_wires);
compared!(a_million_records, has_run_text, a_million);
compared!(every_gate_on_every_wire, has_run_text, every_wire);
compared!(every_wire_measured_and_reset, has_run_text, wires_measured);
compared!(every_bit_measured_and_tested, has_run_text, every_bit);
compared!(long_lists, has_run_text, long_lists_printed);
compared!(every_k_of_phases, has_run_text, every_k);
compared!(the_longest_lines, has_run_text, longest_lines);
compared!(the_adder_at_8000_bits, has_instance_text, large_adder);

/// A question about the run of a program that writes so many records.
fn run(program: &[u8], records: usize) -> Question<'_> {
    Question {
        program,
        call: Call::Run,
        limit: u64::MAX,
        length: RECORD_BYTES * records,
        text: None,
    }
}

/// Compares the texts of a question around its length, which has to be as given.
fn long(tally: &mut Tally, question: &Question, length: usize) -> Result<(), String> {
    let text = whole_text(question);
    if text.len() != length {
        return Err(format!("{} bytes of text, due are {length}", text.len()));
    }
    tally.texts(question)
}

/// Compares one text with just enough room, which the run has to fill.
fn filled(tally: &mut Tally, fields: &[Field], records: usize) -> Result<(), String> {
    let program = program(fields);
    let listing = run(&program, records);
    let length = whole_text(&listing).len();
    let question = Question {
        text: Some(length),
        ..listing
    };
    tally.question(&question)?;
    match reference_answer(&question)?.outcome {
        TextOutcome {
            number: 0,
            records: found,
            ..
        } if found == records as u64 => Ok(()),
        other => Err(format!("{other:?}, due are {records} records")),
    }
}

/// How many characters the numbers below one have together.
fn digits_below(number: usize) -> usize {
    let at_least = |least: usize| number.saturating_sub(least);
    number + at_least(10) + at_least(100) + at_least(1_000) + at_least(10_000)
}

/// The bytes of a text that declares all bits and nothing else.
fn most_bits_text() -> usize {
    // The first two lines have 36; `creg cK[1];` and its line feed have 11 without K.
    36 + 65_535 * 11 + digits_below(65_535)
}

/// All bits, without a qubit or a record.
fn most_bits(tally: &mut Tally) -> Result<(), String> {
    let program = program(&texts::most_bits());
    long(tally, &run(&program, 0), most_bits_text())
}

/// All qubits and all bits, and one gate.
fn most_locations(tally: &mut Tally) -> Result<(), String> {
    let program = program(&texts::most_locations());
    // `qreg q[65535];` and `h q[65534];` come to it, each with its line feed.
    long(tally, &run(&program, 1), most_bits_text() + 15 + 12)
}

/// An instance with all wires, in a program that declares others.
fn most_wires(tally: &mut Tally) -> Result<(), String> {
    let wide = family(0, vec![qbits(literal(65_535))], vec![]);
    let program = program(&[wide, qreg(3)]);
    let question = Question {
        call: Call::Instance {
            family: 0,
            sizes: &[],
        },
        ..run(&program, 0)
    };
    long(tally, &question, 36 + 15)
}

/// A million records: a quarter of each gate.
fn a_million(tally: &mut Tally) -> Result<(), String> {
    let program = program(&texts::a_million());
    // `h q[0];`, `t q[0];`, `tdg q[0];` and `cx q[0],q[1];`, each with its line feed.
    let lines = 250_000 * (8 + 8 + 10 + 14);
    long(tally, &run(&program, 1_000_000), 36 + 12 + lines)
}

/// Every gate on every wire.
fn every_wire(tally: &mut Tally) -> Result<(), String> {
    filled(tally, &texts::every_wire(), 3 * 65_535 + 2 * 65_534)
}

/// Every wire measured and reset.
fn wires_measured(tally: &mut Tally) -> Result<(), String> {
    parts(tally, &texts::every_wire_measured())
}

/// Every bit measured into, and in a condition.
fn every_bit(tally: &mut Tally) -> Result<(), String> {
    parts(tally, &texts::every_bit())
}

/// Programs of two records for each number below 65,535.
fn parts(tally: &mut Tally, programs: &[Vec<Field>]) -> Result<(), String> {
    let records = |fields: &[Field]| fields.len() - 2;
    let all: usize = programs.iter().map(|fields| records(fields)).sum();
    if all != 2 * 65_535 {
        return Err(format!("{all} records are not two for each number"));
    }
    programs
        .iter()
        .try_for_each(|fields| filled(tally, fields, records(fields)))
}

/// The other lists that are measured.
fn long_lists_printed(tally: &mut Tally) -> Result<(), String> {
    filled(tally, &texts::far_pairs(), 2 * 55_534)?;
    filled(tally, &texts::near_gates(), 100_000)?;
    filled(tally, &texts::conditioned(), 100_000)?;
    filled(tally, &texts::measured(), 3_000)?;
    filled(tally, &texts::turned(), 51_200)
}

/// The decimal digits of 2 to the k for all k up to 63: 64 numbers, of which the first
/// four have one digit, those below 2 to the 7 two, and so on up to nineteen.
fn digits_of_powers() -> usize {
    let firsts = [
        0, 4, 7, 10, 14, 17, 20, 24, 27, 30, 34, 37, 40, 44, 47, 50, 54, 57, 60,
    ];
    firsts.iter().map(|first| 64 - first).sum()
}

/// Every k, on one wire and on two, as it is and reversed.
fn every_k(tally: &mut Tally) -> Result<(), String> {
    let program = program(&texts::every_k());
    // `u1(2*pi/D) q[7];` and `cu1(2*pi/D) q[65534],q[65533];` have 16 and 30 bytes
    // without D, each with its line feed, and one more with a minus.
    let lines = 64 * (16 + 30 + 17 + 31) + 4 * digits_of_powers();
    long(tally, &run(&program, 4 * 64), 36 + 15 + lines)
}

/// The bytes of the longest line that a list can have, with its line feed.
const LONGEST: usize = 64;

/// A thousand of the longest lines, over all qubits and bits.
fn longest_lines(tally: &mut Tally) -> Result<(), String> {
    let program = program(&texts::longest_lines());
    let length = most_bits_text() + 15 + 1_000 * LONGEST;
    long(tally, &run(&program, 1_000), length)
}

#[test]
fn the_header_has_room_for_the_longest_line() {
    let line = "if(c65534==1) cu1(-2*pi/9223372036854775808) q[65534],q[65533];\n";
    assert_eq!(line.len(), LONGEST);
    assert!(header::number("METAQASM_MOST_RECORD_LINE_BYTES") >= LONGEST);
}

/// The adder and its reverse at 8,000 bits.
fn large_adder(tally: &mut Tally) -> Result<(), String> {
    let program = program(&library::reversed_adder());
    let sizes = generate::build::sizes(&[7_999]);
    for family in [2, 3] {
        let sizes = &sizes;
        tally.texts(&Question {
            call: Call::Instance { family, sizes },
            ..run(&program, 17 + 7_999 * 35)
        })?;
    }
    Ok(())
}
