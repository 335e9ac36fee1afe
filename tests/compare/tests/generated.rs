//! Programs made from seeds, and one-byte changes of small programs and of calls.

use compare::harness::{reference_answer, whole_text};
use compare::{compared, promises, Call, Question, Tally};
use generate::build::*;
use generate::random::Random;
use generate::targeted::{passing, twice};
use generate::{case, libraries, library, Case};
use reference::RECORD_BYTES;
use std::collections::BTreeSet;

/// How many seeds each call is compared on.
const SEEDS: u64 = 24_000;

compared!(check_on_24000_programs, has_check, check);
compared!(instance_on_24000_programs, has_instance, instance);
compared!(run_on_24000_programs, has_run, run);
compared!(instance_text_on_24000, has_instance_text, instance_text);
compared!(run_text_on_24000_programs, has_run_text, run_text);
compared!(check_on_every_change_of_a_byte, has_check, changes);
compared!(run_text_on_every_change, has_run_text, printed_changes);
compared!(check_on_every_beginning, has_check, beginnings);
compared!(all_calls_on_12000_that_pass, has_run, passing_programs);
compared!(texts_of_2000_that_pass, has_run_text, printed_passing);
compared!(all_calls_on_12000_of_one_wire, has_run, twice_programs);
compared!(texts_of_2000_of_one_wire, has_run_text, printed_twice);
compared!(all_calls_on_200_libraries, has_run, sound_libraries);
compared!(all_calls_on_300_damaged, has_run, damaged_libraries);
compared!(texts_of_15_libraries, has_run_text, printed_libraries);
compared!(
    run_text_on_every_change_of_calls,
    has_run_text,
    changed_calls
);

/// How a question is compared: by itself, or with its texts.
type Asked = fn(&mut Tally, &Question) -> Result<(), String>;

/// Asks one call about every seed.
fn every_seed(tally: &mut Tally, call: fn(&Case) -> Call<'_>, asked: Asked) -> Result<(), String> {
    for seed in 0..SEEDS {
        let case = case(seed);
        let compared = asked(tally, &question(&case, call(&case)));
        compared.map_err(|message| format!("seed {seed}: {message}"))?;
    }
    Ok(())
}

/// A question about a case.
fn question<'a>(case: &'a Case, call: Call<'a>) -> Question<'a> {
    Question {
        program: &case.program,
        call,
        limit: case.limit,
        length: case.output,
        text: None,
    }
}

/// An instance of a case.
fn as_instance(case: &Case) -> Call<'_> {
    Call::Instance {
        family: case.family,
        sizes: &case.sizes,
    }
}

/// Checks the program of every seed.
fn check(tally: &mut Tally) -> Result<(), String> {
    every_seed(tally, |_| Call::Check, Tally::question)
}

/// Unrolls a family for every seed.
fn instance(tally: &mut Tally) -> Result<(), String> {
    every_seed(tally, as_instance, Tally::question)
}

/// Runs the program of every seed.
fn run(tally: &mut Tally) -> Result<(), String> {
    every_seed(tally, |_| Call::Run, Tally::question)
}

/// Unrolls a family for every seed and prints it.
fn instance_text(tally: &mut Tally) -> Result<(), String> {
    every_seed(tally, as_instance, Tally::texts)
}

/// Runs the program of every seed and prints it.
fn run_text(tally: &mut Tally) -> Result<(), String> {
    every_seed(tally, |_| Call::Run, Tally::texts)
}

/// Asks check about a program.
fn ask_check(tally: &mut Tally, program: &[u8]) -> Result<(), String> {
    tally.question(&Question {
        program,
        call: Call::Check,
        limit: 0,
        length: 0,
        text: None,
    })
}

/// Asks check, instance and run about what some seeds make.
fn every_made(tally: &mut Tally, made: fn(u64) -> Case, seeds: u64) -> Result<(), String> {
    for seed in 0..seeds {
        let case = made(seed);
        for call in [Call::Check, as_instance(&case), Call::Run] {
            let compared = tally.question(&question(&case, call));
            compared.map_err(|message| format!("seed {seed}: {message}"))?;
        }
    }
    Ok(())
}

/// Asks all calls, those that print too, about what some seeds make.
fn every_printed(tally: &mut Tally, made: fn(u64) -> Case, seeds: u64) -> Result<(), String> {
    (0..seeds).try_for_each(|seed| {
        let compared = tally.case(&made(seed));
        compared.map_err(|message| format!("seed {seed}: {message}"))
    })
}

/// Libraries of hundreds to thousands of families.
fn sound_libraries(tally: &mut Tally) -> Result<(), String> {
    every_made(tally, libraries::sound, 200)
}

/// Such libraries with a damaged call.
fn damaged_libraries(tally: &mut Tally) -> Result<(), String> {
    every_made(tally, libraries::damaged, 300)
}

/// A program about families as arguments.
fn passing_case(seed: u64) -> Case {
    passing::case(&mut Random::new(seed))
}

/// Programs about families as arguments, with check, instance and run.
fn passing_programs(tally: &mut Tally) -> Result<(), String> {
    every_made(tally, passing_case, 12_000)
}

/// Some of them with all calls, those that print too.
fn printed_passing(tally: &mut Tally) -> Result<(), String> {
    every_printed(tally, passing_case, 2_000)
}

/// A program about one wire twice.
fn twice_case(seed: u64) -> Case {
    twice::case(&mut Random::new(seed))
}

/// Programs about one wire twice, with check, instance and run.
fn twice_programs(tally: &mut Tally) -> Result<(), String> {
    every_made(tally, twice_case, 12_000)
}

/// Some of them with all calls, those that print too.
fn printed_twice(tally: &mut Tally) -> Result<(), String> {
    every_printed(tally, twice_case, 2_000)
}

/// A few libraries with all calls, those that print too.
fn printed_libraries(tally: &mut Tally) -> Result<(), String> {
    every_printed(tally, libraries::sound, 15)
}

/// Asks for the text of a program's run, with room for a small one.
fn ask_text(tally: &mut Tally, program: &[u8]) -> Result<(), String> {
    tally.question(&Question {
        program,
        call: Call::Run,
        limit: 200,
        length: RECORD_BYTES * 50,
        text: Some(1_500),
    })
}

/// Small programs whose every byte is changed.
fn small_programs() -> Vec<Vec<u8>> {
    let seeds = (0..400).map(|seed| case(seed).program);
    let mut programs: Vec<Vec<u8>> = seeds.filter(|bytes| bytes.len() < 120).take(25).collect();
    programs.push(program(&library::each_cell()));
    programs.push(program(&library::nested_loops()));
    programs.push(program(&phases()));
    programs.push(program(&slices()));
    programs.push(program(&ranges()));
    programs.push(program(&passed_families()));
    programs.push(program(&close_pairs()));
    programs
}

/// Gates on two wires that one byte would make one: whole wires, elements of one register by
/// sizes and by loops, and the same element of two registers.
fn close_pairs() -> Vec<Field> {
    let cell = |register, index| element(register, index);
    let sides = [
        cell(1, sum(variable(0), literal(1))),
        cell(1, sum(literal(2), variable(0))),
    ];
    let looped = cx(
        cell(1, variable(1)),
        cell(1, difference(plus(1, 1), variable(2))),
    );
    let inner = repeat(literal(0), literal(0), vec![looped]);
    let [one, other] = sides;
    let types = vec![qbit(), qbits(plus(0, 3)), qbit()];
    let body = vec![
        cx(whole(0), whole(2)),
        cphase(literal(5), one, other),
        repeat(literal(0), variable(0), vec![inner]),
    ];
    let pair = |first, second| cx(at(0, first), at(1, second));
    vec![
        family(1, types, body),
        qreg(3),
        qreg(3),
        reverse(vec![pair(1, 1), cphase(literal(9), at(0, 2), at(0, 1))]),
        call(0, vec![literal(0)], vec![at(0, 0), whole(1), at(0, 1)]),
    ]
}

/// A wire, a register and two families as parameters: both are called, with a slice, in a loop
/// and backward; and passed in a run, in a reversal and in a condition.
fn passed_families() -> Vec<Field> {
    let sized = |size| family_type(1, vec![qbits(size)]);
    let wire = || family_type(0, vec![qbit()]);
    let first = parameter_call(2, vec![], vec![whole(0)]);
    let next = parameter_call(3, vec![plus(0, 1)], vec![slice(1, literal(0), plus(0, 1))]);
    let looped = repeat(literal(0), literal(1), vec![next]);
    let types = vec![qbit(), qbits(literal(3)), wire(), sized(plus(0, 1))];
    let each = repeat(literal(1), variable(0), vec![t(element(0, minus(1, 1)))]);
    let operands = vec![at(0, 3), between(0, 0, 2), passed(0), passed(1)];
    let once = call(2, vec![], operands);
    vec![
        family(0, vec![qbit()], vec![h(whole(0))]),
        family(1, vec![qbits(variable(0))], vec![each]),
        family(0, types, vec![first, reverse(vec![looped])]),
        qreg(4),
        creg(1),
        reverse(vec![once.clone()]),
        when(1, at(1, 0), vec![once]),
    ]
}

/// Bodies that need the range of a loop: the innermost one's, an outer one's, and one over
/// the variable of another loop.
fn ranges() -> Vec<Field> {
    let pair = cx(at(0, 0), at(0, 1));
    let twice = repeat(literal(0), literal(1), vec![pair]);
    let body = vec![h(at(0, 0)), twice];
    let inner_cells = vec![repeat(literal(1), minus(0, 1), body)];
    let down = || difference(literal(2), variable(0));
    let turn = phase(down(), element(0, down()));
    let triangle = repeat(variable(0), literal(2), vec![turn]);
    vec![
        family(1, vec![qbits(variable(0))], inner_cells),
        qreg(3),
        repeat(literal(0), literal(3), vec![triangle]),
        reverse(vec![call(0, vec![literal(3)], vec![whole(0)])]),
    ]
}

/// Slices of registers and of parameters, in a loop, a reversal and a condition.
fn slices() -> Vec<Field> {
    let pair = family(0, vec![qbits(literal(2))], vec![cx(at(0, 0), at(0, 1))]);
    let next = slice(0, variable(1), plus(1, 1));
    let once = vec![call(0, vec![], vec![next])];
    let each = vec![repeat(literal(0), minus(0, 1), once)];
    let empty = slice(0, literal(4), literal(3));
    vec![
        pair,
        family(1, vec![qbits(plus(0, 1))], each),
        family(1, vec![qbits(variable(0))], vec![]),
        qreg(4),
        creg(1),
        reverse(vec![call(1, vec![literal(1)], vec![between(0, 1, 3)])]),
        call(2, vec![literal(0)], vec![empty]),
        when(1, at(1, 0), vec![call(0, vec![], vec![between(0, 2, 3)])]),
    ]
}

/// Phases in a family, a loop, a reversal and a condition, with k of all kinds.
fn phases() -> Vec<Field> {
    let turn = cphase(plus(1, 1), element(0, variable(1)), whole(1));
    let body = vec![
        phase(product(literal(2), variable(0)), whole(1)),
        repeat(literal(0), minus(0, 1), vec![turn]),
    ];
    let down = phase(difference(literal(63), variable(0)), at(0, 1));
    let looped = repeat(literal(0), literal(2), vec![down]);
    vec![
        family(1, vec![qbits(variable(0)), qbit()], body),
        qreg(3),
        creg(1),
        reverse(vec![call(0, vec![literal(2)], vec![whole(0), at(0, 2)])]),
        when(1, at(1, 0), vec![looped]),
    ]
}

/// Asks about every small program with any one byte changed.
fn every_change(
    tally: &mut Tally,
    asked: fn(&mut Tally, &[u8]) -> Result<(), String>,
) -> Result<(), String> {
    for program in small_programs() {
        for place in 0..program.len() {
            let mut changed = program.clone();
            for value in 0..=255 {
                changed[place] = value;
                asked(tally, &changed)?;
            }
        }
    }
    Ok(())
}

/// Checks every changed program.
fn changes(tally: &mut Tally) -> Result<(), String> {
    every_change(tally, ask_check)
}

/// Runs and prints every changed program.
fn printed_changes(tally: &mut Tally) -> Result<(), String> {
    every_change(tally, ask_text)
}

/// 257 families, and calls of the last two in all places where one may stand.
fn calls_of_both_kinds() -> Vec<Field> {
    let each = repeat(literal(0), minus(0, 1), vec![h(element(0, variable(1)))]);
    let mut fields = vec![family(0, vec![qbit()], vec![]); 255];
    fields.push(family(0, vec![qbit()], vec![t(whole(0))]));
    fields.push(family(1, vec![qbits(variable(0))], vec![each]));
    let wide = call(256, vec![literal(2)], vec![whole(0)]);
    let short = call(255, vec![], vec![at(0, 1)]);
    let both = vec![wide.clone(), short];
    let calling = family(0, vec![qbits(literal(2))], vec![wide]);
    fields.extend([calling, qreg(2), creg(1), reverse(both.clone())]);
    fields.push(when(1, at(1, 0), both));
    fields
}

/// Runs and prints a library with any byte behind its first 257 families changed.
fn changed_calls(tally: &mut Tally) -> Result<(), String> {
    let fields = calls_of_both_kinds();
    let program = program(&fields);
    for place in length(&fields[..257])..program.len() {
        let mut changed = program.clone();
        for value in 0..=255 {
            changed[place] = value;
            ask_text(tally, &changed)?;
        }
        ask_text(tally, &program[..place])?;
    }
    Ok(())
}

/// Checks every beginning of small programs and of the adder.
fn beginnings(tally: &mut Tally) -> Result<(), String> {
    let mut programs = small_programs();
    programs.push(program(&library::reversed_adder()));
    for program in programs {
        for length in 0..=program.len() {
            ask_check(tally, &program[..length])?;
        }
    }
    Ok(())
}

/// What a line of a text is about: the value of its condition, and its first word up to
/// a number behind a stroke.
fn kind(line: &str) -> (Option<&str>, &str) {
    let (condition, rest) = match line.split_once(") ") {
        Some((condition, rest)) if line.starts_with("if(") => (condition.split("==").nth(1), rest),
        _ => (None, line),
    };
    (condition, rest.split([' ', '/']).next().unwrap_or(rest))
}

/// All kinds of lines that a text can have.
fn kinds() -> BTreeSet<(Option<&'static str>, &'static str)> {
    let gates = [
        "h",
        "t",
        "tdg",
        "cx",
        "u1(2*pi",
        "u1(-2*pi",
        "cu1(2*pi",
        "cu1(-2*pi",
    ];
    let others = ["OPENQASM", "include", "qreg", "creg", "measure", "reset"];
    let conditions = [None, Some("0"), Some("1")];
    let conditioned = conditions
        .iter()
        .flat_map(|&value| gates.map(|gate| (value, gate)));
    conditioned.chain(others.map(|word| (None, word))).collect()
}

#[test]
fn texts_of_the_reference_have_all_lines_and_are_read_back() {
    let mut missing = kinds();
    for seed in 0..6_000 {
        let case = case(seed);
        for call in [as_instance(&case), Call::Run] {
            let listing = question(&case, call);
            let whole = whole_text(&listing);
            let text = Some(whole.len() + 10);
            let printing = Question { text, ..listing };
            let held = reference_answer(&printing).and_then(|answer| promises(&printing, &answer));
            assert_eq!(held, Ok(()), "seed {seed}, {call:?}");
            for line in whole.lines() {
                missing.retain(|&due| due != kind(line));
            }
        }
    }
    assert!(missing.is_empty(), "no line was {missing:?}");
}
