//! Every step limit, every output length, every text length and all kinds of sizes.

use compare::harness::{reference_answer, whole_text};
use compare::{compared, Call, Question, Tally};
use generate::build::{self, *};
use generate::{case, library};
use reference::RECORD_BYTES;

compared!(every_limit_of_an_instance, has_instance, instance_limits);
compared!(every_limit_of_a_run, has_run, run_limits);
compared!(every_length_of_an_instance, has_instance, instance_lengths);
compared!(every_length_of_a_run, has_run, run_lengths);
compared!(
    texts_at_every_limit,
    has_instance_text,
    instance_text_limits
);
compared!(run_texts_at_every_limit, has_run_text, run_text_limits);
compared!(
    texts_at_every_length,
    has_instance_text,
    instance_text_lengths
);
compared!(run_texts_at_every_length, has_run_text, run_text_lengths);
compared!(every_text_length, has_instance_text, instance_rooms);
compared!(every_text_length_of_a_run, has_run_text, run_rooms);
compared!(sizes_of_all_kinds, has_instance, all_sizes);
compared!(family_numbers_to_the_last, has_instance, family_numbers);

/// More steps than any program here takes.
const ENOUGH: u64 = 100_000;
/// More output than any program here fills.
const ROOM: usize = 60_000;

/// A program with a family and its sizes.
type Small = (Vec<u8>, u32, Vec<u8>);

/// Small named programs for instances.
fn named() -> Vec<Small> {
    let adder = program(&library::reversed_adder());
    let fourier = program(&library::fourier());
    let product = program(&library::multiplier());
    let passed = program(&library::passed_multiplier());
    vec![
        (program(&library::each_cell()), 0, build::sizes(&[3])),
        (program(&library::nested_loops()), 0, build::sizes(&[3])),
        (adder.clone(), 2, build::sizes(&[1])),
        (adder, 3, build::sizes(&[2])),
        (fourier.clone(), 1, build::sizes(&[5])),
        (fourier, 0, build::sizes(&[64])),
        (product.clone(), 2, build::sizes(&[2])),
        (product, 3, build::sizes(&[1])),
        (passed.clone(), 3, build::sizes(&[2])),
        (passed, 4, build::sizes(&[1])),
        (program(&library::passed_on(6, 3)), 10, build::sizes(&[])),
        (program(&library::neighbours()), 1, build::sizes(&[9])),
        (program(&library::shortened(12)), 11, build::sizes(&[])),
        (
            program(&library::deep_loops(9, 2, 1)),
            8,
            build::sizes(&[1]),
        ),
    ]
}

/// Small programs for instances.
fn instances() -> Vec<Small> {
    let mut list = named();
    let cases = (0..600).map(case);
    let small = cases.filter(|case| {
        let answer = reference::instance(
            &case.program,
            case.family,
            &case.sizes,
            ENOUGH,
            &mut [0; ROOM],
        );
        (4..150).contains(&answer.records) && answer.steps < 500
    });
    list.extend(
        small
            .take(40)
            .map(|case| (case.program, case.family, case.sizes)),
    );
    list
}

/// Small programs for whole runs.
fn runs() -> Vec<Small> {
    let cases = (0..600).map(case);
    let small = cases.filter(|case| {
        let answer = reference::run(&case.program, ENOUGH, &mut [0; ROOM]);
        (4..150).contains(&answer.records) && answer.steps < 500
    });
    small
        .take(40)
        .map(|case| (case.program, 0, vec![]))
        .collect()
}

/// The question that a small program is for.
fn question(small: &Small, call: fn(&Small) -> Call<'_>) -> Question<'_> {
    Question {
        program: &small.0,
        call: call(small),
        limit: ENOUGH,
        length: ROOM,
        text: None,
    }
}

/// The same question, with the list printed and a few text bytes to spare.
fn with_text(question: Question) -> Question {
    let text = Some(whole_text(&question).len() + 10);
    Question { text, ..question }
}

/// An instance of a small program.
fn as_instance(small: &Small) -> Call<'_> {
    Call::Instance {
        family: small.1,
        sizes: &small.2,
    }
}

/// A whole run of a small program.
fn as_run(_: &Small) -> Call<'_> {
    Call::Run
}

/// Asks with every limit up to past the last step.
fn limits(tally: &mut Tally, full: Question) -> Result<(), String> {
    let whole = reference_answer(&full)?;
    for limit in 0..whole.outcome.steps + 3 {
        let question = Question { limit, ..full };
        tally.question(&question)?;
        let cut = reference_answer(&question)?;
        let due = if limit < whole.outcome.steps {
            cut.outcome.number == 26 && cut.outcome.steps == limit
        } else {
            cut == whole
        };
        let records = RECORD_BYTES * cut.outcome.records as usize;
        if !due || cut.output[..records] != whole.output[..records] {
            return Err(format!(
                "limit {limit} of {:?}: {:?}",
                full.call, cut.outcome
            ));
        }
    }
    Ok(())
}

/// Asks with every output length up to past the last record.
fn lengths(tally: &mut Tally, full: Question) -> Result<(), String> {
    let whole = reference_answer(&full)?;
    let last = RECORD_BYTES * whole.outcome.records as usize;
    for length in 0..last + RECORD_BYTES + 2 {
        let question = Question { length, ..full };
        tally.question(&question)?;
        let cut = reference_answer(&question)?;
        let due = if length < last {
            cut.outcome.number == 27 && cut.outcome.records as usize == length / RECORD_BYTES
        } else {
            cut.outcome == whole.outcome
        };
        let records = RECORD_BYTES * cut.outcome.records as usize;
        if !due || cut.output[..records] != whole.output[..records] {
            return Err(format!(
                "length {length} of {:?}: {:?}",
                full.call, cut.outcome
            ));
        }
    }
    Ok(())
}

/// Asks with every number of text bytes up to past the last line.
fn rooms(tally: &mut Tally, full: Question) -> Result<(), String> {
    let listed = reference_answer(&full)?.outcome;
    let last = whole_text(&full).len();
    for room in 0..last + 10 {
        let question = Question {
            length: RECORD_BYTES * listed.records as usize,
            text: Some(room),
            ..full
        };
        tally.question(&question)?;
        let due = match room < last {
            true => 30,
            false => listed.number,
        };
        let number = reference_answer(&question)?.outcome.number;
        if number != due {
            return Err(format!("{room} of {last} text bytes: {number}"));
        }
    }
    Ok(())
}

/// Asks about every small program in one way.
fn each(
    list: &[Small],
    call: fn(&Small) -> Call<'_>,
    mut asked: impl FnMut(Question) -> Result<(), String>,
) -> Result<(), String> {
    list.iter()
        .try_for_each(|small| asked(question(small, call)))
}

/// Every step limit on small instances.
fn instance_limits(tally: &mut Tally) -> Result<(), String> {
    each(&instances(), as_instance, |full| limits(tally, full))
}

/// Every step limit on small runs.
fn run_limits(tally: &mut Tally) -> Result<(), String> {
    each(&runs(), as_run, |full| limits(tally, full))
}

/// Every output length on small instances.
fn instance_lengths(tally: &mut Tally) -> Result<(), String> {
    each(&instances(), as_instance, |full| lengths(tally, full))
}

/// Every output length on small runs.
fn run_lengths(tally: &mut Tally) -> Result<(), String> {
    each(&runs(), as_run, |full| lengths(tally, full))
}

/// Every step limit on small instances that are printed.
fn instance_text_limits(tally: &mut Tally) -> Result<(), String> {
    each(&instances(), as_instance, |full| {
        limits(tally, with_text(full))
    })
}

/// Every step limit on small runs that are printed.
fn run_text_limits(tally: &mut Tally) -> Result<(), String> {
    each(&runs(), as_run, |full| limits(tally, with_text(full)))
}

/// Every output length on small instances that are printed.
fn instance_text_lengths(tally: &mut Tally) -> Result<(), String> {
    each(&instances(), as_instance, |full| {
        lengths(tally, with_text(full))
    })
}

/// Every output length on small runs that are printed.
fn run_text_lengths(tally: &mut Tally) -> Result<(), String> {
    each(&runs(), as_run, |full| lengths(tally, with_text(full)))
}

/// Every text length on small instances.
fn instance_rooms(tally: &mut Tally) -> Result<(), String> {
    each(&instances(), as_instance, |full| rooms(tally, full))
}

/// Every text length on small runs.
fn run_rooms(tally: &mut Tally) -> Result<(), String> {
    each(&runs(), as_run, |full| rooms(tally, full))
}

/// A family over `m` sizes with a register for each, or one wire for none.
fn over(m: u8) -> Vec<u8> {
    let types: Vec<Field> = match m {
        0 => vec![qbit()],
        _ => (0..m).map(|number| qbits(variable(number))).collect(),
    };
    let body = match m {
        0 => vec![h(whole(0))],
        _ => {
            let gate = h(element(m - 1, variable(m)));
            vec![repeat(literal(0), minus(m - 1, 1), vec![gate])]
        }
    };
    program(&[family(m, types, body)])
}

/// Sizes small, largest and too large, in any number of bytes.
fn all_sizes(tally: &mut Tally) -> Result<(), String> {
    let numbers = [0, 1, 2, 65_534, 65_535, 65_536, 1 << 31, u32::MAX];
    for m in 0..=4 {
        let program = over(m);
        for (place, &number) in numbers.iter().enumerate() {
            let mut all: Vec<u32> = vec![numbers[place % 3]; usize::from(m)];
            if let Some(last) = all.last_mut() {
                *last = number;
            }
            let sizes = build::sizes(&all);
            for length in 0..=20 {
                let mut given = sizes.clone();
                given.resize(length, 0xFF);
                ask_sizes(tally, &program, &given)?;
            }
            ask_sizes(tally, &program, &sizes)?;
        }
    }
    Ok(())
}

/// Asks for family 0 at sizes.
fn ask_sizes(tally: &mut Tally, program: &[u8], sizes: &[u8]) -> Result<(), String> {
    let call = Call::Instance { family: 0, sizes };
    tally.question(&Question {
        program,
        call,
        limit: 1_000,
        length: 500,
        text: None,
    })
}

/// As many families as there may be; any two that are 256 apart have different gates.
fn most_families() -> Vec<u8> {
    let gates = [h, t, tdg];
    let gate = |number: usize| gates[number % 3](whole(0));
    let families = (0..MOST_FAMILIES).map(|number| family(0, vec![qbit()], vec![gate(number)]));
    program(&families.collect::<Vec<Field>>())
}

/// Family numbers of one byte and of two, the last ones, and some past them.
fn family_numbers(tally: &mut Tally) -> Result<(), String> {
    let program = most_families();
    let few = (0..4_080).step_by(67);
    let past = [4_352, 8_192, 65_535, 65_536, 1 << 31, u32::MAX];
    for family in few.chain(250..262).chain(4_080..4_100).chain(past) {
        let call = Call::Instance { family, sizes: &[] };
        tally.question(&Question {
            program: &program,
            call,
            limit: 10,
            length: 20,
            text: None,
        })?;
    }
    Ok(())
}
