//! The deepest calls, the longest lists and loops, and the most steps.

use compare::harness::on_a_deep_stack;
use compare::{ask, compared, slow, Call, Question, Tally, Who};
use generate::build::*;
use generate::library;
use generate::shapes::{Shape, SHAPES};
use reference::{TextOutcome, RECORD_BYTES};

compared!(deepest_calls_checked, has_check, deepest_checked);
compared!(deepest_calls_of_an_instance, has_instance, deepest_instance);
compared!(deepest_calls_of_a_run, has_run, deepest_run);
compared!(deepest_shapes_of_an_instance, has_instance, shape_instances);
compared!(deepest_shapes_of_a_run, has_run, shape_runs);
compared!(lists_of_10000_of_an_instance, has_instance, long_instance);
compared!(lists_of_10000_of_a_run, has_run, long_run);
compared!(loops_from_the_smallest_number, has_run, far_loops);
compared!(a_hundred_million_steps, has_run, many_steps);
compared!(the_adder_at_8000_bits, has_instance, large_adder);
compared!(fourier_of_64_wires, has_instance, small_transforms);
compared!(fourier_of_5062_wires, has_instance, large_transforms);
compared!(the_product_of_100_wires, has_instance, large_products);
compared!(deepest_slices_of_a_check, has_check, deepest_slices_checked);
compared!(deepest_slices_of_a_run, has_run, deepest_slices_run);
compared!(slices_of_all_qubits, has_run, far_slices);
compared!(a_full_library_of_families, has_check, full_library);
compared!(a_library_of_4000_families, has_check, small_families);
compared!(gates_in_eight_loops, has_check, loops_in_loops);
compared!(the_slowest_check_of_calls, has_check, called_check);
compared!(the_slowest_check_of_slices, has_check, sliced_check);
compared!(the_slowest_check_of_trials, has_check, tried_check);
compared!(the_slowest_check_of_tried_slices, has_check, tried_slices);
compared!(the_slowest_check_of_family_types, has_check, typed_check);
compared!(the_slowest_check_of_passes, has_check, passed_check);
compared!(the_slowest_parameter_calls, has_check, parameter_check);
compared!(the_slowest_check_of_two_wires, has_check, paired_check);
compared!(the_slowest_steps, has_run, slowest_steps);
compared!(
    the_passed_product_of_100_wires,
    has_instance,
    passed_products
);
compared!(deepest_parameter_calls, has_run, deepest_passed);
compared!(programs_packed_with_types, has_run, packed_types);

/// Asks, and holds the reference to number, place, records and steps.
fn due(tally: &mut Tally, question: &Question, expected: [u64; 4]) -> Result<(), String> {
    tally.question(question)?;
    let [number, place, records, steps] = expected;
    let expected = TextOutcome {
        number: number as u32,
        place: place as u32,
        records,
        steps,
        length: 0,
    };
    match ask(Who::Reference, question) {
        Some(answer) if answer.outcome == expected => Ok(()),
        other => {
            let found = other.map(|answer| answer.outcome);
            Err(format!("{found:?}, due is {expected:?}"))
        }
    }
}

/// A question about an instance.
fn instance<'a>(program: &'a [u8], family: u32, sizes: &'a [u8]) -> Question<'a> {
    Question {
        program,
        call: Call::Instance { family, sizes },
        limit: 1_000_000,
        length: 150_000,
        text: None,
    }
}

/// A question about another call.
fn other<'a>(program: &'a [u8], call: Call<'a>) -> Question<'a> {
    Question {
        program,
        call,
        limit: 1_000_000,
        length: 150_000,
        text: None,
    }
}

/// Families of 16 levels each, as many as fit: by reversals, and by loops and reversals.
const BY_REVERSALS: usize = 1_057;
const BY_LOOPS: usize = 414;

/// The deepest programs: each family calls the one before, and a run calls the last.
fn deepest() -> [Vec<u8>; 2] {
    let last = |families: usize| families as u16 - 1;
    let mut calls = library::deep_calls(BY_REVERSALS, 16);
    let called = |wire| call(last(BY_REVERSALS), vec![], vec![at(0, wire)]);
    calls.extend([qreg(3), called(2), reverse(vec![called(1)])]);
    let mut loops = library::deep_loops(BY_LOOPS, 8, 7);
    let called = call(last(BY_LOOPS), vec![literal(2)], vec![whole(0)]);
    loops.extend([qreg(3), called]);
    [program(&calls), program(&loops)]
}

/// Checks the deepest programs.
fn deepest_checked(tally: &mut Tally) -> Result<(), String> {
    let work = |tally: &mut Tally| {
        for program in deepest() {
            due(tally, &other(&program, Call::Check), [0; 4])?;
        }
        Ok(())
    };
    on_a_deep_stack(work, tally)
}

/// Unrolls the last family of the deepest programs.
fn deepest_instance(tally: &mut Tally) -> Result<(), String> {
    let work = |tally: &mut Tally| {
        let [calls, loops] = deepest();
        let sizes = sizes(&[2]);
        let last = BY_REVERSALS as u32 - 1;
        // 1,057 times 15 reversals and one statement.
        due(tally, &instance(&calls, last, &[]), [0, 0, 1, 16_912])?;
        // 414 times 7 reversals, 8 loops, 8 rounds and one statement.
        let by_loops = instance(&loops, BY_LOOPS as u32 - 1, &sizes);
        due(tally, &by_loops, [0, 0, 1, 9_936])?;
        let short = Question {
            limit: 16_911,
            ..instance(&calls, last, &[])
        };
        due(tally, &short, [26, 53, 0, 16_911])
    };
    on_a_deep_stack(work, tally)
}

/// Runs the deepest programs, forward and reversed.
fn deepest_run(tally: &mut Tally) -> Result<(), String> {
    let work = |tally: &mut Tally| {
        let [calls, loops] = deepest();
        due(tally, &other(&calls, Call::Run), [0, 0, 2, 33_827])?;
        due(tally, &other(&loops, Call::Run), [0, 0, 1, 9_937])
    };
    on_a_deep_stack(work, tally)
}

/// Asks about every deepest shape, with the number of its last family.
fn every_shape(
    mut asked: impl FnMut(&Shape, &[u8], u32) -> Result<(), String>,
) -> Result<(), String> {
    SHAPES.iter().try_for_each(|shape| {
        let fields = shape.deepest();
        asked(shape, &program(&fields), families(&fields) as u32 - 1)
    })
}

/// Unrolls the last family of every deepest shape.
fn shape_instances(tally: &mut Tally) -> Result<(), String> {
    let work = |tally: &mut Tally| {
        every_shape(|shape, program, last| tally.question(&instance(program, last, &shape.sizes())))
    };
    on_a_deep_stack(work, tally)
}

/// Runs every deepest shape.
fn shape_runs(tally: &mut Tally) -> Result<(), String> {
    let work =
        |tally: &mut Tally| every_shape(|_, program, _| tally.question(&other(program, Call::Run)));
    on_a_deep_stack(work, tally)
}

/// Unrolls lists of 10,000 statements, forward and reversed.
fn long_instance(tally: &mut Tally) -> Result<(), String> {
    let forward = program(&[library::long_list(10_000)]);
    let backward = program(&[library::reversed_list(10_000)]);
    due(tally, &instance(&forward, 0, &[]), [0, 0, 5_000, 10_000])?;
    due(tally, &instance(&backward, 0, &[]), [0, 0, 5_000, 10_001])
}

/// Runs the longest lists, forward and reversed, and one through a call.
fn long_run(tally: &mut Tally) -> Result<(), String> {
    let shortest = program(&vec![reverse(vec![]); 21_845]);
    due(tally, &other(&shortest, Call::Run), [0, 0, 0, 21_845])?;
    let inside = program(&[reverse(vec![reverse(vec![]); 21_844])]);
    due(tally, &other(&inside, Call::Run), [0, 0, 0, 21_845])?;
    let called = [
        library::long_list(9_990),
        qreg(1),
        reverse(vec![call(0, vec![], vec![at(0, 0)])]),
    ];
    let called = program(&called);
    due(tally, &other(&called, Call::Run), [0, 0, 4_995, 9_992])
}

/// Runs loops that start at the smallest number, up and down.
fn far_loops(tally: &mut Tally) -> Result<(), String> {
    let three = program(&[qreg(3), library::far_loop()]);
    due(tally, &other(&three, Call::Run), [0, 0, 3, 7])?;
    let backward = program(&[qreg(3), reverse(vec![library::far_loop()])]);
    due(tally, &other(&backward, Call::Run), [0, 0, 3, 8])?;
    let longest = [qreg(1), library::longest_loop()];
    let longest = program(&longest);
    let cut = Question {
        limit: 2_001,
        ..other(&longest, Call::Run)
    };
    due(tally, &cut, [26, 5, 1_000, 2_001])?;
    let back = program(&[qreg(1), reverse(vec![library::longest_loop()])]);
    let cut = Question {
        limit: 2_001,
        ..other(&back, Call::Run)
    };
    let gate = headers(&[qreg(1), reverse(vec![library::longest_loop()])]);
    // The gate is the last field but two: gate, operand, index.
    let place = gate[gate.len() - 3] as u64;
    due(tally, &cut, [26, place, 999, 2_001])
}

/// Takes a hundred million steps without a record.
fn many_steps(tally: &mut Tally) -> Result<(), String> {
    let program = program(&library::empty_rounds());
    let question = |limit| Question {
        program: &program,
        call: Call::Run,
        limit,
        length: 0,
        text: None,
    };
    due(tally, &question(u64::MAX), [0, 0, 0, 100_000_001])?;
    due(tally, &question(1_000), [26, 13, 0, 1_000])
}

/// Unrolls the adder and its reverse at 8,000 bits.
fn large_adder(tally: &mut Tally) -> Result<(), String> {
    let program = program(&library::reversed_adder());
    let sizes = sizes(&[7_999]);
    // 17 gates for the first bit, 35 for each further one.
    let gates = 17 + 7_999 * 35;
    for family in [2, 3] {
        let full = Question {
            length: RECORD_BYTES * gates as usize,
            ..instance(&program, family, &sizes)
        };
        tally.question(&full)?;
        let answer = ask(Who::Reference, &full).ok_or("no answer")?;
        if answer.outcome.number != 0 || answer.outcome.records != gates {
            return Err(format!("{:?}, due are {gates} gates", answer.outcome));
        }
    }
    Ok(())
}

/// Unrolls the Fourier transform and its inverse at a size.
fn transform(tally: &mut Tally, wires: u32, expected: [[u64; 4]; 2]) -> Result<(), String> {
    let program = program(&library::fourier());
    let sizes = sizes(&[wires]);
    let [there, back] = expected;
    due(tally, &instance(&program, 0, &sizes), there)?;
    due(tally, &instance(&program, 1, &sizes), back)
}

/// The Fourier transform of 63 wires, and of 64, which ends at the largest k.
fn small_transforms(tally: &mut Tally) -> Result<(), String> {
    // The outer loop; for each wire a round, its gate and a loop; for each pair a round
    // and its phase. Backward, a reversal and a call come before.
    let pairs = 63 * 62 / 2;
    let (records, steps) = (63 + pairs, 1 + 3 * 63 + 2 * pairs);
    let whole = [[0, 0, records, steps], [0, 0, records, steps + 2]];
    transform(tally, 63, whole)?;
    // The phase stands at 70. Forward, the first wire's gate and 62 phases come before;
    // backward, all that the other wires have, a round, a loop and its round.
    let there = [32, 70, 1 + 62, 4 + 2 * 63];
    let back = [32, 70, records, steps + 2 + 4];
    transform(tally, 64, [there, back])
}

/// The Fourier transform of 5,062 wires without the smallest parts, and its inverse.
fn large_transforms(tally: &mut Tally) -> Result<(), String> {
    let program = program(&library::approximate_fourier());
    let sizes = sizes(&[5_000]);
    // Two loops. 5,000 wires have 62 phases each; the last 62 have one for each pair.
    let last = 62 * 61 / 2;
    let records = 5_000 * 63 + 62 + last;
    let steps = 2 + 5_000 * (3 + 2 * 62) + 3 * 62 + 2 * last;
    for (family, steps) in [(0, steps), (1, steps + 2)] {
        let question = Question {
            length: RECORD_BYTES * records as usize,
            ..instance(&program, family, &sizes)
        };
        due(tally, &question, [0, 0, records, steps])?;
    }
    Ok(())
}

/// Unrolls the product without carries of twice 100 wires, and its inverse.
fn large_products(tally: &mut Tally) -> Result<(), String> {
    let program = program(&library::multiplier());
    let sizes = sizes(&[100]);
    // The outer loop; for each wire of x a round, a call and a loop; for each of y a round, a
    // call and 15 gates. Backward, a reversal and a call come before.
    let steps = 1 + 100 * (3 + 100 * 17);
    for (family, steps) in [(2, steps), (3, steps + 2)] {
        let question = Question {
            length: RECORD_BYTES * 150_000,
            ..instance(&program, family, &sizes)
        };
        due(tally, &question, [0, 0, 150_000, steps])?;
    }
    Ok(())
}

/// Unrolls the same product with what adds passed to it, and its inverse.
fn passed_products(tally: &mut Tally) -> Result<(), String> {
    let program = program(&library::passed_multiplier());
    let sizes = sizes(&[100]);
    // As above, behind the call that passes it. Backward, a reversal and a call come before.
    let steps = 2 + 100 * (3 + 100 * 17);
    for (family, steps) in [(3, steps), (4, steps + 2)] {
        let question = Question {
            length: RECORD_BYTES * 150_000,
            ..instance(&program, family, &sizes)
        };
        due(tally, &question, [0, 0, 150_000, steps])?;
    }
    due(tally, &instance(&program, 2, &sizes), [34, 0, 0, 0])
}

/// Families on a wire that are passed to each other from 16 levels down, as many as fit.
const PASSED_ON: usize = 483;

/// Checks, unrolls and runs families half of which are called as parameters.
fn deepest_passed(tally: &mut Tally) -> Result<(), String> {
    let work = |tally: &mut Tally| {
        let mut fields = library::passed_on(PASSED_ON, 16);
        let last = families(&fields) as u16 - 1;
        let called = |wire| call(last, vec![], vec![at(0, wire)]);
        fields.extend([qreg(3), called(2), reverse(vec![called(1)])]);
        let program = program(&fields);
        if !(65_400..=65_535).contains(&program.len()) {
            return Err(format!("{} bytes are not a full program", program.len()));
        }
        // 15 reversals and one statement in each family, of which there are 965.
        let steps = 16 * (2 * PASSED_ON as u64 - 1);
        due(tally, &other(&program, Call::Check), [0; 4])?;
        due(
            tally,
            &instance(&program, last.into(), &[]),
            [0, 0, 1, steps],
        )?;
        let taking = instance(&program, u32::from(last) - 1, &[]);
        due(tally, &taking, [34, 0, 0, 0])?;
        due(tally, &other(&program, Call::Run), [0, 0, 2, 2 * steps + 3])
    };
    on_a_deep_stack(work, tally)
}

/// Asks about a program that is filled with family types: the family that it passes at its end
/// asks for 7 wires more than n, of so many more.
fn packed(
    tally: &mut Tally,
    (length, registers): (usize, u8),
    inner: &Field,
    wires: u16,
) -> Result<(), String> {
    let fields = library::packed(length, registers, inner, wires);
    let program = program(&fields);
    let (checked, ran) = match wires {
        ..=6 => {
            let refused = [12, library::packed_place(&fields), 0, 0];
            (refused, refused)
        }
        _ => ([0; 4], [0, 0, 1, 3]),
    };
    due(tally, &other(&program, Call::Check), checked)?;
    due(tally, &other(&program, Call::Run), ran)
}

/// Checks and runs programs of about 4,096 bytes and of all that there may be, with the most
/// types of families, the most sizes in them and the most registers.
fn packed_types(tally: &mut Tally) -> Result<(), String> {
    for inner in [qbit(), qbits(variable(0)), qbits(literal(7))] {
        for length in (4_080..4_110).chain([60_000, MOST_BYTES]) {
            for registers in [0, 254] {
                for wires in [8, 7, 6] {
                    packed(tally, (length, registers), &inner, wires)?;
                }
            }
        }
    }
    Ok(())
}

/// Families that each pass all but the first wire on, as many as fit.
const SHORTENED: usize = 2_055;

/// Those families, and a run that passes all but the first of one wire more.
fn deepest_slices() -> Vec<u8> {
    let mut fields = library::shortened(SHORTENED);
    let wires = SHORTENED as u16;
    let passed = between(0, 1, wires);
    fields.extend([qreg(wires + 1), call(wires - 1, vec![], vec![passed])]);
    program(&fields)
}

/// Checks the deepest slices.
fn deepest_slices_checked(tally: &mut Tally) -> Result<(), String> {
    let program = deepest_slices();
    match program.len() {
        65_505..=65_535 => due(tally, &other(&program, Call::Check), [0; 4]),
        length => Err(format!("{length} bytes are not a full program")),
    }
}

/// Runs and unrolls the deepest slices: a call for each family, and a gate.
fn deepest_slices_run(tally: &mut Tally) -> Result<(), String> {
    let work = |tally: &mut Tally| {
        let program = deepest_slices();
        let families = SHORTENED as u64;
        let last = SHORTENED as u32 - 1;
        due(tally, &instance(&program, last, &[]), [0, 0, 1, families])?;
        due(tally, &other(&program, Call::Run), [0, 0, 1, families + 1])
    };
    on_a_deep_stack(work, tally)
}

/// Runs over neighbours in all qubits there may be, and unrolls as many.
fn far_slices(tally: &mut Tally) -> Result<(), String> {
    let mut fields = library::neighbours();
    fields.extend([
        qreg(u16::MAX),
        call(1, vec![literal(65_534)], vec![whole(0)]),
    ]);
    let program = program(&fields);
    // A loop; for each pair a round, a call and a gate. In a run, a call comes before.
    let steps = 1 + 65_534 * 3;
    let sizes = sizes(&[65_534]);
    let length = RECORD_BYTES * 65_534;
    let unrolled = instance(&program, 1, &sizes);
    let ran = other(&program, Call::Run);
    due(
        tally,
        &Question { length, ..unrolled },
        [0, 0, 65_534, steps],
    )?;
    due(
        tally,
        &Question { length, ..ran },
        [0, 0, 65_534, steps + 1],
    )
}

/// Checks a program filled with families.
fn full_library(tally: &mut Tally) -> Result<(), String> {
    let program = program(&library::large_library());
    due(tally, &other(&program, Call::Check), [0; 4])
}

/// Checks 4,000 small families.
fn small_families(tally: &mut Tally) -> Result<(), String> {
    let program = program(&library::small_families());
    due(tally, &other(&program, Call::Check), [0; 4])
}

/// Checks a program that is as long as it may be, or nearly.
fn full_check(tally: &mut Tally, fields: &[Field]) -> Result<(), String> {
    let program = program(fields);
    match program.len() {
        65_400..=65_535 => due(tally, &other(&program, Call::Check), [0; 4]),
        length => Err(format!("{length} bytes are not a full program")),
    }
}

/// Checks gates inside 8 loops, each with one loop's variable.
fn loops_in_loops(tally: &mut Tally) -> Result<(), String> {
    full_check(tally, &library::loops_in_loops())
}

/// Checks the program of calls that takes the longest for each byte.
fn called_check(tally: &mut Tally) -> Result<(), String> {
    full_check(tally, &slow::called_check())
}

/// Checks the program of slices that takes the longest for each byte.
fn sliced_check(tally: &mut Tally) -> Result<(), String> {
    full_check(tally, &slow::sliced_check())
}

/// Checks the program of gates that takes the longest for each byte, by trials.
fn tried_check(tally: &mut Tally) -> Result<(), String> {
    full_check(tally, &slow::tried_check())
}

/// Checks the program of slices that takes the longest for each byte, by trials.
fn tried_slices(tally: &mut Tally) -> Result<(), String> {
    full_check(tally, &slow::tried_slices())
}

/// Checks the program of family types that takes the longest for each byte.
fn typed_check(tally: &mut Tally) -> Result<(), String> {
    full_check(tally, &slow::typed_check())
}

/// Checks the program of passed families that takes the longest for each byte.
fn passed_check(tally: &mut Tally) -> Result<(), String> {
    full_check(tally, &slow::passed_check())
}

/// Checks the program of parameter calls that takes the longest for each byte.
fn parameter_check(tally: &mut Tally) -> Result<(), String> {
    full_check(tally, &slow::parameter_check())
}

/// Checks the program of gates on two wires that compares the most numbers for each byte.
fn paired_check(tally: &mut Tally) -> Result<(), String> {
    full_check(tally, &slow::paired_check())
}

/// Runs steps that evaluate an index of 60,000 bytes.
fn slowest_steps(tally: &mut Tally) -> Result<(), String> {
    let program = program(&slow::slowest_steps(10));
    match program.len() {
        60_000..=65_535 => due(tally, &other(&program, Call::Run), [0, 0, 10, 21]),
        length => Err(format!("{length} bytes are not 60,000 and more")),
    }
}
