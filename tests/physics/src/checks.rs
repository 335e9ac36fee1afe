//! Checks that the examples' lists do what they are meant to do.

mod controlled;
mod fourier;
mod multiplier;
mod passing;

pub use controlled::{
    adds_under_control, ctrladd_adds_under_control, ctrladd_as_printed_adds_two_cells_only,
    ctrladd_guarded_adds_from_two_cells_on,
};
pub use fourier::{
    fourier_adder_adds, fourier_and_back_is_no_change, fourier_run_adds_one_and_one,
    fourier_transforms,
};
pub use multiplier::{
    fourier_by_slices_is_the_same, multiplier_and_back_is_no_change,
    multiplier_as_printed_loses_carries, multiplier_multiplies, multiplier_run_gives_nine,
    multiplies,
};
pub use passing::{
    multiplier_of_and_back_is_no_change, multiplier_of_both_adders_is_the_same,
    multiplier_of_multiplies, multiplier_of_run_gives_nine_twice, passed_adder_lists_as_called,
    passed_adders_add_under_control,
};

use crate::{branches, play, records, Branch, Calls, Complex, Outcome, Record, State};
use reference::RECORD_BYTES;
use std::f64::consts::FRAC_1_SQRT_2;

const BELL: &str = include_str!("../../../examples/bell.mq");
const COIN: &str = include_str!("../../../examples/coin.mq");
const TELEPORT: &str = include_str!("../../../examples/teleport.mq");
const TOFFOLI: &str = include_str!("../../../examples/toffoli.mq");
const MAJ: &str = include_str!("../../../examples/maj.mq");
const ADDER: &str = include_str!("../../../examples/adder.mq");
const ADDER_REVERSED: &str = include_str!("../../../examples/adder-reversed.mq");
const CTRLADD: &str = include_str!("../../../examples/ctrladd.mq");
const CTRLADD_PRINTED: &str = include_str!("../../../examples/ctrladd-printed.mq");
/// The text of the controlled adder on n cells.
pub const CTRLADD_GUARDED: &str = include_str!("../../../examples/ctrladd-guarded.mq");
const LOOP_DOWN: &str = include_str!("../../../examples/loop-down.mq");
const THERE_AND_BACK: &str = include_str!("../../../examples/there-and-back.mq");
const LIBRARY: &str = include_str!("../../../examples/library.mq");
const QFT: &str = include_str!("../../../examples/qft.mq");
/// The multiplier's text.
pub const MULTIPLIER: &str = include_str!("../../../examples/multiplier.mq");
/// The text of the multiplier that takes its adder as an argument.
pub const MULTIPLIER_OF: &str = include_str!("../../../examples/multiplier-of.mq");

/// What a check answers: nothing, or what went wrong.
pub type Answer = Result<(), String>;

/// A check, given the calls of an unroller.
pub type Check = fn(&Calls) -> Answer;

/// Every check by its name.
pub const ALL: [(&str, Check); 29] = [
    ("bell_pair_agrees", bell_pair_agrees),
    ("coin_is_put_back", coin_is_put_back),
    ("teleport_moves_the_state", teleport_moves_the_state),
    ("toffoli_is_a_toffoli", toffoli_is_a_toffoli),
    ("maj_is_the_majority", maj_is_the_majority),
    ("adder_adds", adder_adds),
    ("adder_and_back_is_no_change", adder_and_back_is_no_change),
    ("ctrladd_adds_under_control", ctrladd_adds_under_control),
    (
        "ctrladd_as_printed_adds_two_cells_only",
        ctrladd_as_printed_adds_two_cells_only,
    ),
    (
        "ctrladd_guarded_adds_from_two_cells_on",
        ctrladd_guarded_adds_from_two_cells_on,
    ),
    ("there_and_back_is_no_change", there_and_back_is_no_change),
    ("library_flips_what_it_names", library_flips_what_it_names),
    ("fourier_transforms", fourier_transforms),
    (
        "fourier_and_back_is_no_change",
        fourier_and_back_is_no_change,
    ),
    ("fourier_adder_adds", fourier_adder_adds),
    ("fourier_run_adds_one_and_one", fourier_run_adds_one_and_one),
    ("multiplier_multiplies", multiplier_multiplies),
    (
        "multiplier_and_back_is_no_change",
        multiplier_and_back_is_no_change,
    ),
    (
        "multiplier_as_printed_loses_carries",
        multiplier_as_printed_loses_carries,
    ),
    ("multiplier_run_gives_nine", multiplier_run_gives_nine),
    (
        "fourier_by_slices_is_the_same",
        fourier_by_slices_is_the_same,
    ),
    (
        "passed_adders_add_under_control",
        passed_adders_add_under_control,
    ),
    ("multiplier_of_multiplies", multiplier_of_multiplies),
    (
        "multiplier_of_both_adders_is_the_same",
        multiplier_of_both_adders_is_the_same,
    ),
    (
        "multiplier_of_and_back_is_no_change",
        multiplier_of_and_back_is_no_change,
    ),
    (
        "multiplier_of_run_gives_nine_twice",
        multiplier_of_run_gives_nine_twice,
    ),
    ("passed_adder_lists_as_called", passed_adder_lists_as_called),
    ("reversed_lists_are_mirrored", reversed_lists_are_mirrored),
    ("lists_of_both_calls_agree", lists_of_both_calls_agree),
];

/// Steps and output bytes that are enough for every check.
const LIMIT: u64 = 1_000_000;
const ROOM: usize = 1 << 20;

/// The records of a done run.
fn done(outcome: Outcome, output: &[u8]) -> Result<Vec<Record>, String> {
    if outcome.number != 0 {
        return Err(format!("ended with {outcome:?}"));
    }
    let length = usize::try_from(outcome.records)
        .unwrap_or(usize::MAX)
        .saturating_mul(RECORD_BYTES);
    match output.get(..length) {
        Some(bytes) => records(bytes),
        None => Err(format!("more records than the output holds: {outcome:?}")),
    }
}

/// The list of a family at some sizes.
fn family_list(
    calls: &Calls,
    text: &str,
    family: &str,
    sizes: &[u32],
) -> Result<Vec<Record>, String> {
    let program = programs::assemble(text).map_err(|error| error.to_string())?;
    let known = program.families.iter().position(|name| name == family);
    let Some(Ok(number)) = known.map(u32::try_from) else {
        return Err(format!("no family {family}"));
    };
    let sizes = programs::tool::size_bytes(sizes);
    let mut output = vec![0; ROOM];
    let outcome = (calls.instance)(&program.bytes, number, &sizes, LIMIT, &mut output);
    done(outcome, &output).map_err(|error| format!("{family} {sizes:?}: {error}"))
}

/// The list of a whole run.
fn run_list(calls: &Calls, text: &str) -> Result<Vec<Record>, String> {
    let program = programs::assemble(text).map_err(|error| error.to_string())?;
    let mut output = vec![0; ROOM];
    let outcome = (calls.run)(&program.bytes, LIMIT, &mut output);
    done(outcome, &output)
}

/// Shows that a list takes one setting to another, with amplitude 1.
fn takes(list: &[Record], wires: usize, from: usize, to: usize) -> Answer {
    let mut state = State::setting(wires, from);
    play(list, &mut state)?;
    if state.equals(&State::setting(wires, to)) {
        return Ok(());
    }
    Err(format!(
        "setting {from:b} of {wires} wires does not go to {to:b}"
    ))
}

/// Shows that a list changes no setting of its wires.
fn no_change(list: &[Record], wires: usize) -> Answer {
    (0..1 << wires).try_for_each(|setting| takes(list, wires, setting, setting))
}

/// Shows that something fails.
fn fails(answer: Answer, what: &str) -> Answer {
    match answer {
        Ok(()) => Err(format!("unexpected: {what}")),
        Err(_) => Ok(()),
    }
}

/// The Bell pair is 00 and 11 with equal amplitudes.
pub fn bell_pair_agrees(calls: &Calls) -> Answer {
    let mut state = State::setting(2, 0);
    play(&run_list(calls, BELL)?, &mut state)?;
    let half = Complex::new(FRAC_1_SQRT_2, 0.0);
    let due = [half, Complex::ZERO, Complex::ZERO, half];
    let near = |setting: usize| (state.amplitude(setting) - due[setting]).weight() < 1e-18;
    match (0..4).all(near) {
        true => Ok(()),
        false => Err(format!("no Bell pair: {state:?}")),
    }
}

/// The coin shows each side half of the time, and only 0 is thrown again.
pub fn coin_is_put_back(calls: &Calls) -> Answer {
    let ways = branches(&run_list(calls, COIN)?, 1, State::setting(1, 0))?;
    let mut again = State::setting(1, 0);
    again.h(0);
    for shown in [false, true] {
        let due = if shown {
            State::setting(1, 0)
        } else {
            again.clone()
        };
        let fits = |way: &&Branch| way.bits == [shown] && way.state.weight() > 1e-9;
        let found: Vec<_> = ways.iter().filter(fits).collect();
        let [way] = found[..] else {
            return Err(format!("{} ways show {shown}", found.len()));
        };
        if !way.state.parallel(&due) || (way.state.weight() - 0.5).abs() > 1e-9 {
            return Err(format!("the coin that shows {shown} ends wrong: {way:?}"));
        }
    }
    Ok(())
}

/// Whatever is measured, the state of wire 0 ends on wire 2.
pub fn teleport_moves_the_state(calls: &Calls) -> Answer {
    let list = run_list(calls, TELEPORT)?;
    let states = [
        (Complex::ONE, Complex::ZERO),
        (Complex::ZERO, Complex::ONE),
        (
            Complex::new(FRAC_1_SQRT_2, 0.0),
            Complex::new(-FRAC_1_SQRT_2, 0.0),
        ),
        (Complex::new(0.6, 0.0), Complex::new(0.0, 0.8)),
        (Complex::new(0.1, 0.5), Complex::new(-0.7, 0.5)),
    ];
    for (zero, one) in states {
        let ways = branches(&list, 2, State::first_wire(3, zero, one))?;
        if ways.len() != 4 {
            return Err(format!("{} ways instead of 4", ways.len()));
        }
        ways.iter().try_for_each(|way| teleported(way, zero, one))?;
    }
    Ok(())
}

/// Shows that a branch has the state on wire 2 and its bits on wires 0 and 1.
fn teleported(way: &Branch, zero: Complex, one: Complex) -> Answer {
    let mut due = State::first_wire(3, zero, one);
    for (control, target) in [(0, 2), (2, 0)] {
        due.cx(control, target);
    }
    for (wire, bit) in way.bits.iter().enumerate() {
        if *bit {
            due.flip(wire);
        }
    }
    if way.state.parallel(&due) && (way.state.weight() - 0.25).abs() < 1e-9 {
        return Ok(());
    }
    Err(format!("not teleported where bits are {:?}", way.bits))
}

/// The last of three wires changes where both others are 1.
pub fn toffoli_is_a_toffoli(calls: &Calls) -> Answer {
    let list = family_list(calls, TOFFOLI, "toffoli", &[])?;
    (0..8).try_for_each(|from: usize| {
        let both = from & (from >> 1) & 1;
        takes(&list, 3, from, from ^ (both << 2))
    })
}

/// The last of four wires changes where at least two others are 1.
pub fn maj_is_the_majority(calls: &Calls) -> Answer {
    let list = family_list(calls, MAJ, "maj", &[])?;
    (0..16).try_for_each(|from: usize| {
        let most = usize::from((from & 7).count_ones() >= 2);
        takes(&list, 4, from, from ^ (most << 3))
    })
}

/// The sum of all inputs goes onto c, and the carries onto anc.
pub fn adder_adds(calls: &Calls) -> Answer {
    (0..3).try_for_each(|n| {
        let list = family_list(calls, ADDER, "add", &[n])?;
        let cells = n as usize + 1;
        (0..1 << (3 * cells)).try_for_each(|from| takes(&list, 4 * cells, from, added(cells, from)))
    })
}

/// The setting of a, b, c and anc after an addition that started with anc 0.
fn added(cells: usize, from: usize) -> usize {
    let mask = (1 << cells) - 1;
    let (a, b) = (from & mask, (from >> cells) & mask);
    let carries_in = (a + b) ^ a ^ b;
    let sum = (a + b) & mask;
    let carries = carries_in >> 1;
    from ^ (sum << (2 * cells)) ^ (carries << (3 * cells))
}

/// The adder and then its reverse change nothing, and the adder alone does.
pub fn adder_and_back_is_no_change(calls: &Calls) -> Answer {
    for n in 0..2 {
        let wires = 4 * (n as usize + 1);
        let both = family_list(calls, ADDER_REVERSED, "add_and_back", &[n])?;
        no_change(&both, wires)?;
        let mut list = family_list(calls, ADDER_REVERSED, "add", &[n])?;
        fails(no_change(&list, wires), "the adder changes nothing")?;
        list.extend(family_list(calls, ADDER_REVERSED, "unadd", &[n])?);
        no_change(&list, wires)?;
    }
    Ok(())
}

/// A family with loops and calls and then its reverse change nothing.
pub fn there_and_back_is_no_change(calls: &Calls) -> Answer {
    for n in 0..4 {
        let wires = n as usize + 2;
        no_change(
            &family_list(calls, THERE_AND_BACK, "there_and_back", &[n])?,
            wires,
        )?;
        let mut list = family_list(calls, THERE_AND_BACK, "there", &[n])?;
        fails(no_change(&list, wires), "the way there changes nothing")?;
        list.extend(family_list(calls, THERE_AND_BACK, "back", &[n])?);
        no_change(&list, wires)?;
    }
    Ok(())
}

/// Each xorK flips the wires that are 1 in K, and the run takes y to y xor x xor 10.
pub fn library_flips_what_it_names(calls: &Calls) -> Answer {
    for constant in 1..256 {
        let list = family_list(calls, LIBRARY, &format!("xor{constant}"), &[])?;
        [0, 0b1010_0101]
            .into_iter()
            .try_for_each(|from: usize| takes(&list, 8, from, from ^ constant))?;
    }
    let list = run_list(calls, LIBRARY)?;
    let pairs: [(usize, usize); 3] = [(0, 0), (255, 0), (0b11_0101, 0b1100_0001)];
    pairs
        .into_iter()
        .try_for_each(|(x, y)| takes(&list, 16, x | y << 8, x | (y ^ x ^ 10) << 8))
}

/// A reversed list has the undone records from the last to the first.
pub fn reversed_lists_are_mirrored(calls: &Calls) -> Answer {
    let pairs = [
        (THERE_AND_BACK, "there", "back"),
        (ADDER_REVERSED, "add", "unadd"),
        (LOOP_DOWN, "down", "down_reversed"),
        (QFT, "qft", "unqft"),
        (QFT, "add", "sub"),
        (MULTIPLIER, "mult", "unmult"),
        (MULTIPLIER_OF, "mult_ripple", "unmult_ripple"),
        (MULTIPLIER_OF, "mult_fourier", "unmult_fourier"),
    ];
    for (text, forward, backward) in pairs {
        for n in 0..12 {
            let list = family_list(calls, text, forward, &[n])?;
            let undone: Option<Vec<_>> = list.iter().rev().map(|one| one.undone()).collect();
            if undone != Some(family_list(calls, text, backward, &[n])?) {
                return Err(format!("{backward} is not {forward} backward at {n}"));
            }
        }
    }
    Ok(())
}

/// A run that calls a family on registers laid out like an instance lists the same.
pub fn lists_of_both_calls_agree(calls: &Calls) -> Answer {
    let pairs = [
        (TOFFOLI, "toffoli", vec![]),
        (MAJ, "maj", vec![]),
        (ADDER, "add", vec![2]),
        (ADDER_REVERSED, "unadd", vec![1]),
        (CTRLADD, "ctrladd", vec![1]),
        (CTRLADD_GUARDED, "ctrladd", vec![3]),
    ];
    for (text, family, sizes) in pairs {
        if run_list(calls, text)? != family_list(calls, text, family, &sizes)? {
            return Err(format!("the run and the instance of {family} differ"));
        }
    }
    Ok(())
}
