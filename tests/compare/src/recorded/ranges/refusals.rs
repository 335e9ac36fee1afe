//! Every showing with the range of a loop, and with one more than it gives.

use super::{element, h, in_loop, inner_cells, n_less, over_n, reverse, shown};
use super::{BODY, OF_N, OPERAND, WHOLE};
use crate::recorded::slices::{behind_l, between, call, family, looped, number, slice};
use crate::recorded::slices::{difference, smallest, sum, variable};
use crate::recorded::{bytes, field, joined, Recorded};

/// Where the family behind L begins.
const BEHIND_L: u32 = 43;
/// Where the size of a call of L in a loop stands, and the operand behind a size of 5 bytes.
const SIZE: u32 = BEHIND_L + BODY + 4;
const ARGUMENT: u32 = SIZE + 5;

/// All rows.
pub fn rows() -> Vec<Recorded> {
    let mut rows = elements();
    rows.extend(turns());
    rows.extend(calls());
    rows.extend(slices());
    rows.extend(places());
    rows.extend(later_faults());
    rows.extend(never_run());
    rows.extend(of_no_qubit());
    rows.extend(parameters());
    rows
}

/// Elements of x:Qbit[n], for i=1..n-1: the room behind x[1] is n - 2, which leaves 0, and
/// so does the index n - 2.
fn elements() -> Vec<Recorded> {
    let at = |name, index: &[u8], accepted| shown(name, in_loop(&h(index)), accepted, OPERAND);
    vec![
        at("i=1..n-1, x[0]", &number(0), true),
        at("i=1..n-1, x[1]", &number(1), true),
        at("i=1..n-1, x[2]", &number(2), false),
        at("i=1..n-1, x[n-1]", &n_less(1), true),
        at("i=1..n-1, x[n-2]", &n_less(2), true),
        at("i=1..n-1, x[n-3]", &n_less(3), false),
    ]
}

/// The k of a phase and of a cphase.
fn turns() -> Vec<Recorded> {
    let one = element(&number(0));
    let two = element(&number(1));
    let phase = |k: &[u8]| in_loop(&field(0x28, &joined(&[k, &one])));
    let cphase = |k: &[u8]| in_loop(&field(0x29, &joined(&[k, &one, &two])));
    let row = |name, program, accepted| shown(name, program, accepted, OPERAND);
    vec![
        row("i=1..n-1, k is n-2", phase(&n_less(2)), true),
        row("i=1..n-1, k is n-3", phase(&n_less(3)), false),
        row("i=1..n-1, k of two is n-2", cphase(&n_less(2)), true),
        row("i=1..n-1, k of two is n-3", cphase(&n_less(3)), false),
    ]
}

/// A check of L at a size with an argument, in x:Qbit[n], for i=1..n-1.
fn calling(name: &str, size: &[u8], argument: &[u8], (accepted, place): (bool, u32)) -> Recorded {
    let once = call(0, &[size, argument]);
    shown(name, behind_l("", &in_loop(&once)), accepted, place)
}

/// The size of a call, and a register that is passed for it.
fn calls() -> Vec<Recorded> {
    let whole = bytes(WHOLE);
    let size = |name, less, accepted| calling(name, &n_less(less), &whole, (accepted, SIZE));
    let register =
        |name, asked, accepted| calling(name, &number(asked), &whole, (accepted, ARGUMENT));
    vec![
        size("i=1..n-1, L at n-2", 2, true),
        size("i=1..n-1, L at n-3", 3, false),
        register("i=1..n-1, x for 1", 1, true),
        register("i=1..n-1, x for 2", 2, true),
        register("i=1..n-1, x for 3", 3, false),
    ]
}

/// Each showing of a slice: n - 2 is shown, and n - 3 is not.
fn slices() -> Vec<Recorded> {
    let row = |name, size: u16, [first, last]: [&[u8]; 2], accepted| {
        let part = slice(0, first, last);
        calling(name, &number(size), &part, (accepted, ARGUMENT))
    };
    let [zero, two, three] = [0, 2, 3].map(number);
    let last = n_less(1);
    vec![
        row("a slice from n-2", 1, [&n_less(2), &n_less(2)], true),
        row("a slice from n-3", 1, [&n_less(3), &n_less(3)], false),
        row("a slice to 1", 0, [&zero, &number(1)], true),
        row("a slice to 2", 0, [&zero, &two], false),
        row("a slice of n-2 wires", 0, [&two, &last], true),
        row("a slice of n-3 wires", 0, [&three, &last], false),
        row("a slice of n-1 wires for 1", 1, [&number(1), &last], true),
        row("a slice of n-2 wires for 1", 1, [&two, &last], false),
        row("a slice of n wires for 2", 2, [&zero, &last], true),
        row("a slice of n wires for 3", 3, [&zero, &last], false),
    ]
}

/// Inside and outside the loop: the range is of use in its body only.
fn places() -> Vec<Recorded> {
    let first = h(&number(0));
    let loop_alone = inner_cells(&[]);
    let once = looped(&number(0), &number(1), &first);
    let reversed = over_n(&reverse(&inner_cells(&first)));
    // A loop without a body takes 20 bytes, one with h(x[0]) takes 32.
    let behind = over_n(&joined(&[&inner_cells(&first), &first]));
    let beside = over_n(&joined(&[&loop_alone, &once]));
    let below_one = |high: &[u8]| over_n(&looped(&number(1), high, &first));
    vec![
        shown("reverse, i=1..n-1, x[0]", reversed, true, 0),
        shown(
            "i=1..n-1, reverse, x[0]",
            in_loop(&reverse(&first)),
            true,
            0,
        ),
        shown("x[0] behind a loop", behind, false, 47),
        shown("x[0] in a loop beside", beside, false, 48),
        shown("i=1..n, x[0]", below_one(&variable(0)), true, 0),
        // The range is n in both, which leaves -1; the gates stand at 24 and at 32.
        shown(
            "i=0..n, x[0]",
            over_n(&looped(&number(0), &variable(0), &first)),
            false,
            27,
        ),
        shown(
            "i=1..n+1, x[0]",
            below_one(&sum(&variable(0), &number(1))),
            false,
            35,
        ),
    ]
}

/// A fault behind what was 12.
fn later_faults() -> Vec<Recorded> {
    let first = h(&number(0));
    let then = |body: &[u8]| in_loop(&joined(&[&first, body]));
    let kind = field(0x20, &bytes(WHOLE));
    let none = field(0x20, &bytes("30 01 00 01"));
    // 65,535 times 65,535 at 51, inside the second operand at 47.
    let past = bytes("44 0a 00 40 02 00 ff ff 40 02 00 ff ff");
    vec![
        Recorded::check("9 behind x[0]", then(&kind), 9, 47),
        Recorded::check("8 behind x[0]", then(&none), 8, 47),
        Recorded::check("12 behind x[0]", then(&h(&number(2))), 12, 47),
        Recorded::check("11 behind x[0]", then(&h(&past)), 11, 51),
        // 12 of the first operand comes before 9 of the second.
        Recorded::check(
            "12 before 9",
            in_loop(&field(
                0x23,
                &joined(&[&element(&number(2)), &bytes(WHOLE)]),
            )),
            12,
            OPERAND,
        ),
    ]
}

/// Loops that are never run: a range below 0 shows what nothing else does.
fn never_run() -> Vec<Recorded> {
    let below = difference(&number(0), &number(1));
    let program = |size: u8, high: &[u8], index: &[u8]| {
        let looped = looped(&number(0), high, &h(index));
        joined(&[&super::qubits(size), &looped])
    };
    // The loop stands at 5, its high end at 13 with 13 bytes, the gate at 26.
    let row = |name, index: &[u8], accepted| shown(name, program(1, &below, index), accepted, 29);
    // With 21 bytes of a high end the gate stands at 34.
    let far = |name, size, answer| {
        let place = if answer == 0 { 0 } else { 37 };
        Recorded::check(name, program(size, &smallest(), &smallest()), answer, place)
    };
    vec![
        row("i=0..-1, q[0] of 1", &number(0), true),
        row("i=0..-1, q[1] of 1", &number(1), true),
        row("i=0..-1, q[2] of 1", &number(2), false),
        row("i=0..-1, q[-1] of 1", &below, true),
        // -2,000,000,000 less the range is 0; the room is out of range for two qubits.
        far("the smallest index in a loop that is never run", 1, 0),
        far("its room is out of range", 2, 11),
    ]
}

/// L at a size with q[0..0] of no qubit, for i=0..-1: the loop stands at 48, the call at 69 and
/// the slice at 78.
fn of_no_qubit() -> Vec<Recorded> {
    let row = |name, size, accepted| {
        let once = call(0, &[&number(size), &between(0, 0, 0)]);
        let high = difference(&number(0), &number(1));
        let looped = looped(&number(0), &high, &once);
        let program = behind_l("02 02 00 00 00", &looped);
        shown(name, program, accepted, 78)
    };
    vec![
        row("q[0..0] of no qubit for 1 in a loop never run", 1, true),
        row("q[0..0] of no qubit for 2 in a loop never run", 2, true),
        row("q[0..0] of no qubit for 3 in a loop never run", 3, false),
    ]
}

/// The size of a parameter, where no loop is open.
fn parameters() -> Vec<Recorded> {
    let one_less = "11 0c 00 43 09 00 41 01 00 00 40 02 00 01 00";
    let alone = family(1, &[one_less], &[]);
    let before_a_loop = family(1, &[OF_N, one_less], &inner_cells(&[]));
    vec![
        Recorded::check("a parameter's size has no loops", alone, 12, 5),
        Recorded::check("nor those of the body", before_a_loop, 12, 12),
    ]
}
