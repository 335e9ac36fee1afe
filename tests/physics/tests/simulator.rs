//! The simulator itself: what its gates do, and what it refuses.

use physics::{branches, play, records, Complex, State};

/// The bytes of a record: op, first and second number, and k.
fn bytes(op: u8, first: u8, second: u8, k: u8) -> [u8; 12] {
    [op, 0, first, 0, second, 0, 0, 0, k, 0, 0, 0]
}

/// Records of ops with first and second number.
fn list(parts: &[(u8, u8, u8)]) -> Vec<physics::Record> {
    let whole = parts.iter();
    let whole = whole.flat_map(|&(op, first, second)| bytes(op, first, second, 0));
    records(&whole.collect::<Vec<u8>>()).unwrap()
}

/// The state after a list, from one setting.
fn after(parts: &[(u8, u8, u8)], wires: usize, from: usize) -> State {
    let mut state = State::setting(wires, from);
    play(&list(parts), &mut state).unwrap();
    state
}

#[test]
fn h_twice_is_no_change() {
    for from in 0..2 {
        assert!(after(&[(1, 0, 0), (1, 0, 0)], 1, from).equals(&State::setting(1, from)));
        assert!(!after(&[(1, 0, 0)], 1, from).equals(&State::setting(1, from)));
    }
}

#[test]
fn t_is_an_eighth_of_a_turn() {
    let half = 0.5f64.sqrt();
    let apart = after(&[(2, 0, 0)], 1, 1).amplitude(1) - Complex::new(half, half);
    assert!(apart.weight() < 1e-18);
    assert!(after(&[(2, 0, 0)], 1, 0).equals(&State::setting(1, 0)));
    assert!(after(&[(2, 0, 0); 8], 1, 1).equals(&State::setting(1, 1)));
    assert!(after(&[(2, 0, 0), (3, 0, 0)], 1, 1).equals(&State::setting(1, 1)));
    let turned = after(&[(2, 0, 0); 4], 1, 1);
    assert!(!turned.equals(&State::setting(1, 1)));
    assert!(turned.parallel(&State::setting(1, 1)));
}

#[test]
fn h_around_four_t_is_not() {
    let mut parts = vec![(1, 0, 0)];
    parts.extend([(2, 0, 0); 4]);
    parts.push((1, 0, 0));
    assert!(after(&parts, 1, 0).equals(&State::setting(1, 1)));
    assert!(after(&parts, 1, 1).equals(&State::setting(1, 0)));
}

#[test]
fn cx_changes_the_second_wire() {
    for (from, to) in [(0b00, 0b00), (0b01, 0b11), (0b10, 0b10), (0b11, 0b01)] {
        assert!(after(&[(4, 0, 1)], 2, from).equals(&State::setting(2, to)));
    }
}

/// The state of two wires after one record of wires 0 and 1, from one setting.
fn after_phase(op: u8, k: u8, from: usize) -> State {
    let mut state = State::setting(2, from);
    play(&records(&bytes(op, 0, 1, k)).unwrap(), &mut state).unwrap();
    state
}

/// Shows what an op with a k multiplies the amplitude of each setting by.
fn multiplies(op: u8, k: u8, factors: [Complex; 4]) {
    for (from, factor) in factors.into_iter().enumerate() {
        let apart = after_phase(op, k, from).amplitude(from) - factor;
        assert!(apart.weight() < 1e-18, "{op} {k} {from}");
    }
}

#[test]
fn a_phase_is_a_part_of_a_turn() {
    let half = 0.5f64.sqrt();
    let one = Complex::ONE;
    let turns = [(1.0, 0.0), (-1.0, 0.0), (0.0, 1.0), (half, half)];
    for (k, (re, im)) in (0..).zip(turns) {
        let turn = Complex::new(re, im);
        for (op, turn) in [(7, turn), (8, turn.conjugate())] {
            multiplies(op, k, [one, turn, one, turn]);
            multiplies(op + 2, k, [one, one, one, turn]);
        }
    }
    assert!(after_phase(7, 63, 1).equals(&State::setting(2, 1)));
}

#[test]
fn a_phase_of_an_eighth_is_t() {
    for (t, phase) in [(2, 7), (3, 8)] {
        assert!(after(&[(t, 0, 0)], 2, 1).equals(&after_phase(phase, 3, 1)));
    }
}

#[test]
fn cphase_of_half_a_turn_between_two_h_is_cx() {
    let gates = [bytes(1, 1, 0, 0), bytes(9, 0, 1, 1), bytes(1, 1, 0, 0)];
    let list = records(&gates.concat()).unwrap();
    for from in 0..4 {
        let mut state = State::setting(2, from);
        play(&list, &mut state).unwrap();
        assert!(state.equals(&after(&[(4, 0, 1)], 2, from)));
    }
}

#[test]
fn measuring_splits() {
    let ways = branches(&list(&[(1, 0, 0), (5, 0, 1)]), 2, State::setting(1, 0)).unwrap();
    assert_eq!(ways.len(), 2);
    for (way, value) in ways.iter().zip([false, true]) {
        assert_eq!(way.bits, [false, value]);
        assert!((way.state.weight() - 0.5).abs() < 1e-9);
        assert!(way.state.parallel(&State::setting(1, usize::from(value))));
    }
}

#[test]
fn a_condition_reads_its_bit() {
    let mut h_if_0 = bytes(1, 1, 0, 0);
    h_if_0[1] = 1;
    let kept = records(&[bytes(5, 0, 0, 0), h_if_0].concat()).unwrap();
    for from in 0..2 {
        let ways = branches(&kept, 1, State::setting(2, from)).unwrap();
        let way = ways.iter().find(|way| way.state.weight() > 0.5).unwrap();
        let unchanged = way.state.equals(&State::setting(2, from));
        assert_eq!(unchanged, from == 1);
    }
}

#[test]
fn lists_that_make_no_sense_are_refused() {
    let mut state = State::setting(2, 0);
    assert!(play(&list(&[(1, 2, 0)]), &mut state).is_err());
    assert!(play(&list(&[(4, 0, 2)]), &mut state).is_err());
    assert!(play(&list(&[(4, 1, 1)]), &mut state).is_err());
    assert!(play(&list(&[(6, 0, 0)]), &mut state).is_err());
    assert!(play(&list(&[(7, 2, 0)]), &mut state).is_err());
    assert!(play(&list(&[(9, 0, 2)]), &mut state).is_err());
    assert!(play(&list(&[(10, 1, 1)]), &mut state).is_err());
    assert!(branches(&list(&[(5, 0, 3)]), 3, state.clone()).is_err());
    assert!(branches(&list(&[(5, 2, 0)]), 3, state).is_err());
    assert!(records(&[1, 0, 0]).is_err());
    assert!(records(&bytes(1, 0, 0, 0)[..8]).is_err());
    assert!(records(&bytes(11, 0, 0, 0)).is_err());
    assert!(records(&bytes(1, 0, 0, 1)).is_err());
    assert!(records(&bytes(7, 0, 0, 64)).is_err());
    for (place, byte) in [(1, 3), (9, 1), (10, 1), (11, 1)] {
        let mut damaged = bytes(7, 0, 0, 1);
        assert!(records(&damaged).is_ok());
        damaged[place] = byte;
        assert!(records(&damaged).is_err(), "{place}");
    }
}
