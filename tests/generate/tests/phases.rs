//! The programs about phases are what they are meant to be, by the reference.

use generate::build::{program, sizes, Field};
use generate::damage::some_phase;
use generate::library::{approximate_fourier, fourier};
use generate::random::Random;
use reference::{Outcome, RECORD_BYTES};

/// The answer and the ops of both families of a transform at a size.
fn both(fields: &[Field], size: u32) -> [(Outcome, Vec<u8>); 2] {
    let bytes = program(fields);
    [0, 1].map(|family| {
        let mut output = vec![0; RECORD_BYTES * 20_000];
        let sizes = sizes(&[size]);
        let answer = reference::instance(&bytes, family, &sizes, 1_000_000, &mut output);
        let records = output.chunks_exact(RECORD_BYTES);
        let ops = records.take(answer.records as usize);
        (answer, ops.map(|record| record[0]).collect())
    })
}

/// How many times an op is among those of a list.
fn count(ops: &[u8], op: u8) -> usize {
    ops.iter().filter(|&&found| found == op).count()
}

#[test]
fn a_transform_has_a_gate_for_each_wire_and_a_phase_for_each_pair() {
    for wires in [0_usize, 1, 2, 10, 63] {
        let pairs = wires * wires.saturating_sub(1) / 2;
        let [(one, there), (two, back)] = both(&fourier(), wires as u32);
        assert_eq!([one.number, two.number], [0, 0], "{wires}");
        assert_eq!([count(&there, 1), count(&there, 9)], [wires, pairs]);
        assert_eq!([count(&back, 1), count(&back, 10)], [wires, pairs]);
        assert_eq!(there.len(), wires + pairs);
        assert_eq!(back.len(), wires + pairs);
    }
}

#[test]
fn a_transform_of_64_wires_ends_where_its_k_is_64() {
    let [(there, _), (back, ops)] = both(&fourier(), 64);
    // Forward the first wire with the last one; backward all but the gate and the 62
    // phases of the first wire come before.
    assert_eq!([there.number, back.number], [32, 32]);
    assert_eq!([there.records, back.records], [63, 63 + 63 * 62 / 2]);
    assert_eq!(count(&ops, 10), 63 * 62 / 2);
}

#[test]
fn the_transform_that_leaves_parts_out_runs_at_any_size() {
    for more in [0_usize, 1, 100] {
        let [(one, there), (two, back)] = both(&approximate_fourier(), more as u32);
        assert_eq!([one.number, two.number], [0, 0], "{more}");
        let phases = 62 * more + 62 * 61 / 2;
        assert_eq!([count(&there, 1), count(&there, 9)], [more + 62, phases]);
        assert_eq!([count(&back, 1), count(&back, 10)], [more + 62, phases]);
    }
}

#[test]
fn damaged_phases_are_turned_down_in_all_ways() {
    let mut found = std::collections::BTreeSet::new();
    for seed in 0..500 {
        let mut fields = fourier();
        some_phase(&mut fields, &mut Random::new(seed));
        found.insert(reference::check(&program(&fields)).number);
    }
    for number in [0, 3, 4, 8, 10, 12] {
        assert!(found.contains(&number), "{number}: {found:?}");
    }
}
