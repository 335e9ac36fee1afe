//! The programs about slices are what they are meant to be, by the reference.

use generate::build::{families, program, sizes, Field};
use generate::damage::some_slice;
use generate::histogram::Histogram;
use generate::library::{multiplier, neighbours, shortened};
use generate::random::Random;
use generate::{case, read};
use reference::{Outcome, RECORD_BYTES};
use std::collections::BTreeSet;

/// The answer about a family at sizes, and its records.
fn unrolled(fields: &[Field], family: u32, numbers: &[u32]) -> (Outcome, Vec<Vec<u8>>) {
    let mut output = vec![0; RECORD_BYTES * 70_000];
    let sizes = sizes(numbers);
    let answer = reference::instance(&program(fields), family, &sizes, 1_000_000, &mut output);
    let records = output.chunks_exact(RECORD_BYTES).map(<[u8]>::to_vec);
    (answer, records.take(answer.records as usize).collect())
}

/// The first number of a record.
fn wire(record: &[u8]) -> u16 {
    u16::from_le_bytes([record[2], record[3]])
}

#[test]
fn many_programs_have_slices_and_many_of_them_records_through_them() {
    let histogram = Histogram::of(0..6_000);
    let [accepted, sliced, through] = [
        histogram.accepted,
        histogram.sliced,
        histogram.through_slices,
    ];
    assert!(sliced * 3 > accepted, "{sliced} of {accepted}");
    assert!(through * 4 > sliced, "{through} of {sliced}");
}

#[test]
fn accepted_programs_are_read_back() {
    let accepted = (0..500).map(|seed| case(seed).program);
    for bytes in accepted.filter(|bytes| reference::check(bytes).number == 0) {
        assert_eq!(program(&read::fields(&bytes)), bytes);
    }
}

#[test]
fn a_product_has_a_toffoli_for_each_pair_and_its_inverse_is_the_list_backward() {
    for n in 0..5 {
        let (there, list) = unrolled(&multiplier(), 2, &[n]);
        let (back, mut other) = unrolled(&multiplier(), 3, &[n]);
        assert_eq!([there.number, back.number], [0, 0], "{n}");
        assert_eq!(list.len() as u32, 15 * n * n);
        other.reverse();
        let wires = |list: &[Vec<u8>]| list.iter().map(|record| wire(record)).collect();
        let both: [Vec<u16>; 2] = [wires(&list), wires(&other)];
        assert_eq!(both[0], both[1], "{n}");
        // The last gate of all is on the last wires of x and y.
        let last = list.last().map(|record| wire(record));
        assert_eq!(last, (n > 0).then(|| n as u16 - 1));
    }
}

#[test]
fn neighbours_are_two_wires_each() {
    let (answer, list) = unrolled(&neighbours(), 1, &[60_000]);
    assert_eq!(answer.number, 0);
    let first: Vec<u16> = list.iter().map(|record| wire(record)).collect();
    assert_eq!(first, (0..60_000).collect::<Vec<u16>>());
}

#[test]
fn a_wire_less_in_each_call_leads_to_the_last() {
    let fields = shortened(300);
    let (answer, list) = unrolled(&fields, families(&fields) as u32 - 1, &[]);
    assert_eq!((answer.number, answer.steps), (0, 300));
    assert_eq!(wire(&list[0]), 299);
}

#[test]
fn damaged_slices_are_turned_down_in_all_ways() {
    let mut found = BTreeSet::new();
    for seed in 0..1_000 {
        let mut fields = multiplier();
        some_slice(&mut fields, &mut Random::new(seed));
        found.insert(reference::check(&program(&fields)).number);
    }
    for number in [0, 2, 3, 4, 5, 8, 9, 10, 11, 12] {
        assert!(found.contains(&number), "{number}: {found:?}");
    }
}
