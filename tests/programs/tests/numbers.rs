//! The plain sentences and the version are those of the files that C includes.

use generate::histogram::all_numbers;
use programs::{meaning, numbers, version};
use std::collections::BTreeSet;

const NUMBERS: &str = include_str!("../../../include/metaqasm_numbers.def");
const HEADER: &str = include_str!("../../../include/metaqasm.h");

/// The numbers that no input is turned down with: done, and a text that does not fit.
const DONE: u32 = 0;
const TEXT_FULL: u32 = 30;

#[test]
fn every_number_has_its_sentence() {
    let values: Vec<u32> = numbers().iter().map(|known| known.value).collect();
    let due: BTreeSet<u32> = [DONE, TEXT_FULL].into_iter().chain(all_numbers()).collect();
    assert!(due.contains(&13) && due.contains(&27));
    assert_eq!(values, due.into_iter().collect::<Vec<u32>>());
    for known in numbers() {
        assert_eq!(meaning(known.value), known.message);
        assert!(!known.message.is_empty() && !known.name.is_empty());
    }
    assert_eq!(meaning(14), "a number without a meaning");
}

#[test]
fn no_entry_is_passed_over() {
    let entries = NUMBERS
        .lines()
        .filter(|line| line.starts_with("METAQASM_NUMBER("));
    assert_eq!(entries.count(), numbers().len());
    let names: BTreeSet<&str> = numbers().iter().map(|known| known.name).collect();
    assert_eq!(names.len(), numbers().len());
    assert_eq!(meaning(1), "the program is longer than 65,535 bytes");
}

#[test]
fn the_version_is_the_headers() {
    let quoted = format!("\"{}\"", version());
    let defines = |line: &str| line.starts_with("#define METAQASM_VERSION ");
    let line = HEADER.lines().find(|line| defines(line)).unwrap();
    assert!(line.contains(&quoted), "{line}");
}
