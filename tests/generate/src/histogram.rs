//! Counts of the answers that the reference gives to generated cases.

use crate::build::{program, Field};
use crate::case::{case, Case};
use crate::read;
use reference::{Outcome, RECORD_BYTES};
use std::collections::BTreeMap;
use std::ops::Range;

/// All numbers that an input can be turned down with.
pub fn all_numbers() -> impl Iterator<Item = u32> {
    (1..=13).chain(20..=27).chain(31..=35)
}

/// All ops that a record can have.
pub const ALL_OPS: std::ops::RangeInclusive<u8> = 1..=10;

/// How often check, instance and run gave each number, and what they wrote.
#[derive(Default)]
pub struct Histogram {
    /// By number: how often check, instance and run gave it.
    pub counts: BTreeMap<u32, [u64; 3]>,
    pub cases: u64,
    pub accepted: u64,
    /// Accepted programs for which instance or run wrote a record.
    pub listed: u64,
    /// Accepted programs with slices, and those of which a list is shorter without the
    /// calls that pass them.
    pub sliced: u64,
    pub through_slices: u64,
    /// Accepted programs that call parameters, and those of which a list is shorter without
    /// these calls.
    pub passing: u64,
    pub through_passed: u64,
    pub records: u64,
    pub longest: u64,
    /// By op: how many records have it.
    pub ops: BTreeMap<u8, u64>,
}

impl Histogram {
    /// The histogram of a range of seeds.
    pub fn of(seeds: Range<u64>) -> Histogram {
        let mut histogram = Histogram::default();
        for seed in seeds {
            histogram.add(&case(seed));
        }
        histogram
    }

    /// Adds one case.
    fn add(&mut self, case: &Case) {
        let mut output = vec![0; case.output];
        let checked = reference::check(&case.program);
        let unrolled = unrolled(case, &mut output);
        self.count_ops(&output, unrolled);
        let ran = reference::run(&case.program, case.limit, &mut output);
        self.count_ops(&output, ran);
        self.cases += 1;
        self.accepted += u64::from(checked.number == 0);
        self.listed += u64::from(unrolled.records + ran.records > 0);
        self.records += unrolled.records + ran.records;
        self.longest = self.longest.max(unrolled.records).max(ran.records);
        self.count([checked, unrolled, ran]);
        if checked.number == 0 {
            self.count_made(case, unrolled.records + ran.records);
        }
    }

    /// Counts what an accepted case is made of, whose two lists have so many records.
    fn count_made(&mut self, case: &Case, records: u64) {
        let fields = read::fields(&case.program);
        let shorter = |without: Vec<Field>| u64::from(listed(case, &without) < records);
        if read::has_slices(&fields) {
            self.sliced += 1;
            self.through_slices += shorter(read::without_slices(&fields));
        }
        if read::has_parameter_calls(&fields) {
            self.passing += 1;
            self.through_passed += shorter(read::without_parameter_calls(&fields));
        }
    }

    /// Counts the numbers of the three answers.
    fn count(&mut self, answers: [Outcome; 3]) {
        for (call, answer) in answers.iter().enumerate() {
            self.counts.entry(answer.number).or_default()[call] += 1;
        }
    }

    /// Counts the ops of the records that a call wrote.
    fn count_ops(&mut self, output: &[u8], answer: Outcome) {
        let records = output.chunks_exact(RECORD_BYTES);
        for record in records.take(answer.records as usize) {
            *self.ops.entry(record[0]).or_default() += 1;
        }
    }

    /// The ops that no record had.
    pub fn missing_ops(&self) -> Vec<u8> {
        ALL_OPS.filter(|op| !self.ops.contains_key(op)).collect()
    }

    /// The numbers that did not occur.
    pub fn missing(&self) -> Vec<u32> {
        all_numbers()
            .filter(|number| !self.counts.contains_key(number))
            .collect()
    }
}

/// How many records the two lists of a case have with other fields.
fn listed(case: &Case, fields: &[Field]) -> u64 {
    let other = Case {
        program: program(fields),
        ..case.clone()
    };
    let mut output = vec![0; case.output];
    let unrolled = unrolled(&other, &mut output);
    let ran = reference::run(&other.program, case.limit, &mut output);
    unrolled.records + ran.records
}

/// The answer about a case's family.
fn unrolled(case: &Case, output: &mut [u8]) -> Outcome {
    let (program, sizes) = (&case.program, &case.sizes);
    reference::instance(program, case.family, sizes, case.limit, output)
}
