//! The generated cases reach every answer, and many programs are accepted.

use generate::histogram::Histogram;

#[test]
fn every_number_occurs_and_most_programs_are_accepted() {
    let histogram = Histogram::of(0..6_000);
    assert_eq!(histogram.missing(), []);
    assert_eq!(histogram.missing_ops(), []);
    assert!(histogram.accepted * 2 > histogram.cases, "half accepted");
    assert!(
        histogram.listed * 3 > histogram.cases,
        "a third with records"
    );
}

#[test]
fn a_seed_always_makes_the_same_case() {
    for seed in 0..200 {
        assert_eq!(generate::case(seed), generate::case(seed));
    }
}
