//! The deepest programs are answered on the stack that the header names.

use compare::header::stack_kib;
use generate::shapes::{Shape, SHAPES};
use std::process::Command;

/// Whether a call about a shape comes to 0 on a stack of so many KiB.
fn enough(call: &str, shape: usize, kib: usize) -> bool {
    let words = [call, &shape.to_string(), &kib.to_string()];
    let child = Command::new(env!("CARGO_BIN_EXE_stack"))
        .args(words)
        .status();
    child.is_ok_and(|status| status.success())
}

/// Makes a call about every shape, each in a process of its own.
fn every_shape_has_enough(call: &str) {
    for (number, shape) in SHAPES.iter().enumerate() {
        assert!(
            enough(call, number, stack_kib(call)),
            "{call}, {}",
            shape.name
        );
    }
}

#[test]
#[cfg_attr(
    not(has_check),
    ignore = "no archive with this call; run `bash tools/build.sh metaqasm` first"
)]
fn a_check_has_enough() {
    every_shape_has_enough("check");
}

#[test]
#[cfg_attr(
    not(has_instance),
    ignore = "no archive with this call; run `bash tools/build.sh metaqasm` first"
)]
fn an_instance_has_enough() {
    every_shape_has_enough("instance");
}

#[test]
#[cfg_attr(
    not(has_run),
    ignore = "no archive with this call; run `bash tools/build.sh metaqasm` first"
)]
fn a_run_has_enough() {
    every_shape_has_enough("run");
}

#[test]
#[cfg_attr(
    not(has_instance_text),
    ignore = "no archive with this call; run `bash tools/build.sh metaqasm` first"
)]
fn an_instance_that_is_printed_has_enough() {
    every_shape_has_enough("instance_text");
}

#[test]
#[cfg_attr(
    not(has_run_text),
    ignore = "no archive with this call; run `bash tools/build.sh metaqasm` first"
)]
fn a_run_that_is_printed_has_enough() {
    every_shape_has_enough("run_text");
}

#[test]
#[cfg_attr(
    not(has_run),
    ignore = "no archive with this call; run `bash tools/build.sh metaqasm` first"
)]
fn calls_of_parameters_nest_as_deep_as_they_can_in_8_mib() {
    let passing = |(_, shape): &(usize, &Shape)| shape.passes();
    let shapes: Vec<_> = SHAPES.iter().enumerate().filter(passing).collect();
    assert!(!shapes.is_empty());
    for (number, shape) in shapes {
        for call in ["instance", "run"] {
            assert!(enough(call, number, 8_192), "{call}, {}", shape.name);
        }
    }
}

#[test]
#[cfg_attr(
    not(has_run),
    ignore = "no archive with this call; run `bash tools/build.sh metaqasm` first"
)]
fn a_stack_that_is_too_small_is_noticed() {
    assert!(enough("run", 0, stack_kib("run")));
    assert!(!enough("run", 0, 64));
}
