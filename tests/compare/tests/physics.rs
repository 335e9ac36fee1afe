//! The examples' lists, as the library writes them, do what they are meant to
//! do: the adder adds, and what is put back is put back.

use compare::library;
use physics::{checks, Calls, Outcome};

/// The answer of a call that the archive has.
fn answer(outcome: Option<Outcome>) -> Outcome {
    outcome.expect("the archive has the call")
}

/// The calls of the library.
const LIBRARY: Calls = Calls {
    instance: |program, family, sizes, limit, output| {
        answer(library::instance(program, family, sizes, limit, output))
    },
    run: |program, limit, output| answer(library::run(program, limit, output)),
};

#[test]
#[cfg_attr(
    not(all(has_instance, has_run)),
    ignore = "no archive with these calls; run `bash tools/build.sh metaqasm` first"
)]
fn every_list_of_the_library_does_what_it_is_meant_to_do() {
    let failed: Vec<String> = checks::ALL
        .iter()
        .filter_map(|(name, check)| Some(format!("{name}: {}", check(&LIBRARY).err()?)))
        .collect();
    assert!(failed.is_empty(), "{}", failed.join("\n"));
    println!("{} checks of the library's lists", checks::ALL.len());
}
