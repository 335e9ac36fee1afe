//! Every example program lists what its listings say.

use programs::{assemble, examples, listing, Example};
use std::collections::BTreeSet;
use std::fs;
use std::path::PathBuf;

fn folder() -> PathBuf {
    PathBuf::from(env!("CARGO_MANIFEST_DIR")).join("../../examples")
}

/// The names in the folder with an ending.
fn named(ending: &str) -> BTreeSet<String> {
    let entries = fs::read_dir(folder()).unwrap();
    let names = entries.map(|entry| entry.unwrap().file_name().to_string_lossy().into_owned());
    names.filter(|name| name.ends_with(ending)).collect()
}

/// What the reference lists for an example.
fn listed(example: &Example) -> String {
    let mut output = vec![0xa5; example.output];
    let outcome = match example.family {
        None => reference::run(&example.bytes, example.limit, &mut output),
        Some(family) => {
            let Example {
                bytes,
                sizes,
                limit,
                ..
            } = example;
            reference::instance(bytes, family, sizes, *limit, &mut output)
        }
    };
    listing(&output, &outcome)
}

#[test]
fn the_reference_lists_them() {
    let all = examples(&folder()).unwrap();
    assert!(all.len() >= 85);
    for example in all {
        assert_eq!(listed(&example), example.listing, "{}", example.name);
    }
}

#[test]
fn every_program_has_a_listing() {
    let all = examples(&folder()).unwrap();
    let programs: BTreeSet<String> = all.into_iter().map(|example| example.program).collect();
    assert_eq!(named(".mq"), programs);
}

#[test]
fn every_program_says_what_it_is() {
    for name in named(".mq") {
        let text = fs::read_to_string(folder().join(&name)).unwrap();
        assert!(text.starts_with("// "), "{name}");
    }
}

#[test]
fn kept_bytes_are_what_the_text_assembles_to() {
    let kept = named(".bytes");
    assert!(kept.contains("bell.bytes"));
    for name in kept {
        let text = fs::read_to_string(folder().join(name.replace(".bytes", ".mq"))).unwrap();
        let bytes = fs::read(folder().join(&name)).unwrap();
        assert_eq!(assemble(&text).unwrap().bytes, bytes, "{name}");
    }
}
