//! Looks for the library's static archives and sees which calls they export.
//!
//! The archives stand in the folder that METAQASM_LIB_DIR names, or else in
//! target/staticlib of the repository. For each call found there, the cfg
//! has_check, has_instance, has_run, has_instance_text, has_run_text or
//! has_showing is set; nothing needs to be edited when a call arrives.

use std::path::{Path, PathBuf};

/// The archives, each with the calls that it may export.
const ARCHIVES: [(&str, &[&str]); 2] = [
    (
        "metaqasm",
        &["check", "instance", "run", "instance_text", "run_text"],
    ),
    ("showing", &["showing"]),
];
/// An archive starts with 8 bytes of its own and the header of its symbol list.
const LIST: usize = 8 + 60;

/// The folder in which the archives are looked for.
fn folder() -> PathBuf {
    match std::env::var_os("METAQASM_LIB_DIR") {
        Some(folder) => PathBuf::from(folder),
        None => {
            let here = std::env::var_os("CARGO_MANIFEST_DIR").unwrap_or_default();
            Path::new(&here).join("../../target/staticlib")
        }
    }
}

/// The names in the archive's symbol list, or none where it has no such list.
fn symbols(archive: &[u8]) -> Option<Vec<&[u8]>> {
    if !archive.starts_with(b"!<arch>\n/ ") {
        return None;
    }
    let count = archive.get(LIST..LIST + 4)?;
    let count = u32::from_be_bytes(count.try_into().ok()?) as usize;
    let names = archive.get(LIST + 4 + 4 * count..)?;
    Some(names.split(|&byte| byte == 0).take(count).collect())
}

/// The calls that the archive exports, of those that it may.
fn exported(archive: &[u8], calls: &[&'static str]) -> Vec<&'static str> {
    let Some(symbols) = symbols(archive) else {
        println!("cargo::warning=the library's archive has no list of symbols");
        return Vec::new();
    };
    let has = |call: &&str| symbols.contains(&format!("metaqasm_{call}").as_bytes());
    calls.iter().copied().filter(has).collect()
}

/// Links an archive and says which of its calls are there.
fn link(folder: &Path, name: &str, calls: &[&'static str]) {
    let path = folder.join(format!("lib{name}.a"));
    println!("cargo::rerun-if-changed={}", path.display());
    let calls = match std::fs::read(&path) {
        Ok(archive) => exported(&archive, calls),
        Err(_) => Vec::new(),
    };
    if calls.is_empty() {
        println!("cargo::warning=no call of lib{name}.a is compared, and the tests that do are ignored: there is no such archive with one");
        return;
    }
    println!("cargo::rustc-link-lib=static={name}");
    for call in calls {
        println!("cargo::rustc-cfg=has_{call}");
    }
}

fn main() {
    println!("cargo::rerun-if-changed=build.rs");
    println!("cargo::rerun-if-env-changed=METAQASM_LIB_DIR");
    let folder = folder();
    println!("cargo::rustc-link-search=native={}", folder.display());
    for (name, calls) in ARCHIVES {
        for call in calls {
            println!("cargo::rustc-check-cfg=cfg(has_{call})");
        }
        link(&folder, name, calls);
    }
}
