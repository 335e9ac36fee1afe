//! The example programs and what each lists.
//!
//! The first line of a `.list` file is the command that makes the rest of it,
//! as `// mqasm list adder.mq --family add --sizes 2`. A complete list has a file
//! of the same name that ends in `.qasm`, with what `mqasm qasm` writes.

use crate::tool::{self, Command, Options};
use std::ffi::OsString;
use std::fs;
use std::path::{Path, PathBuf};

/// One listing of an example program.
#[derive(Clone, Debug)]
pub struct Example {
    /// The name of the file that holds the listing.
    pub name: String,
    /// The name of the file that holds the program.
    pub program: String,
    /// The program bytes.
    pub bytes: Vec<u8>,
    /// The family of an instance; none for a whole run.
    pub family: Option<u32>,
    /// The sizes of an instance, four bytes for each.
    pub sizes: Vec<u8>,
    /// The step limit.
    pub limit: u64,
    /// The length of the output in bytes.
    pub output: usize,
    /// The lines that are due.
    pub listing: String,
    /// The text of OpenQASM that is due, where the listing has one beside it.
    pub qasm: Option<String>,
}

/// Reads every listing in a folder, by name.
pub fn examples(folder: &Path) -> Result<Vec<Example>, String> {
    let mut paths = Vec::new();
    let entries = fs::read_dir(folder).map_err(|error| said(folder, error))?;
    for entry in entries {
        let path = entry.map_err(|error| said(folder, error))?.path();
        if path.extension().is_some_and(|ending| ending == "list") {
            paths.push(path);
        }
    }
    paths.sort();
    paths.iter().map(|path| example(folder, path)).collect()
}

/// A message about a path.
fn said(path: &Path, message: impl std::fmt::Display) -> String {
    format!("{}: {message}", path.display())
}

/// Reads one listing and assembles its program.
fn example(folder: &Path, path: &PathBuf) -> Result<Example, String> {
    let text = fs::read_to_string(path).map_err(|error| said(path, error))?;
    let (command, listing) = text.split_once('\n').unwrap_or((&text, ""));
    let Some(words) = command.strip_prefix("// mqasm list ") else {
        return Err(said(path, "the first line is not '// mqasm list ..'"));
    };
    let words: Vec<OsString> = words.split_whitespace().map(OsString::from).collect();
    let stopped = |stop: tool::Stop| said(path, stop.message);
    let mut options: Options = tool::options(&words, Command::List).map_err(stopped)?;
    let program = options.file.to_string_lossy().into_owned();
    options.file = folder.join(&program).into_os_string();
    let loaded = tool::load(&options, &mut std::io::empty()).map_err(stopped)?;
    let family = loaded.family(&options).map_err(stopped)?;
    let sizes = match family {
        None => Vec::new(),
        Some(number) => tool::sizes_in_order(&options, &loaded, number).map_err(stopped)?,
    };
    Ok(Example {
        name: path
            .file_name()
            .unwrap_or_default()
            .to_string_lossy()
            .into_owned(),
        program,
        family,
        bytes: loaded.bytes,
        sizes: tool::size_bytes(&sizes),
        limit: options.limit,
        output: options.output,
        listing: listing.to_string(),
        qasm: beside(path)?,
    })
}

/// Reads the text of OpenQASM beside a listing, if there is one.
fn beside(listing: &Path) -> Result<Option<String>, String> {
    let path = listing.with_extension("qasm");
    match fs::read_to_string(&path) {
        Ok(text) => Ok(Some(text)),
        Err(error) if error.kind() == std::io::ErrorKind::NotFound => Ok(None),
        Err(error) => Err(said(&path, error)),
    }
}
