//! Writing what a command makes, to standard output or to a file.

use super::{misuse, unreadable, Answer, Options};
use std::ffi::OsString;
use std::fs;
use std::io::{self, Write};

/// Writes all of it, or says why not; a reader that has gone is no news.
pub fn write(to: &Option<OsString>, bytes: &[u8], output: &mut dyn Write) -> Answer<()> {
    if let Some(file) = to {
        let name = file.to_string_lossy();
        let failed = |error| unreadable(format!("cannot write {name}: {error}"));
        return fs::write(file, bytes).or_else(failed);
    }
    match output.write_all(bytes).and_then(|()| output.flush()) {
        Ok(()) => Ok(()),
        Err(error) if error.kind() == io::ErrorKind::BrokenPipe => unreadable(""),
        Err(error) => unreadable(format!("cannot write: {error}")),
    }
}

/// Keeps a command from writing over the file that it reads.
pub fn refuse_overwriting(options: &Options) -> Answer<()> {
    let Some(to) = &options.to else {
        return Ok(());
    };
    match (fs::canonicalize(to), fs::canonicalize(&options.file)) {
        (Ok(to), Ok(from)) if to == from && to.is_file() => {
            misuse("-o names the file that is read")
        }
        _ => Ok(()),
    }
}
