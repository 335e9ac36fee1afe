//! The command line of the tool.

use programs::tool::{self, Streams};
use std::ffi::OsString;
use std::io::{self, Read, Write};
use std::process::ExitCode;
use std::thread;

/// The stack that the work has, in bytes: statements may lie 17,000 deep in each other's calls.
const STACK: usize = 64 << 20;

fn main() -> ExitCode {
    match thread::Builder::new().stack_size(STACK).spawn(work) {
        Ok(worker) => worker.join().unwrap_or(ExitCode::FAILURE),
        Err(error) => {
            let _ = writeln!(io::stderr(), "mqasm: cannot start: {error}");
            ExitCode::FAILURE
        }
    }
}

/// Does what the command line says.
fn work() -> ExitCode {
    let words: Vec<OsString> = std::env::args_os().skip(1).collect();
    let mut input: Box<dyn Read> = match start::was_open(0) {
        true => Box::new(io::stdin()),
        false => Box::new(Closed("standard input is closed")),
    };
    let mut output: Box<dyn Write> = match start::was_open(1) {
        true => Box::new(io::stdout()),
        false => Box::new(Closed("standard output is closed")),
    };
    let code = tool::run(
        &words,
        &mut Streams {
            input: &mut input,
            output: &mut output,
            messages: &mut io::stderr(),
        },
    );
    ExitCode::from(code)
}

/// A stream that was closed before the program started.
struct Closed(&'static str);

impl Read for Closed {
    fn read(&mut self, _: &mut [u8]) -> io::Result<usize> {
        Err(io::Error::other(self.0))
    }
}

impl Write for Closed {
    fn write(&mut self, _: &[u8]) -> io::Result<usize> {
        Err(io::Error::other(self.0))
    }

    fn flush(&mut self) -> io::Result<()> {
        Ok(())
    }
}

/// Which streams were open when the program was started.
///
/// Before main, the standard library puts /dev/null in place of a closed stream,
/// and what is written there is lost without a word. So this asks earlier, among
/// the functions that run before the standard library's own start.
#[cfg(any(target_os = "linux", target_os = "macos"))]
mod start {
    use std::sync::atomic::{AtomicBool, Ordering};

    static CLOSED: [AtomicBool; 2] = [AtomicBool::new(false), AtomicBool::new(false)];

    #[used]
    #[cfg_attr(target_os = "linux", link_section = ".init_array")]
    #[cfg_attr(target_os = "macos", link_section = "__DATA,__mod_init_func")]
    static ASK: extern "C" fn() = ask;

    extern "C" {
        fn fcntl(stream: i32, command: i32, ...) -> i32;
    }

    /// The command that reads a stream's flags, and fails where it is closed.
    const READ_FLAGS: i32 = 1;

    extern "C" fn ask() {
        for (stream, closed) in (0..).zip(&CLOSED) {
            // It only looks at the stream's number, and nothing else runs yet.
            let answer = unsafe { fcntl(stream, READ_FLAGS) };
            closed.store(answer == -1, Ordering::Relaxed);
        }
    }

    /// Whether standard input (0) or output (1) was open.
    pub fn was_open(stream: usize) -> bool {
        !CLOSED[stream].load(Ordering::Relaxed)
    }
}

/// Elsewhere every stream counts as open.
#[cfg(not(any(target_os = "linux", target_os = "macos")))]
mod start {
    pub fn was_open(_: usize) -> bool {
        true
    }
}
