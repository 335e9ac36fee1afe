//! Prints the smallest stack on which the library answers the deepest programs,
//! beside what include/metaqasm.h says, and fails where the header says less.
//!
//! Use: `stack`. Each call is made in a process of its own, on a thread whose
//! stack is the smallest that will do; what the thread itself takes counts too.
//!
//! `stack CALL SHAPE KIB` makes one call (check, instance, run, instance_text or
//! run_text) about the shape with that number, and fails where it does not come to 0.

use compare::ask::ask_library;
use compare::{header, library, Call, Question};
use generate::build::{families, program};
use generate::shapes::{Shape, SHAPES};
use std::io::Write;
use std::process::{Command, ExitCode, Stdio};

/// A page in KiB; stacks are whole pages.
const PAGE: usize = 4;
/// The most pages that are tried.
const MOST: usize = 65_536 / PAGE;
const USE: &str = "use: stack, without arguments";

/// What a call is about: a program, and its last family with sizes.
struct Deepest {
    program: Vec<u8>,
    family: u32,
    sizes: Vec<u8>,
}

impl Deepest {
    /// The program of a shape that is deepest for a call.
    fn of(call: &str, shape: &Shape) -> Deepest {
        let fields = match call {
            "check" => shape.deepest_indexes(),
            _ => shape.deepest(),
        };
        Deepest {
            program: program(&fields),
            family: families(&fields) as u32 - 1,
            sizes: shape.sizes(),
        }
    }
}

/// Makes a call; fails if it does not come to 0.
fn once(call: &str, deepest: &Deepest) -> Result<(), String> {
    let (family, sizes) = (deepest.family, &deepest.sizes);
    let question = Question {
        program: &deepest.program,
        call: match call {
            "check" => Call::Check,
            "instance" | "instance_text" => Call::Instance { family, sizes },
            _ => Call::Run,
        },
        limit: u64::MAX,
        length: 64,
        text: call.ends_with("_text").then_some(200),
    };
    match ask_library(&question, &mut [0; 64], &mut [0; 200]) {
        Some(outcome) if outcome.number == 0 => Ok(()),
        other => Err(format!("{call} gives {other:?}")),
    }
}

/// Makes one call on a thread with a stack of so many KiB.
fn on_a_thread(words: &[String]) -> Result<(), String> {
    let [call, shape, kib] = words else {
        return Err(USE.into());
    };
    let shape = shape.parse().ok().and_then(|n: usize| SHAPES.get(n));
    let (Some(shape), Ok(kib)) = (shape, kib.parse::<usize>()) else {
        return Err(USE.into());
    };
    let (call, deepest) = (call.clone(), Deepest::of(call, shape));
    let thread = std::thread::Builder::new()
        .stack_size(kib << 10)
        .spawn(move || once(&call, &deepest))
        .map_err(|error| format!("no thread: {error}"))?;
    thread.join().map_err(|_| "the thread failed")?
}

/// Whether a call ends well on a stack of so many pages.
fn enough(call: &str, shape: usize, pages: usize) -> Result<bool, String> {
    let me = std::env::current_exe().map_err(|error| format!("no program: {error}"))?;
    let words = [call, &shape.to_string(), &(pages * PAGE).to_string()];
    let child = Command::new(me).args(words).stderr(Stdio::null()).status();
    let status = child.map_err(|error| format!("no process: {error}"))?;
    Ok(status.success())
}

/// The smallest stack that will do, in KiB.
fn smallest(call: &str, shape: usize) -> Result<usize, String> {
    let (mut less, mut will_do) = (0, MOST);
    if !enough(call, shape, will_do)? {
        let kib = will_do * PAGE;
        let name = SHAPES[shape].name;
        return Err(format!("{call} fails on {kib} KiB: {name}"));
    }
    while will_do - less > 1 {
        let pages = (less + will_do) / 2;
        match enough(call, shape, pages)? {
            true => will_do = pages,
            false => less = pages,
        }
    }
    Ok(will_do * PAGE)
}

/// Writes one line to standard output.
fn say(line: &str) -> Result<(), String> {
    writeln!(std::io::stdout(), "{line}").map_err(|error| format!("standard output: {error}"))
}

/// Measures a call for all shapes and gives the most that it needs, in KiB.
fn need(call: &str) -> Result<usize, String> {
    let mut most = 0;
    for (number, shape) in SHAPES.iter().enumerate() {
        let kib = smallest(call, number)?;
        say(&format!("{call:13} {:26} {kib:6} KiB", shape.name))?;
        most = most.max(kib);
    }
    Ok(most)
}

/// Prints a need beside what the header says; fails where that is less.
fn held(what: &str, call: &str, need: usize) -> Result<(), String> {
    let said = header::stack_kib(call);
    say(&format!(
        "{what} needs at most {need} KiB; the header says {said} KiB"
    ))?;
    match need <= said {
        true => Ok(()),
        false => Err(format!("{what} needs more than the header says")),
    }
}

/// Measures all calls.
fn measure() -> Result<(), String> {
    if let [one, ..] = library::missing()[..] {
        return Err(format!("the archive lacks the call {one}"));
    }
    let check = need("check")?;
    let mut most = check;
    for call in ["instance", "run", "instance_text", "run_text"] {
        most = most.max(need(call)?);
    }
    held("a check alone", "check", check)?;
    held("a call", "run", most)
}

fn main() -> ExitCode {
    let words: Vec<String> = std::env::args_os()
        .skip(1)
        .map(|word| word.to_string_lossy().into_owned())
        .collect();
    let done = match words.is_empty() {
        true => measure(),
        false => on_a_thread(&words),
    };
    match done {
        Ok(()) => ExitCode::SUCCESS,
        Err(message) => {
            eprintln!("stack: {message}");
            ExitCode::FAILURE
        }
    }
}
