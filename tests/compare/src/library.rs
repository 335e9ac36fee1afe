//! Safe bindings to the library's C interface, as far as the archive has it.

use reference::{Outcome, TextOutcome};

/// The calls and whether the archive exports each.
const CALLS: [(&str, bool); 5] = [
    ("check", cfg!(has_check)),
    ("instance", cfg!(has_instance)),
    ("run", cfg!(has_run)),
    ("instance_text", cfg!(has_instance_text)),
    ("run_text", cfg!(has_run_text)),
];

/// The result structure of the C interface.
#[cfg(any(has_check, has_instance, has_run))]
#[repr(C)]
struct Returned {
    number: u32,
    place: u32,
    records: u64,
    steps: u64,
}

#[cfg(any(has_check, has_instance, has_run))]
impl From<Returned> for Outcome {
    /// The same numbers as the reference has them.
    fn from(result: Returned) -> Outcome {
        Outcome {
            number: result.number,
            place: result.place,
            records: result.records,
            steps: result.steps,
        }
    }
}

/// The result structure of the calls that print.
#[cfg(any(has_instance_text, has_run_text))]
#[repr(C)]
struct ReturnedText {
    number: u32,
    place: u32,
    records: u64,
    steps: u64,
    length: u64,
}

#[cfg(any(has_instance_text, has_run_text))]
impl From<ReturnedText> for TextOutcome {
    /// The same numbers as the reference has them.
    fn from(result: ReturnedText) -> TextOutcome {
        TextOutcome {
            number: result.number,
            place: result.place,
            records: result.records,
            steps: result.steps,
            length: result.length,
        }
    }
}

/// The names of the calls that the archive has, or that it lacks.
fn calls(there: bool) -> Vec<&'static str> {
    let chosen = CALLS.into_iter().filter(|&(_, has)| has == there);
    chosen.map(|(name, _)| name).collect()
}

/// The names of the calls that the archive lacks.
pub fn missing() -> Vec<&'static str> {
    calls(false)
}

/// One line that says what can be compared.
pub fn status() -> String {
    match missing() {
        missing if missing.is_empty() => {
            let compared = calls(true).join(", ");
            format!("library: compared with the reference: {compared}")
        }
        missing => format!(
            "library: NOT COMPARED, not in the archive: {}; run `bash tools/build.sh metaqasm` first",
            missing.join(", ")
        ),
    }
}

/// Checks a program; none where the archive lacks the call.
#[cfg(has_check)]
pub fn check(program: &[u8]) -> Option<Outcome> {
    extern "C" {
        fn metaqasm_check(program: *const u8, program_len: usize) -> Returned;
    }
    // SAFETY: pointer and length are those of one slice, which outlives the call.
    Some(unsafe { metaqasm_check(program.as_ptr(), program.len()) }.into())
}

/// Checks a program; none where the archive lacks the call.
#[cfg(not(has_check))]
pub fn check(_: &[u8]) -> Option<Outcome> {
    None
}

/// Lists a family at sizes; none where the archive lacks the call.
#[cfg(has_instance)]
pub fn instance(
    program: &[u8],
    family: u32,
    sizes: &[u8],
    limit: u64,
    output: &mut [u8],
) -> Option<Outcome> {
    extern "C" {
        fn metaqasm_instance(
            program: *const u8,
            program_len: usize,
            family: u32,
            sizes: *const u8,
            sizes_len: usize,
            limit: u64,
            output: *mut u8,
            output_len: usize,
        ) -> Returned;
    }
    // SAFETY: pointers and lengths are those of slices that outlive the call,
    // and the output is borrowed by this call alone.
    let result = unsafe {
        metaqasm_instance(
            program.as_ptr(),
            program.len(),
            family,
            sizes.as_ptr(),
            sizes.len(),
            limit,
            output.as_mut_ptr(),
            output.len(),
        )
    };
    Some(result.into())
}

/// Lists a family at sizes; none where the archive lacks the call.
#[cfg(not(has_instance))]
pub fn instance(_: &[u8], _: u32, _: &[u8], _: u64, _: &mut [u8]) -> Option<Outcome> {
    None
}

/// Lists a whole program; none where the archive lacks the call.
#[cfg(has_run)]
pub fn run(program: &[u8], limit: u64, output: &mut [u8]) -> Option<Outcome> {
    extern "C" {
        fn metaqasm_run(
            program: *const u8,
            program_len: usize,
            limit: u64,
            output: *mut u8,
            output_len: usize,
        ) -> Returned;
    }
    // SAFETY: pointers and lengths are those of slices that outlive the call,
    // and the output is borrowed by this call alone.
    let result = unsafe {
        metaqasm_run(
            program.as_ptr(),
            program.len(),
            limit,
            output.as_mut_ptr(),
            output.len(),
        )
    };
    Some(result.into())
}

/// Lists a whole program; none where the archive lacks the call.
#[cfg(not(has_run))]
pub fn run(_: &[u8], _: u64, _: &mut [u8]) -> Option<Outcome> {
    None
}

#[cfg(has_instance_text)]
extern "C" {
    fn metaqasm_instance_text(
        program: *const u8,
        program_len: usize,
        family: u32,
        sizes: *const u8,
        sizes_len: usize,
        limit: u64,
        output: *mut u8,
        output_len: usize,
        text: *mut u8,
        text_len: usize,
    ) -> ReturnedText;
}

/// Lists a family at sizes and prints the list; none where the archive lacks the call.
#[cfg(has_instance_text)]
pub fn instance_text(
    program: &[u8],
    family: u32,
    sizes: &[u8],
    limit: u64,
    output: &mut [u8],
    text: &mut [u8],
) -> Option<TextOutcome> {
    // SAFETY: pointers and lengths are those of slices that outlive the call,
    // and output and text are borrowed by this call alone.
    let result = unsafe {
        metaqasm_instance_text(
            program.as_ptr(),
            program.len(),
            family,
            sizes.as_ptr(),
            sizes.len(),
            limit,
            output.as_mut_ptr(),
            output.len(),
            text.as_mut_ptr(),
            text.len(),
        )
    };
    Some(result.into())
}

/// Lists a family at sizes and prints the list; none where the archive lacks the call.
#[cfg(not(has_instance_text))]
pub fn instance_text(
    _: &[u8],
    _: u32,
    _: &[u8],
    _: u64,
    _: &mut [u8],
    _: &mut [u8],
) -> Option<TextOutcome> {
    None
}

#[cfg(has_run_text)]
extern "C" {
    fn metaqasm_run_text(
        program: *const u8,
        program_len: usize,
        limit: u64,
        output: *mut u8,
        output_len: usize,
        text: *mut u8,
        text_len: usize,
    ) -> ReturnedText;
}

/// Lists a whole program and prints the list; none where the archive lacks the call.
#[cfg(has_run_text)]
pub fn run_text(
    program: &[u8],
    limit: u64,
    output: &mut [u8],
    text: &mut [u8],
) -> Option<TextOutcome> {
    // SAFETY: pointers and lengths are those of slices that outlive the call,
    // and output and text are borrowed by this call alone.
    let result = unsafe {
        metaqasm_run_text(
            program.as_ptr(),
            program.len(),
            limit,
            output.as_mut_ptr(),
            output.len(),
            text.as_mut_ptr(),
            text.len(),
        )
    };
    Some(result.into())
}

/// Lists a whole program and prints the list; none where the archive lacks the call.
#[cfg(not(has_run_text))]
pub fn run_text(_: &[u8], _: u64, _: &mut [u8], _: &mut [u8]) -> Option<TextOutcome> {
    None
}
