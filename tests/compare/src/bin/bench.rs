//! Prints how fast the library and the reference are, side by side.
//!
//! Use: `bench`, or `bench ROW` for the rows whose names begin so, built for
//! release. Each time is the best of several rounds, in which both have their turn,
//! and is the thread's processor time, so that other work on the machine disturbs it
//! little. The output has been written once before, so its pages are there. The last
//! column is the time of a plain copy of as many bytes of output and text. A check is
//! told in nanoseconds for each byte of the program, a very short call in
//! microseconds.
//!
//! A row that prints has a second line: what the printing takes by itself, which is
//! the time of the call less that of the same call without text.

use compare::ask::{ask_library, ask_reference};
use compare::harness::whole_text;
use compare::{library, slow, Call, Question, Who};
use generate::build::*;
use generate::{library as programs, texts};
use reference::{TextOutcome, RECORD_BYTES};
use std::hint::black_box;
use std::io::Write;
use std::process::ExitCode;
use std::time::{Duration, Instant};

/// How long one measurement goes on.
const ENOUGH: Duration = Duration::from_millis(1_500);
/// The fewest and the most rounds of one measurement.
const ROUNDS: std::ops::Range<usize> = 3..10_000;

/// What is measured.
struct Workload {
    name: &'static str,
    program: Vec<u8>,
    /// The family and sizes of an instance; none for check or run.
    instance: Option<(u32, Vec<u8>)>,
    runs: bool,
    prints: bool,
    records: usize,
}

impl Workload {
    /// A check.
    fn check(name: &'static str, fields: &[Field]) -> Workload {
        Workload {
            name,
            program: program(fields),
            instance: None,
            runs: false,
            prints: false,
            records: 0,
        }
    }

    /// A whole run that writes so many records and prints them.
    fn text(name: &'static str, fields: &[Field], records: usize) -> Workload {
        Workload {
            prints: true,
            ..Workload::run(name, fields, records)
        }
    }

    /// A whole run that writes so many records.
    fn run(name: &'static str, fields: &[Field], records: usize) -> Workload {
        Workload {
            runs: true,
            records,
            ..Workload::check(name, fields)
        }
    }

    /// An instance at some sizes that writes so many records.
    fn instance(
        name: &'static str,
        fields: &[Field],
        (family, numbers): (u32, &[u32]),
        records: usize,
    ) -> Workload {
        Workload {
            instance: Some((family, sizes(numbers))),
            ..Workload::run(name, fields, records)
        }
    }

    /// The question that is asked in each round, with just enough room.
    fn question(&self) -> Question<'_> {
        let listing = self.listing();
        let text = self.prints.then(|| whole_text(&listing).len());
        Question { text, ..listing }
    }

    /// The same question without text.
    fn listing(&self) -> Question<'_> {
        Question {
            program: &self.program,
            call: match &self.instance {
                Some((family, sizes)) => Call::Instance {
                    family: *family,
                    sizes,
                },
                None if self.runs => Call::Run,
                None => Call::Check,
            },
            limit: u64::MAX,
            length: RECORD_BYTES * self.records,
            text: None,
        }
    }
}

/// A loop that calls a family so many times on one wire.
fn calls(family: u16, times: u16) -> Vec<Field> {
    let once = call(family, vec![], vec![at(0, 0)]);
    vec![qreg(1), repeat(literal(1), literal(times), vec![once])]
}

/// Lists that are written through slices: z[i..i+n-1] in a loop, two wires each time, and
/// slices of slices.
fn sliced() -> Vec<Workload> {
    let product = programs::multiplier();
    let gates = 15 * 100 * 100;
    let pairs = programs::neighbours();
    let mut deep = programs::shortened(254);
    let once = call(253, vec![], vec![whole(0)]);
    deep.extend([qreg(254), repeat(literal(1), literal(2_000), vec![once])]);
    vec![
        Workload::instance("multiplier, 400 wires", &product, (2, &[100]), gates),
        Workload::instance("multiplier reversed", &product, (3, &[100]), gates),
        Workload::instance("pairs by slices", &pairs, (1, &[65_534]), 65_534),
        Workload::run("slices of slices", &deep, 2_000),
    ]
}

/// Lists that are written through parameters: a parameter's call for each wire of a product,
/// and families that pass the one before to each other.
fn passed_on() -> Vec<Workload> {
    let product = programs::passed_multiplier();
    let gates = 15 * 100 * 100;
    let mut deep = programs::passed_on(254, 16);
    deep.extend(calls(506, 1_000));
    vec![
        Workload::instance("passed multiplier", &product, (3, &[100]), gates),
        Workload::instance("passed, reversed", &product, (4, &[100]), gates),
        Workload::run("deep parameter calls", &deep, 1_000),
    ]
}

/// Everything that is measured.
fn workloads() -> Vec<Workload> {
    let mut rows = checks();
    rows.extend(lists());
    rows.extend(sliced());
    rows.extend(passed_on());
    rows.extend(small_calls());
    rows.extend(printed());
    rows
}

/// Lists that are printed.
fn printed() -> Vec<Workload> {
    let bell = programs::bell();
    vec![
        Workload::text("text, cx on 5 digits", &texts::far_pairs(), 2 * 55_534),
        Workload::text("text, h on 1 digit", &texts::near_gates(), 100_000),
        Workload::text("text, a million", &texts::a_million(), 1_000_000),
        Workload::text("text, conditioned", &texts::conditioned(), 100_000),
        Workload::text("text, measured", &texts::measured(), 3_000),
        Workload::text("text, phases", &texts::turned(), 51_200),
        Workload::text("text, 65,535 bits", &texts::most_bits(), 0),
        Workload::text("text, Bell", &bell, 2),
    ]
}

/// Checks of the largest programs.
fn checks() -> Vec<Workload> {
    let (library, small) = (programs::large_library(), programs::small_families());
    let loops = programs::loops_in_loops();
    vec![
        Workload::check("check, a full library", &library),
        Workload::check("check, 4,000 families", &small),
        Workload::check("check, loops in loops", &loops),
        Workload::check("check, calls", &slow::called_check()),
        Workload::check("check, slices", &slow::sliced_check()),
        Workload::check("check, tried", &slow::tried_check()),
        Workload::check("check, tried slices", &slow::tried_slices()),
        Workload::check("check, family types", &slow::typed_check()),
        Workload::check("check, passed families", &slow::passed_check()),
        Workload::check("check, parameter calls", &slow::parameter_check()),
        Workload::check("check, two wires", &slow::paired_check()),
    ]
}

/// Calls about the smallest program.
fn small_calls() -> Vec<Workload> {
    let (bell, family) = (programs::bell(), programs::bell_family());
    vec![
        Workload::check("Bell, a check", &bell),
        Workload::run("Bell, a whole run", &bell, 2),
        Workload::instance("Bell, an instance", &family, (0, &[]), 2),
    ]
}

/// Lists that are not printed.
fn lists() -> Vec<Workload> {
    let adder = programs::reversed_adder();
    let gates = 17 + 7_999 * 35;
    let nested = programs::nested_loops();
    let mut deep = programs::deep_calls(254, 16);
    deep.extend(calls(253, 2_000));
    let mut lists = programs::deep_lists(254, 16);
    lists.extend(calls(253, 500));
    let mut forward = vec![programs::gate_list(9_000, false)];
    forward.extend(calls(0, 100));
    let mut backward = vec![programs::gate_list(9_000, true)];
    backward.extend(calls(0, 100));
    let short = programs::short_reversals(6);
    let fourier = programs::approximate_fourier();
    let turns = 5_000 * 63 + 62 + 62 * 61 / 2;
    let rounds = programs::empty_rounds();
    let slow_steps = slow::slowest_steps(1_000);
    vec![
        Workload::instance("adder, 8,000 bits", &adder, (2, &[7_999]), gates),
        Workload::instance("adder reversed", &adder, (3, &[7_999]), gates),
        Workload::instance("nested loop", &nested, (0, &[700]), 2 * 700 * 700),
        Workload::instance("Fourier, 5,062 wires", &fourier, (0, &[5_000]), turns),
        Workload::instance("Fourier reversed", &fourier, (1, &[5_000]), turns),
        Workload::run("deep calls", &deep, 2_000),
        Workload::run("deep lists", &lists, 500 * (254 * 15 + 1)),
        Workload::run("long list", &forward, 100 * 9_000),
        Workload::run("long list reversed", &backward, 100 * 9_000),
        Workload::instance("short reversed bodies", &short, (0, &[50_000]), 6 * 50_000),
        Workload::run("empty rounds", &rounds, 0),
        Workload::run("1,000 slowest steps", &slow_steps, 1_000),
    ]
}

/// The processor time that this thread has used, in seconds.
fn used() -> f64 {
    #[repr(C)]
    struct Timespec {
        seconds: i64,
        nanoseconds: i64,
    }
    extern "C" {
        fn clock_gettime(clock: i32, time: *mut Timespec) -> i32;
    }
    const THREAD_CPUTIME: i32 = 3;
    let mut time = Timespec {
        seconds: 0,
        nanoseconds: 0,
    };
    // Linux writes the two numbers of `time`, which is lent for this call only.
    let status = unsafe { clock_gettime(THREAD_CPUTIME, &mut time) };
    assert_eq!(status, 0, "no clock for the thread's processor time");
    time.seconds as f64 + time.nanoseconds as f64 * 1e-9
}

/// The time of one round, in seconds: of several in a row where one is too short to be timed.
fn timed(repeats: usize, round: &mut dyn FnMut()) -> f64 {
    let start = used();
    for _ in 0..repeats {
        round();
    }
    (used() - start) / repeats as f64
}

/// How many rounds in a row take long enough to be timed, a fifth of a millisecond.
fn repeats(round: &mut dyn FnMut()) -> usize {
    let once = timed(1, round).max(1e-8);
    (2e-4 / once).ceil() as usize
}

/// What is timed.
type Round<'r> = Box<dyn FnMut() + 'r>;

/// The best time of a round of each, in turn, in seconds.
fn best(contenders: &mut [Round]) -> Vec<f64> {
    let repeats: Vec<usize> = contenders.iter_mut().map(|round| repeats(round)).collect();
    let mut best = vec![f64::INFINITY; contenders.len()];
    let begun = Instant::now();
    let mut rounds = 0;
    while rounds < ROUNDS.start || (begun.elapsed() < ENOUGH && rounds < ROUNDS.end) {
        for (number, round) in contenders.iter_mut().enumerate() {
            best[number] = best[number].min(timed(repeats[number], round));
        }
        rounds += 1;
    }
    best
}

/// One who is asked a question again and again, with buffers of its own.
struct Contender<'q> {
    who: Who,
    question: Question<'q>,
    output: Vec<u8>,
    text: Vec<u8>,
}

impl<'q> Contender<'q> {
    /// Someone and what is asked, before the first time.
    fn new(who: Who, question: Question<'q>) -> Contender<'q> {
        let (output, text) = (question.length, question.text.unwrap_or(0));
        Contender {
            who,
            question,
            output: vec![0; output],
            text: vec![0; text],
        }
    }

    /// The answer; none where the library lacks the call.
    fn ask(&mut self) -> Option<TextOutcome> {
        let question = black_box(&self.question);
        let (output, text) = (&mut self.output[..], &mut self.text[..]);
        match self.who {
            Who::Reference => Some(ask_reference(question, output, text)),
            Who::Library => ask_library(question, output, text),
        }
    }
}

/// How long the reference takes, and the library where it has the call, in seconds.
type Times = (f64, Option<f64>);

/// The times of questions, measured in turn.
fn times(questions: &[Question]) -> Vec<Times> {
    let mut contenders: Vec<Contender> = Vec::new();
    for &question in questions {
        contenders.extend([Who::Reference, Who::Library].map(|who| Contender::new(who, question)));
    }
    let mut there = Vec::new();
    let mut rounds: Vec<Round> = Vec::new();
    for one in &mut contenders {
        there.push(one.ask().is_some());
        rounds.push(Box::new(|| {
            black_box(one.ask());
        }));
    }
    let best = best(&mut rounds);
    let pair = |first: usize| (best[first], there[first + 1].then_some(best[first + 1]));
    (0..best.len()).step_by(2).map(pair).collect()
}

/// The answer to a workload's question, which both must give.
fn answered(workload: &Workload, question: Question) -> Result<TextOutcome, String> {
    let answer = |who| Contender::new(who, question).ask();
    let outcome = answer(Who::Reference).ok_or("no answer")?;
    if outcome.number != 0 || outcome.records != workload.records as u64 {
        return Err(format!("{}: unexpected {outcome:?}", workload.name));
    }
    match answer(Who::Library) {
        Some(other) if other != outcome => {
            Err(format!("{}: the library answers {other:?}", workload.name))
        }
        _ => Ok(outcome),
    }
}

/// Measures one workload and prints its line, or two where it prints.
fn measure(workload: &Workload) -> Result<(), String> {
    let question = workload.question();
    let outcome = answered(workload, question)?;
    let copied = copy(question.length + question.text.unwrap_or(0));
    if !workload.prints {
        let whole = times(&[question])[0];
        return say(&line(workload.name, workload, &outcome, whole, copied));
    }
    let both = times(&[question, workload.listing()]);
    let [(slow, fast), (slow_list, fast_list)] = [both[0], both[1]];
    let printing = (
        slow - slow_list,
        fast.zip(fast_list).map(|(whole, list)| whole - list),
    );
    say(&line(workload.name, workload, &outcome, both[0], copied))?;
    say(&line(
        "  its printing alone",
        workload,
        &outcome,
        printing,
        copied,
    ))
}

/// The time of a plain copy of so many bytes.
fn copy(bytes: usize) -> f64 {
    let from = vec![1; bytes];
    let mut to = vec![0; bytes];
    let copy = move || black_box(&mut to).copy_from_slice(black_box(&from));
    best(&mut [Box::new(copy)])[0]
}

/// Whether a call is so short that its time is told.
fn is_short(workload: &Workload, outcome: &TextOutcome) -> bool {
    match workload.runs {
        true => outcome.steps < 100 && outcome.length < 1_000,
        false => workload.program.len() < 1_000,
    }
}

/// The time of a very short call or, in a check, of each byte; else a speed in millions
/// of what is counted, each second.
fn speed(workload: &Workload, outcome: &TextOutcome, seconds: f64) -> String {
    if is_short(workload, outcome) {
        return format!("{:9.3} µs/call ", seconds * 1e6);
    }
    if !workload.runs {
        let bytes = workload.program.len() as f64;
        return format!("{:9.2} ns/byte ", seconds * 1e9 / bytes);
    }
    let (steps, gates) = (outcome.steps, workload.records as u64);
    let (count, unit) = match workload.prints {
        true => (outcome.length, "MB/s"),
        false if steps > 100 * gates => (steps, "Msteps/s"),
        false => (gates, "Mgates/s"),
    };
    format!("{:9.2} {unit:8}", count as f64 / seconds / 1e6)
}

/// Writes one line to standard output.
fn say(line: &str) -> Result<(), String> {
    writeln!(std::io::stdout(), "{line}").map_err(|error| format!("standard output: {error}"))
}

/// One line of the table.
fn line(
    name: &str,
    workload: &Workload,
    outcome: &TextOutcome,
    (slow, fast): Times,
    copied: f64,
) -> String {
    let steps = outcome.steps;
    let speed = |seconds| speed(workload, outcome, seconds);
    let (fast_speed, ratio, fast_time) = match fast {
        Some(fast) => (
            speed(fast),
            format!("{:6.2}", fast / slow),
            format!("{:9.3} ms", fast * 1e3),
        ),
        None => (
            "not in the archive".into(),
            "     -".into(),
            "           -".into(),
        ),
    };
    format!(
        "{name:22} {steps:>10} steps | library {fast_speed:18} {fast_time} | reference {} {:9.3} ms \
         | library/reference {ratio} | copy {:7.3} ms",
        speed(slow),
        slow * 1e3,
        copied * 1e3,
    )
}

/// The rows whose names begin with the word given, or all.
fn chosen(words: &[String]) -> Result<Vec<Workload>, String> {
    let beginning = match words {
        [] => "",
        [word] => word.as_str(),
        _ => return Err("use: bench [THE BEGINNING OF A ROW'S NAME]".into()),
    };
    let mut rows = workloads();
    rows.retain(|row| row.name.starts_with(beginning));
    match rows.is_empty() {
        true => Err(format!("no row begins with {beginning:?}")),
        false => Ok(rows),
    }
}

/// Measures everything, or the rows asked for.
fn bench() -> Result<(), String> {
    let words: Vec<String> = std::env::args().skip(1).collect();
    let rows = chosen(&words)?;
    say(&library::status())?;
    if cfg!(debug_assertions) {
        say("built without optimization: these times mean little")?;
    }
    rows.iter().try_for_each(measure)
}

fn main() -> ExitCode {
    match bench() {
        Ok(()) => ExitCode::SUCCESS,
        Err(message) => {
            eprintln!("bench: {message}");
            ExitCode::FAILURE
        }
    }
}
