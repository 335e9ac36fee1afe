//! Hand-made showings: forms inside loops, with answers worked out by hand.
//!
//! A form is written as a sum, such as `2v3 - v0 + 1`, and a loop as its low and
//! its high form. A row ends with the number that is due, the count of the plain scan and
//! the number of trials.

mod ranges;

use crate::ask::Who;
use crate::showing::ask;
use generate::forms::Showing;
use reference::{FormNumbers, ShowingOutcome, FORM_NUMBERS, NO_FORMS};

/// A loop from 0 up to the first family variable.
const N: &str = "0 .. v0 - 1";
/// A loop from 0 to 0.
const O: &str = "0 .. 0";
/// A loop whose low form is too large to be taken twice.
const HALF: &str = "1_000_000_001 .. 0";

/// The answer where the arguments are no forms.
const NONE: [u32; 3] = [NO_FORMS, 0, 0];

/// A showing and the answer that is due.
pub struct RecordedShowing {
    pub name: String,
    pub asked: Showing,
    pub due: ShowingOutcome,
}

/// All recorded showings.
pub fn rows() -> Vec<RecordedShowing> {
    let mut rows = no_loops();
    rows.extend(three_loops());
    rows.extend(brought_in());
    rows.extend(taken_away());
    rows.extend(multiples());
    rows.extend(sums());
    rows.extend(eight_loops());
    rows.extend(chains());
    rows.extend(out_of_scope());
    rows.extend(counts());
    rows.extend(numbers());
    rows.extend(ranges::rows());
    rows
}

impl RecordedShowing {
    /// The same with other counts of family variables and of loops.
    fn counted(mut self, variables: u32, loops: u32) -> RecordedShowing {
        self.asked.variables = variables;
        self.asked.loops = loops;
        self
    }

    /// The same without the last low form.
    fn a_low_less(mut self) -> RecordedShowing {
        self.asked.lows.pop();
        self
    }

    /// The same without the last high form.
    fn a_high_less(mut self) -> RecordedShowing {
        self.asked.highs.pop();
        self
    }

    /// The same with a low and a high form more, for which there is no loop.
    fn bounds_more(mut self, bounds: &str) -> RecordedShowing {
        let (low, high) = pair(bounds);
        self.asked.lows.push(low);
        self.asked.highs.push(high);
        self
    }

    /// Holds someone to the answer; no where there is no archive.
    pub fn hold(&self, who: Who) -> Result<bool, String> {
        match ask(who, &self.asked)? {
            None => Ok(false),
            Some(answer) if answer == self.due => Ok(true),
            Some(answer) => Err(format!(
                "{}: {who:?} answers {answer:?}, due is {:?}",
                self.name, self.due
            )),
        }
    }
}

/// A form inside loops, with so many family variables, and the answer that is due.
fn row(variables: u32, sum: &str, loops: &[&str], due: [u32; 3]) -> RecordedShowing {
    let [number, through, trials] = due;
    let (lows, highs) = loops.iter().map(|bounds| pair(bounds)).unzip();
    RecordedShowing {
        name: format!("{sum} in {loops:?}"),
        asked: Showing {
            form: form(sum),
            variables,
            loops: loops.len() as u32,
            lows,
            highs,
        },
        due: ShowingOutcome {
            number,
            through,
            trials,
        },
    }
}

/// The low and the high form of a loop.
fn pair(bounds: &str) -> (FormNumbers, FormNumbers) {
    let (low, high) = bounds
        .split_once(" .. ")
        .expect("the recorded loops have two bounds");
    (form(low), form(high))
}

/// The numbers of a form that is written as a sum.
fn form(sum: &str) -> FormNumbers {
    let mut numbers = [0; FORM_NUMBERS];
    let mut sign = 1;
    for word in sum.split_whitespace() {
        match word.split_once('v') {
            _ if word == "+" => sign = 1,
            _ if word == "-" => sign = -1,
            None => numbers[0] += sign * number(word),
            Some((factor, variable)) => {
                numbers[1 + number(variable) as usize] += sign * number(factor);
            }
        }
    }
    numbers
}

/// A number of digits, also in groups; the factor that is not written is 1.
fn number(digits: &str) -> i64 {
    match digits {
        "" => 1,
        _ => digits
            .replace('_', "")
            .parse()
            .expect("the recorded forms are written as sums"),
    }
}

/// Forms without loops around them.
fn no_loops() -> Vec<RecordedShowing> {
    vec![
        row(0, "0", &[], [0, 0, 0]),
        row(0, "5", &[], [0, 0, 0]),
        row(0, "-1", &[], [12, 0, 0]),
        row(1, "v0", &[], [0, 0, 0]),
        row(1, "v0 - 1", &[], [12, 0, 0]),
        row(1, "5 - v0", &[], [12, 0, 0]),
        row(4, "v0 + 2v3 + 1", &[], [0, 0, 0]),
        row(4, "v0 - v3", &[], [12, 0, 0]),
        row(12, "v11", &[], [0, 0, 0]),
        row(12, "v11 - 1", &[], [12, 0, 0]),
    ]
}

/// Forms in three loops that name the family variable only.
fn three_loops() -> Vec<RecordedShowing> {
    let row = |sum, due| row(1, sum, &[N; 3], due);
    vec![
        row("v0 + 4", [0, 0, 0]),
        row("-1", [12, 0, 3]),
        row("1 - v0", [12, 0, 3]),
        row("v3", [0, 1, 0]),
        row("v2", [0, 2, 0]),
        row("v1", [0, 3, 0]),
        row("v3 + v2", [0, 2, 0]),
        row("v3 + v1", [0, 3, 0]),
        row("v2 + v1", [0, 3, 0]),
        row("v3 + v2 + v1", [0, 3, 0]),
        row("v0 - 1 - v3", [0, 1, 0]),
        row("v0 - 2 - v3", [12, 1, 3]),
        row("v0 - 1 - v2", [0, 2, 0]),
        row("v0 - 1 - v1", [0, 3, 0]),
        row("- v1", [12, 3, 3]),
        row("v3 - v2", [12, 2, 3]),
        row("2v0 - 2 - v3 - v1", [0, 3, 0]),
        row("5v3 - 3v1 + 3v0 - 3", [0, 3, 0]),
        row("5v3 - 3v1 + 3v0 - 4", [12, 3, 3]),
    ]
}

/// Replacements that bring in a lower variable.
fn brought_in() -> Vec<RecordedShowing> {
    let chain = [N, "v1 .. v0 - 1", "v2 .. v0 - 1"];
    vec![
        row(1, "v3", &[N, N, "v1 .. v0 - 1"], [0, 3, 0]),
        row(1, "v3", &[N, N, "v2 .. v0 - 1"], [0, 2, 0]),
        row(1, "v3", &chain, [0, 3, 0]),
        row(1, "v2", &chain, [0, 3, 0]),
        row(1, "v0 - 1 - v3", &[N, N, "0 .. v1"], [0, 3, 0]),
        row(1, "v0 - 2 - v3", &[N, N, "0 .. v1"], [12, 3, 3]),
        row(1, "- v3", &[N, N, "0 .. v1"], [12, 3, 3]),
        row(1, "v0 - 1 - v3", &[N, N, "0 .. v2"], [0, 2, 0]),
        // 5 - v1, then 6 - v0.
        row(1, "v3", &[N, N, "5 - v1 .. v0"], [12, 3, 3]),
        row(1, "v3 + v0", &[N, N, "5 - v1 .. v0"], [0, 3, 0]),
        row(1, "v3 + v0 - 7", &[N, N, "5 - v1 .. v0"], [12, 3, 3]),
        // The outermost loop stands first.
        row(0, "v1 - 7", &["5 .. 9", "7 .. 9"], [0, 1, 0]),
        row(0, "v1 - 8", &["5 .. 9", "7 .. 9"], [12, 1, 2]),
        row(0, "v0 - 5", &["5 .. 9", "7 .. 9"], [0, 2, 0]),
        row(0, "v0 - 6", &["5 .. 9", "7 .. 9"], [12, 2, 2]),
        row(0, "9 - v1", &["0 .. 5", "0 .. 9"], [0, 1, 0]),
        row(0, "8 - v1", &["0 .. 5", "0 .. 9"], [12, 1, 2]),
    ]
}

/// Replacements that take a lower variable away.
fn taken_away() -> Vec<RecordedShowing> {
    let third = [N, N, "v1 .. v0 - 1"];
    let chain = [N, "v1 .. v0 - 1", "v2 .. v0 - 1"];
    vec![
        row(1, "v3 - v1", &third, [0, 1, 0]),
        row(1, "v3 - v1 - 1", &third, [12, 1, 3]),
        row(1, "2v3 - v1", &third, [0, 3, 0]),
        row(1, "v3 - 2v1", &third, [12, 3, 3]),
        row(1, "v3 - v1 + v2", &third, [0, 2, 0]),
        row(1, "v1 - v3", &[N, N, "0 .. v1"], [0, 1, 0]),
        row(1, "v1 - v3 - 1", &[N, N, "0 .. v1"], [12, 1, 3]),
        row(1, "v3 - v2", &chain, [0, 1, 0]),
        row(1, "v3 - v1", &chain, [0, 2, 0]),
        row(1, "v2 - v1", &chain, [0, 2, 0]),
        row(1, "v3 - v2", &[N, N, "v2 + v1 .. 0"], [0, 3, 0]),
        row(1, "v3 - v2 - v1", &[N, N, "v2 + v1 .. 0"], [0, 1, 0]),
        // One brings v1 in, the next takes it away.
        row(1, "v3 + v2", &[N, "0 - v1 .. 0", "v1 .. 0"], [0, 2, 0]),
    ]
}

/// Multiples at the ends of the range and past them.
fn multiples() -> Vec<RecordedShowing> {
    let row = |sum, loops: &[&str], due| row(1, sum, loops, due);
    let steep = ["40_000v1 .. 0", "40_000v2 .. 0"];
    vec![
        row("2v3", &[N, N, "1_000_000_000 .. 0"], [0, 1, 0]),
        row("2v3", &[N, N, HALF], [11, 1, 0]),
        row("2v2", &[N, HALF, N], [11, 2, 0]),
        row("2v1", &[HALF, N, N], [11, 3, 0]),
        row("v3 + 2v1", &[HALF, N, N], [11, 3, 0]),
        row("2v3 + 2v1", &[HALF, N, HALF], [11, 1, 0]),
        row("-2v3", &[N, N, "0 .. -1_000_000_000"], [0, 1, 0]),
        row("-2v3", &[N, N, "0 .. -1_000_000_001"], [11, 1, 0]),
        row("-2v3", &[N, N, "0 .. 1_000_000_000"], [12, 1, 3]),
        row("-2v3", &[N, N, "0 .. 1_000_000_001"], [11, 1, 0]),
        row("2v3", &[N, N, "1_000_000_001v0 .. 0"], [11, 1, 0]),
        row("2v3", &[N, N, "1_000_000_001v2 .. 0"], [11, 1, 0]),
        // 50,000 v2, then 2,500,000,000 v1.
        row("v3", &[O, "50_000v1 .. 0", "50_000v2 .. 0"], [11, 2, 0]),
        row("v3", &["1 .. 0", steep[0], steep[1]], [0, 3, 0]),
        row("v3", &["2 .. 0", steep[0], steep[1]], [11, 3, 0]),
        // The sum would lie in the range.
        row("2v3 - 2", &[N, N, HALF], [11, 1, 0]),
        row("2v1 - 1_000_000_000", &["1_200_000_000 .. 0"], [11, 1, 0]),
        row("2v1 - 2_000_000_000", &["2_000_000_000 .. 0"], [11, 1, 0]),
        // Bounds that are not put in.
        row("v3", &[N, N, "0 .. 2_000_000_000"], [0, 1, 0]),
        row("v0", &["2_000_000_000 .. 2_000_000_000"; 3], [0, 0, 0]),
    ]
}

/// Sums at the ends of the range and past them.
fn sums() -> Vec<RecordedShowing> {
    let last = [N, N, "2_000_000_000 .. -2_000_000_000"];
    let steep = [N, N, "2_000_000_000v1 .. 2_000_000_000v0"];
    let row = |sum, loops, due| row(1, sum, loops, due);
    vec![
        row("v3", &last, [0, 1, 0]),
        row("v3 + 1", &last, [11, 1, 0]),
        row("v3 - 2_000_000_000", &last, [0, 1, 0]),
        row("1 - v3", &last, [11, 1, 0]),
        row("-1 - v3", &last, [0, 1, 0]),
        row("-2_000_000_000 - v3", &last, [0, 1, 0]),
        row("v3", &steep, [0, 3, 0]),
        row("v3 + v1", &steep, [11, 1, 0]),
        row("v3 - v1", &steep, [0, 3, 0]),
        row("v3 - 2_000_000_000v1", &steep, [0, 1, 0]),
        row("- v3", &steep, [12, 1, 3]),
        row("- v3 - v0", &steep, [11, 1, 0]),
        row("2_000_000_000v0 - v3", &steep, [0, 1, 0]),
        // 1 + v2, then 2,000,000,001.
        row("v3", &[N, "2_000_000_000 .. 0", "v2 + 1 .. 0"], [11, 2, 0]),
        row("v3", &[N, "2_000_000_000 .. 0", "v2 - 1 .. 0"], [0, 2, 0]),
    ]
}

/// Every count of eight loops with four family variables.
fn eight_loops() -> Vec<RecordedShowing> {
    let mut rows = Vec::new();
    for through in 1..=8 {
        let depth = 8 - through;
        let variable = 4 + depth;
        let mut large = [N; 8];
        large[depth] = HALF;
        let tried = |number| if number == 12 { 8 } else { 0 };
        let of = |number| [number, through as u32, tried(number)];
        rows.push(row(4, &format!("v{variable}"), &[N; 8], of(0)));
        rows.push(row(4, &format!("v{variable} - 1"), &[N; 8], of(12)));
        rows.push(row(4, &format!("v0 - 1 - v{variable}"), &[N; 8], of(0)));
        rows.push(row(4, &format!("v0 - 2 - v{variable}"), &[N; 8], of(12)));
        rows.push(row(4, &format!("2v{variable}"), &large, of(11)));
        // The first of these is about 3 v11, which is past the range too.
        rows.push(row(4, &format!("v11 + 2v{variable}"), &large, of(11)));
    }
    rows.push(row(4, "v3 + 1", &[N; 8], [0, 0, 0]));
    rows.push(row(4, "v3 - 1", &[N; 8], [12, 0, 8]));
    rows
}

/// Eight and twelve loops, each bounded by the one right around it.
fn chains() -> Vec<RecordedShowing> {
    let texts = |first: usize, loops: usize, bounds: fn(usize) -> String| {
        let inner = (first..first + loops - 1).map(bounds);
        [O.into()].into_iter().chain(inner).collect::<Vec<String>>()
    };
    let plain = texts(4, 8, |around| format!("v{around} .. v0 - 1"));
    let twice = texts(4, 8, |around| format!("2v{around} + 1 .. v0 - 1"));
    let longest = texts(0, 12, |around| format!("v{around} .. 0"));
    let row = |variables, sum, loops: &[String], due| {
        let loops: Vec<&str> = loops.iter().map(String::as_str).collect();
        row(variables, sum, &loops, due)
    };
    vec![
        row(4, "v11", &plain, [0, 8, 0]),
        row(4, "v11 - v4", &plain, [0, 7, 0]),
        row(4, "v11 - v4 - 1", &plain, [12, 7, 8]),
        row(4, "v11 - v8", &plain, [0, 3, 0]),
        row(4, "v7", &plain, [0, 8, 0]),
        row(4, "v7 - v6", &plain, [0, 5, 0]),
        row(4, "v0 - 1 - v11", &plain, [0, 1, 0]),
        // 2 v10 + 1, 4 v9 + 3 and so on to 128 v4 + 127.
        row(4, "v11 - 127", &twice, [0, 8, 0]),
        row(4, "v11 - 128", &twice, [12, 8, 8]),
        row(4, "v11 - 128v4", &twice, [0, 7, 0]),
        row(4, "v11 - 129v4 - 127", &twice, [0, 8, 0]),
        row(4, "v11 - 129v4 - 128", &twice, [12, 8, 8]),
        row(0, "v11", &longest, [0, 12, 0]),
        row(0, "v0", &longest, [0, 12, 0]),
        row(0, "v11 - v0", &longest, [0, 11, 0]),
        row(0, "v11 - v10", &longest, [0, 1, 0]),
    ]
}

/// Bounds that name their own or an inner variable, and variables that there are not.
fn out_of_scope() -> Vec<RecordedShowing> {
    vec![
        row(0, "v0", &["v0 + 1 .. 0"], [0, 1, 0]),
        // The range is v0 - 1, which leaves 1.
        row(0, "v0", &["1 - v0 .. 0"], [0, 1, 1]),
        row(0, "2v0 - 2", &["v0 + 1 .. 0"], [0, 1, 0]),
        // 3v0 - 2 is left, and that 3v0 + 1.
        row(0, "2v0 - 3", &["v0 + 1 .. 0"], [0, 1, 1]),
        row(0, "2v0 - 3", &["v0 + 1 .. v0 + 1"], [12, 1, 1]),
        row(0, "2v0", &["1_000_000_001v0 .. 0"], [11, 1, 0]),
        row(0, "2_000_000_000v0", &["v0 .. 0"], [0, 1, 0]),
        row(0, "v0", &["v1 .. 0", O], [0, 2, 0]),
        row(0, "v0", &["0 - v1 .. 0", O], [12, 2, 2]),
        row(0, "v0 + v1", &["0 - v1 .. 0", O], [12, 2, 2]),
        row(0, "v1", &[O, "v1 .. 0"], [0, 1, 0]),
        row(0, "v1", &[O, "v1 + v0 .. 0"], [0, 2, 0]),
        row(0, "v5", &[], [0, 0, 0]),
        row(0, "- v11", &[], [12, 0, 0]),
        row(0, "v5", &[O], [0, 0, 0]),
        row(0, "- v5", &[O], [12, 0, 1]),
        row(0, "v0 + v5", &[O], [0, 1, 0]),
        row(0, "v0", &["v5 .. 0"], [0, 1, 0]),
        row(0, "v0", &["0 - v5 .. 0"], [12, 1, 1]),
        row(0, "v0 + v5", &["0 - v5 .. 0"], [0, 1, 0]),
        row(0, "2v0", &["1_000_000_001v11 .. 0"], [11, 1, 0]),
        row(0, "2v0 - 2v11", &["1_000_000_001v11 .. 0"], [11, 1, 0]),
        row(0, "2v0 - 2v11", &["1_000_000_000v11 .. 0"], [0, 1, 0]),
        row(0, "v0 + v11", &["2_000_000_000v11 .. 0"], [11, 1, 0]),
        row(1, "v1", &[N], [0, 0, 0]).counted(1, 0),
        row(1, "- v1", &[N], [12, 0, 0]).counted(1, 0),
        row(1, "v1", &[N], [0, 1, 0]).bounds_more("-5 .. 5"),
        row(1, "v1", &[N], [0, 1, 0]).bounds_more("2_000_000_001 .. 0"),
        row(1, "v1", &[N], [0, 1, 0]).bounds_more("0 .. -2_000_000_001v11"),
    ]
}

/// Counts of variables, loops and bounds that do not go together, and the last that do.
fn counts() -> Vec<RecordedShowing> {
    vec![
        row(13, "0", &[], NONE),
        row(12, "0", &[O], NONE),
        row(5, "0", &[O; 8], NONE),
        row(4, "0", &[O; 8], [0, 0, 0]),
        row(0, "0", &[O; 13], NONE),
        row(0, "0", &[O; 12], [0, 0, 0]),
        row(u32::MAX, "0", &[], NONE),
        row(u32::MAX, "0", &[O], NONE),
        row(u32::MAX, "0", &[O; 13], NONE),
        row(0, "0", &[O; 13], NONE).counted(0, u32::MAX),
        row(0, "0", &[O; 13], NONE).counted(1, u32::MAX),
        row(0, "0", &[], NONE).counted(0, 1),
        row(1, "v1", &[N], NONE).a_low_less(),
        row(1, "v1", &[N], NONE).a_high_less(),
        row(1, "0", &[N; 3], NONE).a_low_less(),
        row(1, "0", &[N; 3], NONE).a_high_less(),
        row(1, "v3", &[N; 4], [0, 1, 0]).counted(1, 3).a_low_less(),
        row(1, "v3", &[N; 4], [0, 1, 0]).counted(1, 3).a_high_less(),
    ]
}

/// Numbers of the arguments at the ends of the range and past them.
fn numbers() -> Vec<RecordedShowing> {
    vec![
        row(0, "2_000_000_000", &[], [0, 0, 0]),
        row(0, "-2_000_000_000", &[], [12, 0, 0]),
        row(0, "2_000_000_001", &[], NONE),
        row(0, "-2_000_000_001", &[], NONE),
        row(0, "9_223_372_036_854_775_807", &[], NONE),
        row(0, "-9_223_372_036_854_775_808", &[], NONE),
        row(0, "2_000_000_000v11", &[], [0, 0, 0]),
        row(0, "-2_000_000_000v11", &[], [12, 0, 0]),
        row(0, "2_000_000_001v11", &[], NONE),
        row(0, "-2_000_000_001v0", &[], NONE),
        row(0, "0", &["-2_000_000_000 .. 2_000_000_000"], [0, 0, 0]),
        row(0, "0", &["2_000_000_001 .. 0"], NONE),
        row(0, "0", &["0 .. -2_000_000_001"], NONE),
        row(0, "0", &["2_000_000_001v11 .. 0"], NONE),
        row(0, "0", &["0 .. -2_000_000_001v11"], NONE),
        row(0, "0", &["9_223_372_036_854_775_807 .. 0"], NONE),
        row(0, "0", &["0 .. -9_223_372_036_854_775_808"], NONE),
        row(1, "0", &[N, N, "2_000_000_001v0 .. 0"], NONE),
        row(1, "v3", &["0 .. 2_000_000_001v5", N, N], NONE),
    ]
}
