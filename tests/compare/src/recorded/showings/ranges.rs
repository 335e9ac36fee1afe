//! Hand-made showings behind the plain rule: trials with the range of one loop, which is its
//! high form less its low form, from the innermost loop on.

use super::{row, RecordedShowing, O};

/// A loop over the inner cells of a register, with the range v0 - 2.
const C: &str = "1 .. v0 - 1";
/// A loop whose range is out of range by one.
const FAR: &str = "-1_000_000_001 .. 1_000_000_000";

/// All rows.
pub fn rows() -> Vec<RecordedShowing> {
    let mut rows = one_loop();
    rows.extend(inside_out());
    rows.extend(each_of_eight());
    rows.extend(once());
    rows.extend(over_loops());
    rows.extend(plain_counts());
    rows.extend(ranges_out());
    rows.extend(differences_out());
    rows.extend(scans_out());
    rows.extend(out_before_trials());
    rows
}

/// One loop, whose range shows the form, or one more would.
fn one_loop() -> Vec<RecordedShowing> {
    vec![
        row(1, "v0", &[C], [0, 0, 0]),
        row(1, "v0 - 1", &[C], [0, 0, 1]),
        row(1, "v0 - 2", &[C], [0, 0, 1]),
        row(1, "v0 - 3", &[C], [12, 0, 1]),
        row(1, "5v0 - 2", &[C], [0, 0, 1]),
        row(1, "1 - v0", &[C], [12, 0, 1]),
        // A loop that is never run.
        row(0, "-1", &["0 .. -1"], [0, 0, 1]),
        row(0, "-2", &["0 .. -1"], [12, 0, 1]),
        row(0, "-7", &["9 .. 2"], [0, 0, 1]),
        row(0, "-8", &["9 .. 2"], [12, 0, 1]),
        // Low less high would be -1.
        row(0, "-1", &["0 .. 1"], [12, 0, 1]),
        row(0, "-7", &["2 .. 9"], [12, 0, 1]),
        row(0, "-1", &[O], [12, 0, 1]),
    ]
}

/// The first of the loops from the inside whose range shows the form.
fn inside_out() -> Vec<RecordedShowing> {
    let row = |sum, loops: [&str; 3], due| row(1, sum, &loops, due);
    vec![
        row("v0 - 2", [C, O, O], [0, 0, 3]),
        row("v0 - 2", [O, C, O], [0, 0, 2]),
        row("v0 - 2", [O, O, C], [0, 0, 1]),
        row("v0 - 2", [C, C, O], [0, 0, 2]),
        row("v0 - 2", [C, O, C], [0, 0, 1]),
        row("v0 - 2", [C, C, C], [0, 0, 1]),
        row("v0 - 3", [C, O, C], [12, 0, 3]),
        // A range of v0 - 1 is one too large, one of v0 - 3 more than is needed.
        row("v0 - 2", [C, "1 .. v0", O], [0, 0, 3]),
        row("v0 - 2", [C, "1 .. v0 - 2", O], [0, 0, 2]),
    ]
}

/// Every number of trials in up to eight loops.
fn each_of_eight() -> Vec<RecordedShowing> {
    let mut rows = Vec::new();
    for trials in 1..=8 {
        let mut loops = [O; 8];
        loops[8 - trials] = C;
        let trials = trials as u32;
        rows.push(row(4, "v0 - 2", &loops, [0, 0, trials]));
        rows.push(row(4, "v0 - 3", &loops, [12, 0, 8]));
        rows.push(row(4, "v0 - 2 + v11", &loops, [0, 1, trials]));
        rows.push(row(4, "v0 - 3", &loops[..trials as usize], [12, 0, trials]));
    }
    let mut twelve = [O; 12];
    twelve[0] = "0 .. -1";
    rows.push(row(0, "-1", &twelve, [0, 0, 12]));
    rows.push(row(0, "-2", &twelve, [12, 0, 12]));
    rows
}

/// One range, taken once.
fn once() -> Vec<RecordedShowing> {
    let both = ["1 .. v0", "1 .. v1"];
    vec![
        row(1, "2v0 - 4", &[C], [12, 0, 1]),
        row(1, "2v0 - 4", &[C, C], [12, 0, 2]),
        row(1, "2v0 - 2", &[C, C], [0, 0, 1]),
        row(2, "v0 + v1 - 2", &both, [12, 0, 2]),
        row(2, "v0 + v1 - 1", &both, [0, 0, 1]),
        row(2, "v0 + 2v1 - 1", &["1 .. v0", O], [0, 0, 2]),
        row(0, "-2", &["0 .. -1", "0 .. -1"], [12, 0, 2]),
    ]
}

/// Ranges and forms with loop variables.
fn over_loops() -> Vec<RecordedShowing> {
    let below = ["0 .. 9", "v0 .. v0 - 1"];
    vec![
        // The range of the inner loop is 2 - v0.
        row(0, "2 - v0", &["0 .. 3", "v0 .. 2"], [0, 2, 1]),
        row(0, "1 - v0", &["0 .. 3", "v0 .. 2"], [12, 2, 2]),
        // v1 - v0 is left, and that 0: the loop that is tried stays open.
        row(0, "v1 - v0 - 1", &below, [0, 1, 1]),
        row(0, "v1 - v0 - 2", &below, [12, 1, 2]),
        // The inner loop's low form is the range of the outer one.
        row(1, "v2", &[C, "v0 - 2 .. v0"], [0, 1, 2]),
        row(1, "v2 - 1", &[C, "v0 - 2 .. v0"], [12, 1, 2]),
        // v0 - 1 - v2 leaves v1 - 1 - v2, and that v1 - 1 - v0.
        row(1, "v0 - 1 - v2", &["0 .. v0", "v1 .. v0"], [12, 1, 2]),
    ]
}

/// The count is that of the form itself, whatever a trial goes through.
fn plain_counts() -> Vec<RecordedShowing> {
    let inner = ["1 .. v0", "v1 .. v0 - 1"];
    vec![
        // v1 is left, and that 1.
        row(1, "v0 - 1", &inner, [0, 0, 1]),
        // -1 in the plain scan; 0 is left.
        row(1, "v0 - 1 - v1", &inner, [0, 2, 1]),
        row(1, "v0 - 2 - v1", &inner, [12, 2, 2]),
        // v1 - 1 is left.
        row(1, "v0 + v1 - 3", &[C], [0, 1, 1]),
        row(1, "v0 + v1 - 4", &[C], [12, 1, 1]),
        row(1, "v0 + v1 - 3", &[C, O, O], [0, 3, 3]),
    ]
}

/// Ranges at the ends of the range of numbers and past them.
fn ranges_out() -> Vec<RecordedShowing> {
    let far = "-1_800_000_000 .. 1_800_000_000";
    let steep = "1_000_000_001v0 .. -5 - 1_000_000_000v0";
    let less_steep = "1_000_000_000v0 .. -5 - 1_000_000_000v0";
    vec![
        row(1, "v0 - 2", &[FAR], [12, 0, 1]),
        row(1, "v0 - 2", &[C, FAR], [0, 0, 2]),
        row(1, "v0 - 2", &[FAR, C], [0, 0, 1]),
        row(1, "v0 - 3", &[C, FAR], [12, 0, 2]),
        row(1, "v0 - 1", &[C, far], [0, 0, 2]),
        row(1, "v0 - 1", &[C, far, far, far], [0, 0, 4]),
        // -1 less -2,000,000,001 would be in range, and 0 or more.
        row(0, "-1", &["1_000_000_001 .. -1_000_000_000"], [12, 0, 1]),
        row(0, "-1", &["1_000_000_000 .. -1_000_000_000"], [0, 0, 1]),
        row(1, "-1", &[steep], [12, 0, 1]),
        row(1, "-1", &[less_steep], [0, 0, 1]),
    ]
}

/// Forms less a range at the ends of the range of numbers and past them.
fn differences_out() -> Vec<RecordedShowing> {
    let steep = "0 .. -5 - 2_000_000_000v0";
    let down = "0 .. -1_999_999_999 - v0";
    vec![
        row(1, "v0 - 1", &[steep], [12, 0, 1]),
        row(1, "-1", &[steep], [0, 0, 1]),
        row(1, "v0 - 2", &[C, steep], [0, 0, 2]),
        // 2,000,000,001 and 2,000,000,000 are left.
        row(1, "2 - v0", &[down], [12, 0, 1]),
        row(1, "1 - v0", &[down], [0, 0, 1]),
        row(1, "2 - v0", &["0 .. 2 - v0", down], [0, 0, 2]),
        row(0, "-1", &["0 .. 2_000_000_000"], [12, 0, 1]),
        row(0, "-1", &["0 .. -1", "0 .. 2_000_000_000"], [0, 0, 2]),
        row(0, "-2_000_000_000", &["0 .. -2_000_000_000"], [0, 0, 1]),
    ]
}

/// What is left leaves the range of numbers where a variable is replaced, or just not.
fn scans_out() -> Vec<RecordedShowing> {
    let far = "1_500_000_000 .. 1_500_000_000";
    let near = "1_000_000_000 .. 1_000_000_000";
    let most = ["2_000_000_000 .. 2_000_000_000", "0 .. 0 - v1 - v0"];
    vec![
        // Twice the variable is 3,000,000,000.
        row(0, "v0 - 1_500_000_001", &[far, "0 .. 0 - v0"], [12, 2, 2]),
        row(0, "v0 - 1_000_000_001", &[near, "0 .. 0 - v0"], [0, 2, 1]),
        row(
            0,
            "v1 - 1_500_000_001",
            &["0 .. -1", far, "0 .. 0 - v1"],
            [0, 2, 3],
        ),
        // v1 + 1 is left, and that 2,000,000,001; then v1 alone.
        row(1, "1 - v0", &most, [12, 0, 2]),
        row(1, "0 - v0", &most, [0, 0, 1]),
    ]
}

/// The plain rule leaves the range of numbers: no trial is made, though one would show it.
fn out_before_trials() -> Vec<RecordedShowing> {
    let [far, near] = ["1_800_000_000 .. 1_800_000_000", "1_000_000_000 .. 0"];
    vec![
        row(0, "2v0", &[far, "0 .. 2v0"], [11, 2, 0]),
        row(0, "2v0", &[near, "0 .. 2v0"], [0, 2, 0]),
        row(0, "-2v0", &["0 .. 1_800_000_000", "2v0 .. 0"], [11, 2, 0]),
        row(0, "2v1", &["0 .. -1", "1_800_000_000 .. 0"], [11, 1, 0]),
        row(1, "2v1 + v0", &[far, C, "0 .. 2v1"], [11, 3, 0]),
    ]
}
