//! Showing a form by the plain rule, and where that is not enough by trials: a loop's body
//! runs only where the loop's range, its high form less its low form, is 0 or more.

use crate::form::{Bounds, Form, OutOfRange, Scanned};

/// What the plain rule and the trials behind it find.
#[derive(Clone, Copy, Debug, PartialEq, Eq)]
pub struct Tried {
    /// Whether the form is shown to be 0 or more, by the plain rule or by a trial.
    pub shown: Result<bool, OutOfRange>,
    /// The count of the plain scan of the form itself.
    pub through: usize,
    /// How many trials were made; none where the plain rule shows the form or leaves the range.
    pub trials: usize,
}

impl Form {
    /// Whether this form is shown to be 0 or more.
    ///
    /// The loops' variables follow the family's own, of which there are `sizes`.
    pub fn shown(&self, sizes: usize, loops: &[Bounds]) -> Result<bool, OutOfRange> {
        self.tried(sizes, loops).shown
    }

    /// Shows this form by the plain rule or else by one trial for each loop, from the
    /// innermost to the outermost.
    pub fn tried(&self, sizes: usize, loops: &[Bounds]) -> Tried {
        let Scanned { shown, through } = self.scanned(sizes, loops);
        let (shown, trials) = match shown {
            Ok(false) => self.trials(sizes, loops),
            settled => (settled, 0),
        };
        Tried {
            shown,
            through,
            trials,
        }
    }

    /// Makes the trials up to the first that shows this form, and counts them.
    fn trials(&self, sizes: usize, loops: &[Bounds]) -> (Result<bool, OutOfRange>, usize) {
        let mut inside_out = loops.iter().rev();
        let shows = |tried: &Bounds| self.shown_less_range(tried, sizes, loops) == Ok(true);
        match inside_out.position(shows) {
            Some(before) => (Ok(true), before + 1),
            None => (Ok(false), loops.len()),
        }
    }

    /// Whether this form less the range of a loop is shown by the plain rule under all loops.
    fn shown_less_range(
        &self,
        tried: &Bounds,
        sizes: usize,
        loops: &[Bounds],
    ) -> Result<bool, OutOfRange> {
        let range = tried.high.minus(&tried.low)?;
        self.minus(&range)?.scanned(sizes, loops).shown
    }
}

#[cfg(test)]
mod tests {
    use super::*;

    /// The largest number, up or down, that a form may have.
    const LARGEST: i64 = 2_000_000_000;
    const SHOWN: Result<bool, OutOfRange> = Ok(true);
    const NOT_SHOWN: Result<bool, OutOfRange> = Ok(false);

    /// A constant and terms, each a coefficient and the number of its variable.
    fn sum(constant: i64, terms: &[(i64, usize)]) -> Form {
        let mut form = Form::constant(constant);
        for &(coefficient, variable) in terms {
            form.coefficients[variable] += coefficient;
        }
        form
    }

    /// The family variable v0 plus a number.
    fn n(more: i64) -> Form {
        sum(more, &[(1, 0)])
    }

    /// A loop.
    fn over(low: Form, high: Form) -> Bounds {
        Bounds { low, high }
    }

    /// A loop between two numbers.
    fn between(low: i64, high: i64) -> Bounds {
        over(Form::constant(low), Form::constant(high))
    }

    /// A loop from 1 to v0 - 1.
    fn inner_cells() -> Bounds {
        over(Form::constant(1), n(-1))
    }

    /// Holds what is found of a form inside loops, over two family variables, to what is due.
    fn hold(
        form: &Form,
        loops: &[Bounds],
        (shown, through, trials): (Result<bool, OutOfRange>, usize, usize),
    ) {
        let due = Tried {
            shown,
            through,
            trials,
        };
        assert_eq!(form.tried(2, loops), due, "{form:?}");
        assert_eq!(form.shown(2, loops), shown, "{form:?}");
    }

    #[test]
    fn the_plain_rule_comes_first_and_is_enough() {
        hold(&n(0), &[inner_cells()], (SHOWN, 0, 0));
        hold(&sum(-1, &[(1, 2)]), &[inner_cells()], (SHOWN, 1, 0));
        hold(&n(0), &[], (SHOWN, 0, 0));
        hold(&n(-1), &[], (NOT_SHOWN, 0, 0));
    }

    #[test]
    fn the_range_of_a_loop_shows_what_its_body_may_use() {
        // The range is v0 - 2, so that v0 - 1 leaves 1 and v0 - 2 leaves 0.
        hold(&n(-1), &[inner_cells()], (SHOWN, 0, 1));
        hold(&n(-2), &[inner_cells()], (SHOWN, 0, 1));
        hold(&n(-3), &[inner_cells()], (NOT_SHOWN, 0, 1));
    }

    #[test]
    fn the_range_is_taken_once() {
        hold(&sum(-4, &[(2, 0)]), &[inner_cells()], (NOT_SHOWN, 0, 1));
        hold(&sum(-2, &[(2, 0)]), &[inner_cells()], (SHOWN, 0, 1));
        let twice = [inner_cells(), inner_cells()];
        hold(&sum(-4, &[(2, 0)]), &twice, (NOT_SHOWN, 0, 2));
    }

    #[test]
    fn the_loops_are_tried_from_the_inside_out() {
        let plain = || between(0, 3);
        let due = |trials| (SHOWN, 0, trials);
        hold(&n(-2), &[plain(), plain(), inner_cells()], due(1));
        hold(&n(-2), &[plain(), inner_cells(), plain()], due(2));
        hold(&n(-2), &[inner_cells(), plain(), plain()], due(3));
        hold(&n(-2), &[inner_cells(), plain(), inner_cells()], due(1));
        let all = [inner_cells(), inner_cells(), plain()];
        hold(&n(-2), &all, due(2));
        hold(&n(-3), &all, (NOT_SHOWN, 0, 3));
    }

    #[test]
    fn two_ranges_at_once_are_not_taken() {
        let first = || over(Form::constant(1), n(0));
        let second = || over(Form::constant(1), sum(0, &[(1, 1)]));
        let both = sum(-2, &[(1, 0), (1, 1)]);
        hold(&both, &[first(), second()], (NOT_SHOWN, 0, 2));
        hold(&both, &[second(), first()], (NOT_SHOWN, 0, 2));
        let one = sum(-1, &[(1, 0), (1, 1)]);
        hold(&one, &[first(), second()], (SHOWN, 0, 1));
    }

    #[test]
    fn the_tried_loop_stays_open() {
        // v3 goes from v2 to v2 - 1, so that its range is -1: v3 - v2 - 1 leaves v3 - v2,
        // and that is 0 once v3 gives way to v2.
        let empty = [between(0, 9), over(sum(0, &[(1, 2)]), sum(-1, &[(1, 2)]))];
        hold(&sum(-1, &[(1, 3), (-1, 2)]), &empty, (SHOWN, 1, 1));
        hold(&sum(-2, &[(1, 3), (-1, 2)]), &empty, (NOT_SHOWN, 1, 2));
        // v3 goes from v2 to v0: v0 - 1 - v3 leaves v2 - 1 - v3, and that v2 - 1 - v0.
        let loops = [
            over(Form::constant(0), n(-1)),
            over(sum(0, &[(1, 2)]), n(0)),
        ];
        hold(&sum(-1, &[(1, 0), (-1, 3)]), &loops, (NOT_SHOWN, 1, 2));
    }

    #[test]
    fn what_is_left_is_shown_under_the_inner_loops_too() {
        // v3 goes from v0 - 2 up, which is just the range of the outer loop.
        let loops = [inner_cells(), over(n(-2), n(0))];
        hold(&sum(0, &[(1, 3)]), &loops, (SHOWN, 1, 2));
        hold(&sum(-1, &[(1, 3)]), &loops, (NOT_SHOWN, 1, 2));
    }

    #[test]
    fn a_range_out_of_range_fails_its_own_trial_only() {
        let far = || between(-1_000_000_001, 1_000_000_000);
        let near = || between(-1_000_000_000, 1_000_000_000);
        hold(&n(-2), &[inner_cells(), far()], (SHOWN, 0, 2));
        hold(&n(-2), &[far(), inner_cells()], (SHOWN, 0, 1));
        hold(&n(-2), &[far()], (NOT_SHOWN, 0, 1));
        // The range is out of range though the form less high and then plus low is not.
        let down = || between(1_000_000_001, -1_000_000_000);
        hold(&sum(-1, &[]), &[down()], (NOT_SHOWN, 0, 1));
        let just = || between(1_000_000_000, -1_000_000_000);
        hold(&sum(-1, &[]), &[just()], (SHOWN, 0, 1));
        hold(&sum(-1, &[]), &[just(), near()], (SHOWN, 0, 2));
    }

    #[test]
    fn a_difference_out_of_range_fails_its_own_trial_only() {
        let most = || between(0, LARGEST);
        let least = || between(0, -LARGEST);
        let helps = || between(0, -1);
        hold(&sum(-1, &[]), &[helps(), most()], (SHOWN, 0, 2));
        hold(&sum(-1, &[]), &[most()], (NOT_SHOWN, 0, 1));
        // A coefficient of the difference leaves the range.
        let wide = over(Form::constant(0), sum(-5, &[(-LARGEST, 0)]));
        hold(&sum(-1, &[(1, 0)]), &[wide], (NOT_SHOWN, 0, 1));
        hold(&sum(-LARGEST, &[]), &[least()], (SHOWN, 0, 1));
    }

    #[test]
    fn a_scan_that_leaves_the_range_fails_its_own_trial_only() {
        let far = 1_500_000_000;
        // A loop whose range is less than 0 by another loop's variable.
        let less = |variable| over(Form::constant(0), sum(0, &[(-1, variable)]));
        // Behind the plain scan, twice v2 is 3,000,000,000.
        let loops = [between(far, far), less(2)];
        hold(&sum(-far - 1, &[(1, 2)]), &loops, (NOT_SHOWN, 2, 2));
        let loops = [between(0, -1), between(far, far), less(3)];
        hold(&sum(-far - 1, &[(1, 3)]), &loops, (SHOWN, 2, 3));
    }

    #[test]
    fn a_plain_scan_that_leaves_the_range_is_not_tried() {
        let out = Err(OutOfRange);
        let far = 1_800_000_000;
        let twice = || sum(0, &[(2, 2)]);
        let loops = [between(far, far), over(Form::constant(0), twice())];
        hold(&twice(), &loops, (out, 2, 0));
        hold(&sum(0, &[(-2, 2)]), &loops, (out, 2, 0));
        // Less the range of the inner loop this would be 0.
        assert_eq!(twice().minus(&loops[1].high), Ok(Form::constant(0)));
    }

    #[test]
    fn the_count_is_that_of_the_plain_scan() {
        // The ranges are v0 - 2, v0 - v2 and 3; v3 gives way to v2, and that to 1.
        let loops = [inner_cells(), over(sum(0, &[(1, 2)]), n(0)), between(0, 3)];
        hold(&sum(-2, &[(1, 3)]), &loops, (NOT_SHOWN, 3, 3));
        hold(&sum(-2, &[(1, 0)]), &loops, (SHOWN, 0, 3));
        hold(&sum(-2, &[(1, 0), (1, 4)]), &loops, (SHOWN, 1, 3));
        hold(&sum(-3, &[(1, 0), (1, 3)]), &loops, (SHOWN, 3, 3));
        // Less the middle range this is v2 - 1.
        hold(&sum(-1, &[(1, 0)]), &loops, (SHOWN, 0, 2));
    }
}
