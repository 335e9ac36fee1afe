//! Forms: a constant plus a whole coefficient for each index variable in scope.

/// A family's own variables and the open loops' variables together.
pub const VARIABLES: usize = 12;

/// The largest number, up or down, that a form or an index value may have.
const LARGEST: i64 = 2_000_000_000;

/// Marks a number that left the range.
#[derive(Clone, Copy, Debug, PartialEq, Eq)]
pub struct OutOfRange;

/// The number itself where it lies in the range.
pub fn in_range(number: i64) -> Result<i64, OutOfRange> {
    if (-LARGEST..=LARGEST).contains(&number) {
        Ok(number)
    } else {
        Err(OutOfRange)
    }
}

/// What an index means before its variables have values.
#[derive(Clone, Debug, PartialEq, Eq)]
pub struct Form {
    pub constant: i64,
    pub coefficients: [i64; VARIABLES],
}

/// The low and high form of an open loop.
#[derive(Clone, Debug)]
pub struct Bounds {
    pub low: Form,
    pub high: Form,
}

/// What a scan of the loops' variables, which is the plain rule, finds.
#[derive(Clone, Copy, Debug, PartialEq, Eq)]
pub struct Scanned {
    /// Whether the form is shown to be 0 or more.
    pub shown: Result<bool, OutOfRange>,
    /// How many loop variables there are from the highest down to the last that is replaced,
    /// or whose replacement leaves the range; 0 where there is none.
    pub through: usize,
}

impl Form {
    /// A form without variables.
    pub fn constant(constant: i64) -> Form {
        Form {
            constant,
            coefficients: [0; VARIABLES],
        }
    }

    /// One variable, once.
    pub fn variable(number: usize) -> Form {
        let mut form = Form::constant(0);
        form.coefficients[number] = 1;
        form
    }

    /// Whether all coefficients are 0.
    pub fn is_constant(&self) -> bool {
        self.coefficients == [0; VARIABLES]
    }

    /// Builds a form from two, number by number.
    fn combine(&self, other: &Form, by: impl Fn(i64, i64) -> i64) -> Result<Form, OutOfRange> {
        let mut built = Form::constant(in_range(by(self.constant, other.constant))?);
        for (number, slot) in built.coefficients.iter_mut().enumerate() {
            *slot = in_range(by(self.coefficients[number], other.coefficients[number]))?;
        }
        Ok(built)
    }

    /// The sum of two forms.
    pub fn plus(&self, other: &Form) -> Result<Form, OutOfRange> {
        self.combine(other, |left, right| left + right)
    }

    /// The difference of two forms.
    pub fn minus(&self, other: &Form) -> Result<Form, OutOfRange> {
        self.combine(other, |left, right| left - right)
    }

    /// A number times this form.
    pub fn times(&self, factor: i64) -> Result<Form, OutOfRange> {
        self.combine(self, |number, _| number * factor)
    }

    /// This form with a caller's forms put for its variables, all together.
    pub fn put_in(&self, forms: &[Form]) -> Result<Form, OutOfRange> {
        let mut built = Form::constant(self.constant);
        for (form, &coefficient) in forms.iter().zip(&self.coefficients) {
            built = built.plus(&form.times(coefficient)?)?;
        }
        Ok(built)
    }

    /// Goes through the loops' variables from the highest to the lowest: the plain rule.
    ///
    /// They follow the family's own variables, of which there are `sizes`.
    pub fn scanned(&self, sizes: usize, loops: &[Bounds]) -> Scanned {
        let mut form = self.clone();
        let mut through = 0;
        for (depth, bounds) in loops.iter().enumerate().rev() {
            let coefficient = std::mem::take(&mut form.coefficients[sizes + depth]);
            let bound = match coefficient.signum() {
                0 => continue,
                1 => &bounds.low,
                _ => &bounds.high,
            };
            through = loops.len() - depth;
            let multiple = bound.times(coefficient);
            form = match multiple.and_then(|multiple| form.plus(&multiple)) {
                Ok(replaced) => replaced,
                Err(out) => {
                    let shown = Err(out);
                    return Scanned { shown, through };
                }
            };
        }
        let shown = Ok(form.is_natural());
        Scanned { shown, through }
    }

    /// Whether the constant and all coefficients are 0 or more.
    fn is_natural(&self) -> bool {
        self.constant >= 0 && self.coefficients.iter().all(|&number| number >= 0)
    }
}

#[cfg(test)]
mod tests {
    use super::*;

    /// The form `constant + first * v0 + second * v1`.
    fn form(constant: i64, first: i64, second: i64) -> Form {
        let mut form = Form::constant(constant);
        form.coefficients[0] = first;
        form.coefficients[1] = second;
        form
    }

    #[test]
    fn a_number_out_of_range_is_found_in_every_position() {
        assert!(form(LARGEST, 0, 0).plus(&form(1, 0, 0)).is_err());
        assert!(form(0, LARGEST, 0).plus(&form(0, 1, 0)).is_err());
        assert!(form(0, 0, -LARGEST).minus(&form(0, 0, 1)).is_err());
        assert!(form(LARGEST, -LARGEST, 0).minus(&form(0, 0, 0)).is_ok());
        assert!(form(0, 0, 2).times(LARGEST).is_err());
    }

    #[test]
    fn the_highest_loop_is_replaced_first() {
        let loops = [
            Bounds {
                low: form(0, 0, 0),
                high: form(3, 0, 0),
            },
            Bounds {
                low: form(0, 1, 0),
                high: form(3, 0, 0),
            },
        ];
        // v1 - v0 with v1 from v0 up: 0 once v1 gives way to v0.
        assert_eq!(form(0, -1, 1).scanned(0, &loops).shown, Ok(true));
        assert_eq!(form(-1, -1, 1).scanned(0, &loops).shown, Ok(false));
    }

    #[test]
    fn a_callers_forms_go_in_all_together() {
        let forms = [form(0, 0, 1), form(5, 1, 0)];
        assert_eq!(form(1, 2, 3).put_in(&forms), Ok(form(16, 3, 2)));
    }

    /// A constant and terms, each a coefficient and the number of its variable.
    fn sum(constant: i64, terms: &[(i64, usize)]) -> Form {
        let mut form = Form::constant(constant);
        for &(coefficient, variable) in terms {
            form.coefficients[variable] += coefficient;
        }
        form
    }

    /// Three loops, each from its low form to v0 - 1, with one family variable.
    fn three(lows: [Form; 3]) -> [Bounds; 3] {
        let high = sum(-1, &[(1, 0)]);
        lows.map(|low| Bounds {
            low,
            high: high.clone(),
        })
    }

    /// Three loops from 0 to v0 - 1, but the third from another form.
    fn third_from(low: Form) -> [Bounds; 3] {
        three([Form::constant(0), Form::constant(0), low])
    }

    /// Holds the scan of a form inside loops to what is due.
    fn hold(form: &Form, loops: &[Bounds], shown: Result<bool, OutOfRange>, through: usize) {
        let found = form.scanned(1, loops);
        assert_eq!(found, Scanned { shown, through }, "{form:?}");
    }

    #[test]
    fn without_loops_nothing_is_gone_through() {
        hold(&sum(0, &[(1, 0)]), &[], Ok(true), 0);
        hold(&sum(-1, &[(1, 0)]), &[], Ok(false), 0);
        hold(&sum(1, &[(-1, 0)]), &[], Ok(false), 0);
        hold(&sum(0, &[(-1, 5)]), &[], Ok(false), 0);
    }

    #[test]
    fn the_count_goes_down_to_the_last_that_is_replaced() {
        let loops = third_from(Form::constant(0));
        hold(&sum(4, &[(1, 0)]), &loops, Ok(true), 0);
        hold(&sum(-1, &[]), &loops, Ok(false), 0);
        hold(&sum(0, &[(1, 3)]), &loops, Ok(true), 1);
        hold(&sum(0, &[(1, 2)]), &loops, Ok(true), 2);
        hold(&sum(0, &[(1, 1)]), &loops, Ok(true), 3);
        hold(&sum(0, &[(1, 3), (1, 2)]), &loops, Ok(true), 2);
        hold(&sum(0, &[(1, 3), (1, 1)]), &loops, Ok(true), 3);
    }

    #[test]
    fn the_count_goes_on_to_a_variable_that_is_brought_in() {
        let [v1, v2] = [1, 2].map(Form::variable);
        let v3 = sum(0, &[(1, 3)]);
        hold(&v3, &third_from(v1.clone()), Ok(true), 3);
        hold(&v3, &third_from(v2.clone()), Ok(true), 2);
        let chain = three([Form::constant(0), v1, v2]);
        hold(&v3, &chain, Ok(true), 3);
        // v3 - v1 gives way to v2 - v1, and that to 0.
        hold(&sum(0, &[(1, 3), (-1, 1)]), &chain, Ok(true), 2);
    }

    #[test]
    fn the_count_leaves_out_a_variable_that_is_taken_away() {
        let loops = third_from(Form::variable(1));
        hold(&sum(0, &[(1, 3), (-1, 1)]), &loops, Ok(true), 1);
        hold(&sum(-1, &[(1, 3), (-1, 1)]), &loops, Ok(false), 1);
        // 2 v3 - v1 leaves v1.
        hold(&sum(0, &[(2, 3), (-1, 1)]), &loops, Ok(true), 3);
    }

    #[test]
    fn what_is_not_shown_has_its_count_too() {
        let loops = third_from(Form::constant(0));
        hold(&sum(-1, &[(1, 0), (-1, 3)]), &loops, Ok(true), 1);
        hold(&sum(-2, &[(1, 0), (-1, 3)]), &loops, Ok(false), 1);
        hold(&sum(0, &[(1, 3), (-1, 2)]), &loops, Ok(false), 2);
        hold(&sum(0, &[(-1, 1)]), &loops, Ok(false), 3);
    }

    #[test]
    fn a_variable_whose_replacement_leaves_the_range_counts() {
        let out = Err(OutOfRange);
        let half = Form::constant(LARGEST / 2);
        let more = Form::constant(LARGEST / 2 + 1);
        hold(&sum(0, &[(2, 3)]), &third_from(half), Ok(true), 1);
        let loops = third_from(more.clone());
        hold(&sum(0, &[(2, 3)]), &loops, out, 1);
        hold(&sum(0, &[(2, 3), (1, 2), (1, 1)]), &loops, out, 1);
        let loops = three([Form::constant(0), more.clone(), sum(0, &[(2, 2)])]);
        hold(&sum(0, &[(2, 2)]), &loops, out, 2);
        hold(&sum(0, &[(1, 3), (1, 1)]), &loops, out, 2);
        let loops = three([more, Form::constant(0), Form::constant(0)]);
        hold(&sum(0, &[(1, 3), (2, 1)]), &loops, out, 3);
    }

    #[test]
    fn the_multiple_leaves_the_range_by_itself_and_so_does_the_sum() {
        let out = Err(OutOfRange);
        let loops = third_from(Form::constant(LARGEST));
        hold(&sum(0, &[(1, 3)]), &loops, Ok(true), 1);
        hold(&sum(1, &[(1, 3)]), &loops, out, 1);
        hold(&sum(-LARGEST, &[(1, 3)]), &loops, Ok(true), 1);
        hold(&sum(-LARGEST, &[(2, 3)]), &loops, out, 1);
        let loops = third_from(sum(0, &[(LARGEST, 1)]));
        hold(&sum(0, &[(1, 3), (1, 1)]), &loops, out, 1);
        hold(&sum(0, &[(1, 3), (-LARGEST, 1)]), &loops, Ok(true), 1);
    }
}
