//! Index forms for messages: a constant plus a factor for each variable.
//!
//! The check decides what is shown; forms here only say which showing failed, and why.

use crate::field::{tags, Field};
use crate::scope::two_bytes;

/// The largest number, up or down, that a form may have.
const LARGEST: i64 = 2_000_000_000;

/// What an index means before its variables have values.
#[derive(Clone, Debug, PartialEq, Eq)]
pub struct Form {
    pub constant: i64,
    /// The factors of the variables, by number.
    pub factors: Vec<i64>,
}

impl Form {
    /// A form without variables, among so many in scope.
    pub fn constant(constant: i64, variables: usize) -> Form {
        Form {
            constant,
            factors: vec![0; variables],
        }
    }

    /// The form of an index field, unless it has none.
    pub fn of(index: &Field, variables: usize) -> Option<Form> {
        match index.tag? {
            tags::LITERAL => Some(Form::constant(i64::from(two_bytes(index)), variables)),
            tags::VARIABLE => {
                let mut form = Form::constant(0, variables);
                *form.factors.get_mut(usize::from(index.head[0]))? = 1;
                Some(form)
            }
            tag => {
                let left = Form::of(index.parts.first()?, variables)?;
                let right = Form::of(index.parts.get(1)?, variables)?;
                left.joined(tag, &right)
            }
        }
    }

    /// The sum, difference or product of two forms.
    fn joined(&self, tag: u8, right: &Form) -> Option<Form> {
        let zero = Form::constant(0, self.factors.len());
        match tag {
            tags::SUM => Some(self.plus(1, right)),
            tags::DIFFERENCE => Some(self.plus(-1, right)),
            tags::PRODUCT if self.is_constant() => Some(zero.plus(self.constant, right)),
            tags::PRODUCT if right.is_constant() => Some(zero.plus(right.constant, self)),
            _ => None,
        }
    }

    /// Whether no variable has a factor.
    pub fn is_constant(&self) -> bool {
        self.factors.iter().all(|factor| *factor == 0)
    }

    /// This form and another one so many times.
    pub fn plus(&self, times: i64, other: &Form) -> Form {
        let add = |left: i64, right: i64| left.saturating_add(right.saturating_mul(times));
        let pairs = self.factors.iter().zip(&other.factors);
        Form {
            constant: add(self.constant, other.constant),
            factors: pairs.map(|(left, right)| add(*left, *right)).collect(),
        }
    }

    /// This form and another one so many times, unless a number that is built leaves the range.
    pub fn plus_in_range(&self, times: i64, other: &Form) -> Option<Form> {
        let multiple = Form::constant(0, self.factors.len()).plus(times, other);
        let sum = self.plus(1, &multiple);
        (multiple.is_in_range() && sum.is_in_range()).then_some(sum)
    }

    /// Whether every number is in the range of forms.
    fn is_in_range(&self) -> bool {
        let mut numbers = self.factors.iter().chain([&self.constant]);
        numbers.all(|number| (-LARGEST..=LARGEST).contains(number))
    }

    /// Whether the constant and all factors are 0 or more.
    pub fn is_natural(&self) -> bool {
        self.constant >= 0 && self.factors.iter().all(|factor| *factor >= 0)
    }

    /// The value where the variables have values.
    pub fn at(&self, values: &[u32]) -> i64 {
        let terms = self.factors.iter().zip(values);
        terms.fold(self.constant, |sum, (factor, value)| {
            sum.saturating_add(factor.saturating_mul(i64::from(*value)))
        })
    }

    /// The form as people write it, as `2*n - 1`.
    pub fn text(&self, name: impl Fn(usize) -> String) -> String {
        let mut text = String::new();
        for (number, factor) in self.factors.iter().enumerate() {
            if *factor != 0 {
                let times = match factor.unsigned_abs() {
                    1 => String::new(),
                    many => format!("{many}*"),
                };
                add_term(&mut text, *factor < 0, &(times + &name(number)));
            }
        }
        if self.constant != 0 || text.is_empty() {
            let amount = self.constant.unsigned_abs().to_string();
            add_term(&mut text, self.constant < 0, &amount);
        }
        text
    }
}

/// Adds one term with its sign.
fn add_term(text: &mut String, negative: bool, term: &str) {
    let sign = match (text.is_empty(), negative) {
        (true, true) => "-",
        (true, false) => "",
        (false, true) => " - ",
        (false, false) => " + ",
    };
    text.push_str(sign);
    text.push_str(term);
}
