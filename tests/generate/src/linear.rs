//! Linear expressions over index variables, with which the generator plans.
//!
//! They only guide the generator towards programs that are accepted; whether a
//! program is accepted is for the checkers to say.

use crate::build::{difference, literal, product, sum, variable, Field};
use crate::random::Random;

/// Four family variables and eight loop variables.
pub const VARIABLES: usize = 12;

/// A constant plus a coefficient for each variable.
#[derive(Clone, Copy, Debug, PartialEq, Eq)]
pub struct Linear {
    pub constant: i64,
    pub coefficients: [i64; VARIABLES],
}

/// The low and high end of a loop.
#[derive(Clone, Copy, Debug)]
pub struct Bounds {
    pub low: Linear,
    pub high: Linear,
}

impl Bounds {
    /// The high end less the low end, which is 0 or more where the loop's body runs.
    pub fn range(&self) -> Linear {
        self.high.plus(-1, &self.low)
    }
}

impl Linear {
    /// A number.
    pub fn number(constant: i64) -> Linear {
        Linear {
            constant,
            coefficients: [0; VARIABLES],
        }
    }

    /// A variable.
    pub fn variable(number: usize) -> Linear {
        let mut linear = Linear::number(0);
        linear.coefficients[number] = 1;
        linear
    }

    /// This plus a number times another.
    pub fn plus(mut self, factor: i64, other: &Linear) -> Linear {
        self.constant += factor * other.constant;
        for (mine, theirs) in self.coefficients.iter_mut().zip(&other.coefficients) {
            *mine += factor * theirs;
        }
        self
    }

    /// This plus a number.
    pub fn shift(mut self, number: i64) -> Linear {
        self.constant += number;
        self
    }

    /// A caller's expressions put for the variables.
    pub fn put_in(&self, forms: &[Linear]) -> Linear {
        let mut built = Linear::number(self.constant);
        for (form, &coefficient) in forms.iter().zip(&self.coefficients) {
            built = built.plus(coefficient, form);
        }
        built
    }

    /// Whether this is likely to be shown 0 or more, at times with the range of a loop.
    pub fn natural(self, sizes: usize, loops: &[Bounds]) -> bool {
        let shows = |tried: &Bounds| self.plus(-1, &tried.range()).plain(sizes, loops);
        self.plain(sizes, loops) || loops.iter().any(shows)
    }

    /// Whether this is likely to be shown 0 or more without the range of a loop.
    fn plain(mut self, sizes: usize, loops: &[Bounds]) -> bool {
        for (depth, bounds) in loops.iter().enumerate().rev() {
            let factor = std::mem::take(&mut self.coefficients[sizes + depth]);
            let bound = if factor > 0 { bounds.low } else { bounds.high };
            self = self.plus(factor, &bound);
        }
        self.constant >= 0 && self.coefficients.iter().all(|&factor| factor >= 0)
    }

    /// An index field of this meaning, in one of many shapes.
    pub fn render(&self, random: &mut Random) -> Field {
        let mut terms = self.terms(random);
        let start = terms.iter().position(|(positive, _)| *positive);
        let mut built = match start {
            Some(place) => terms.swap_remove(place).1,
            None => literal(0),
        };
        while !terms.is_empty() {
            let (positive, term) = terms.swap_remove(random.below(terms.len()));
            built = match (positive, random.percent(20)) {
                (true, true) => sum(term, built),
                (true, false) => sum(built, term),
                (false, _) => difference(built, term),
            };
        }
        built
    }

    /// The terms that are not 0, each with its sign.
    fn terms(&self, random: &mut Random) -> Vec<(bool, Field)> {
        let mut terms = Vec::new();
        if self.constant != 0 {
            terms.push((self.constant > 0, number(self.constant.unsigned_abs())));
        }
        for (place, &factor) in self.coefficients.iter().enumerate() {
            if factor != 0 {
                let size = factor.unsigned_abs();
                terms.push((factor > 0, multiple(size, place as u8, random)));
            }
        }
        terms
    }
}

/// A natural number as an index.
fn number(size: u64) -> Field {
    match u16::try_from(size) {
        Ok(small) => literal(small),
        Err(_) => sum(
            product(literal((size / 50_000) as u16), literal(50_000)),
            literal((size % 50_000) as u16),
        ),
    }
}

/// A multiple of a variable.
fn multiple(factor: u64, place: u8, random: &mut Random) -> Field {
    match (factor, random.below(4)) {
        (1, 0..=2) => variable(place),
        (2, 0) => sum(variable(place), variable(place)),
        (_, 1) => product(variable(place), number(factor)),
        _ => product(number(factor), variable(place)),
    }
}
