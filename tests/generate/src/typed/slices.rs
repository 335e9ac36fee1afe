//! What an operand takes of a register: all of it, an element or a slice.

use super::{Kind, Scope, Writer, LOOKS, TRIES};
use crate::build::*;
use crate::linear::{Linear, VARIABLES};

/// How many registers of a hundred are passed as slices where one is found.
const SHARE: usize = 60;

/// The part of an operand that is meant.
#[derive(Clone, Copy, PartialEq, Eq)]
pub(super) enum Part {
    Whole,
    Element(Linear),
    Slice(Linear, Linear),
}

/// An operand: its number and the part of it.
pub(super) type Chosen = (usize, Part);

impl Part {
    /// The first and the last element, where they are said.
    fn ends(&self) -> Option<[Linear; 2]> {
        match *self {
            Part::Whole => None,
            Part::Element(index) => Some([index, index]),
            Part::Slice(first, last) => Some([first, last]),
        }
    }
}

/// Whether one index is above another by a fixed distance.
fn above(one: &Linear, other: &Linear) -> bool {
    let distance = one.plus(-1, other);
    distance.constant > 0 && distance.coefficients == [0; VARIABLES]
}

/// Whether two operands differ by number, or one ends a fixed distance below the other.
pub(super) fn apart(one: &Chosen, two: &Chosen) -> bool {
    match (one.1.ends(), two.1.ends()) {
        (Some([first, last]), Some([other_first, other_last])) if one.0 == two.0 => {
            above(&first, &other_last) || above(&other_first, &last)
        }
        _ => one.0 != two.0,
    }
}

/// Whether two operands are likely to share a wire.
pub(super) fn overlap(one: &Chosen, two: &Chosen) -> bool {
    match (one.1, two.1) {
        (Part::Element(_), Part::Element(_)) => one == two,
        _ => !apart(one, two),
    }
}

impl Scope {
    /// Whether a slice is likely to be shown inside a register, and as large as asked.
    fn holds(&self, [first, last]: [&Linear; 2], size: &Linear, asked: &Linear) -> bool {
        let held = last.plus(-1, first).shift(1);
        let rest = size.shift(-1).plus(-1, last);
        let shown = [*first, rest, held, held.plus(-1, asked)];
        shown.iter().all(|linear| self.natural(linear))
    }
}

impl Writer<'_> {
    /// Writes an operand that has been chosen.
    pub(super) fn chosen(&mut self, (number, part): Chosen) -> Field {
        let number = number as u8;
        match part {
            Part::Whole => whole(number),
            Part::Element(index) => element(number, index.render(self.random)),
            Part::Slice(first, last) => {
                let first = first.render(self.random);
                slice(number, first, last.render(self.random))
            }
        }
    }

    /// A register or a slice that is large enough, if possible of wires that are not taken.
    pub(super) fn fresh_wires(
        &mut self,
        scope: &Scope,
        asked: &Linear,
        taken: &[Chosen],
    ) -> Option<Chosen> {
        let fresh = |chosen: &Chosen| !taken.iter().any(|other| overlap(other, chosen));
        let sliced = match self.random.percent(SHARE) {
            true => (0..LOOKS)
                .filter_map(|_| self.slice(scope, asked))
                .find(fresh),
            false => None,
        };
        sliced.or_else(|| self.fresh_register(scope, asked, taken))
    }

    /// A slice that is likely to be as large as asked, if one is found.
    fn slice(&mut self, scope: &Scope, asked: &Linear) -> Option<Chosen> {
        for _ in 0..TRIES {
            let number = self.random.below(scope.kinds.len());
            let Kind::Wires(size) = scope.kinds.get(number)? else {
                continue;
            };
            let (first, last) = self.ends(scope, size, asked);
            if scope.holds([&first, &last], size, asked) || self.misses() {
                return Some((number, Part::Slice(first, last)));
            }
        }
        None
    }

    /// The first and the last element of a slice that may suit.
    fn ends(&mut self, scope: &Scope, size: &Linear, asked: &Linear) -> (Linear, Linear) {
        let from = self.start(scope, size, asked);
        let last = from.plus(1, asked).shift(-1);
        match self.random.below(12) {
            0 | 1 => (from, size.shift(-1)),
            2 => (from, last.shift(self.random.between(1, 2))),
            3 => (Linear::number(0), last),
            _ => (from, last),
        }
    }

    /// Where a slice may begin: at either end, at a variable or inside.
    fn start(&mut self, scope: &Scope, size: &Linear, asked: &Linear) -> Linear {
        let one = self.some_variable(scope);
        let number = self.random.between(0, 2);
        match self.random.below(12) {
            0 | 1 => Linear::number(0),
            2..=4 => size.plus(-1, asked),
            5..=7 => one,
            8 => one.shift(number - 1),
            9 => size.plus(-1, asked).plus(-1, &one),
            10 => one.plus(number, &one),
            _ => Linear::number(number),
        }
    }
}
