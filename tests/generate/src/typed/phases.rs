//! Gates on the wires that were chosen, phases among them.

use super::{Scope, Writer, TRIES};
use crate::build::*;
use crate::linear::Linear;

/// The largest k that a run takes.
const LARGEST_K: i64 = 63;
/// How many gates of a hundred are phases.
const SHARE: usize = 25;

impl Writer<'_> {
    /// Writes a gate on one wire.
    pub(super) fn on_wire(&mut self, scope: &Scope, wire: Field) -> Field {
        match self.random.percent(SHARE) {
            true => phase(self.k(scope), wire),
            false => self.random.pick(&[h, h, t, tdg])(wire),
        }
    }

    /// Writes a gate on two wires.
    pub(super) fn on_pair(&mut self, scope: &Scope, wires: [Field; 2]) -> Field {
        let [control, target] = wires;
        match self.random.percent(SHARE) {
            true => cphase(self.k(scope), control, target),
            false => cx(control, target),
        }
    }

    /// Writes a k that is likely to be shown 0 or more.
    fn k(&mut self, scope: &Scope) -> Field {
        for _ in 0..TRIES {
            let k = self.some_k(scope);
            if scope.natural(&k) || self.misses() {
                return k.render(self.random);
            }
        }
        Linear::number(self.random.between(0, LARGEST_K)).render(self.random)
    }

    /// A k that may suit: mostly a small one, now and then one that ends a run.
    fn some_k(&mut self, scope: &Scope) -> Linear {
        let number = self.random.between(0, 3);
        let one = self.some_variable(scope);
        let two = self.some_variable(scope);
        match self.random.below(40) {
            0..=6 => Linear::number(self.random.between(0, LARGEST_K)),
            7..=9 => Linear::number(self.random.pick(&[0, 1, LARGEST_K - 1, LARGEST_K])),
            10..=13 => one,
            14..=18 => one.shift(number - 1),
            19..=23 => one.plus(-1, &two).shift(number),
            24..=27 => self.some_size(scope).plus(-1, &one),
            28..=31 => one.plus(1, &two),
            32..=35 => Linear::number(LARGEST_K).plus(-1, &one),
            36..=38 => Linear::number(number).plus(number, &one),
            _ => Linear::number(self.random.pick(&[64, 65, 1_000, 65_535, 200_000])),
        }
    }
}
