//! Families as arguments: parameters that are families, what is passed for them, and calls of
//! such parameters.

use super::{Kind, Parameter, Scope, Signature, Writer};
use crate::build::*;
use crate::linear::{Bounds, Linear};

/// How many families of a hundred take families where there are some to pass.
const SHARE: usize = 40;
/// How many simple statements of a hundred call a parameter where that is a family.
const CALLS: usize = 45;
/// How many calls of a hundred are of families to which families are passed.
const TAKING: usize = 50;
/// The most parameters of a family.
const PARAMETERS: usize = 8;
/// One passed family of so many is any family, whether or not it suits.
const UNFIT: usize = 400;

impl Signature {
    /// Whether a family has to be passed to this one.
    pub fn takes_families(&self) -> bool {
        let is_family = |parameter: &Parameter| matches!(parameter, Parameter::Family(_));
        self.parameters.iter().any(is_family)
    }

    /// Whether a family like this one may be passed where a family's type is asked for.
    fn suits(&self, formal: &Signature) -> bool {
        let counts = (self.sizes, self.parameters.len());
        let mut pairs = formal.parameters.iter().zip(&self.parameters);
        counts == (formal.sizes, formal.parameters.len())
            && pairs.all(|(formal, own)| match (formal, own) {
                (Parameter::Wire, Parameter::Wire) => true,
                (Parameter::Wires(given), Parameter::Wires(asked)) => {
                    given.plus(-1, asked).natural(self.sizes, &[])
                }
                _ => false,
            })
    }
}

impl Scope {
    /// The numbers of the operands that are families.
    fn families(&self) -> Vec<usize> {
        let family = |kind: &Kind| matches!(kind, Kind::Family(_));
        (0..self.kinds.len())
            .filter(|&number| family(&self.kinds[number]))
            .collect()
    }
}

impl Writer<'_> {
    /// A signature with family parameters, now and then, where there are families to pass.
    pub(super) fn taking_families(&mut self) -> Option<Signature> {
        if !self.random.percent(SHARE) {
            return None;
        }
        let first = self.family_parameter()?;
        let mut signature = match self.random.percent(60) {
            true => first.clone(),
            false => self.plain_signature(),
        };
        let further = self.random.pick(&[0, 0, 0, 0, 1, 1, 2, 7]);
        for number in 0..=further {
            let formal = match number == 0 || self.random.percent(30) {
                true => first.clone(),
                false => self.family_parameter()?,
            };
            let place = self.random.below(signature.parameters.len() + 1);
            let parameter = Parameter::Family(formal);
            signature.parameters.insert(place, parameter);
        }
        signature.parameters.truncate(PARAMETERS);
        Some(signature)
    }

    /// The type of a family parameter: that of an earlier family, or one with more wires.
    fn family_parameter(&mut self) -> Option<Signature> {
        let plain = |family: &&Signature| !family.takes_families();
        let candidates: Vec<&Signature> = self.families.iter().filter(plain).collect();
        if candidates.is_empty() {
            return None;
        }
        let mut formal = candidates[self.random.below(candidates.len())].clone();
        for parameter in &mut formal.parameters {
            if let Parameter::Wires(size) = parameter {
                *size = self.larger(*size, formal.sizes);
            }
        }
        Some(formal)
    }

    /// A size over a family's own variables that is another one or more.
    fn larger(&mut self, size: Linear, sizes: usize) -> Linear {
        let number = self.random.between(1, 3);
        match self.random.below(8) {
            0 | 1 => size.shift(number),
            2 if sizes > 0 => size.plus(1, &Linear::variable(self.random.below(sizes))),
            3 if sizes > 0 => {
                let variable = Linear::variable(self.random.below(sizes));
                size.plus(number, &variable).shift(1)
            }
            _ => size,
        }
    }

    /// The number of a family to which families are passed, now and then, if there is one.
    pub(super) fn taking(&mut self) -> Option<usize> {
        if !self.random.percent(TAKING) {
            return None;
        }
        let taking = |number: &usize| self.families[*number].takes_families();
        let numbers: Vec<usize> = (0..self.families.len()).filter(taking).collect();
        let place = self.random.below(numbers.len());
        numbers.get(place).copied()
    }

    /// The number of a family that suits a family's type and is declared before the one with
    /// a number, if there is one.
    pub(super) fn passed(&mut self, formal: &Signature, before: usize) -> Option<u16> {
        if self.near_misses && self.random.below(UNFIT) == 0 {
            return Some(self.random.below(self.families.len() + 1) as u16);
        }
        let suitable: Vec<u16> = (0..before)
            .filter(|&number| self.families[number].suits(formal))
            .map(|number| number as u16)
            .collect();
        let far: Vec<u16> = suitable.iter().copied().filter(|&n| n > 255).collect();
        match (
            suitable.is_empty(),
            far.is_empty() || self.random.percent(40),
        ) {
            (true, _) => None,
            (_, true) => Some(self.random.pick(&suitable)),
            (_, false) => Some(self.random.pick(&far)),
        }
    }

    /// Writes a statement at the top that passes families, if there is a family to pass them to.
    pub(super) fn passing_statement(&mut self, scope: &mut Scope) -> Option<Field> {
        let number = self.taking()?;
        let inner = |writer: &mut Self, scope: &Scope| writer.call_of(number, scope);
        self.inside(scope, inner)
    }

    /// Writes a statement that calls a parameter, where one is a family.
    pub(super) fn parameter_statement(&mut self, scope: &mut Scope) -> Option<Field> {
        self.inside(scope, Self::call_a_parameter)
    }

    /// Writes a statement as it is, in a loop or reversed.
    fn inside(
        &mut self,
        scope: &mut Scope,
        inner: impl FnOnce(&mut Self, &Scope) -> Option<Field>,
    ) -> Option<Field> {
        match self.random.below(5) {
            0 => Some(reverse(vec![inner(self, scope)?])),
            1 | 2 => {
                let last = self.random.below(3) as u16;
                scope.loops.push(Bounds {
                    low: Linear::number(0),
                    high: Linear::number(last.into()),
                });
                let written = inner(self, scope);
                scope.loops.pop();
                Some(repeat(literal(0), literal(last), vec![written?]))
            }
            _ => inner(self, scope),
        }
    }

    /// Writes a call of a parameter that is a family, now and then, if arguments are found.
    pub(super) fn parameter_call(&mut self, scope: &Scope) -> Option<Field> {
        match self.random.percent(CALLS) {
            true => self.call_a_parameter(scope),
            false => None,
        }
    }

    /// Writes a call of a parameter that is a family, if there is one and arguments are found.
    fn call_a_parameter(&mut self, scope: &Scope) -> Option<Field> {
        let families = scope.families();
        if families.is_empty() {
            return None;
        }
        let number = self.random.pick(&families);
        let Kind::Family(called) = &scope.kinds[number] else {
            return None;
        };
        let (sizes, operands) = match self.as_it_is(scope, called) {
            Some(handed) => handed,
            None => self.handed(scope, called, 0)?,
        };
        Some(parameter_call(number as u8, sizes, operands))
    }

    /// Sizes and operands for a family whose own variables and parameters are among those in
    /// scope, in their order, now and then.
    fn as_it_is(&mut self, scope: &Scope, called: &Signature) -> Option<(Vec<Field>, Vec<Field>)> {
        if scope.sizes != called.sizes || !self.random.percent(40) {
            return None;
        }
        let mut numbers = 0..scope.kinds.len();
        let mut operands = Vec::new();
        for parameter in &called.parameters {
            let same = |number: &usize| match (parameter, &scope.kinds[*number]) {
                (Parameter::Wire, Kind::Wire) => true,
                (Parameter::Wires(asked), Kind::Wires(size)) => {
                    scope.natural(&size.plus(-1, asked))
                }
                _ => false,
            };
            operands.push(whole(numbers.find(same)? as u8));
        }
        let sizes = (0..called.sizes as u8).map(variable).collect();
        Some((sizes, operands))
    }
}
