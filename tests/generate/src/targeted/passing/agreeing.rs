//! What is passed beside what is asked for: counts, kinds and sizes, the same and nearly so.

use super::super::with;
use crate::build::*;
use crate::case::Case;
use crate::linear::Linear;
use crate::random::Random;

/// The wires of each register that is handed to a parameter.
const WIRES: u16 = 30;

/// A parameter: a wire, or a register of a size.
type Plain = Option<Linear>;

/// A family that is passed, and the type of the parameter that it is passed for.
struct Plan {
    /// How many index variables the family has, and how many the type.
    sizes: [usize; 2],
    own: Vec<Plain>,
    formal: Vec<Plain>,
    /// Whether the last parameter of the family is a family instead.
    takes: bool,
}

/// A size over variables with small numbers.
fn some_size(sizes: usize, random: &mut Random) -> Linear {
    let number = random.between(0, 3);
    (0..sizes).fold(Linear::number(number), |size, variable| {
        size.plus(random.between(0, 2), &Linear::variable(variable))
    })
}

/// A wire or a register.
fn some_parameter(sizes: usize, random: &mut Random) -> Plain {
    random.percent(60).then(|| some_size(sizes, random))
}

/// Types of wires and registers.
fn types(parameters: &[Plain], random: &mut Random) -> Vec<Field> {
    let written = |parameter: &Plain| match parameter {
        None => qbit(),
        Some(size) => qbits(size.render(random)),
    };
    parameters.iter().map(written).collect()
}

/// A statement for each parameter: h on a wire, t on each wire of a register.
fn gates(sizes: usize, parameters: &[Plain], random: &mut Random) -> Vec<Field> {
    let statement = |(number, parameter): (usize, &Plain)| match parameter {
        None => h(whole(number as u8)),
        Some(size) => {
            let gate = t(element(number as u8, variable(sizes as u8)));
            let last = size.shift(-1).render(random);
            repeat(literal(0), last, vec![gate])
        }
    };
    parameters.iter().enumerate().map(statement).collect()
}

impl Plan {
    /// A family and its own type; of 8 parameters the last is as the first.
    fn new(sizes: usize, count: usize, random: &mut Random) -> Plan {
        let mut own: Vec<Plain> = (0..count).map(|_| some_parameter(sizes, random)).collect();
        if count > 7 {
            own[7] = own[0];
        }
        Plan {
            sizes: [sizes; 2],
            formal: own.clone(),
            own,
            takes: false,
        }
    }

    /// The family that is passed.
    fn passed(&self, random: &mut Random) -> Field {
        let sizes = self.sizes[0];
        let mut types = types(&self.own, random);
        if self.takes {
            types.pop();
            types.push(super::wire_family());
            return family(sizes as u8, types, vec![]);
        }
        family(sizes as u8, types, gates(sizes, &self.own, random))
    }

    /// A family with a parameter of the type, by turns the first and the last, and others to
    /// hand to it.
    fn taking(&self, first: bool, random: &mut Random) -> Field {
        let formal = types(&self.formal, random);
        let mut others: Vec<Field> = self.formal.iter().map(Self::handed).collect();
        others.truncate(7);
        let count = others.len() as u8;
        let own = family_type(self.sizes[1] as u8, formal);
        let (place, shift) = match first {
            true => (0, 1),
            false => (count, 0),
        };
        others.insert(usize::from(place), own);
        let operands = (0..self.formal.len() as u8).map(|number| whole(number % 7 + shift));
        let sizes = (0..self.sizes[1]).map(|_| literal(random.below(3) as u16));
        let once = parameter_call(place, sizes.collect(), operands.collect());
        let body = match random.below(4) {
            0 => vec![reverse(vec![once])],
            1 => vec![repeat(literal(0), literal(1), vec![once])],
            _ => vec![once],
        };
        family(0, others, body)
    }

    /// The type of what is handed to a parameter.
    fn handed(parameter: &Plain) -> Field {
        match parameter {
            None => qbit(),
            Some(_) => qbits(literal(WIRES)),
        }
    }

    /// A call that passes the family 0 to the family 1.
    fn call(&self, first: bool) -> Field {
        let operand = |(number, parameter): (usize, &Plain)| match parameter {
            None => at(0, number as u16),
            Some(_) => between(0, number as u16, number as u16 + WIRES - 1),
        };
        let count = self.formal.len().min(7);
        let mut operands: Vec<Field> = self.formal[..count]
            .iter()
            .enumerate()
            .map(operand)
            .collect();
        let place = if first { 0 } else { operands.len() };
        operands.insert(place, passed(0));
        call(1, vec![], operands)
    }

    /// The program, with the call inside what is given.
    fn case(&self, around: impl Fn(Field) -> Vec<Field>, random: &mut Random) -> Case {
        let first = random.percent(40);
        let mut fields = vec![self.passed(random), self.taking(first, random)];
        fields.push(qreg(WIRES + 8));
        fields.extend(around(self.call(first)));
        let mut case = with(&fields, &vec![1; self.sizes[0]]);
        case.family = random.pick(&[0, 0, 1]);
        case
    }
}

/// Counts and kinds that agree, or differ in one thing.
pub fn counts(random: &mut Random) -> Case {
    let sizes = random.below(5);
    let count = random.pick(&[1, 1, 2, 2, 3, 5, 7, 8]);
    let mut plan = Plan::new(sizes, count, random);
    let place = random.below(count);
    match random.below(12) {
        0 => plan.sizes[1] = random.pick(&[sizes + 1, sizes.saturating_sub(1)]).min(4),
        1 => plan.sizes[0] = (sizes + 1).min(4),
        2 => plan.formal.truncate(count.max(2) - 1),
        3 if count < 8 => plan.formal.push(some_parameter(0, random)),
        4 => plan.formal[place] = None,
        5 => plan.formal[place] = Some(Linear::number(WIRES.into())),
        6 | 7 => plan.takes = true,
        _ => {}
    }
    plan.case(|call| vec![call], random)
}

/// What a formal size is more than the size of the family that is passed.
fn difference_of_sizes(sizes: usize, random: &mut Random) -> Linear {
    let zero = Linear::number(0);
    let variable = match sizes {
        0 => zero,
        _ => Linear::variable(random.below(sizes)),
    };
    match random.below(9) {
        0 => zero.shift(-1),
        1 => zero.shift(1),
        2 => variable,
        3 => zero.plus(-1, &variable),
        4 => variable.shift(-1),
        5 => zero.plus(-1, &variable).shift(3),
        6 => zero.plus(2, &variable).shift(2),
        _ => zero,
    }
}

/// Sizes that are asked for beside sizes that are given, most of them alike.
pub fn sizes(random: &mut Random) -> Case {
    let sizes = random.pick(&[0, 1, 1, 2, 2, 3, 4]);
    let count = random.pick(&[1, 1, 2, 3, 8]);
    let mut plan = Plan::new(sizes, count, random);
    let place = random.below(count);
    let own = some_size(sizes, random);
    plan.own[place] = Some(own);
    plan.formal[place] = Some(match random.below(12) {
        0 => large_size(&mut plan.own[place], sizes, random),
        _ => own.plus(1, &difference_of_sizes(sizes, random)),
    });
    if random.percent(15) {
        // Another kind before or behind, which comes before all sizes.
        let other = &mut plan.own[random.below(count)];
        *other = match other {
            None => Some(Linear::number(0)),
            Some(_) => None,
        };
    }
    plan.case(|call| vec![call], random)
}

/// A formal size with numbers that are the largest or 0, beside such a size of the family.
fn large_size(own: &mut Plain, sizes: usize, random: &mut Random) -> Linear {
    const LARGEST: i64 = 2_000_000_000;
    let mut one = || {
        let number = Linear::number(random.pick(&[0, LARGEST, LARGEST - 1]));
        match sizes {
            0 => number,
            _ => number.plus(random.pick(&[0, LARGEST]), &Linear::variable(0)),
        }
    };
    *own = Some(one());
    one()
}

/// Sizes that the loops around a call would show, and that must not count.
pub fn loops_of_the_caller(random: &mut Random) -> Case {
    let sizes = random.pick(&[0, 1, 1, 1, 2]);
    let mut plan = Plan::new(sizes, random.pick(&[1, 1, 2]), random);
    let own = some_size(sizes, random).shift(2);
    plan.own[0] = Some(own);
    plan.formal[0] = Some(own.plus(1, &difference_of_sizes(sizes, random)));
    let below = || difference(literal(0), literal(1));
    let bounds = match random.below(4) {
        0 => [literal(0), below()],
        1 => [literal(1), literal(2)],
        2 => [below(), below()],
        _ => [literal(3), literal(0)],
    };
    let depth = 1 + random.below(2);
    let around = |call| {
        let looped = |inside, _| vec![repeat(bounds[0].clone(), bounds[1].clone(), inside)];
        (0..depth).fold(vec![call], looped)
    };
    plan.case(around, random)
}
