//! The deepest programs: as many families as fit, each of which calls the one before, by its
//! number or as a parameter.

use crate::build::*;

/// How the families of a deepest program are nested.
#[derive(Clone, Copy, Debug)]
pub struct Shape {
    pub name: &'static str,
    order: Order,
    loops: usize,
    reversals: usize,
    parameters: Parameters,
    /// Whether every second family is passed the one before and calls it as a parameter.
    passes: bool,
}

/// In which order loops and reversals are nested, and what else a reversal holds.
#[derive(Clone, Copy, Debug)]
enum Order {
    /// Loops inside reversals that hold nothing else.
    Single,
    /// Loops inside reversals that each hold a list of two, or the call.
    Listed,
    /// Loops and such reversals in turn.
    InTurn,
}

/// The parameters of each family, 1 to 8.
#[derive(Clone, Copy, Debug)]
enum Parameters {
    /// So many wires.
    Wires(u8),
    /// So many registers over so many index variables, 1 to 4.
    Registers { count: u8, indexes: u8 },
    /// The same, passed on as slices.
    Slices { count: u8, indexes: u8 },
}

use Order::{InTurn, Listed, Single};
use Parameters::{Registers, Slices, Wires};

/// One register over one index variable.
const ONE: Parameters = Registers {
    count: 1,
    indexes: 1,
};
/// The most registers over the most index variables.
const MOST: Parameters = Registers {
    count: 8,
    indexes: 4,
};
/// One slice over one index variable, and the most over the most.
const ONE_SLICE: Parameters = Slices {
    count: 1,
    indexes: 1,
};
const MOST_SLICES: Parameters = Slices {
    count: 8,
    indexes: 4,
};

/// The most registers and slices beside a family that is passed.
const MOST_BUT_ONE: Parameters = Registers {
    count: 7,
    indexes: 4,
};
const MOST_SLICES_BUT_ONE: Parameters = Slices {
    count: 7,
    indexes: 4,
};

/// From the most families without nesting to those of 16 levels. Reversals that hold
/// nothing else take the fewest bytes; those that hold a list take the most stack each.
pub const SHAPES: [Shape; 19] = [
    shape("calls alone", Single, [0, 0], Wires(1)),
    shape("1 reversal", Single, [0, 1], Wires(1)),
    shape("15 reversals", Single, [0, 15], Wires(1)),
    shape("15 reversals, 8 wires", Single, [0, 15], Wires(8)),
    shape("7 reversals in lists", Listed, [0, 7], Wires(1)),
    shape("15 reversals in lists", Listed, [0, 15], Wires(1)),
    shape("8 loops in 7 reversals", Single, [8, 7], Wires(1)),
    shape("in turn, 1 register", InTurn, [8, 7], ONE),
    shape("in turn, 8 registers", InTurn, [8, 7], MOST),
    shape("slices alone", Single, [0, 0], ONE_SLICE),
    shape("in turn, 1 slice", InTurn, [8, 7], ONE_SLICE),
    shape("in turn, 8 slices", InTurn, [8, 7], MOST_SLICES),
    passing("passed alone", Single, [0, 0], Wires(1)),
    passing("passed, 1 reversal", Single, [0, 1], Wires(1)),
    passing("passed, 15 reversals", Single, [0, 15], Wires(1)),
    passing("passed, 15 in lists", Listed, [0, 15], Wires(1)),
    passing("passed in turn, 1 register", InTurn, [8, 7], ONE),
    passing("passed in turn, 7 registers", InTurn, [8, 7], MOST_BUT_ONE),
    passing(
        "passed in turn, 7 slices",
        InTurn,
        [8, 7],
        MOST_SLICES_BUT_ONE,
    ),
];

/// A shape of so many loops and reversals.
const fn shape(
    name: &'static str,
    order: Order,
    [loops, reversals]: [usize; 2],
    parameters: Parameters,
) -> Shape {
    Shape {
        name,
        order,
        loops,
        reversals,
        parameters,
        passes: false,
    }
}

/// The same of families half of which are called as parameters.
const fn passing(
    name: &'static str,
    order: Order,
    levels: [usize; 2],
    parameters: Parameters,
) -> Shape {
    Shape {
        passes: true,
        ..shape(name, order, levels, parameters)
    }
}

impl Parameters {
    /// How many there are.
    fn count(self) -> u8 {
        match self {
            Wires(count) | Registers { count, .. } | Slices { count, .. } => count,
        }
    }

    /// The index variables of each family.
    fn indexes(self) -> u8 {
        match self {
            Wires(_) => 0,
            Registers { indexes, .. } | Slices { indexes, .. } => indexes,
        }
    }

    /// The types: wires, or a register of n+1 wires and registers of a variable's size.
    fn types(self) -> Vec<Field> {
        match self {
            Wires(count) => vec![qbit(); usize::from(count)],
            Registers { count, indexes } | Slices { count, indexes } => {
                let others = (1..count).map(|number| qbits(variable(number % indexes)));
                [qbits(plus(0, 1))].into_iter().chain(others).collect()
            }
        }
    }

    /// One wire of the first parameter, at an index where that is a register.
    fn wire(self, index: Field) -> Field {
        match self {
            Wires(_) => whole(0),
            Registers { .. } | Slices { .. } => element(0, index),
        }
    }

    /// The same, with a wire more where there is only one.
    fn two_or_more(self) -> Parameters {
        match self {
            Wires(1) => Wires(2),
            others => others,
        }
    }

    /// Two wires, with indexes of 16 levels where they are of one register: its first and its
    /// last.
    fn two_wires(self) -> [Field; 2] {
        match self {
            Wires(_) => [whole(0), whole(1)],
            Registers { .. } | Slices { .. } => {
                [left_deep(), last_deep()].map(|index| element(0, index))
            }
        }
    }

    /// A parameter as it is passed on: all of it.
    fn passed(self, number: u8) -> Field {
        match (self, number) {
            (Wires(_) | Registers { .. }, _) => whole(number),
            (Slices { .. }, 0) => slice(0, literal(0), variable(0)),
            (Slices { indexes, .. }, _) => slice(number, literal(0), minus(number % indexes, 1)),
        }
    }

    /// A part of the first parameter that is one wire or more, from and to index 0.
    fn part(self, first: Field, last: Field) -> Field {
        match self {
            Wires(_) | Registers { .. } => whole(0),
            Slices { .. } => slice(0, first, last),
        }
    }
}

/// A field as often as a count says.
fn times(count: u8, field: Field) -> Vec<Field> {
    vec![field; usize::from(count)]
}

impl Shape {
    /// Statements at the bottom of the loops and reversals.
    fn nest(&self, statements: Vec<Field>) -> Vec<Field> {
        let levels = self.loops + self.reversals;
        let is_loop = |level: usize| match self.order {
            Single | Listed => level >= self.reversals,
            InTurn => level & 1 == 0,
        };
        let inside_out = (0..levels).rev().map(is_loop);
        inside_out.fold(statements, |inner, is_loop| match is_loop {
            true => vec![repeat(literal(1), literal(1), inner)],
            false => vec![self.reversal(inner)],
        })
    }

    /// A reversal of statements, and of an empty reversal where a list is asked for and
    /// there would be nothing but a loop or a reversal.
    fn reversal(&self, mut statements: Vec<Field>) -> Field {
        let alone = matches!(&statements[..], [Field { tag: 37 | 38, .. }]);
        if alone && !matches!(self.order, Single) {
            statements.push(reverse(vec![]));
        }
        reverse(statements)
    }

    /// A family with statements at the bottom of its body.
    fn family(&self, statements: Vec<Field>) -> Field {
        let parameters = self.parameters;
        let body = self.nest(statements);
        family(parameters.indexes(), parameters.types(), body)
    }

    /// All index variables and parameters, as they are passed on.
    fn all(&self) -> (Vec<Field>, Vec<Field>) {
        let sizes = (0..self.parameters.indexes()).map(variable).collect();
        let passed = |number| self.parameters.passed(number);
        (sizes, (0..self.parameters.count()).map(passed).collect())
    }

    /// A call that passes all index variables and parameters on.
    fn call(&self, number: u16) -> Field {
        let (sizes, operands) = self.all();
        call(number, sizes, operands)
    }

    /// A family with statements at the bottom of its body and a parameter more, which is a
    /// family of a type.
    fn taking(&self, formal: Field, statements: Vec<Field>) -> Field {
        let mut types = self.parameters.types();
        types.push(formal);
        let body = self.nest(statements);
        family(self.parameters.indexes(), types, body)
    }

    /// Two families behind the one with a number: the first takes a family like that and calls
    /// it, the second passes it to the first.
    fn passing(&self, number: u16) -> [Field; 2] {
        let parameters = self.parameters;
        let formal = family_type(parameters.indexes(), parameters.types());
        let (sizes, operands) = self.all();
        let inner = parameter_call(parameters.count(), sizes, operands);
        let mut outer = self.call(number + 1);
        outer.parts.push(passed(number));
        [self.taking(formal, vec![inner]), self.family(vec![outer])]
    }

    /// Whether half of its families are called as parameters.
    pub fn passes(&self) -> bool {
        self.passes
    }

    /// How many families come next at a time.
    pub fn at_a_time(&self) -> usize {
        match self.passes {
            true => 2,
            false => 1,
        }
    }

    /// The families that come next behind the one with a number.
    fn next(&self, number: u16) -> Vec<Field> {
        match self.passes {
            true => self.passing(number).to_vec(),
            false => vec![self.family(vec![self.call(number)])],
        }
    }

    /// The type of a family with the deepest sizes, and a call of the parameter with a number
    /// of this type with the deepest indexes.
    fn deep_parameter(&self, number: u8) -> (Field, Field) {
        let part = self.parameters.part(left_deep(), right_deep());
        let types = match self.parameters {
            Wires(_) => vec![qbit(); 2],
            Registers { .. } | Slices { .. } => vec![qbits(left_deep()), qbits(right_deep())],
        };
        let sizes = vec![right_deep()];
        (
            family_type(1, types),
            parameter_call(number, sizes, times(2, part)),
        )
    }

    /// A call of a family like this one with the deepest indexes, of 16 levels.
    fn deep_call(&self, number: u16) -> Field {
        let sizes = times(self.parameters.indexes(), left_deep());
        let part = self.parameters.part(left_deep(), right_deep());
        call(number, sizes, times(self.parameters.count(), part))
    }

    /// What the first family has at the bottom: gates, on elements with indexes of 16
    /// levels.
    fn gates(&self) -> Vec<Field> {
        match self.parameters {
            Wires(_) => vec![t(whole(0)), phase(literal(0), whole(0))],
            Registers { .. } | Slices { .. } => vec![
                t(element(0, left_deep())),
                t(element(0, right_deep())),
                phase(left_deep(), element(0, right_deep())),
            ],
        }
    }

    /// Statements of a run that call a family from as deep as families do.
    fn run(&self, number: u16) -> Vec<Field> {
        let operand = match self.parameters {
            Wires(_) => at(0, 0),
            Registers { .. } => whole(0),
            Slices { .. } => between(0, 0, 0),
        };
        let sizes = times(self.parameters.indexes(), literal(0));
        let operands = times(self.parameters.count(), operand);
        self.nest(vec![call(number, sizes, operands)])
    }

    /// The families that the others lead to: one with gates, and where slices are passed
    /// also a call that passes those with the deepest indexes to a family before it.
    fn lowest(&self) -> Vec<Field> {
        let mut statements = self.gates();
        let mut families = Vec::new();
        if let Slices { .. } = self.parameters {
            families.push(self.family(vec![]));
            statements.push(self.deep_call(0));
        }
        families.push(self.family(statements));
        families
    }

    /// A whole program: as many families as fit, each of which calls the one before
    /// from the bottom, and a run that calls the last one from as deep.
    pub fn deepest(&self) -> Vec<Field> {
        let mut fields = vec![qreg(1)];
        fields.extend(self.lowest());
        let mut bytes = length(&fields);
        let mut last = families(&fields) as u16 - 1;
        loop {
            let next = self.next(last);
            let new = last + next.len() as u16;
            bytes += length(&next);
            let many = usize::from(new) >= MOST_FAMILIES;
            if many || bytes + length(&self.run(new)) > MOST_BYTES {
                break;
            }
            fields.extend(next);
            last = new;
        }
        fields.extend(self.run(last));
        fields
    }

    /// The sizes with which the last family of the program is unrolled.
    pub fn sizes(&self) -> Vec<u8> {
        sizes(&vec![0; usize::from(self.parameters.indexes())])
    }

    /// Families of which the last one has the deepest indexes at the bottom: in calls
    /// with a number of one byte and of two, in a cx and in phases; and in the type of a
    /// family parameter and its call.
    pub fn deepest_indexes(&self) -> Vec<Field> {
        let parameters = self.parameters.two_or_more();
        let shape = Shape {
            parameters,
            ..*self
        };
        let small = family(1, vec![qbit()], vec![]);
        let mut fields = vec![small; 256];
        fields.push(shape.family(vec![]));
        let wire = |index| parameters.wire(index);
        let [first, last] = parameters.two_wires();
        let mut statements = vec![
            call(255, vec![right_deep()], vec![wire(left_deep())]),
            shape.deep_call(256),
            cx(first.clone(), last.clone()),
            phase(right_deep(), wire(left_deep())),
            cphase(left_deep(), first, last),
        ];
        if shape.passes {
            let (formal, inner) = shape.deep_parameter(parameters.count());
            statements.push(inner);
            fields.push(shape.taking(formal, statements));
            return fields;
        }
        fields.push(shape.family(statements));
        fields
    }
}

/// The index 0 as a sum of 16 levels to the left.
fn left_deep() -> Field {
    (1..16).fold(literal(0), |inner, _| sum(inner, literal(0)))
}

/// The index 0 as a sum of 16 levels to the right.
fn right_deep() -> Field {
    (1..16).fold(literal(0), |inner, _| sum(literal(0), inner))
}

/// The last index of a register of n + 1 wires, as such a sum.
fn last_deep() -> Field {
    (1..16).fold(variable(0), |inner, _| sum(literal(0), inner))
}
