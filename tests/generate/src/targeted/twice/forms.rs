//! A gate on two wires whose forms are equal, spelled alike or not, or differ in one number.
//!
//! At the top there are two registers; in a family over two sizes or four there are two
//! registers of more than six times as many wires, and two wires. All indexes are shown inside,
//! so that nothing but the forms decides.

use super::gate;
use crate::build::*;
use crate::case::Case;
use crate::linear::{Bounds, Linear};
use crate::random::Random;
use crate::spelling::spelled;
use crate::targeted::with;

/// How the two operands of a gate differ.
#[derive(Clone, Copy, Debug, PartialEq, Eq, PartialOrd, Ord)]
pub enum Difference {
    /// In nothing but their spelling.
    None,
    /// In the constant, by one.
    Constant,
    /// In the coefficient of one variable.
    Coefficient,
    /// In the variable that is named.
    Variable,
    /// In the number of the operand.
    Register,
    /// One or both are whole, and have other numbers.
    Wire,
    /// Both are whole and have the same number.
    SameWire,
}

/// All differences.
pub const DIFFERENCES: [Difference; 7] = [
    Difference::None,
    Difference::Constant,
    Difference::Coefficient,
    Difference::Variable,
    Difference::Register,
    Difference::Wire,
    Difference::SameWire,
];

/// A program with one gate on two wires.
pub struct Pair {
    pub case: Case,
    pub difference: Difference,
    /// Where the gate stands.
    pub place: u32,
    pub top: bool,
    pub loops: usize,
    /// Whether the gate is never run for want of rounds.
    pub no_rounds: bool,
    /// Whether a statement behind the gate is turned down, with 8.
    pub faulty: bool,
}

impl Pair {
    /// Whether the two operands are one wire by their numbers and forms.
    pub fn is_same(&self) -> bool {
        matches!(self.difference, Difference::None | Difference::SameWire)
    }

    /// The number and the place that check has to give.
    pub fn due(&self) -> (u32, u32) {
        let behind = self.case.program.len() - FAULT_BYTES + 3;
        match (self.is_same(), self.faulty) {
            (true, _) => (35, self.place),
            (false, true) => (8, behind as u32),
            (false, false) => (0, 0),
        }
    }
}

/// The bytes of a gate on an element of a register that is not there.
const FAULT_BYTES: usize = 12;
/// The most loops around a gate.
const MOST_LOOPS: usize = 8;
/// The wires of a register beside those over the sizes.
const WIRES: i64 = 64;

/// What stands around the gate.
struct Plan {
    top: bool,
    /// How many index variables the family has; at the top there is none.
    sizes: usize,
    /// The loops, the outermost first.
    loops: Vec<Bounds>,
    no_rounds: bool,
}

/// One program with a gate on two wires.
pub fn pair(random: &mut Random) -> Pair {
    let plan = Plan::new(random);
    let difference = plan.difference(random);
    let [first, second] = plan.operands(difference, random);
    let gate = gate(first, second, random);
    let behind: Vec<Field> = match random.below(10) {
        0 => vec![h(at(9, 0))],
        _ => vec![],
    };
    let after = gate.size() + length(&behind);
    let faulty = !behind.is_empty();
    let case = plan.case([vec![gate], behind].concat(), random);
    Pair {
        place: (case.program.len() - after) as u32,
        case,
        difference,
        top: plan.top,
        loops: plan.loops.len(),
        no_rounds: plan.no_rounds,
        faulty,
    }
}

/// What is planned.
impl Plan {
    /// A few loops, or as many as there may be, in a family or at the top.
    fn new(random: &mut Random) -> Plan {
        let top = random.percent(40);
        let mut plan = Plan {
            top,
            sizes: if top { 0 } else { random.pick(&[2, 2, 4]) },
            loops: Vec::new(),
            no_rounds: false,
        };
        let count = match random.below(10) {
            0 => MOST_LOOPS,
            _ => random.below(4),
        };
        for _ in 0..count {
            plan.open(random);
        }
        plan
    }

    /// How many variables are in scope.
    fn variables(&self) -> usize {
        self.sizes + self.loops.len()
    }

    /// Opens a loop of few rounds or, now and then, of none.
    fn open(&mut self, random: &mut Random) {
        let zero = Linear::number(0);
        let size = match self.top {
            true => Linear::number(2),
            false => Linear::variable(random.below(self.sizes)),
        };
        let outer = match self.loops.len() {
            0 => zero,
            loops => Linear::variable(self.sizes + random.below(loops)),
        };
        let [low, high] = match random.below(12) {
            0..=4 => [zero, zero.shift(random.between(0, 2))],
            5 | 6 => [zero, size],
            7..=9 => [outer, outer],
            10 => [zero.shift(1), zero],
            _ => [size.shift(1), size],
        };
        self.no_rounds |= high.plus(-1, &low) == zero.shift(-1);
        self.loops.push(Bounds { low, high });
    }

    /// A difference that there can be.
    fn difference(&self, random: &mut Random) -> Difference {
        match random.below(20) {
            0..=7 => Difference::None,
            8..=10 => Difference::Constant,
            11..=13 if self.variables() > 0 => Difference::Coefficient,
            14 | 15 if self.variables() > 1 => Difference::Variable,
            16 if !self.top => Difference::Wire,
            17 | 18 if !self.top => Difference::SameWire,
            _ => Difference::Register,
        }
    }

    /// An index inside: a number from 1 to 3, and at times one or two variables or one that
    /// counts down.
    fn index(&self, random: &mut Random) -> Linear {
        let mut index = Linear::number(random.between(1, 3));
        if self.variables() == 0 {
            return index;
        }
        for _ in 0..random.below(3) {
            let variable = Linear::variable(random.below(self.variables()));
            index = index.plus(random.between(1, 2), &variable);
        }
        if !self.loops.is_empty() && random.percent(25) {
            let depth = random.below(self.loops.len());
            let variable = Linear::variable(self.sizes + depth);
            index = self.loops[depth].high.plus(-1, &variable).shift(1);
        }
        index
    }

    /// The last variable in scope mostly, or any.
    fn some_variable(&self, random: &mut Random) -> usize {
        match random.percent(60) {
            true => self.variables() - 1,
            false => random.below(self.variables()),
        }
    }

    /// Two indexes, of which the second has a difference to the first.
    fn indexes(&self, difference: Difference, random: &mut Random) -> [Linear; 2] {
        let one = self.index(random);
        let other = match difference {
            Difference::Constant => one.shift(random.pick(&[-1, 1])),
            Difference::Coefficient => {
                let variable = Linear::variable(self.some_variable(random));
                one.plus(1, &variable)
            }
            Difference::Variable => {
                let place = self.some_variable(random);
                let further = 1 + random.below(self.variables() - 1);
                let next = (place + further) % self.variables();
                return [place, next].map(|number| one.plus(1, &Linear::variable(number)));
            }
            _ => one,
        };
        [one, other]
    }

    /// Two operands with a difference.
    fn operands(&self, difference: Difference, random: &mut Random) -> [Field; 2] {
        let indexes = self.indexes(difference, random);
        let [one, other] = indexes.map(|index| spelled(&index, self.variables(), random));
        let register = random.below(2) as u8;
        match difference {
            Difference::Register => [element(register, one), element(1 - register, other)],
            Difference::SameWire => [whole(2 + register), whole(2 + register)],
            Difference::Wire => match random.below(3) {
                0 => [whole(3), whole(2)],
                1 => [whole(2), element(register, one)],
                _ => [element(register, one), whole(3)],
            },
            _ if random.percent(50) => [element(register, other), element(register, one)],
            _ => [element(register, one), element(register, other)],
        }
    }

    /// The program, with statements inside the loops, and arguments; nothing stands behind the
    /// statements.
    fn case(&self, statements: Vec<Field>, random: &mut Random) -> Case {
        let mut inside = statements;
        for bounds in self.loops.iter().rev() {
            if random.percent(12) {
                inside = vec![reverse(inside)];
            }
            if random.percent(12) {
                inside.insert(0, t(at(0, 1)));
            }
            let [low, high] = [bounds.low, bounds.high].map(|end| end.render(random));
            inside = vec![repeat(low, high, inside)];
        }
        if self.top {
            let mut fields = vec![qreg(WIRES as u16), qreg(WIRES as u16), creg(1)];
            match random.percent(30) {
                true => fields.push(when(random.below(2) as u8, at(2, 0), inside)),
                false => fields.extend(inside),
            }
            return with(&fields, &[]);
        }
        let size = (0..self.sizes).fold(Linear::number(WIRES), |size, number| {
            size.plus(6, &Linear::variable(number))
        });
        let [one, other] = [0, 1].map(|_| qbits(size.render(random)));
        let sizes: Vec<u32> = (0..self.sizes).map(|_| random.below(4) as u32).collect();
        with(
            &[family(
                self.sizes as u8,
                vec![one, other, qbit(), qbit()],
                inside,
            )],
            &sizes,
        )
    }
}
