//! Programs that the ranges of loops decide: a body runs only where the range of each loop
//! around it is 0 or more, and one of them may be what a showing needs.
//!
//! Variables 0 and 1, here n and m, are a family's sizes or, at the top, the two outermost
//! loops. Operand 0 has two wires; operand 1 is the register that the showings are about.

use super::slices::{each, short_of};
use super::with;
use crate::build::*;
use crate::case::Case;
use crate::forms::{Showing, LARGEST};
use crate::linear::{Bounds, Linear, VARIABLES};
use crate::random::Random;
use reference::FormNumbers;

/// Which showing of a program needs a range.
#[derive(Clone, Copy, Debug, PartialEq, Eq, PartialOrd, Ord)]
pub enum Need {
    /// An element's index.
    Index,
    /// The room behind an element.
    Room,
    /// The k of a phase.
    Turn,
    /// An index of a call.
    Size,
    /// A register that is passed whole.
    Register,
    /// The first index of a slice.
    First,
    /// The room behind a slice.
    Behind,
    /// The size of a slice.
    Length,
    /// A slice that is to be large enough.
    Enough,
}

/// All needs.
pub const NEEDS: [Need; 9] = [
    Need::Index,
    Need::Room,
    Need::Turn,
    Need::Size,
    Need::Register,
    Need::First,
    Need::Behind,
    Need::Length,
    Need::Enough,
];

/// A program and the one showing in it that is not plain.
pub struct Ranged {
    pub case: Case,
    pub need: Need,
    pub showing: Showing,
    pub top: bool,
    pub reversed: bool,
    /// How many rounds the loop that decides has in the instance; at the top, at n.
    pub rounds: i64,
    /// The number of a fault behind the showing, if there is one.
    pub behind: Option<u32>,
}

impl Ranged {
    /// The number that check has to give.
    pub fn due(&self) -> u32 {
        match self.showing.answer().number {
            0 => self.behind.unwrap_or(0),
            number => number,
        }
    }
}

/// The loops of a program, the outermost first, and what is to be shown inside.
struct Plan {
    /// The values of n and m, in an instance or as the last of a loop.
    values: [i64; 2],
    top: bool,
    loops: Vec<Bounds>,
    needed: Linear,
    /// The size of the register, large beside what is needed.
    size: Linear,
    rounds: i64,
}

/// One case that a range decides.
pub fn case(random: &mut Random) -> Case {
    let mut case = ranged(random).case;
    if random.percent(20) {
        short_of(&mut case, random);
    }
    case
}

/// One program that a range decides, with its showing.
pub fn ranged(random: &mut Random) -> Ranged {
    let need = random.pick(&NEEDS);
    let plan = Plan::new(random);
    let behind = random.percent(10).then(|| random.pick(&[8, 9]));
    let (body, reversed) = plan.body(need, behind, random);
    Ranged {
        case: plan.case(body, random),
        need,
        showing: plan.showing(),
        top: plan.top,
        reversed,
        rounds: plan.rounds,
        behind,
    }
}

/// The largest number that may be taken twice.
const FAR_TWICE: i64 = LARGEST / 2;
/// The most loops around a statement.
const MOST_LOOPS: usize = 8;

/// A loop between two numbers.
fn between_numbers(low: i64, high: i64) -> Bounds {
    Bounds {
        low: Linear::number(low),
        high: Linear::number(high),
    }
}

/// An expression twice.
fn twice(linear: &Linear) -> Linear {
    linear.plus(1, linear)
}

/// The numbers of a form.
fn numbers(linear: &Linear) -> FormNumbers {
    let mut numbers = [linear.constant; 1 + VARIABLES];
    numbers[1..].copy_from_slice(&linear.coefficients);
    numbers
}

/// How it is planned.
impl Plan {
    /// Loops and a form, in a family or at the top.
    fn new(random: &mut Random) -> Plan {
        let top = random.percent(40);
        let values = [random.between(0, 5), random.between(0, 3)];
        let more = random.between(2, 4);
        let size = match top {
            true => Linear::number(2 * values[0] + 2 * values[1]),
            false => Linear::number(0)
                .plus(2, &Linear::variable(0))
                .plus(2, &Linear::variable(1)),
        };
        let mut plan = Plan {
            values,
            top,
            loops: Vec::new(),
            needed: Linear::number(0),
            size: size.shift(more),
            rounds: 0,
        };
        if top {
            let outermost = values.map(|last| between_numbers(0, last));
            plan.loops.extend(outermost);
        }
        match random.below(10) {
            0 => plan.out_before_trials(random),
            _ => plan.with_a_range(random),
        }
        plan
    }

    /// How many index variables the family has; at the top there is none.
    fn sizes(&self) -> usize {
        match self.top {
            true => 0,
            false => 2,
        }
    }

    /// The variable of the innermost loop.
    fn last_variable(&self) -> Linear {
        Linear::variable(self.sizes() + self.loops.len() - 1)
    }

    /// A variable in scope.
    fn some_variable(&self, random: &mut Random) -> Linear {
        let count = self.sizes() + self.loops.len();
        Linear::variable(random.below(count))
    }

    /// Opens loops, one of which has the range n - c, and needs that or a little else.
    fn with_a_range(&mut self, random: &mut Random) {
        let [start, end] = match random.between(0, 2) {
            0 => [random.between(1, 2), 0],
            start => [start, random.between(0, 1)],
        };
        let less = start + end;
        self.needed = Linear::variable(0).shift(-less);
        self.rounds = (self.values[0] - less + 1).max(0);
        self.fill(less, MOST_LOOPS - 3, random);
        let by = match random.below(3) {
            0 => self.some_variable(random),
            _ => Linear::number(0),
        };
        self.loops.push(Bounds {
            low: by.shift(start),
            high: by.plus(1, &Linear::variable(0)).shift(-end),
        });
        match random.below(10) {
            0..=5 => {}
            6 => self.needed = self.needed.plus(1, &Linear::variable(1)),
            7 if !self.names_loops() => self.needed = twice(&self.needed),
            _ => self.two_ranges(random),
        }
        self.fill(less, MOST_LOOPS, random);
        let off = random.pick(&[0, 0, 0, 0, 1, 2, -1, -1, -1]);
        self.needed = self.needed.shift(off);
    }

    /// Whether what is needed names a variable other than n and m.
    fn names_loops(&self) -> bool {
        self.needed.coefficients[2..] != [0; VARIABLES - 2]
    }

    /// Needs the range of a loop over m beside that over n.
    fn two_ranges(&mut self, random: &mut Random) {
        let low = random.between(1, 2);
        let high = Linear::variable(1);
        self.needed = self.needed.plus(1, &high).shift(-low);
        let low = Linear::number(low);
        self.loops.push(Bounds { low, high });
    }

    /// Opens loops, up to so many in all, whose ranges mostly help nothing beside n - c.
    fn fill(&mut self, less: i64, most: usize, random: &mut Random) {
        for _ in 0..random.pick(&[0, 0, 1, 1, 2, 4]) {
            match random.below(10) {
                _ if self.loops.len() >= most => {}
                0 if self.loops.len() + 3 <= most => self.out_in_a_scan(random),
                1 => self.loops.push(far(random)),
                _ => self.push_another(less, random),
            }
        }
    }

    /// Opens a loop, mostly of few rounds, whose range is no more than n - c by chance only.
    fn push_another(&mut self, less: i64, random: &mut Random) {
        let n = Linear::variable(0);
        let zero = Linear::number(0);
        let by = self.some_variable(random);
        let [low, high] = match random.below(8) {
            0 | 1 => [zero, zero],
            2 => [zero, zero.shift(1)],
            3 => [by, by],
            4 => [by.shift(1), by.shift(2)],
            5 => [zero, n.shift(1 - less)],
            6 => [zero.shift(1), Linear::variable(1)],
            _ => [zero.shift(less), n.shift(random.between(-1, 1))],
        };
        self.loops.push(Bounds { low, high });
    }

    /// Opens three loops of one round each: a trial of the last leaves the range where one
    /// of the first two is replaced, as what is needed has them too.
    fn out_in_a_scan(&mut self, random: &mut Random) {
        if self.names_loops() {
            return;
        }
        self.loops.push(between_numbers(50_000, 50_000));
        let one = self.last_variable();
        self.loops.push(between_numbers(50_000, 50_000));
        let two = self.last_variable();
        let apart = one.plus(-1, &two);
        let times = random.pick(&[20_000, 20_001]);
        self.needed = self.needed.plus(20_000, &apart);
        let zero = Linear::number(0);
        self.loops.push(Bounds {
            low: zero,
            high: zero.plus(-times, &apart),
        });
    }

    /// Needs what leaves the range, or just not, though a trial would show it.
    fn out_before_trials(&mut self, random: &mut Random) {
        let far = random.pick(&[FAR_TWICE, FAR_TWICE + 1, 1_800_000_000]);
        let last = match far {
            FAR_TWICE => 0,
            _ => random.pick(&[0, far]),
        };
        self.loops.push(between_numbers(far, last));
        self.needed = twice(&self.last_variable());
        self.loops.push(Bounds {
            low: Linear::number(0),
            high: self.needed,
        });
    }

    /// The showing that needs a range.
    fn showing(&self) -> Showing {
        let bounds = |end: fn(&Bounds) -> Linear| {
            let ends = self.loops.iter().map(end);
            ends.map(|end| numbers(&end)).collect()
        };
        Showing {
            form: numbers(&self.needed),
            variables: self.sizes() as u32,
            loops: self.loops.len() as u32,
            lows: bounds(|bounds| bounds.low),
            highs: bounds(|bounds| bounds.high),
        }
    }
}

/// A loop whose range, or what is left without it, is out of range, or just not.
fn far(random: &mut Random) -> Bounds {
    let half = random.pick(&[FAR_TWICE, FAR_TWICE + 1, 1_800_000_000]);
    match random.below(4) {
        0 => between_numbers(-half, half),
        1 => between_numbers(half, -half),
        2 => between_numbers(0, LARGEST),
        _ => between_numbers(0, -LARGEST),
    }
}

/// How it is written.
impl Plan {
    /// The statements of the family or at the top, and whether the showing is reversed.
    fn body(&self, need: Need, behind: Option<u32>, random: &mut Random) -> (Vec<Field>, bool) {
        let mut inside = vec![self.statement(need, random)];
        inside.extend(behind.map(fault));
        let mut reversed = false;
        for bounds in self.loops.iter().rev() {
            if random.percent(12) {
                reversed = !reversed;
                inside = vec![reverse(inside)];
            }
            let [low, high] = [bounds.low, bounds.high].map(|end| end.render(random));
            inside = vec![repeat(low, high, inside)];
        }
        if random.percent(20) {
            inside.insert(0, t(at(0, 1)));
        }
        (inside, reversed)
    }

    /// A statement in which what is needed is shown, and everything else plainly.
    fn statement(&self, need: Need, random: &mut Random) -> Field {
        let zero = Linear::number(0);
        let (needed, size) = (self.needed, self.size);
        let rest = size.plus(-1, &needed);
        let last = size.shift(-1);
        let room = rest.shift(-1);
        match need {
            Need::Index => gate(element(1, needed.render(random)), random),
            Need::Room => gate(element(1, room.render(random)), random),
            Need::Turn => turn(needed.render(random), random),
            Need::Size => passed(&needed, whole(1), random),
            Need::Register => passed(&rest, whole(1), random),
            Need::First => sliced([&needed, &needed], 1, random),
            Need::Behind => sliced([&zero, &room], 0, random),
            Need::Length => sliced([&rest, &last], 0, random),
            Need::Enough => {
                let all = slice(1, literal(0), last.render(random));
                passed(&rest, all, random)
            }
        }
    }

    /// The program with arguments.
    fn case(&self, body: Vec<Field>, random: &mut Random) -> Case {
        if self.top {
            let mut fields = vec![each(), qreg(2), qreg(self.size.constant as u16)];
            match random.percent(20) {
                true => fields.extend([creg(1), when(1, at(2, 0), body)]),
                false => fields.extend(body),
            }
            return with(&fields, &[2]);
        }
        let types = vec![qbits(literal(2)), qbits(self.size.render(random))];
        let sizes = self.values.map(|value| value as u32);
        let mut case = with(&[each(), family(2, types, body)], &sizes);
        case.family = 1;
        case
    }
}

/// A statement that is turned down with a number.
fn fault(number: u32) -> Field {
    match number {
        9 => h(whole(0)),
        _ => h(at(9, 0)),
    }
}

/// A gate on a wire, at times behind another.
fn gate(wire: Field, random: &mut Random) -> Field {
    match random.below(4) {
        0 => cx(at(0, 0), wire),
        1 => cphase(literal(2), wire, at(0, 1)),
        2 => t(wire),
        _ => h(wire),
    }
}

/// A phase by k.
fn turn(k: Field, random: &mut Random) -> Field {
    match random.percent(50) {
        true => phase(k, at(0, 0)),
        false => cphase(k, at(0, 0), at(0, 1)),
    }
}

/// A call of the first family at a size.
fn passed(size: &Linear, operand: Field, random: &mut Random) -> Field {
    call(0, vec![size.render(random)], vec![operand])
}

/// A call with a slice of the register, for no or a few wires.
fn sliced([first, last]: [&Linear; 2], asked: u16, random: &mut Random) -> Field {
    let part = slice(1, first.render(random), last.render(random));
    call(
        0,
        vec![literal(random.below(1 + usize::from(asked)) as u16)],
        vec![part],
    )
}
