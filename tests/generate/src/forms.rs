//! Showings made from a seed: a form and the loops around it, sound and damaged.

mod ranges;

use crate::random::Random;
use reference::{FormNumbers, ShowingOutcome, FORM_NUMBERS};

/// The largest number, up or down, that a form may have.
pub const LARGEST: i64 = 2_000_000_000;
/// A family's own variables and the open loops' variables together.
pub const VARIABLES: usize = FORM_NUMBERS - 1;
/// The form 0.
const ZERO: FormNumbers = [0; FORM_NUMBERS];

/// A form that is to be shown 0 or more, and the loops around it, the outermost first.
#[derive(Clone, Debug, PartialEq, Eq)]
pub struct Showing {
    pub form: FormNumbers,
    pub variables: u32,
    pub loops: u32,
    pub lows: Vec<FormNumbers>,
    pub highs: Vec<FormNumbers>,
}

/// What the bounds of loops name.
#[derive(Clone, Copy, PartialEq, Eq)]
enum Kind {
    /// Family variables only.
    Plain,
    /// Now and then an outer loop.
    Outer,
    /// Mostly the loop right around.
    Chain,
    /// Many variables.
    Mixed,
}

/// The showing that belongs to a seed.
pub fn showing(seed: u64) -> Showing {
    let mut random = Random::new(seed);
    let mut made = Showing::small(&mut random);
    match random.below(100) {
        0..=29 => {}
        30..=44 => made.cancel(&mut random),
        45..=64 => made.reach_an_edge(&mut random),
        65..=71 => made.enlarge(&mut random),
        _ => made.need_a_range(&mut random),
    }
    match random.below(100) {
        0..=74 => {}
        75..=87 => (0..3).for_each(|_| made.leave_the_scope(&mut random)),
        _ => made.spoil(&mut random),
    }
    made
}

/// How many variables and loops there are: mostly as many as a program can have.
fn counts(random: &mut Random) -> (usize, usize) {
    match random.below(25) {
        0 => {
            let loops = 9 + random.below(VARIABLES - 8);
            (random.below(VARIABLES - loops + 1), loops)
        }
        1 => {
            let variables = 5 + random.below(VARIABLES - 4);
            (variables, random.below(VARIABLES - variables + 1))
        }
        2..=9 => (random.below(5), 8),
        _ => (random.below(5), random.below(9)),
    }
}

/// A small coefficient, mostly 0.
fn coefficient(random: &mut Random) -> i64 {
    match random.below(20) {
        0..=11 => 0,
        12..=15 => 1,
        16 | 17 => -1,
        _ => random.between(-3, 3),
    }
}

/// A small constant, often 0.
fn constant(random: &mut Random) -> i64 {
    match random.below(10) {
        0 => random.between(-100, 100),
        1 => random.between(0, 10),
        _ => coefficient(random),
    }
}

/// A small number other than 0, mostly 1.
fn factor(random: &mut Random) -> i64 {
    random.pick(&[1, 1, 1, 1, 1, -1, -1, 2, -2, 3])
}

/// One number in half of the cases, else any below a bound.
fn often(usual: usize, bound: usize, random: &mut Random) -> usize {
    match random.percent(50) {
        true => usual,
        false => random.below(bound),
    }
}

/// A number in the range that is large, or whose square is near the end of the range.
fn large(random: &mut Random) -> i64 {
    let size = random.pick(&[LARGEST, LARGEST - 1, LARGEST / 2, 65_535, 44_721, 44_722]);
    random.pick(&[size, -size])
}

/// A number out of the range, mostly just.
fn too_large(random: &mut Random) -> i64 {
    let just = LARGEST + 1;
    random.pick(&[just, just, -just, -just, 1 << 32, i64::MAX, i64::MIN])
}

impl Showing {
    /// The answer of the reference.
    pub fn answer(&self) -> ShowingOutcome {
        let (lows, highs) = (&self.lows, &self.highs);
        reference::showing(&self.form, self.variables, self.loops, lows, highs)
    }

    /// A sound showing of small numbers.
    fn small(random: &mut Random) -> Showing {
        let (variables, loops) = counts(random);
        let mut made = Showing {
            form: ZERO,
            variables: variables as u32,
            loops: loops as u32,
            lows: vec![ZERO; loops],
            highs: vec![ZERO; loops],
        };
        let kinds = [Kind::Plain, Kind::Outer, Kind::Chain, Kind::Mixed];
        let kind = random.pick(&kinds);
        for depth in 0..loops {
            made.lows[depth] = made.bound(depth, kind, 15, random);
            made.highs[depth] = made.bound(depth, kind, 85, random);
        }
        made.form = made.some_form(random);
        made
    }

    /// Where the numbers of a form have the coefficient of a loop's variable.
    fn place(&self, depth: usize) -> usize {
        1 + self.variables as usize + depth
    }

    /// The place after that of the innermost loop's variable.
    fn end(&self) -> usize {
        self.place(self.loops as usize)
    }

    /// A bound of a loop, with a family variable in so many cases of a hundred, or with
    /// variables of outer loops.
    fn bound(&self, depth: usize, kind: Kind, family: usize, random: &mut Random) -> FormNumbers {
        let mut bound = ZERO;
        bound[0] = constant(random);
        let (outer, around) = match kind {
            Kind::Plain | Kind::Mixed => (0, 0),
            Kind::Outer => (40, random.below(depth)),
            Kind::Chain => (85, depth.saturating_sub(1)),
        };
        if depth > 0 && random.percent(outer) {
            bound[self.place(around)] = factor(random);
        } else if self.variables > 0 && random.percent(family) {
            bound[1 + random.below(self.variables as usize)] = factor(random);
        }
        if kind == Kind::Mixed {
            let scope = 1..self.place(depth);
            bound[scope].fill_with(|| coefficient(random));
        }
        bound
    }

    /// A form; most have one loop variable.
    fn some_form(&self, random: &mut Random) -> FormNumbers {
        let mut form = ZERO;
        form[1..self.place(0)].fill_with(|| coefficient(random));
        form[0] = constant(random);
        let loops = self.loops as usize;
        let chance = random.pick(&[0, 0, 0, 25, 60]);
        for depth in 0..loops {
            if random.percent(chance) {
                form[self.place(depth)] = factor(random);
            }
        }
        if loops > 0 && random.percent(85) {
            let depth = often(loops - 1, loops, random);
            form[self.place(depth)] = factor(random);
        }
        form
    }

    /// The form once the loops above a depth are replaced; it only guides the generator.
    fn down_to(&self, depth: usize) -> FormNumbers {
        let mut form = self.form;
        for above in (depth + 1..self.loops as usize).rev() {
            let coefficient = std::mem::take(&mut form[self.place(above)]);
            let bound = match coefficient > 0 {
                true => &self.lows[above],
                false => &self.highs[above],
            };
            for (mine, theirs) in form.iter_mut().zip(bound) {
                *mine += coefficient * theirs;
            }
        }
        form
    }

    /// Takes away what replacements bring in, for some of the loops' variables.
    fn cancel(&mut self, random: &mut Random) {
        let chance = random.pick(&[30, 60, 100]);
        for depth in (0..self.loops as usize).rev() {
            let place = self.place(depth);
            let brought = self.down_to(depth)[place] - self.form[place];
            if brought != 0 && random.percent(chance) {
                self.form[place] = -brought;
            }
        }
    }

    /// Brings a number to an end of the range or past it where a loop's variable is replaced:
    /// the multiple, or the sum. For some the multiple is there and the sum well inside.
    fn reach_an_edge(&mut self, random: &mut Random) {
        if self.loops == 0 {
            return self.enlarge(random);
        }
        let depth = random.below(self.loops as usize);
        let place = self.place(depth);
        if self.down_to(depth)[place] == 0 {
            self.form[place] += factor(random);
        }
        let before = self.down_to(depth);
        let coefficient = before[place];
        let slot = match random.percent(12) && self.end() < FORM_NUMBERS {
            true => self.end() + random.below(FORM_NUMBERS - self.end()),
            false => often(0, place, random),
        };
        let goal = random.pick(&[LARGEST, LARGEST + 1, -LARGEST, -LARGEST - 1]);
        let (multiple, inside) = match random.below(3) {
            0 => (goal - before[slot], 0),
            1 => (goal, 0),
            _ => (goal, goal / 2),
        };
        let further = random.pick(&[0, goal.signum() * coefficient.signum()]);
        let number = multiple / coefficient + further;
        let rows = match coefficient > 0 {
            true => &mut self.lows,
            false => &mut self.highs,
        };
        rows[depth][slot] = number.clamp(-LARGEST, LARGEST);
        self.form[slot] -= inside;
    }

    /// Puts large numbers in some places.
    fn enlarge(&mut self, random: &mut Random) {
        let chance = random.pick(&[5, 15, 30]);
        let mut put = |numbers: &mut [i64]| {
            for slot in numbers {
                if random.percent(chance) {
                    *slot = large(random);
                }
            }
        };
        let end = self.end();
        put(&mut self.form[..end]);
        for depth in 0..self.loops as usize {
            let scope = self.place(depth);
            put(&mut self.lows[depth][..scope]);
            put(&mut self.highs[depth][..scope]);
        }
    }

    /// The low or the high forms.
    fn rows(&mut self, random: &mut Random) -> &mut Vec<FormNumbers> {
        match random.percent(50) {
            true => &mut self.lows,
            false => &mut self.highs,
        }
    }

    /// Puts in variables that are out of scope, or bounds of loops that there are not.
    fn leave_the_scope(&mut self, random: &mut Random) {
        let [loops, end] = [self.loops as usize, self.end()];
        let depth = random.below(loops);
        let inner = self.place(depth) + random.below(loops - depth);
        match random.below(5) {
            0 => self.form[end..].fill_with(|| coefficient(random)),
            1 => {
                let row = ZERO.map(|_| coefficient(random));
                self.rows(random).push(row);
            }
            _ if loops == 0 => {}
            2 => self.rows(random)[depth][end..].fill_with(|| coefficient(random)),
            _ => self.rows(random)[depth][inner] = factor(random),
        }
    }

    /// Makes the arguments no forms, or only bounds of loops that there are not.
    fn spoil(&mut self, random: &mut Random) {
        let loops = self.loops as usize;
        let slot = random.below(FORM_NUMBERS);
        match random.below(5) {
            0 => self.spoil_counts(random),
            1 => {
                let mut row = ZERO;
                row[slot] = too_large(random);
                self.rows(random).push(row);
            }
            2 if loops > 0 => {
                self.rows(random)[random.below(loops)][slot] = too_large(random);
            }
            3 if loops > 0 => {
                let left = often(loops - 1, loops, random);
                self.rows(random).truncate(left);
            }
            _ => self.form[slot] = too_large(random),
        }
    }

    /// Makes the variables and loops too many together.
    fn spoil_counts(&mut self, random: &mut Random) {
        let more = random.pick(&[1, 1, 2, 9]);
        let most = VARIABLES as u32;
        match random.below(4) {
            0 => self.loops = most - self.variables + more,
            1 => self.variables = u32::MAX - random.below(VARIABLES) as u32,
            2 => self.loops = u32::MAX - random.below(VARIABLES) as u32,
            _ => self.variables = most - self.loops + more,
        }
        if self.loops < 2 * most {
            self.lows.resize(self.loops as usize, ZERO);
            self.highs.resize(self.loops as usize, ZERO);
        }
    }
}
