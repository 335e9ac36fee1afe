//! Showings that the range of a loop decides, and trials that leave the range of numbers.

use super::{factor, often, Showing, LARGEST, ZERO};
use crate::random::Random;
use reference::FormNumbers;

/// One form less another.
fn less(one: &FormNumbers, other: &FormNumbers) -> FormNumbers {
    let mut left = *one;
    for (mine, theirs) in left.iter_mut().zip(other) {
        *mine -= theirs;
    }
    left
}

/// Adds a form to another.
fn add(form: &mut FormNumbers, more: &FormNumbers) {
    for (mine, theirs) in form.iter_mut().zip(more) {
        *mine += theirs;
    }
}

impl Showing {
    /// Makes the form one that the range of a loop shows, or nearly; for some it takes more
    /// than one range, or no trial is made.
    pub(super) fn need_a_range(&mut self, random: &mut Random) {
        let loops = self.loops as usize;
        if loops == 0 {
            return;
        }
        let depth = random.below(loops);
        for _ in 0..random.pick(&[0, 0, 1, 1, 2, 3]) {
            self.leave_in_a_trial(depth, random);
        }
        match random.below(10) {
            0 if loops > 1 => return self.leave_before_trials(random),
            1 | 2 => return self.far_range(depth, random),
            _ => {}
        }
        self.lower_range(depth, random);
        self.form = less(&self.highs[depth], &self.lows[depth]);
        if random.percent(20) {
            self.add_a_range(random);
        }
        if random.percent(85) {
            self.add_a_natural(random);
        }
        self.form[0] += random.pick(&[0, 0, 0, 0, 1, 3, -1, -1, -2]);
        self.form = self.form.map(|number| number.clamp(-LARGEST, LARGEST));
    }

    /// Makes a loop's range one that the plain rule does not show.
    fn lower_range(&mut self, depth: usize, random: &mut Random) {
        let down = random.between(1, 5);
        let [low, high] = [&mut self.lows[depth][0], &mut self.highs[depth][0]];
        match random.percent(50) {
            true => *high = (*high).min(0) - down,
            false => *low = (*low).max(0) + down,
        }
        *low = (*low).min(LARGEST);
        *high = (*high).max(-LARGEST);
    }

    /// Adds the range of a loop, the same one among them.
    fn add_a_range(&mut self, random: &mut Random) {
        let depth = random.below(self.loops as usize);
        let range = less(&self.highs[depth], &self.lows[depth]);
        add(&mut self.form, &range);
    }

    /// Adds what the plain rule shows by itself: a family variable, or how far a loop's
    /// variable is from one of its ends.
    fn add_a_natural(&mut self, random: &mut Random) {
        let depth = often(self.loops as usize - 1, self.loops as usize, random);
        let place = self.place(depth);
        match random.below(3) {
            0 if self.variables > 0 => {
                self.form[1 + random.below(self.variables as usize)] += random.between(1, 2);
            }
            1 => {
                let low = self.lows[depth];
                self.form[place] += 1;
                self.form = less(&self.form, &low);
            }
            _ => {
                let high = self.highs[depth];
                self.form[place] -= 1;
                add(&mut self.form, &high);
            }
        }
    }

    /// Gives a loop other than the one at a depth a range, or what is left without it, that
    /// is out of range: at once, or where a variable is replaced.
    fn leave_in_a_trial(&mut self, depth: usize, random: &mut Random) {
        let other = often(self.loops as usize - 1, self.loops as usize, random);
        if other == depth {
            return;
        }
        let slot = often(0, self.place(other), random);
        let sign = random.pick(&[1, -1]);
        match random.below(3) {
            0 => {
                let half = LARGEST / 2 + random.between(0, 1);
                self.lows[other][slot] = -sign * half;
                self.highs[other][slot] = sign * half;
            }
            1 => {
                self.lows[other][slot] = 0;
                self.highs[other][slot] = sign * (LARGEST - random.between(0, 2));
            }
            _ if other == 0 => {}
            _ => {
                let outer = random.below(other);
                let place = self.place(outer);
                self.highs[other][place] = -random.pick(&[40_000, 40_001]);
                self.lows[outer][0] = 50_000;
            }
        }
    }

    /// Gives the loop at a depth a range at the lower end of the range of numbers or past
    /// it, and a form that it shows where what is left is in range.
    fn far_range(&mut self, depth: usize, random: &mut Random) {
        let slots = self.place(0);
        let slot = often(0, slots, random);
        let other = (slot + 1 + random.below(slots - 1)) % slots;
        [self.form, self.lows[depth], self.highs[depth]] = [ZERO; 3];
        self.form[other] = -1;
        self.highs[depth][other] = -1;
        self.form[slot] = random.between(-5, 5);
        self.lows[depth][slot] = LARGEST / 2 + random.between(-2, 2);
        self.highs[depth][slot] = -LARGEST / 2 - random.between(-2, 2);
    }

    /// Makes the plain rule leave the range, or just not, where a trial would show the form.
    fn leave_before_trials(&mut self, random: &mut Random) {
        let inner = 1 + random.below(self.loops as usize - 1);
        let outer = random.below(inner);
        let times = random.pick(&[2, 2, 3, -2]);
        self.form = ZERO;
        self.form[self.place(outer)] = times;
        self.lows[inner] = ZERO;
        self.highs[inner] = self.form;
        if random.percent(30) {
            self.form[0] = factor(random);
        }
        let end = LARGEST / times + random.pick(&[0, 1, 1, 1]) * times.signum();
        match times > 0 {
            true => self.lows[outer][0] = end,
            false => self.highs[outer][0] = end,
        }
    }
}
