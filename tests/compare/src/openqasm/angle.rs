//! Angles: whole numbers and pi, multiplied and divided.

/// A fraction of pi in lowest terms, with its sign above the line.
#[derive(Clone, Copy, Debug, PartialEq, Eq)]
pub struct Angle {
    pub above: i128,
    pub below: i128,
}

/// A fraction in lowest terms, times pi so many times.
#[derive(Clone, Copy, Debug, PartialEq, Eq)]
pub struct Value {
    above: i128,
    below: i128,
    pi: i32,
}

impl Value {
    /// The number pi.
    pub const PI: Value = Value {
        above: 1,
        below: 1,
        pi: 1,
    };

    /// A whole number.
    pub fn whole(number: u64) -> Value {
        Value {
            above: number.into(),
            below: 1,
            pi: 0,
        }
    }

    /// The same with the other sign.
    pub fn negative(self) -> Value {
        let above = -self.above;
        Value { above, ..self }
    }

    /// The product, unless its numbers are too large.
    pub fn times(self, other: Value) -> Option<Value> {
        let above = self.above.checked_mul(other.above)?;
        let below = self.below.checked_mul(other.below)?;
        let pi = self.pi.checked_add(other.pi)?;
        Some(lowest(above, below, pi))
    }

    /// The quotient, unless its numbers are too large or there is none.
    pub fn over(self, other: Value) -> Option<Value> {
        let sign = other.above.signum();
        let turned = Value {
            above: sign * other.below,
            below: sign * other.above,
            pi: -other.pi,
        };
        match sign {
            0 => None,
            _ => self.times(turned),
        }
    }

    /// The value as a fraction of pi, if it is one.
    pub fn angle(self) -> Option<Angle> {
        let Value { above, below, pi } = self;
        (pi == 1).then_some(Angle { above, below })
    }
}

/// A fraction in lowest terms; what is below the line is above 0.
fn lowest(above: i128, below: i128, pi: i32) -> Value {
    let (mut common, mut rest) = (above.abs(), below);
    while rest != 0 {
        (common, rest) = (rest, common % rest);
    }
    Value {
        above: above / common,
        below: below / common,
        pi,
    }
}

impl Angle {
    /// The k for which this is one turn by 2 to the k, or its inverse; and whether it
    /// is the inverse.
    pub fn part_of_a_turn(self) -> Option<(u64, bool)> {
        let Angle { above, below } = self;
        // A turn is twice pi, so the fraction of a turn has twice as much below the line.
        let k = match above {
            2 | -2 if below == 1 => Some(0),
            1 | -1 if below.count_ones() == 1 => Some(1 + u64::from(below.trailing_zeros())),
            _ => None,
        };
        k.map(|k| (k, above < 0))
    }
}

#[cfg(test)]
mod tests {
    use super::*;

    /// A fraction of pi.
    fn angle(above: i128, below: i128) -> Option<(u64, bool)> {
        Angle { above, below }.part_of_a_turn()
    }

    #[test]
    fn parts_of_a_turn_are_found() {
        assert_eq!(angle(2, 1), Some((0, false)));
        assert_eq!(angle(-2, 1), Some((0, true)));
        assert_eq!(angle(1, 1), Some((1, false)));
        assert_eq!(angle(-1, 1 << 62), Some((63, true)));
        assert_eq!(angle(1, 1 << 63), Some((64, false)));
        assert_eq!([angle(0, 1), angle(3, 1), angle(4, 1)], [None; 3]);
        assert_eq!([angle(1, 3), angle(2, 3), angle(3, 4)], [None; 3]);
    }

    #[test]
    fn fractions_are_in_lowest_terms() {
        let two = Value::whole(2).times(Value::PI);
        let part = two.and_then(|two| two.over(Value::whole(6).negative()));
        assert_eq!(
            part.and_then(Value::angle),
            Some(Angle {
                above: -1,
                below: 3
            })
        );
        assert_eq!(Value::PI.over(Value::whole(0)), None);
        assert_eq!(Value::whole(2).angle(), None);
        assert_eq!(Value::PI.over(Value::PI).and_then(Value::angle), None);
    }
}
