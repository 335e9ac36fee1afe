//! Complex numbers, as far as the simulator needs them.

use std::f64::consts::TAU;
use std::ops::{Add, Mul, Sub};

/// A complex number.
#[derive(Clone, Copy, Debug, Default, PartialEq)]
pub struct Complex {
    pub re: f64,
    pub im: f64,
}

impl Complex {
    pub const ZERO: Complex = Complex { re: 0.0, im: 0.0 };
    pub const ONE: Complex = Complex { re: 1.0, im: 0.0 };

    pub fn new(re: f64, im: f64) -> Self {
        Complex { re, im }
    }

    /// 1, turned by a part of a full turn.
    pub fn turned(part: f64) -> Self {
        let (sin, cos) = (TAU * part).sin_cos();
        Complex::new(cos, sin)
    }

    /// The number with its imaginary part turned round.
    pub fn conjugate(self) -> Self {
        Complex::new(self.re, -self.im)
    }

    /// The number times a real one.
    pub fn times(self, factor: f64) -> Self {
        Complex::new(self.re * factor, self.im * factor)
    }

    /// The square of the distance from 0.
    pub fn weight(self) -> f64 {
        self.re * self.re + self.im * self.im
    }
}

impl Add for Complex {
    type Output = Complex;
    fn add(self, other: Complex) -> Complex {
        Complex::new(self.re + other.re, self.im + other.im)
    }
}

impl Sub for Complex {
    type Output = Complex;
    fn sub(self, other: Complex) -> Complex {
        Complex::new(self.re - other.re, self.im - other.im)
    }
}

impl Mul for Complex {
    type Output = Complex;
    fn mul(self, other: Complex) -> Complex {
        let re = self.re * other.re - self.im * other.im;
        let im = self.re * other.im + self.im * other.re;
        Complex::new(re, im)
    }
}
