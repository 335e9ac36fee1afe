//! The state of some wires: an amplitude for every setting of them.
//!
//! A setting is a number whose bit w is the value of wire w. Only amplitudes
//! that are not 0 are kept, since most lists here keep most of them 0.

use crate::complex::Complex;
use std::collections::BTreeMap;
use std::f64::consts::FRAC_1_SQRT_2;

/// How far two amplitudes may be apart and still count as equal.
const NEAR: f64 = 1e-9;

/// A weight below this is what rounding leaves of 0.
const DUST: f64 = 1e-24;

/// The amplitudes that are not 0, by setting.
#[derive(Clone, Debug)]
pub struct State {
    wires: usize,
    amplitudes: BTreeMap<usize, Complex>,
}

impl State {
    /// The state that is one setting for certain.
    pub fn setting(wires: usize, setting: usize) -> Self {
        let amplitudes = BTreeMap::from([(setting, Complex::ONE)]);
        State { wires, amplitudes }
    }

    /// The state with these amplitudes, by setting.
    pub fn with(wires: usize, amplitude: impl Fn(usize) -> Complex) -> Self {
        let settings = 0..1 << wires;
        State {
            wires,
            amplitudes: settings.map(|one| (one, amplitude(one))).collect(),
        }
    }

    /// Wire 0 with two amplitudes, and the other wires 0.
    pub fn first_wire(wires: usize, zero: Complex, one: Complex) -> Self {
        let amplitudes = BTreeMap::from([(0, zero), (1, one)]);
        State { wires, amplitudes }
    }

    /// How many wires there are.
    pub fn wires(&self) -> usize {
        self.wires
    }

    /// The amplitude of a setting.
    pub fn amplitude(&self, setting: usize) -> Complex {
        let found = self.amplitudes.get(&setting);
        found.copied().unwrap_or(Complex::ZERO)
    }

    /// How likely this state is, where projections have made it less than certain.
    pub fn weight(&self) -> f64 {
        self.amplitudes.values().map(|one| one.weight()).sum()
    }

    /// Whether all amplitudes are the same.
    pub fn equals(&self, other: &State) -> bool {
        let mut settings = self.amplitudes.keys().chain(other.amplitudes.keys());
        let near = |setting: &usize| {
            let apart = self.amplitude(*setting) - other.amplitude(*setting);
            apart.weight() < NEAR * NEAR
        };
        self.wires == other.wires && settings.all(near)
    }

    /// Whether both are the same state up to a factor.
    pub fn parallel(&self, other: &State) -> bool {
        let mut overlap = Complex::ZERO;
        for (setting, amplitude) in &self.amplitudes {
            overlap = overlap + amplitude.conjugate() * other.amplitude(*setting);
        }
        let apart = overlap.weight() - self.weight() * other.weight();
        self.wires == other.wires && apart.abs() < NEAR
    }

    /// Hadamard.
    pub fn h(&mut self, wire: usize) {
        let bit = 1 << wire;
        let mut after: BTreeMap<usize, Complex> = BTreeMap::new();
        for (setting, amplitude) in &self.amplitudes {
            let part = amplitude.times(FRAC_1_SQRT_2);
            let zero = after.entry(setting & !bit).or_default();
            *zero = *zero + part;
            let one = after.entry(setting | bit).or_default();
            *one = if setting & bit == 0 {
                *one + part
            } else {
                *one - part
            };
        }
        after.retain(|_, amplitude| amplitude.weight() > DUST);
        self.amplitudes = after;
    }

    /// A part of a turn where all of some wires are 1; forward above 0, back below.
    pub fn turn(&mut self, wires: &[usize], part: f64) {
        let factor = Complex::turned(part);
        for (setting, amplitude) in &mut self.amplitudes {
            if wires.iter().all(|wire| (setting >> wire) & 1 == 1) {
                *amplitude = *amplitude * factor;
            }
        }
    }

    /// Controlled not.
    pub fn cx(&mut self, control: usize, target: usize) {
        self.rename(|setting| setting ^ (((setting >> control) & 1) << target));
    }

    /// Changes 0 and 1 on a wire.
    pub fn flip(&mut self, wire: usize) {
        self.rename(|setting| setting ^ (1 << wire));
    }

    /// Keeps only the settings in which a wire has this value.
    pub fn project(&mut self, wire: usize, value: bool) {
        self.amplitudes
            .retain(|setting, _| ((setting >> wire) & 1 == 1) == value);
    }

    /// Gives every amplitude to another setting, each to its own.
    fn rename(&mut self, other: impl Fn(usize) -> usize) {
        let before = std::mem::take(&mut self.amplitudes);
        let after = before.into_iter();
        self.amplitudes = after.map(|(setting, one)| (other(setting), one)).collect();
    }
}
