//! Libraries of many families, most of them small, and a run that calls them.

use super::{Parameter, Scope, Signature, Writer, Written};
use crate::build::*;
use crate::random::Random;

/// The bytes that are kept for what stands behind the families.
const BEHIND: usize = 5_000;
/// The bytes of the smallest family.
const SMALLEST: usize = 8;
/// The share of bytes from which on families need not be small.
const LARGE_SHARE: usize = 100;

/// Writes a program with so many families.
pub fn library(families: usize, random: &mut Random) -> Written {
    let mut writer = Writer {
        random,
        families: Vec::new(),
        near_misses: false,
    };
    let mut fields = writer.many_families(families);
    fields.extend(writer.behind());
    while length(&fields) > MOST_BYTES {
        fields.pop();
    }
    Written {
        fields,
        families: writer.families,
    }
}

impl Writer<'_> {
    /// Writes so many families; none takes more than twice its share of the bytes.
    fn many_families(&mut self, count: usize) -> Vec<Field> {
        let mut fields = Vec::with_capacity(count);
        let mut room = MOST_BYTES - BEHIND;
        for left in (0..count).rev() {
            let share = room / (left + 1);
            let field = self.family_within(share, room - SMALLEST * left);
            room -= field.size();
            fields.push(field);
        }
        fields
    }

    /// Writes a family of at most twice its share of bytes, and of no more than there are.
    fn family_within(&mut self, share: usize, room: usize) -> Field {
        let declared = self.families.len();
        let written = match share > LARGE_SHARE && self.random.percent(50) {
            true => self.family(),
            false => self.small_family(),
        };
        if written.size() <= room.min(2 * share) {
            return written;
        }
        self.families.truncate(declared);
        self.declare(wires(1), |_, _| vec![])
    }

    /// Writes a family of one or two parameters and at most two statements.
    fn small_family(&mut self) -> Field {
        let signature = match self.random.below(12) {
            0 => Signature {
                sizes: 1,
                parameters: vec![Parameter::Wires(self.size(1))],
            },
            1 | 2 => wires(2),
            3 | 4 => taking_a_family(),
            _ => wires(1),
        };
        self.declare(signature, |writer, scope| {
            let count = writer.random.pick(&[0, 1, 1, 1, 1, 2]);
            (0..count)
                .filter_map(|_| writer.small_statement(scope))
                .collect()
        })
    }

    /// Writes a call, or else a gate.
    fn small_statement(&mut self, scope: &Scope) -> Option<Field> {
        if let Some(written) = self.parameter_call(scope) {
            return Some(written);
        }
        let called = match self.families.is_empty() || self.random.percent(30) {
            true => None,
            false => self.call(scope),
        };
        called.or_else(|| self.simple(scope))
    }

    /// Writes registers, calls of families, and statements and commands around them.
    fn behind(&mut self) -> Vec<Field> {
        let mut scope = Scope::default();
        let mut fields = Vec::new();
        for _ in 0..3 {
            fields.push(self.register(&mut scope));
        }
        for _ in 0..self.random.between(3, 8) {
            fields.extend(match self.random.below(4) {
                0 | 1 => self.small_statement(&scope),
                2 => Some(self.command(&mut scope)),
                _ => Some(self.statement(&mut scope, 1)),
            });
        }
        fields
    }
}

/// A family without sizes over so many wires.
fn wires(count: usize) -> Signature {
    Signature {
        sizes: 0,
        parameters: vec![Parameter::Wire; count],
    }
}

/// A family on one wire to which a family on one wire is passed.
fn taking_a_family() -> Signature {
    Signature {
        sizes: 0,
        parameters: vec![Parameter::Wire, Parameter::Family(wires(1))],
    }
}
