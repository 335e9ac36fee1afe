//! Records of a list, and what they do to a state.

use crate::state::State;
use programs::MOST_K;
use reference::RECORD_BYTES;

/// What a record does.
#[derive(Clone, Copy, Debug, PartialEq, Eq)]
pub enum Op {
    H,
    T,
    Tdg,
    Cx,
    Measure,
    Reset,
    /// One turn divided by 2 to the k.
    Phase(u16),
    PhaseDg(u16),
    Cphase(u16),
    CphaseDg(u16),
}

/// A record: an op on wires or bits, and its condition.
#[derive(Clone, Copy, Debug, PartialEq, Eq)]
pub struct Record {
    pub op: Op,
    /// A bit and the value that it must have.
    pub condition: Option<(usize, bool)>,
    pub first: usize,
    pub second: usize,
}

/// Reads records from output bytes.
pub fn records(bytes: &[u8]) -> Result<Vec<Record>, String> {
    match bytes.as_chunks::<RECORD_BYTES>() {
        (whole, []) => whole.iter().map(record).collect(),
        (_, rest) => Err(format!("a record of {} bytes", rest.len())),
    }
}

/// Reads one record.
fn record(bytes: &[u8; RECORD_BYTES]) -> Result<Record, String> {
    let two = |at: usize| u16::from_le_bytes([bytes[at], bytes[at + 1]]);
    let condition = match bytes[1] {
        0 => None,
        value @ (1 | 2) => Some((usize::from(two(6)), value == 2)),
        other => return Err(format!("no condition {other}")),
    };
    if two(10) != 0 {
        return Err(format!("{bytes:?} does not end in two bytes of 0"));
    }
    Ok(Record {
        op: op(bytes[0], two(8))?,
        condition,
        first: usize::from(two(2)),
        second: usize::from(two(4)),
    })
}

/// What a record does, by its op and k; ops without a k have 0 there.
fn op(number: u8, k: u16) -> Result<Op, String> {
    Ok(match (number, k) {
        (1, 0) => Op::H,
        (2, 0) => Op::T,
        (3, 0) => Op::Tdg,
        (4, 0) => Op::Cx,
        (5, 0) => Op::Measure,
        (6, 0) => Op::Reset,
        (7, 0..=MOST_K) => Op::Phase(k),
        (8, 0..=MOST_K) => Op::PhaseDg(k),
        (9, 0..=MOST_K) => Op::Cphase(k),
        (10, 0..=MOST_K) => Op::CphaseDg(k),
        _ => return Err(format!("no op {number} with k {k}")),
    })
}

impl Op {
    /// The op that undoes this one, if it is a gate.
    fn undone(self) -> Option<Op> {
        Some(match self {
            Op::H | Op::Cx => self,
            Op::T => Op::Tdg,
            Op::Tdg => Op::T,
            Op::Phase(k) => Op::PhaseDg(k),
            Op::PhaseDg(k) => Op::Phase(k),
            Op::Cphase(k) => Op::CphaseDg(k),
            Op::CphaseDg(k) => Op::Cphase(k),
            Op::Measure | Op::Reset => return None,
        })
    }

    /// Whether it has two wires.
    fn has_two_wires(self) -> bool {
        matches!(self, Op::Cx | Op::Cphase(_) | Op::CphaseDg(_))
    }
}

/// One turn divided by 2 to the k.
fn part(k: u16) -> f64 {
    0.5f64.powi(i32::from(k))
}

impl Record {
    /// The record that undoes this one, if it is a gate.
    pub fn undone(self) -> Option<Record> {
        let op = self.op.undone()?;
        Some(Record { op, ..self })
    }

    /// Whether the state has all the wires that are named.
    fn fits(&self, state: &State) -> bool {
        let second = !self.op.has_two_wires() || self.second < state.wires();
        self.first < state.wires() && second
    }

    /// Does a gate to a state.
    fn gate(&self, state: &mut State) -> Result<(), String> {
        if !self.fits(state) {
            return Err(format!("{self:?} is past the wires"));
        }
        let (one, both) = ([self.first], [self.first, self.second]);
        if self.op.has_two_wires() && self.first == self.second {
            return Err(format!("{self:?} on one wire"));
        }
        match self.op {
            Op::H => state.h(self.first),
            Op::T => state.turn(&one, part(3)),
            Op::Tdg => state.turn(&one, -part(3)),
            Op::Cx => state.cx(self.first, self.second),
            Op::Phase(k) => state.turn(&one, part(k)),
            Op::PhaseDg(k) => state.turn(&one, -part(k)),
            Op::Cphase(k) => state.turn(&both, part(k)),
            Op::CphaseDg(k) => state.turn(&both, -part(k)),
            Op::Measure | Op::Reset => return Err(format!("{self:?} is no gate")),
        }
        Ok(())
    }
}

/// Does a list of gates without conditions to a state.
pub fn play(list: &[Record], state: &mut State) -> Result<(), String> {
    for record in list {
        if record.condition.is_some() {
            return Err(format!("{record:?} has a condition"));
        }
        record.gate(state)?;
    }
    Ok(())
}

/// One way a list can go: the measured bits and the state, weighted by its chance.
#[derive(Clone, Debug)]
pub struct Branch {
    pub bits: Vec<bool>,
    pub state: State,
}

/// Does a list to a state, following both outcomes of every measurement and reset.
pub fn branches(list: &[Record], bits: usize, state: State) -> Result<Vec<Branch>, String> {
    let bits = vec![false; bits];
    let mut open = vec![Branch { bits, state }];
    for record in list {
        let mut next = Vec::new();
        for branch in open {
            next.extend(branch.after(record)?);
        }
        open = next;
    }
    Ok(open)
}

impl Branch {
    /// The branches after one record.
    fn after(mut self, record: &Record) -> Result<Vec<Branch>, String> {
        if let Some((bit, value)) = record.condition {
            match self.bits.get(bit) {
                None => return Err(format!("{record:?} is past the bits")),
                Some(found) if *found != value => return Ok(vec![self]),
                Some(_) => {}
            }
        }
        match record.op {
            Op::Measure => self.split(record, |branch, value| {
                let bit = branch.bits.get_mut(record.second);
                *bit.ok_or(format!("{record:?} is past the bits"))? = value;
                Ok(())
            }),
            Op::Reset => self.split(record, |branch, value| {
                if value {
                    branch.state.flip(record.first);
                }
                Ok(())
            }),
            _ => {
                record.gate(&mut self.state)?;
                Ok(vec![self])
            }
        }
    }

    /// Both outcomes on a wire, each with what it leads to.
    fn split(
        self,
        record: &Record,
        then: impl Fn(&mut Branch, bool) -> Result<(), String>,
    ) -> Result<Vec<Branch>, String> {
        if !record.fits(&self.state) {
            return Err(format!("{record:?} is past the wires"));
        }
        let mut found = Vec::new();
        for value in [false, true] {
            let mut branch = self.clone();
            branch.state.project(record.first, value);
            then(&mut branch, value)?;
            found.push(branch);
        }
        Ok(found)
    }
}
