//! What a command asks the second unroller.

use super::{load, size_bytes, sizes_in_order, Answer, Loaded, Options};
use crate::encode::encode;
use crate::field::{tags, Field};
use crate::operations::Record;
use reference::{Outcome, RECORD_BYTES};
use std::io::Read;

/// A whole program, or one of its families at sizes.
pub struct Asked {
    pub program: Loaded,
    pub family: Option<u32>,
    /// The sizes in order; none are looked up for a program that is refused.
    pub sizes: Vec<u32>,
}

impl Asked {
    /// Loads the program, and finds the family and its sizes.
    pub fn read(options: &Options, input: &mut dyn Read) -> Answer<Asked> {
        let program = load(options, input)?;
        let family = program.family(options)?;
        let sizes = match family {
            Some(number) if reference::check(&program.bytes).number == 0 => {
                sizes_in_order(options, &program, number)?
            }
            _ => Vec::new(),
        };
        Ok(Asked {
            program,
            family,
            sizes,
        })
    }

    /// The answer of one of two calls, about the run or the instance, and the output.
    pub fn answer<T>(
        &self,
        options: &Options,
        run: impl FnOnce(&[u8], u64, &mut [u8]) -> T,
        instance: impl FnOnce(&[u8], u32, &[u8], u64, &mut [u8]) -> T,
    ) -> (T, Vec<u8>) {
        let mut output = vec![0; options.output];
        let (bytes, limit) = (&self.program.bytes, options.limit);
        let answer = self.answer_about(bytes, limit, &mut output, run, instance);
        (answer, output)
    }

    /// The answer of one of two calls about other bytes.
    fn answer_about<T>(
        &self,
        bytes: &[u8],
        limit: u64,
        output: &mut [u8],
        run: impl FnOnce(&[u8], u64, &mut [u8]) -> T,
        instance: impl FnOnce(&[u8], u32, &[u8], u64, &mut [u8]) -> T,
    ) -> T {
        match self.family {
            None => run(bytes, limit, output),
            Some(number) => instance(bytes, number, &size_bytes(&self.sizes), limit, output),
        }
    }

    /// The wire that a gate names twice, where a run has ended at the gate: h on its first
    /// operand, put in its place, writes the wire as the next record.
    pub fn wire_twice(&self, outcome: &Outcome) -> Option<u16> {
        let mut fields = self.program.fields.clone();
        let gate = field_at(&mut fields, 0, usize::try_from(outcome.place).ok()?)?;
        let wire = gate.operands().next()?.clone();
        *gate = Field::new(tags::H, Vec::new(), vec![wire], gate.spot);
        let (bytes, _) = encode(&fields).ok()?;
        let records = usize::try_from(outcome.records).ok()?;
        let mut output = vec![0; (records + 1) * RECORD_BYTES];
        let (run, instance) = (reference::run, reference::instance);
        self.answer_about(&bytes, outcome.steps, &mut output, run, instance);
        output.last_chunk().map(|last| Record::of(last).numbers[0])
    }
}

/// The field whose tag is at a place, among fields that begin at a start.
fn field_at(fields: &mut [Field], mut start: usize, place: usize) -> Option<&mut Field> {
    for field in fields {
        let end = start + field.length();
        if place == start {
            return Some(field);
        }
        if place < end {
            return field_at(&mut field.parts, start + 3 + field.head.len(), place);
        }
        start = end;
    }
    None
}
