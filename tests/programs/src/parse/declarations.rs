//! Families and registers of the text form.

use super::{count, field, Answer, Parameters, Parser};
use crate::field::{tags, Field};
use crate::names::Names;
use crate::token::{Spot, Word};
use std::mem::replace;

/// Declarations.
impl Parser {
    /// `family(n) f(x: Qbit[n]) { .. }`, or `gate f(x: Qbit) { .. }`.
    pub(super) fn family(&mut self, spot: Spot, sized: bool) -> Answer<Field> {
        let own = match sized {
            true => self.index_variables()?,
            false => Names::default(),
        };
        let name = self.new_name("a family", &self.families)?;
        self.pass();
        let outer_indexes = replace(&mut self.indexes, own);
        let variables = count(self.indexes.len(), "index variables", spot)?;
        let (names, mut parts) = self.parameters()?;
        let head = vec![variables, count(names.len(), "parameters", spot)?];
        let mut given = vec![name.clone()];
        given.extend_from_slice(self.indexes.list());
        given.extend_from_slice(names.list());
        let take_families = parts.iter().map(Field::is_family_type).collect();
        let outer_parameters = self.parameters.replace(Parameters {
            names,
            take_families,
        });
        parts.extend(self.block()?);
        self.parameters = outer_parameters;
        self.indexes = outer_indexes;
        self.families.add(name);
        Ok(field(tags::FAMILY, head, parts, spot)?.named(given))
    }

    /// `(n, m)`: the index variables of a family or of a family type.
    fn index_variables(&mut self) -> Answer<Names> {
        let mut own = Names::default();
        self.expect("(")?;
        while !self.accept(")") {
            self.comma(own.len())?;
            own.add(self.new_name("an index variable", &own)?);
            self.pass();
        }
        Ok(own)
    }

    /// The parameters of a family: their names and type fields.
    fn parameters(&mut self) -> Answer<(Names, Vec<Field>)> {
        let mut names = Names::default();
        let mut types = Vec::new();
        self.expect("(")?;
        while !self.accept(")") {
            self.comma(names.len())?;
            let name = self.new_name("a parameter", &names)?;
            self.pass();
            self.expect(":")?;
            types.push(self.parameter_type(&name)?);
            names.add(name);
        }
        Ok((names, types))
    }

    /// `Qbit` or `Qbit[n]`, or `family(n)(Qbit, Qbit[n])` where the parameter takes a family.
    fn parameter_type(&mut self, name: &str) -> Answer<Field> {
        match self.at_name("family") {
            true => self.family_type(name),
            false => self.plain_type("'Qbit' or 'family'"),
        }
    }

    /// `family(n)(Qbit, Qbit[n])`, whose sizes see its own index variables only.
    fn family_type(&mut self, parameter: &str) -> Answer<Field> {
        let spot = self.spot();
        self.pass();
        let own = self.index_variables()?;
        let outer_indexes = replace(&mut self.indexes, own);
        let mut types = Vec::new();
        self.expect("(")?;
        while !self.accept(")") {
            self.comma(types.len())?;
            let due = "'Qbit' (a family type has types only, as family(n)(Qbit, Qbit[n]))";
            types.push(self.plain_type(due)?);
        }
        let own = replace(&mut self.indexes, outer_indexes);
        let variables = count(own.len(), "index variables", spot)?;
        let head = vec![variables, count(types.len(), "parameters", spot)?];
        let mut given = vec![parameter.to_string()];
        given.extend_from_slice(own.list());
        Ok(field(tags::FAMILY_TYPE, head, types, spot)?.named(given))
    }

    /// `Qbit` or `Qbit[n]`.
    fn plain_type(&mut self, due: &str) -> Answer<Field> {
        let spot = self.spot();
        if !self.at_name("Qbit") {
            return self.wrong(due);
        }
        self.pass();
        if !self.accept("[") {
            return field(tags::QBIT, vec![], vec![], spot);
        }
        let size = self.index()?;
        self.expect("]")?;
        field(tags::QBITS, vec![], vec![size], spot)
    }

    /// `qreg q[5];` or `creg c[2];`.
    pub(super) fn register(&mut self, tag: u8, spot: Spot) -> Answer<Field> {
        let name = self.new_name("a register", &self.registers)?;
        self.pass();
        self.expect("[")?;
        let size = self.number(u16::MAX)?;
        self.expect("]")?;
        self.end_of_statement()?;
        self.registers.add(name.clone());
        Ok(field(tag, size.to_le_bytes().to_vec(), vec![], spot)?.named(vec![name]))
    }

    /// Whether a word is next.
    fn at_name(&self, name: &str) -> bool {
        matches!(self.peek(), Word::Name(found) if found == name)
    }

    /// The comma before every part of a list but the first.
    pub(super) fn comma(&mut self, before: usize) -> Answer<()> {
        if before > 0 {
            return self.expect(",");
        }
        Ok(())
    }
}
