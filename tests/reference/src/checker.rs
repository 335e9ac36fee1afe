//! Reading and typing a program: top fields, families and statements.

use crate::bytes::{refuse, Content, Field, Refusal};
use crate::form::{Bounds, Form};
use crate::index::{Kind, Scope};
use crate::operand::Wanted;
use crate::tree::{
    Action, Bit, Call, Called, Cphase, Family, FamilyType, Gate, Index, Loop, Parameter, Program,
    Register, Size, Statement, Type, Wire,
};
use std::rc::Rc;

/// The most bytes a program may have.
const PROGRAM_BYTES: usize = 65_535;
/// The most families.
const FAMILIES: usize = 4_096;
/// The most registers.
const REGISTERS: usize = 255;
/// The first family that is called with a number of two bytes.
const FIRST_FAR_FAMILY: u16 = 256;
/// The most qubits, and the most bits, that registers may have in all.
const LOCATIONS: u32 = 65_535;
/// The most loops open at one place.
const OPEN_LOOPS: usize = 8;
/// How deep statements may nest.
const STATEMENT_NESTING: u32 = 16;

/// Reads a program and types it, or says why it is turned down.
pub fn program(bytes: &[u8]) -> Result<Program, Refusal> {
    if bytes.len() > PROGRAM_BYTES {
        return refuse(1, 0);
    }
    let mut checker = Checker::default();
    let mut content = Content::of_program(bytes);
    while let Some(field) = content.next_field() {
        checker.top_field(field?)?;
    }
    Ok(checker.program)
}

/// What has been declared so far.
#[derive(Default)]
struct Checker {
    program: Program,
    /// The kinds of the registers, by number.
    kinds: Vec<Kind>,
    qubits: u16,
    bits: u16,
}

impl Checker {
    /// Reads one field that stands at the top.
    fn top_field(&mut self, mut field: Field) -> Result<(), Refusal> {
        match field.tag {
            1 => {
                let family = self.family(field)?;
                self.program.families.push(family);
            }
            2 | 3 => self.register(field)?,
            4..=6 => {
                let action = self.scope().command(&mut field)?;
                let place = field.place;
                self.program.top.push(Statement { place, action });
            }
            _ => {
                let statement = self.scope().statement(field, 1)?;
                self.program.top.push(statement);
            }
        }
        Ok(())
    }

    /// What a top statement can name.
    fn scope(&self) -> Scope<'_> {
        Scope {
            families: &self.program.families,
            kinds: &self.kinds,
            sizes: 0,
            loops: Vec::new(),
        }
    }

    /// Reads a family: its counts, its types and its body.
    fn family(&self, mut field: Field) -> Result<Family, Refusal> {
        if self.program.families.len() == FAMILIES {
            return refuse(6, field.place);
        }
        let (sizes, count) = counts(&mut field)?;
        let mut scope = Scope {
            families: &self.program.families,
            kinds: &[],
            sizes,
            loops: Vec::new(),
        };
        let parameters: Vec<Parameter> = (0..count)
            .map(|_| scope.parameter(&mut field.content))
            .collect::<Result<_, _>>()?;
        let kinds: Vec<Kind> = parameters.iter().map(Parameter::kind).collect();
        scope.kinds = &kinds;
        let body = scope.statements(&mut field.content, 1)?;
        Ok(Family {
            sizes,
            parameters,
            body,
        })
    }

    /// Reads a quantum or classical register.
    fn register(&mut self, mut field: Field) -> Result<(), Refusal> {
        if self.kinds.len() == REGISTERS {
            return refuse(6, field.place);
        }
        let size = field.content.number()?;
        let used = match field.tag {
            2 => &mut self.qubits,
            _ => &mut self.bits,
        };
        let first = *used;
        if u32::from(first) + u32::from(size) > LOCATIONS {
            return refuse(7, field.place);
        }
        field.content.end()?;
        *used = first + size;
        let form = Form::constant(i64::from(size));
        let (kind, register) = match field.tag {
            2 => (Kind::Wires(form), quantum(first, size)),
            _ => (Kind::Bits(form), classical(first, size)),
        };
        self.kinds.push(kind);
        self.program.registers.push(register);
        Ok(())
    }
}

/// A register of qubits from a first one on.
fn quantum(first: u16, size: u16) -> Register {
    let first = Wire(first);
    Register::Quantum { first, size }
}

/// A register of bits from a first one on.
fn classical(first: u16, size: u16) -> Register {
    let first = Bit(first);
    Register::Classical { first, size }
}

/// Reads the two-byte number of a call, which must be one that a byte cannot hold.
fn far_family(content: &mut Content, place: u32) -> Result<u16, Refusal> {
    match content.number()? {
        family @ FIRST_FAR_FAMILY.. => Ok(family),
        _ => refuse(31, place),
    }
}

/// Reads the numbers of index variables and of parameters with which a family begins, and
/// so does a family's type.
fn counts(field: &mut Field) -> Result<(usize, u8), Refusal> {
    let sizes = field.content.byte()?;
    if sizes > 4 {
        return refuse(6, field.place);
    }
    let count = field.content.byte()?;
    if !(1..=8).contains(&count) {
        return refuse(6, field.place);
    }
    Ok((usize::from(sizes), count))
}

/// Reads a family's type, whose sizes are over its own index variables.
fn family_type(mut field: Field) -> Result<FamilyType, Refusal> {
    let (sizes, count) = counts(&mut field)?;
    let scope = Scope {
        families: &[],
        kinds: &[],
        sizes,
        loops: Vec::new(),
    };
    let mut parameters = Vec::new();
    for _ in 0..count {
        let size = scope.plain_type(field.content.field()?)?;
        parameters.push(size.map(|size| size.form));
    }
    field.content.end()?;
    Ok(FamilyType { sizes, parameters })
}

impl Parameter {
    /// What the parameter's number names in the body.
    fn kind(&self) -> Kind {
        match &self.kind {
            Type::Wire => Kind::Wire,
            Type::Wires(size) => Kind::Wires(size.form.clone()),
            Type::Family(family) => Kind::Family(family.clone()),
        }
    }

    /// What a call has to hand to the parameter.
    fn wanted(&self) -> Wanted<'_> {
        match &self.kind {
            Type::Wire => Wanted::Wire,
            Type::Wires(size) => Wanted::Wires(&size.form),
            Type::Family(family) => Wanted::Family(family),
        }
    }
}

impl Scope<'_> {
    /// Reads a parameter's type field.
    fn parameter(&self, content: &mut Content) -> Result<Parameter, Refusal> {
        let field = content.field()?;
        let place = field.place;
        let kind = match field.tag {
            18 => Type::Family(Rc::new(family_type(field)?)),
            _ => match self.plain_type(field)? {
                None => Type::Wire,
                Some(size) => Type::Wires(size),
            },
        };
        Ok(Parameter { place, kind })
    }

    /// Reads the type of a wire, or of a register with a size that must be shown 0 or more.
    fn plain_type(&self, mut field: Field) -> Result<Option<Size>, Refusal> {
        let place = field.place;
        let size = match field.tag {
            16 => None,
            17 => {
                let (index, form) = self.index(&mut field.content)?;
                Some(Size { index, form })
            }
            _ => return refuse(3, place),
        };
        field.content.end()?;
        if let Some(size) = &size {
            self.show(&size.form, place)?;
        }
        Ok(size)
    }

    /// Reads statements up to the end of the content.
    fn statements(&mut self, content: &mut Content, depth: u32) -> Result<Vec<Statement>, Refusal> {
        let mut list = Vec::new();
        while let Some(field) = content.next_field() {
            list.push(self.statement(field?, depth)?);
        }
        Ok(list)
    }

    /// Reads a measure, reset or if, which stand at the top only.
    fn command(&mut self, field: &mut Field) -> Result<Action, Refusal> {
        let content = &mut field.content;
        match field.tag {
            4 => {
                let action = Action::Measure(self.wire(content)?, self.bit(content)?);
                content.end()?;
                Ok(action)
            }
            5 => {
                let action = Action::Reset(self.wire(content)?);
                content.end()?;
                Ok(action)
            }
            _ => {
                let value = content.byte()?;
                if value > 1 {
                    return refuse(13, field.place);
                }
                let bit = self.bit(content)?;
                let body = self.statements(content, 2)?;
                Ok(Action::If(value == 1, bit, body))
            }
        }
    }

    /// Reads a statement that may stand in a body.
    fn statement(&mut self, mut field: Field, depth: u32) -> Result<Statement, Refusal> {
        let place = field.place;
        if !(32..=42).contains(&field.tag) {
            return refuse(3, place);
        }
        if depth > STATEMENT_NESTING {
            return refuse(5, place);
        }
        let content = &mut field.content;
        let action = match field.tag {
            32 => self.gate(Gate::H, content)?,
            33 => self.gate(Gate::T, content)?,
            34 => self.gate(Gate::Tdg, content)?,
            35 => self.cx(content, place)?,
            36 => self.family_call(u16::from(content.byte()?), content, place)?,
            37 => Action::Reverse(self.statements(content, depth + 1)?),
            38 => self.open_loop(content, place, depth)?,
            39 => self.family_call(far_family(content, place)?, content, place)?,
            40 => self.phase(content)?,
            41 => self.cphase(content, place)?,
            _ => self.parameter_call(content, place)?,
        };
        Ok(Statement { place, action })
    }

    /// Reads the operand of a gate on one wire.
    fn gate(&self, gate: Gate, content: &mut Content) -> Result<Action, Refusal> {
        let wire = self.wire(content)?;
        content.end()?;
        Ok(Action::Gate(gate, wire))
    }

    /// Reads the operands of a cx.
    fn cx(&self, content: &mut Content, place: u32) -> Result<Action, Refusal> {
        let [control, target] = self.two_wires(content, place)?;
        Ok(Action::Cx(control, target))
    }

    /// Reads the part of a turn and the operand of a phase.
    fn phase(&self, content: &mut Content) -> Result<Action, Refusal> {
        let (k, _) = self.natural(content)?;
        let wire = self.wire(content)?;
        content.end()?;
        Ok(Action::Phase(k, wire))
    }

    /// Reads the part of a turn and the operands of a cphase.
    fn cphase(&self, content: &mut Content, place: u32) -> Result<Action, Refusal> {
        let (k, _) = self.natural(content)?;
        let [control, target] = self.two_wires(content, place)?;
        let cphase = Cphase { k, control, target };
        Ok(Action::Cphase(Box::new(cphase)))
    }

    /// Reads an index that must be shown 0 or more, at its own end.
    fn natural(&self, content: &mut Content) -> Result<(Index, Form), Refusal> {
        let start = content.offset();
        let (index, form) = self.index(content)?;
        self.show(&form, start)?;
        Ok((index, form))
    }

    /// Reads what follows the family's number in a call.
    fn family_call(
        &self,
        family: u16,
        content: &mut Content,
        place: u32,
    ) -> Result<Action, Refusal> {
        let Some(called) = self.families.get(usize::from(family)) else {
            return refuse(8, place);
        };
        let wanted = called.parameters.iter().map(Parameter::wanted);
        self.call(Called::Family(family), called.sizes, wanted, content)
    }

    /// Reads a call of a parameter, which has to be a family.
    fn parameter_call(&self, content: &mut Content, place: u32) -> Result<Action, Refusal> {
        let number = content.byte()?;
        let called = match self.kinds.get(usize::from(number)) {
            None => return refuse(8, place),
            Some(Kind::Family(called)) => called,
            Some(_) => return refuse(9, place),
        };
        let wanted = called.parameters.iter().map(|size| match size {
            None => Wanted::Wire,
            Some(size) => Wanted::Wires(size),
        });
        self.call(Called::Parameter(number), called.sizes, wanted, content)
    }

    /// Reads the sizes and arguments of a call.
    fn call<'w>(
        &self,
        called: Called,
        count: usize,
        wanted: impl Iterator<Item = Wanted<'w>>,
        content: &mut Content,
    ) -> Result<Action, Refusal> {
        let mut sizes = Vec::with_capacity(count);
        let mut forms = Vec::with_capacity(count);
        for _ in 0..count {
            let (index, form) = self.natural(content)?;
            sizes.push(index);
            forms.push(form);
        }
        let arguments = wanted
            .map(|wanted| self.argument(content, called, wanted, &forms))
            .collect::<Result<_, _>>()?;
        content.end()?;
        Ok(Action::Call(Box::new(Call {
            called,
            sizes,
            arguments,
        })))
    }

    /// Reads a loop: its bounds, then its body with the loop open.
    fn open_loop(
        &mut self,
        content: &mut Content,
        place: u32,
        depth: u32,
    ) -> Result<Action, Refusal> {
        if self.loops.len() == OPEN_LOOPS {
            return refuse(6, place);
        }
        let (low, low_form) = self.index(content)?;
        let (high, high_form) = self.index(content)?;
        let variable = (self.sizes + self.loops.len()) as u8;
        self.loops.push(Bounds {
            low: low_form,
            high: high_form,
        });
        let body = self.statements(content, depth + 1)?;
        self.loops.pop();
        Ok(Action::For(Box::new(Loop {
            variable,
            low,
            high,
            body,
        })))
    }
}
