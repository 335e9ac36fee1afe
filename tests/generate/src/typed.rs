//! Well-typed programs: families, loops over sizes, calls and commands.
//!
//! The writer knows the size of each operand and the bounds of each open loop
//! and tries indexes until one is likely to be shown inside. A few are left
//! unfit on purpose, so that near misses are among the programs too.

mod libraries;
mod passing;
mod phases;
mod slices;

pub use libraries::library;

use crate::build::*;
use crate::linear::{Bounds, Linear};
use crate::random::Random;
use slices::{apart, overlap, Chosen, Part};

/// How often an index is tried before the writer gives up.
const TRIES: usize = 10;
/// How often the writer looks for another wire or other sizes.
const LOOKS: usize = 5;
/// How deep statements are nested by chance.
const DEPTH: usize = 5;

/// What an operand number names.
#[derive(Clone)]
enum Kind {
    Wire,
    Wires(Linear),
    Bits(u16),
    Family(Signature),
}

/// What the statements being written can name.
#[derive(Default)]
struct Scope {
    sizes: usize,
    loops: Vec<Bounds>,
    kinds: Vec<Kind>,
}

/// A declared family, or a family's type: how many sizes it takes, and its parameters.
#[derive(Clone)]
pub struct Signature {
    pub sizes: usize,
    parameters: Vec<Parameter>,
}

/// What a parameter takes: a wire, a register of a size, or a family.
#[derive(Clone)]
enum Parameter {
    Wire,
    Wires(Linear),
    Family(Signature),
}

/// A program as a tree, with the families that it declares.
pub struct Written {
    pub fields: Vec<Field>,
    pub families: Vec<Signature>,
}

/// Writes one program, at times with a near miss.
pub fn program(random: &mut Random) -> Written {
    written(random, true)
}

/// Writes one program without near misses.
pub fn sound(random: &mut Random) -> Written {
    written(random, false)
}

/// Writes one program, with or without near misses.
fn written(random: &mut Random, near_misses: bool) -> Written {
    let mut writer = Writer {
        random,
        families: Vec::new(),
        near_misses,
    };
    let fields = writer.top();
    Written {
        fields,
        families: writer.families,
    }
}

/// A program being written.
struct Writer<'r> {
    random: &'r mut Random,
    families: Vec<Signature>,
    /// Whether a few indexes are left unfit.
    near_misses: bool,
}

impl Scope {
    /// How many index variables are in scope.
    fn variables(&self) -> usize {
        self.sizes + self.loops.len()
    }

    /// Whether an expression is likely to be shown 0 or more.
    fn natural(&self, linear: &Linear) -> bool {
        linear.natural(self.sizes, &self.loops)
    }

    /// Whether an index is likely to be shown inside a register.
    fn inside(&self, index: &Linear, size: &Linear) -> bool {
        self.natural(index) && self.natural(&size.shift(-1).plus(-1, index))
    }

    /// The size of the quantum register with a number; 0 for what is none.
    fn size(&self, number: usize) -> Linear {
        match &self.kinds[number] {
            Kind::Wires(size) => *size,
            _ => Linear::number(0),
        }
    }

    /// The numbers of the operands that are quantum registers.
    fn registers(&self) -> Vec<usize> {
        let register = |kind: &Kind| matches!(kind, Kind::Wires(_));
        (0..self.kinds.len())
            .filter(|&number| register(&self.kinds[number]))
            .collect()
    }
}

impl Parameter {
    /// What the parameter's number names in the body.
    fn kind(&self) -> Kind {
        match self {
            Parameter::Wire => Kind::Wire,
            Parameter::Wires(linear) => Kind::Wires(*linear),
            Parameter::Family(formal) => Kind::Family(formal.clone()),
        }
    }
}

/// Families and commands.
impl Writer<'_> {
    /// Writes the fields at the top.
    fn top(&mut self) -> Vec<Field> {
        let mut fields = Vec::new();
        let mut scope = Scope::default();
        for _ in 0..self.random.between(1, 4) {
            fields.push(self.family());
        }
        for _ in 0..self.random.between(1, 3) {
            fields.push(self.register(&mut scope));
        }
        for _ in 0..self.random.between(1, 6) {
            fields.push(match self.random.below(12) {
                0 => self.family(),
                1 => self.register(&mut scope),
                2..=4 => self.command(&mut scope),
                _ => self.statement(&mut scope, 1),
            });
        }
        fields.extend(self.passing_statement(&mut scope));
        fields
    }

    /// Declares a register of a few qubits or bits.
    fn register(&mut self, scope: &mut Scope) -> Field {
        let size = self.random.below(7) as u16;
        if self.random.percent(35) {
            scope.kinds.push(Kind::Bits(size));
            creg(size)
        } else {
            scope.kinds.push(Kind::Wires(Linear::number(size.into())));
            qreg(size)
        }
    }

    /// Writes a measure, a reset or an if, where there are wires and bits.
    fn command(&mut self, scope: &mut Scope) -> Field {
        let (wire, bit) = (self.wire(scope), self.bit(scope));
        match (self.random.below(3), wire, bit) {
            (0, Some(wire), Some(bit)) => measure(wire, bit),
            (1, Some(wire), _) => reset(wire),
            (_, _, Some(bit)) => {
                let value = self.random.below(2) as u8;
                when(value, bit, self.statements(scope, 2))
            }
            _ => self.statement(scope, 1),
        }
    }

    /// Writes a family over a few sizes.
    fn family(&mut self) -> Field {
        let signature = match self.taking_families() {
            Some(signature) => signature,
            None => self.plain_signature(),
        };
        self.declare(signature, |writer, scope| {
            let mut body = writer.statements(scope, 1);
            body.extend(writer.parameter_statement(scope));
            body
        })
    }

    /// A few sizes, and wires and registers over them.
    fn plain_signature(&mut self) -> Signature {
        let sizes = self.random.pick(&[0, 1, 1, 1, 1, 2, 2, 3, 4]);
        let count = self.random.pick(&[1, 1, 2, 2, 3, 4, 8]);
        let parameters = (0..count)
            .map(|_| match self.random.percent(65) {
                true => Parameter::Wires(self.size(sizes)),
                false => Parameter::Wire,
            })
            .collect();
        Signature { sizes, parameters }
    }

    /// Writes a family with a body that may name its parameters and sizes.
    fn declare(
        &mut self,
        signature: Signature,
        body: fn(&mut Self, &mut Scope) -> Vec<Field>,
    ) -> Field {
        let sizes = signature.sizes;
        let types = self.types(&signature);
        let kinds = signature.parameters.iter().map(Parameter::kind);
        let mut scope = Scope {
            sizes,
            loops: Vec::new(),
            kinds: kinds.collect(),
        };
        let body = body(self, &mut scope);
        self.families.push(signature);
        family(sizes as u8, types, body)
    }

    /// Writes the types of a signature's parameters.
    fn types(&mut self, signature: &Signature) -> Vec<Field> {
        let written = |parameter: &Parameter| match parameter {
            Parameter::Wire => qbit(),
            Parameter::Wires(linear) => qbits(linear.render(self.random)),
            Parameter::Family(formal) => family_type(formal.sizes as u8, self.types(formal)),
        };
        signature.parameters.iter().map(written).collect()
    }

    /// The size of a parameter, over the family's variables.
    fn size(&mut self, sizes: usize) -> Linear {
        let number = self.random.between(0, 4);
        if sizes == 0 || self.random.percent(15) {
            return Linear::number(number + 1);
        }
        let first = Linear::variable(self.random.below(sizes));
        let second = Linear::variable(self.random.below(sizes));
        match self.random.below(7) {
            0..=2 => first,
            3 | 4 => first.shift(number),
            5 => first.plus(1, &second),
            _ => first.plus(number, &second).shift(1),
        }
    }
}

/// Statements.
impl Writer<'_> {
    /// Writes a short list of statements.
    fn statements(&mut self, scope: &mut Scope, depth: usize) -> Vec<Field> {
        let count = match depth {
            1 => self.random.between(1, 5),
            2 => self.random.between(1, 3),
            _ => self.random.between(0, 2),
        };
        (0..count).map(|_| self.statement(scope, depth)).collect()
    }

    /// Writes a statement; one that holds others gets rarer with depth.
    fn statement(&mut self, scope: &mut Scope, depth: usize) -> Field {
        if depth > DEPTH || self.random.percent(35 + 8 * depth) {
            let written = self.simple(scope);
            return written.unwrap_or_else(|| reverse(vec![]));
        }
        if self.random.percent(65) && scope.loops.len() < 8 {
            self.counted(scope, depth)
        } else {
            reverse(self.statements(scope, depth + 1))
        }
    }

    /// Writes a gate or a call, where the scope has what it takes.
    fn simple(&mut self, scope: &Scope) -> Option<Field> {
        if let Some(written) = self.parameter_call(scope) {
            return Some(written);
        }
        if self.random.percent(40) && !self.families.is_empty() {
            if let Some(written) = self.call(scope) {
                return Some(written);
            }
        }
        if self.random.percent(35) {
            if let Some(wires) = self.pair(scope) {
                return Some(self.on_pair(scope, wires));
            }
        }
        let wire = self.wire(scope)?;
        Some(self.on_wire(scope, wire))
    }

    /// Writes a loop and its body.
    fn counted(&mut self, scope: &mut Scope, depth: usize) -> Field {
        let bounds = self.bounds(scope);
        let low = bounds.low.render(self.random);
        let high = bounds.high.render(self.random);
        scope.loops.push(bounds);
        let mut body = self.statements(scope, depth + 1);
        if body.is_empty() {
            body.extend(self.simple(scope));
        }
        scope.loops.pop();
        repeat(low, high, body)
    }

    /// The ends of a loop: mostly over the cells of a register.
    fn bounds(&mut self, scope: &Scope) -> Bounds {
        let size = self.some_size(scope);
        let zero = Linear::number(0);
        let (low, high) = match self.random.below(14) {
            0..=3 => (zero, size.shift(-1)),
            4 | 5 => (zero.shift(1), size),
            6 => (zero, size.shift(-2)),
            7 => (zero.shift(1), size.shift(-1)),
            8 => (self.some_variable(scope).shift(1), size.shift(-1)),
            9 => (zero, self.some_variable(scope)),
            10 => (zero.shift(-2), zero.shift(self.random.between(-3, 3))),
            11 => (zero.plus(-1, &size).shift(1), zero),
            _ => (zero, size.plus(-1, &self.some_size(scope))),
        };
        Bounds { low, high }
    }

    /// The size of a register in scope, or a small number.
    fn some_size(&mut self, scope: &Scope) -> Linear {
        let registers = scope.registers();
        if registers.is_empty() {
            return Linear::number(self.random.between(0, 4));
        }
        scope.size(self.random.pick(&registers))
    }

    /// An index variable in scope, loop variables first, or a small number.
    fn some_variable(&mut self, scope: &Scope) -> Linear {
        let loops = scope.loops.len();
        if loops > 0 && self.random.percent(85) {
            Linear::variable(scope.sizes + self.random.below(loops))
        } else if scope.variables() > 0 {
            Linear::variable(self.random.below(scope.variables()))
        } else {
            Linear::number(self.random.between(0, 3))
        }
    }
}

/// Operands and calls.
impl Writer<'_> {
    /// Writes an operand that is one wire, if one is found.
    fn wire(&mut self, scope: &Scope) -> Option<Field> {
        let chosen = self.choose(scope)?;
        Some(self.chosen(chosen))
    }

    /// Chooses a wire: an operand's number, and an index for an element.
    fn choose(&mut self, scope: &Scope) -> Option<Chosen> {
        for _ in 0..TRIES {
            let number = self.random.below(scope.kinds.len());
            match scope.kinds.get(number)? {
                Kind::Wire => return Some((number, Part::Whole)),
                Kind::Wires(size) => {
                    let index = self.index(scope, size);
                    if scope.inside(&index, size) || self.misses() {
                        return Some((number, Part::Element(index)));
                    }
                }
                Kind::Bits(_) | Kind::Family(_) => {}
            }
        }
        None
    }

    /// Whether an index is left unfit on purpose.
    fn misses(&mut self) -> bool {
        self.near_misses && self.random.below(2_000) == 0
    }

    /// Writes two wires that are mostly different, if they are found; they have the same
    /// number and index as a near miss only.
    fn pair(&mut self, scope: &Scope) -> Option<[Field; 2]> {
        let first = self.choose(scope)?;
        let found = (0..LOOKS)
            .filter_map(|_| self.choose(scope))
            .find(|other| apart(&first, other));
        let second = match found {
            Some(second) => second,
            None if self.misses() => first,
            None if self.random.percent(10) => self.other(scope, &first)?,
            None => return None,
        };
        Some([first, second].map(|wire| self.chosen(wire)))
    }

    /// Chooses a wire with another number or index, if one is found; it may be the same wire.
    fn other(&mut self, scope: &Scope, first: &Chosen) -> Option<Chosen> {
        (0..LOOKS)
            .filter_map(|_| self.choose(scope))
            .find(|chosen| chosen != first)
    }

    /// Writes an operand that is one bit, if there is one.
    fn bit(&mut self, scope: &Scope) -> Option<Field> {
        let bits = |kind: &Kind| match kind {
            Kind::Bits(size) => *size,
            _ => 0,
        };
        let numbers: Vec<usize> = (0..scope.kinds.len())
            .filter(|&number| bits(&scope.kinds[number]) > 0)
            .collect();
        if numbers.is_empty() {
            return None;
        }
        let number = self.random.pick(&numbers);
        let size = usize::from(bits(&scope.kinds[number]));
        let index = Linear::number(self.random.below(size) as i64);
        Some(element(number as u8, index.render(self.random)))
    }

    /// An index that may suit a register of a size.
    fn index(&mut self, scope: &Scope, size: &Linear) -> Linear {
        let number = self.random.between(0, 2);
        let one = self.some_variable(scope);
        let two = self.some_variable(scope);
        match self.random.below(12) {
            0 | 1 => Linear::number(number),
            2..=5 => one.shift(self.random.between(-1, 1)),
            6 => size.shift(-1 - number),
            7 | 8 => size.shift(-1).plus(-1, &one),
            9 => size.plus(-1, &one),
            10 => one.plus(self.random.between(-1, 1), &two),
            _ => Linear::number(0).plus(number, &one),
        }
    }

    /// Writes a call of an earlier family, if arguments are found.
    fn call(&mut self, scope: &Scope) -> Option<Field> {
        let number = self.called();
        self.call_of(number, scope)
    }

    /// Writes a call of the family with a number, if arguments are found.
    fn call_of(&mut self, number: usize, scope: &Scope) -> Option<Field> {
        let called = self.families[number].clone();
        let (sizes, operands) = self.handed(scope, &called, number)?;
        Some(call(number as u16, sizes, operands))
    }

    /// The sizes and operands of a call of a family with a number, if they are found.
    fn handed(
        &mut self,
        scope: &Scope,
        called: &Signature,
        number: usize,
    ) -> Option<(Vec<Field>, Vec<Field>)> {
        for attempt in 0..LOOKS {
            let forms = self.call_sizes(scope, called.sizes, attempt);
            if let Some(operands) = self.arguments(scope, called, number, &forms) {
                let sizes = forms.iter().map(|form| form.render(self.random));
                return Some((sizes.collect(), operands));
            }
        }
        None
    }

    /// The number of a family to call: often one to which families are passed; where there are
    /// many, often one about the first that takes two bytes, or one of the last.
    fn called(&mut self) -> usize {
        if let Some(number) = self.taking() {
            return number;
        }
        let last = self.families.len() - 1;
        match self.random.below(if last < 256 { 1 } else { 4 }) {
            1 => last.min(252 + self.random.below(8)),
            2 => last - self.random.below(4),
            _ => self.random.below(last + 1),
        }
    }

    /// Sizes for a call, smaller with each attempt.
    fn call_sizes(&mut self, scope: &Scope, count: usize, attempt: usize) -> Vec<Linear> {
        (0..count).map(|_| self.call_size(scope, attempt)).collect()
    }

    /// One size for a call that is likely to be shown 0 or more.
    fn call_size(&mut self, scope: &Scope, attempt: usize) -> Linear {
        let less = self.random.below(1 + attempt / 2) as i64;
        let tried = match self.random.below(5) {
            0..=2 => self.some_size(scope).shift(-less),
            3 => self.some_variable(scope).shift(1 - less),
            _ => Linear::number(self.random.between(0, 3)),
        };
        if scope.natural(&tried) {
            tried
        } else {
            Linear::number(0)
        }
    }

    /// Arguments for a call with these sizes of the family with a number: wires that are
    /// mostly different, and families declared before it.
    fn arguments(
        &mut self,
        scope: &Scope,
        called: &Signature,
        number: usize,
        forms: &[Linear],
    ) -> Option<Vec<Field>> {
        let mut taken = Vec::new();
        let mut operands = Vec::new();
        for parameter in &called.parameters {
            let chosen = match parameter {
                Parameter::Wire => self.fresh_wire(scope, &taken)?,
                Parameter::Wires(size) => self.fresh_wires(scope, &size.put_in(forms), &taken)?,
                Parameter::Family(formal) => {
                    operands.push(passed(self.passed(formal, number)?));
                    continue;
                }
            };
            operands.push(self.chosen(chosen));
            taken.push(chosen);
        }
        Some(operands)
    }

    /// A wire that is no part of what is taken, or else any wire.
    fn fresh_wire(&mut self, scope: &Scope, taken: &[Chosen]) -> Option<Chosen> {
        let fresh = |chosen: &Chosen| !taken.iter().any(|other| overlap(other, chosen));
        (0..LOOKS)
            .filter_map(|_| self.choose(scope))
            .find(fresh)
            .or_else(|| self.choose(scope))
    }

    /// A register that is large enough, if possible one that is not taken.
    fn fresh_register(
        &mut self,
        scope: &Scope,
        asked: &Linear,
        taken: &[Chosen],
    ) -> Option<Chosen> {
        let large = |number: &usize| scope.natural(&scope.size(*number).plus(-1, asked));
        let suitable: Vec<usize> = scope.registers().into_iter().filter(large).collect();
        let start = self.random.below(suitable.len());
        let mut turned = suitable.iter().cycle().skip(start).take(suitable.len());
        let fresh = turned.find(|number| !taken.iter().any(|other| other.0 == **number));
        let number = *fresh.or(suitable.first())?;
        Some((number, Part::Whole))
    }
}
