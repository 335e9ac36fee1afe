//! Reading the statements of OpenQASM 2.0.

use super::angle::Value;
use super::token::{Token, Tokens};
use super::{Action, Angle, Bit, Condition, Kind, Operation, Program, Qubit, Register};
use std::collections::HashMap;

/// The gates that qelib1.inc declares.
const GATES: [&str; 23] = [
    "u3", "u2", "u1", "cx", "id", "x", "y", "z", "h", "s", "sdg", "t", "tdg", "rx", "ry", "rz",
    "cz", "cy", "ch", "ccx", "crz", "cu1", "cu3",
];
/// Words with a meaning of their own, which name no register.
const KEYWORDS: [&str; 16] = [
    "include", "qreg", "creg", "gate", "opaque", "measure", "reset", "barrier", "if", "pi", "sin",
    "cos", "tan", "exp", "ln", "sqrt",
];

/// Reads a whole text, or says in which line it is wrong and why.
pub fn read(text: &str) -> Result<Program<'_>, String> {
    let mut reader = Reader {
        tokens: Tokens::of(text),
        program: Program::default(),
        numbers: HashMap::new(),
        included: false,
    };
    match reader.whole() {
        Ok(()) => Ok(reader.program),
        Err(message) => Err(format!("line {}: {message}", reader.tokens.line)),
    }
}

/// A text being read.
struct Reader<'t> {
    tokens: Tokens<'t>,
    program: Program<'t>,
    /// The place of each register among all registers, by its name.
    numbers: HashMap<&'t str, usize>,
    /// Whether qelib1.inc is included.
    included: bool,
}

impl<'t> Reader<'t> {
    /// Reads the header and every statement.
    fn whole(&mut self) -> Result<(), String> {
        self.due(Token::Word("OPENQASM"))?;
        self.due(Token::Real("2.0"))?;
        self.due(Token::Sign(";"))?;
        loop {
            match self.tokens.take()? {
                Token::End => return Ok(()),
                Token::Word(word) => self.statement(word)?,
                other => return Err(format!("a statement is due, not {other}")),
            }
        }
    }

    /// Reads the rest of the statement that begins with a word.
    fn statement(&mut self, word: &str) -> Result<(), String> {
        match word {
            "include" => self.include(),
            "qreg" => self.declare(Kind::Quantum),
            "creg" => self.declare(Kind::Classical),
            "if" => {
                let condition = self.condition()?;
                let word = self.word()?;
                self.operation(word, Some(condition))
            }
            _ => self.operation(word, None),
        }
    }

    /// Reads the file of an include; there is one that is known.
    fn include(&mut self) -> Result<(), String> {
        self.due(Token::Quoted("qelib1.inc"))?;
        self.due(Token::Sign(";"))?;
        if let Some(gate) = GATES.iter().find(|gate| self.numbers.contains_key(**gate)) {
            return Err(format!("{gate} is declared twice"));
        }
        match std::mem::replace(&mut self.included, true) {
            true => Err("qelib1.inc is included twice".into()),
            false => Ok(()),
        }
    }

    /// Reads the name and the size of a register.
    fn declare(&mut self, kind: Kind) -> Result<(), String> {
        let name = self.word()?;
        if !name.starts_with(|c: char| c.is_ascii_lowercase()) || KEYWORDS.contains(&name) {
            return Err(format!("a register cannot be named {name}"));
        }
        let gate = self.included && GATES.contains(&name);
        let number = self.program.registers.len();
        if gate || self.numbers.insert(name, number).is_some() {
            return Err(format!("{name} is declared twice"));
        }
        let size = self.bracketed()?;
        if size == 0 {
            return Err(format!("{name} has no elements"));
        }
        self.due(Token::Sign(";"))?;
        let first = self.after_last(kind);
        if first.checked_add(size).is_none() {
            return Err(format!("{name} is too large"));
        }
        self.program.registers.push(Register {
            kind,
            name,
            first,
            size,
        });
        Ok(())
    }

    /// The number of the next qubit or bit that is declared.
    fn after_last(&self, kind: Kind) -> u64 {
        let mut registers = self.program.registers.iter();
        let last = registers.rfind(|register| register.kind == kind);
        last.map_or(0, |register| register.first + register.size)
    }

    /// Reads the condition of an if.
    fn condition(&mut self) -> Result<Condition, String> {
        self.due(Token::Sign("("))?;
        let register = self.register(Kind::Classical)?;
        self.due(Token::Sign("=="))?;
        let value = self.integer()?;
        self.due(Token::Sign(")"))?;
        Ok(Condition { register, value })
    }

    /// Reads the operands of the operation with a name.
    fn operation(&mut self, name: &str, condition: Option<Condition>) -> Result<(), String> {
        if GATES.contains(&name) && !self.included {
            return Err(format!(
                "{name} is not declared: qelib1.inc is not included"
            ));
        }
        let action = match name {
            "h" => Action::H(self.qubit()?),
            "t" => Action::T(self.qubit()?),
            "tdg" => Action::Tdg(self.qubit()?),
            "cx" => {
                let [control, target] = self.two_qubits(name)?;
                Action::Cx { control, target }
            }
            "u1" => Action::U1(self.angle()?, self.qubit()?),
            "cu1" => self.cu1()?,
            "measure" => self.measure()?,
            "reset" => Action::Reset(self.qubit()?),
            _ => return Err(format!("{name} is no operation that is read here")),
        };
        self.due(Token::Sign(";"))?;
        self.program
            .operations
            .push(Operation { condition, action });
        Ok(())
    }

    /// Reads the angle and the two qubits of a cu1.
    fn cu1(&mut self) -> Result<Action, String> {
        let angle = self.angle()?;
        let [control, target] = self.two_qubits("cu1")?;
        Ok(Action::Cu1 {
            angle,
            control,
            target,
        })
    }

    /// Reads the two qubits of a gate with a name.
    fn two_qubits(&mut self, name: &str) -> Result<[Qubit; 2], String> {
        let control = self.qubit()?;
        self.due(Token::Sign(","))?;
        let target = self.qubit()?;
        match control == target {
            true => Err(format!("both qubits of a {name} are the same")),
            false => Ok([control, target]),
        }
    }

    /// Reads an angle in parentheses.
    fn angle(&mut self) -> Result<Angle, String> {
        self.due(Token::Sign("("))?;
        let mut value = self.factor()?;
        loop {
            let next = match self.tokens.take()? {
                Token::Sign("*") => value.times(self.factor()?),
                Token::Sign("/") => value.over(self.factor()?),
                Token::Sign(")") => return value.angle().ok_or("an angle has one pi".into()),
                other => return Err(format!(") is due, not {other}")),
            };
            value = next.ok_or("an angle is out of range")?;
        }
    }

    /// Reads a whole number or pi, with signs before it.
    fn factor(&mut self) -> Result<Value, String> {
        match self.tokens.take()? {
            Token::Sign("-") => self.factor().map(Value::negative),
            Token::Integer(number) => Ok(Value::whole(number)),
            Token::Word("pi") => Ok(Value::PI),
            other => Err(format!("an angle is due, not {other}")),
        }
    }

    /// Reads the qubit and the bit of a measure.
    fn measure(&mut self) -> Result<Action, String> {
        let qubit = self.qubit()?;
        self.due(Token::Sign("->"))?;
        let bit = Bit(self.element(Kind::Classical)?);
        Ok(Action::Measure(qubit, bit))
    }

    /// Reads an element of a quantum register.
    fn qubit(&mut self) -> Result<Qubit, String> {
        self.element(Kind::Quantum).map(Qubit)
    }

    /// Reads an element of a register and gives its number in the whole program.
    fn element(&mut self, kind: Kind) -> Result<u64, String> {
        let number = self.register(kind)?;
        let register = self.program.registers[number];
        let index = self.bracketed()?;
        match index < register.size {
            true => Ok(register.first + index),
            false => Err(format!("{}[{index}] is out of range", register.name)),
        }
    }

    /// Reads the name of a register of a kind.
    fn register(&mut self, kind: Kind) -> Result<usize, String> {
        let name = self.word()?;
        let Some(&number) = self.numbers.get(name) else {
            return Err(format!("{name} is not declared"));
        };
        match (kind, self.program.registers[number].kind == kind) {
            (_, true) => Ok(number),
            (Kind::Quantum, _) => Err(format!("{name} has no qubits")),
            (Kind::Classical, _) => Err(format!("{name} has no bits")),
        }
    }

    /// Reads a number in brackets.
    fn bracketed(&mut self) -> Result<u64, String> {
        self.due(Token::Sign("["))?;
        let number = self.integer()?;
        self.due(Token::Sign("]"))?;
        Ok(number)
    }

    /// Reads a number.
    fn integer(&mut self) -> Result<u64, String> {
        match self.tokens.take()? {
            Token::Integer(number) => Ok(number),
            other => Err(format!("a number is due, not {other}")),
        }
    }

    /// Reads a word.
    fn word(&mut self) -> Result<&'t str, String> {
        match self.tokens.take()? {
            Token::Word(word) => Ok(word),
            other => Err(format!("a name is due, not {other}")),
        }
    }

    /// Reads the one token that may stand here.
    fn due(&mut self, token: Token) -> Result<(), String> {
        match self.tokens.take()? {
            taken if taken == token => Ok(()),
            other => Err(format!("{token} is due, not {other}")),
        }
    }
}
