//! What kind of operand is due, and what kind is there.

use super::locate::Found;
use crate::field::{tags, Field};
use crate::scope::{called_number, family_type, own_variables, parameter_types, two_bytes, Scope};

/// What an operand's name stands for.
#[derive(Clone, Copy, PartialEq)]
enum Kind {
    Qubit,
    Qubits,
    Bits,
    Family,
}

/// What is due where an operand stands.
#[derive(Clone, Copy)]
enum Due<'a> {
    Qubit,
    Qubits,
    Bit,
    /// A family that agrees with a type.
    Family(&'a Field),
}

/// How an operand is written.
#[derive(Clone, Copy, PartialEq)]
enum Shape {
    Whole,
    Element,
    Slice,
}

/// What is due at an operand of the wrong kind, and what is there.
pub fn wrong_kind(found: &Found) -> Option<String> {
    let (field, scope) = (found.field(), &found.scope);
    if field.is_call() {
        return not_callable(field, scope);
    }
    let (taker, due) = due(found)?;
    let takes = match due {
        Due::Qubit => "one qubit".to_string(),
        Due::Qubits => "a register of qubits".to_string(),
        Due::Bit => "one bit of a creg".to_string(),
        Due::Family(due) => family_type(due),
    };
    let is = match field.tag? {
        tags::PASSED => passed(due, field, scope)?,
        _ => {
            let kind = kind(usize::from(field.head[0]), scope)?;
            let mend = mend(due, kind, field, scope).unwrap_or_default();
            there(kind, shape(field)?).to_string() + &mend
        }
    };
    let operand = scope.operand(field);
    Some(format!("{taker} takes {takes} here, and {operand} {is}"))
}

/// What is there where a call names an operand that does not take a family.
fn not_callable(call: &Field, scope: &Scope) -> Option<String> {
    let number = called_number(call);
    Some(format!(
        "this call takes a parameter of a family type, and {} {}",
        scope.operand_name(number),
        there(kind(number, scope)?, Shape::Whole)
    ))
}

/// What a family is that is passed where another kind is due, or another type.
fn passed(due: Due, operand: &Field, scope: &Scope) -> Option<String> {
    let Due::Family(_) = due else {
        return Some("is a family".to_string());
    };
    let family = scope.families.get(usize::from(two_bytes(operand)))?;
    let mut types = parameter_types(family).iter();
    let why = match types.any(Field::is_family_type) {
        true => ", which takes a family itself and so cannot be passed",
        false => ": sizes, operands and their kinds must agree",
    };
    Some(format!("is {}{why}", family_type(family)))
}

/// How an operand is written, by its tag.
fn shape(operand: &Field) -> Option<Shape> {
    match operand.tag? {
        tags::WHOLE => Some(Shape::Whole),
        tags::ELEMENT => Some(Shape::Element),
        tags::SLICE => Some(Shape::Slice),
        _ => None,
    }
}

/// What an operand is.
fn there(kind: Kind, shape: Shape) -> &'static str {
    match (kind, shape) {
        (Kind::Qubit, Shape::Whole) => "is one qubit",
        (Kind::Qubit, Shape::Element) => "is an element of what is one qubit",
        (Kind::Qubit, Shape::Slice) => "is a slice of what is one qubit",
        (Kind::Qubits, Shape::Whole) => "is a whole register of qubits",
        (Kind::Qubits, Shape::Element) => "is one qubit",
        (Kind::Qubits, Shape::Slice) => "is a slice of a register of qubits",
        (Kind::Bits, Shape::Whole) => "is a whole register of bits",
        (Kind::Bits, Shape::Element) => "is a bit",
        (Kind::Bits, Shape::Slice) => "is a slice of a register of bits",
        (Kind::Family, Shape::Whole) => "is a family parameter",
        (Kind::Family, Shape::Element) => "is an element of a family parameter",
        (Kind::Family, Shape::Slice) => "is a slice of a family parameter",
    }
}

/// What to write instead, where the name is one that can stand there.
fn mend(due: Due, kind: Kind, operand: &Field, scope: &Scope) -> Option<String> {
    let name = scope.operand_name(usize::from(operand.head[0]));
    match (due, kind, &operand.parts[..]) {
        (Due::Family(_), Kind::Family, _) => {
            Some(": it can be called and not passed on, so name a declared family".to_string())
        }
        (Due::Qubit, Kind::Qubit, [_, ..]) => Some(format!(": write {name}")),
        (Due::Qubits, Kind::Qubits, [index]) => {
            let index = scope.index(index);
            Some(format!(
                ": write {name}, or the slice {name}[{index}..{index}]"
            ))
        }
        (Due::Qubit, Kind::Qubits, parts) | (Due::Bit, Kind::Bits, parts) => {
            let index = parts
                .first()
                .map_or("0".to_string(), |one| scope.index(one));
            Some(format!(": write {name}[{index}], or another element"))
        }
        _ => None,
    }
}

/// What a name stands for.
fn kind(number: usize, scope: &Scope) -> Option<Kind> {
    let declared = match scope.inside {
        Some(family) => parameter_types(family).get(number)?,
        None => scope.registers.get(number)?,
    };
    match declared.tag? {
        tags::QBIT => Some(Kind::Qubit),
        tags::QBITS | tags::QREG => Some(Kind::Qubits),
        tags::CREG => Some(Kind::Bits),
        tags::FAMILY_TYPE => Some(Kind::Family),
        _ => None,
    }
}

/// Which statement takes the operand, and what it takes there.
fn due<'a>(found: &Found<'a>) -> Option<(String, Due<'a>)> {
    let around = found.around()?;
    let word = tags::word(around.tag?)?;
    let due = match (around.tag?, found.part_number()?) {
        (tags::IF, _) | (tags::MEASURE, 1) => Due::Bit,
        (tag, number) if tags::is_call(tag) => return argument_due(around, number, &found.scope),
        _ => Due::Qubit,
    };
    Some((word.to_string(), due))
}

/// What a call's family or parameter takes for one of its operands.
fn argument_due<'a>(call: &Field, part: usize, scope: &Scope<'a>) -> Option<(String, Due<'a>)> {
    let called = scope.called(call)?;
    let parameter = part.checked_sub(own_variables(called))?;
    let type_field = called.parts.get(parameter)?;
    let due = match type_field.tag? {
        tags::QBIT => Due::Qubit,
        tags::FAMILY_TYPE => Due::Family(type_field),
        _ => Due::Qubits,
    };
    Some((format!("'{}'", scope.called_name(call)), due))
}
