//! What is out of place, missing, left over, too many or not in scope.

use super::locate::Found;
use crate::field::{tags, Field};
use crate::operations::MOST_K;
use crate::scope::{called_number, counted, own_variables, parameter_count, two_bytes, Scope};
use crate::tool::size_names;

/// The most families that a program may declare.
const MOST_FAMILIES: usize = 4096;

/// What to mend where more can be said than the number's sentence.
pub fn misshapen(found: &Found, number: u32) -> Option<String> {
    let (field, scope) = (found.field(), &found.scope);
    match number {
        4 if field.is_call() => call(field, scope),
        6 => too_many(field, scope),
        7 => Some(too_large(field, scope)),
        8 => out_of_scope(field, scope),
        11 if tags::is_index(field.tag?) => Some(format!("it is built by {}", scope.index(field))),
        11 if tags::is_operand(field.tag?) => {
            Some(format!("it is built for {}", scope.operand(field)))
        }
        10 => Some(format!(
            "{}: one side of a product must be a number",
            scope.index(field)
        )),
        13 => Some(format!("the value is {}: write 0 or 1", field.head[0])),
        25 => one_wire(field, scope),
        31 if field.is_call() => Some(low_number(field, scope)),
        32 => Some(format!(
            "k is {} here, and in this run it is above {MOST_K}: choose smaller sizes, \
             or leave out turns that are so small",
            scope.index(field.parts.first()?)
        )),
        33 => passed_too_late(found),
        _ => None,
    }
}

/// Which two operands stand for one wire.
fn one_wire(field: &Field, scope: &Scope) -> Option<String> {
    let mut names = field.operands().map(|part| scope.operand(part));
    let (first, second) = (names.next()?, names.next()?);
    Some(format!(
        "{first} and {second} stand for the same wire in this run"
    ))
}

/// What can be said of a tag in bytes that do not read as fields.
pub fn tag_alone(tag: Option<&u8>) -> Option<String> {
    let word = tags::word(*tag?)?;
    tags::at_top_only(*tag?).then(|| format!("'{word}' stands at the top of a program only"))
}

/// A field that cannot stand where it is.
pub fn misplaced(found: &Found) -> Option<String> {
    let around = found.around()?;
    let tag = found.field().tag?;
    if around.is_call() {
        return call(around, &found.scope);
    }
    let outer = match around.tag? {
        tags::FAMILY => "a family or gate",
        tags::IF => "an 'if'",
        tags::FOR => "a 'for'",
        _ => "a 'reverse'",
    };
    let alone = tag_alone(Some(&tag))?;
    Some(format!("{alone}, and cannot stand in {outer}: move it out"))
}

/// What a call takes and what it has.
fn call(field: &Field, scope: &Scope) -> Option<String> {
    let called = scope.called(field)?;
    let name = scope.called_name(field);
    let (sizes, operands) = (own_variables(called), parameter_count(called));
    let is_index = |part: &&Field| part.tag.is_some_and(tags::is_index);
    let given_sizes = field.parts.iter().filter(is_index).count();
    let given_operands = field.parts.len() - given_sizes;
    if given_sizes == 0 && sizes > 0 {
        let due = counted(sizes, "size");
        let names = size_names(called).join(", ");
        return Some(format!(
            "this call lacks its sizes: '{name}' takes {due}, as {name}({names})(..)"
        ));
    }
    Some(format!(
        "'{name}' takes {} and {}, and this call has {} and {}",
        counted(sizes, "size"),
        counted(operands, "operand"),
        counted(given_sizes, "size"),
        counted(given_operands, "operand"),
    ))
}

/// How a family is called that one byte can name.
fn low_number(field: &Field, scope: &Scope) -> String {
    let number = called_number(field);
    let name = scope.family(number);
    format!(
        "the two bytes say {number}, and families 0 to 255 are called by one byte: \
         write {name}(..), which is tag 36"
    )
}

/// Which family is passed to one that is not declared after it.
fn passed_too_late(found: &Found) -> Option<String> {
    let (field, call) = (found.field(), found.around()?);
    let (passed, called) = (found.scope.operand(field), found.scope.called_name(call));
    Some(match usize::from(two_bytes(field)) == called_number(call) {
        true => format!("'{passed}' cannot be passed to itself"),
        false => format!("'{passed}' is declared after '{called}': declare it before '{called}'"),
    })
}

/// Which count is past its limit.
fn too_many(field: &Field, scope: &Scope) -> Option<String> {
    Some(match field.tag? {
        tags::QREG | tags::CREG => "255 registers are declared before this one".to_string(),
        tags::FOR => "8 loops are open around this one, and that is the most".to_string(),
        tags::FAMILY | tags::FAMILY_TYPE if own_variables(field) > 4 => {
            let count = own_variables(field);
            format!("{count} index variables are declared, and 4 are the most")
        }
        tags::FAMILY | tags::FAMILY_TYPE if parameter_count(field) == 0 => {
            "a family needs a parameter".to_string()
        }
        tags::FAMILY | tags::FAMILY_TYPE if parameter_count(field) > 8 => {
            let count = parameter_count(field);
            format!("{count} parameters are declared, and 8 are the most")
        }
        tags::FAMILY => format!(
            "{} families are declared before this one, and {MOST_FAMILIES} are the most",
            scope.families.len()
        ),
        _ => return None,
    })
}

/// How many qubits or bits there are with a register.
fn too_large(field: &Field, scope: &Scope) -> String {
    let alike = scope
        .registers
        .iter()
        .filter(|other| other.tag == field.tag);
    let before: u64 = alike.map(|other| u64::from(two_bytes(other))).sum();
    let all = before + u64::from(two_bytes(field));
    format!("with this register there are {all}")
}

/// How many there are of what is named.
fn out_of_scope(field: &Field, scope: &Scope) -> Option<String> {
    let (what, count) = match field.tag? {
        tags::CALL | tags::LONG_CALL | tags::PASSED => ("family", scope.families.len()),
        tags::VARIABLE => ("index variable", scope.variables()),
        tags::WHOLE | tags::ELEMENT | tags::SLICE | tags::PARAMETER_CALL => match scope.inside {
            Some(family) => ("parameter", parameter_count(family)),
            None => ("register", scope.registers.len()),
        },
        _ => return None,
    };
    let number = match field.tag? {
        tags::LONG_CALL | tags::PASSED => usize::from(two_bytes(field)),
        _ => usize::from(field.head[0]),
    };
    Some(match (count, counted(count, what)) {
        (0, none) => format!("#{number} is asked for, and there is {none} here"),
        (1, one) => format!("#{number} is asked for, and there is {one} here, number 0"),
        (_, many) => format!("#{number} is asked for, and there are {many} here, from number 0 on"),
    })
}
