//! Where a gate names one wire twice, and by which spellings.

use super::locate::Found;
use crate::field::Field;
use crate::form::Form;
use crate::scope::Scope;
use crate::tool::Loaded;

/// Which wire the gate at a place names twice, and where its operands stand.
pub fn named_twice(program: &Loaded, found: &Found, place: usize) -> Option<String> {
    let (gate, scope) = (found.field(), &found.scope);
    let mut start = place + 3 + gate.head.len();
    let mut operands = Vec::new();
    for part in &gate.parts {
        operands.push((part, program.standing(start)));
        start += part.length();
    }
    let [.., (first, first_at), (second, second_at)] = &operands[..] else {
        return None;
    };
    let (name, other) = (scope.operand(first), scope.operand(second));
    let twice = match name == other {
        true => format!("{name} is named at {first_at} and at {second_at}"),
        false => format!(
            "{name} at {first_at} and {other} at {second_at} are the same wire, \
             as both indexes are {}",
            common_index(first, scope)?
        ),
    };
    Some(format!(
        "{twice}: a gate on two wires needs two different ones"
    ))
}

/// The form of an element's index as text, which another spelling shares.
fn common_index(element: &Field, scope: &Scope) -> Option<String> {
    let form = Form::of(element.parts.first()?, scope.variables())?;
    Some(form.text(|variable| scope.variable(variable)))
}

impl Loaded {
    /// Where the field at an offset stands: its line and column, or its byte where there is no text.
    fn standing(&self, place: usize) -> String {
        match self.spots.of(place) {
            Some(spot) => format!("{}:{}", spot.line, spot.column),
            None => format!("byte {place}"),
        }
    }
}
