//! Why an index or a size is not shown to be within its range.

use super::below::below_zero;
use super::locate::Found;
use crate::field::{tags, Field};
use crate::form::Form;
use crate::scope::{own_variables, parameter_name, parameter_types};
use crate::scope::{two_bytes, variable_name, Scope};

/// Which showing failed, and for what index.
pub fn not_shown(found: &Found) -> Option<String> {
    let (field, scope) = (found.field(), &found.scope);
    let around = found.around()?;
    match (field.tag?, around.tag?) {
        (tags::ELEMENT, _) => element(field, scope),
        (tags::QBITS, tags::FAMILY) => {
            let name = parameter_name(around, found.part_number()?);
            let of = format!("of parameter '{name}'");
            natural("size", &field.parts[0], &of, scope)
        }
        (tags::QBITS, tags::FAMILY_TYPE) => {
            let of = format!("in the type of parameter '{}'", found.parameter_around()?);
            natural("size", &field.parts[0], &of, scope)
        }
        (tags::PASSED, _) => passed(found, around),
        (tags::WHOLE, tag) if tags::is_call(tag) => argument(found, around),
        (tags::SLICE, tag) if tags::is_call(tag) => {
            slice(field, scope).or_else(|| argument(found, around))
        }
        (_, tag) if tags::is_call(tag) => {
            let variable = variable_name(scope.called(around)?, found.part_number()?);
            let of = format!("for '{variable}' of '{}'", scope.called_name(around));
            natural("size", field, &of, scope)
        }
        (_, tags::PHASE | tags::CPHASE) => natural("k", field, "of this phase", scope),
        _ => None,
    }
}

/// An element's two showings: the index is 0 or more, and below the size.
fn element(field: &Field, scope: &Scope) -> Option<String> {
    let variables = scope.variables();
    let index = Form::of(&field.parts[0], variables)?;
    let (text, operand) = (scope.index(&field.parts[0]), scope.operand(field));
    if let Some(reason) = below_zero(&index, scope) {
        return Some(format!(
            "{operand}: the index {text} is not shown to be 0 or more: it {reason}"
        ));
    }
    let (size, size_text) = size_of(usize::from(field.head[0]), scope)?;
    let rest = size
        .plus(-1, &Form::constant(1, variables))
        .plus(-1, &index);
    let reason = below_zero(&rest, scope)?;
    Some(format!(
        "{operand}: the index {text} is 0 or more, but is not shown to be below the size \
         {size_text}: size - 1 - index {reason}"
    ))
}

/// A slice's own showings: where it starts, where it ends, and how many cells it has.
fn slice(field: &Field, scope: &Scope) -> Option<String> {
    let [first_field, last_field] = &field.parts[..] else {
        return None;
    };
    let (variables, operand) = (scope.variables(), scope.operand(field));
    let first = Form::of(first_field, variables)?;
    let last = Form::of(last_field, variables)?;
    if let Some(reason) = below_zero(&first, scope) {
        let text = scope.index(first_field);
        return Some(format!(
            "{operand}: the first index {text} is not shown to be 0 or more: it {reason}"
        ));
    }
    let (size, size_text) = size_of(usize::from(field.head[0]), scope)?;
    let one = Form::constant(1, variables);
    if let Some(reason) = below_zero(&size.plus(-1, &one).plus(-1, &last), scope) {
        let text = scope.index(last_field);
        return Some(format!(
            "{operand}: the last index {text}, which is in the slice, is not shown to be below \
             the size {size_text}: size - 1 - last {reason}"
        ));
    }
    let reason = below_zero(&last.plus(-1, &first).plus(1, &one), scope)?;
    Some(format!(
        "{operand}: its number of cells is not shown to be 0 or more: last - first + 1 {reason}"
    ))
}

/// A size or a k, which must be 0 or more.
fn natural(what: &str, index: &Field, of: &str, scope: &Scope) -> Option<String> {
    let reason = below_zero(&Form::of(index, scope.variables())?, scope)?;
    let text = scope.index(index);
    Some(format!(
        "the {what} {text} {of} is not shown to be 0 or more: it {reason}"
    ))
}

/// A register or slice handed to a parameter that asks for more cells.
fn argument(found: &Found, call: &Field) -> Option<String> {
    let scope = &found.scope;
    let called = scope.called(call)?;
    let sizes = call.parts.get(..own_variables(called))?;
    let field = found.field();
    let parameter = found.part_number()?.checked_sub(sizes.len())?;
    let asked = Form::of(called.parts.get(parameter)?.parts.first()?, sizes.len())?;
    let mut due = Form::constant(asked.constant, scope.variables());
    for (factor, size) in asked.factors.iter().zip(sizes) {
        due = due.plus(*factor, &Form::of(size, scope.variables())?);
    }
    let (has, has_text) = cells(field, scope)?;
    let reason = below_zero(&has.plus(-1, &due), scope)?;
    let name = scope.called_name(call);
    let taker = match called.tag? {
        tags::FAMILY => format!("'{}' of '{name}'", parameter_name(called, parameter)),
        _ => format!("'{name}'"),
    };
    Some(format!(
        "'{}' has {has_text} cells, and {taker} takes {} here: \
         the one less the other {reason}",
        scope.operand(field),
        due.text(|variable| scope.variable(variable)),
    ))
}

/// A family passed to a parameter that calls it with fewer cells than it takes.
fn passed(found: &Found, call: &Field) -> Option<String> {
    let (field, scope) = (found.field(), &found.scope);
    let called = scope.called(call)?;
    let parameter = found.part_number()?.checked_sub(own_variables(called))?;
    let formal = called.parts.get(parameter)?;
    let own = Scope::of_type(formal);
    let actual = scope.families.get(usize::from(two_bytes(field)))?;
    let types = parameter_types(formal).iter().zip(parameter_types(actual));
    types.enumerate().find_map(|(number, (given, taken))| {
        let given = Form::of(given.parts.first()?, own.variables())?;
        let taken = Form::of(taken.parts.first()?, own.variables())?;
        let reason = below_zero(&given.plus(-1, &taken), &own)?;
        Some(format!(
            "'{}' of '{}' gives {} cells for '{}' of '{}', which takes {}: \
             the one less the other {reason}",
            parameter_name(called, parameter),
            scope.called_name(call),
            given.text(|variable| own.variable(variable)),
            parameter_name(actual, number),
            scope.operand(field),
            taken.text(|variable| own.variable(variable)),
        ))
    })
}

/// How many cells a register or slice has, as a form and as text.
fn cells(operand: &Field, scope: &Scope) -> Option<(Form, String)> {
    let [first, last] = &operand.parts[..] else {
        return size_of(usize::from(operand.head[0]), scope);
    };
    let variables = scope.variables();
    let count = Form::of(last, variables)?
        .plus(-1, &Form::of(first, variables)?)
        .plus(1, &Form::constant(1, variables));
    let text = count.text(|variable| scope.variable(variable));
    Some((count, text))
}

/// The size of a register or parameter as a form and as text.
fn size_of(number: usize, scope: &Scope) -> Option<(Form, String)> {
    let variables = scope.variables();
    match scope.inside {
        Some(family) => {
            let index = family.parts.get(number)?.parts.first()?;
            Some((Form::of(index, variables)?, scope.index(index)))
        }
        None => {
            let size = two_bytes(scope.registers.get(number)?);
            Some((Form::constant(i64::from(size), variables), size.to_string()))
        }
    }
}
