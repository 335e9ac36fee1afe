//! The sizes of an instance, given in order or by name.

use super::{unreadable, Answer, Loaded, Options};
use crate::field::Field;
use crate::print::join;
use crate::scope::{own_variables, variable_name, Scope};

/// Sizes as bytes, four for each, low byte first.
pub fn size_bytes(sizes: &[u32]) -> Vec<u8> {
    sizes.iter().flat_map(|size| size.to_le_bytes()).collect()
}

/// The family of a number among a program's fields.
pub fn family_field(fields: &[Field], number: u32) -> Option<&Field> {
    let mut scope = Scope::default();
    fields.iter().for_each(|field| scope.declare(field));
    let number = usize::try_from(number).ok()?;
    scope.families.get(number).copied()
}

/// The names of a family's sizes.
pub fn size_names(family: &Field) -> Vec<String> {
    let numbers = 0..own_variables(family);
    numbers
        .map(|number| variable_name(family, number))
        .collect()
}

/// The sizes in the order of the family's index variables.
pub fn in_order(options: &Options, program: &Loaded, number: u32) -> Answer<Vec<u32>> {
    let given = &options.sizes;
    if given.iter().all(|(name, _)| name.is_none()) {
        return Ok(given.iter().map(|(_, size)| *size).collect());
    }
    if given.iter().any(|(name, _)| name.is_none()) {
        return unreadable("give all sizes by name, or all in order");
    }
    let Some(family) = family_field(&program.fields, number) else {
        return Ok(Vec::new());
    };
    by_name(options, &size_names(family))
}

/// The sizes that are all given by name.
fn by_name(options: &Options, due: &[String]) -> Answer<Vec<u32>> {
    let family = options.family.as_deref().unwrap_or_default();
    let names = || options.sizes.iter().filter_map(|(name, _)| name.as_ref());
    for name in names() {
        if !due.contains(name) {
            return unreadable(format!(
                "family '{family}' has no size '{name}'{}",
                known(due)
            ));
        }
        if names().filter(|other| *other == name).count() > 1 {
            return unreadable(format!("the size '{name}' is given twice"));
        }
    }
    let mut ordered = Vec::new();
    for name in due {
        let found = options
            .sizes
            .iter()
            .find(|(given, _)| given.as_ref() == Some(name));
        let Some((_, size)) = found else {
            let message = format!("the size '{name}' of family '{family}' is missing");
            return unreadable(format!("{message}: write {}", example(due)));
        };
        ordered.push(*size);
    }
    Ok(ordered)
}

/// The sizes that there are, for a message.
fn known(due: &[String]) -> String {
    match due.is_empty() {
        true => "; it takes none".to_string(),
        false => format!("; it takes {}", due.join(", ")),
    }
}

/// How the sizes may be given, as `--sizes n=3,m=3`.
pub fn example(due: &[String]) -> String {
    let sizes = join(due, |name| format!("{name}=3"));
    format!("--sizes {}", sizes.replace(", ", ","))
}
