//! What a person must mend: details beside the plain sentence of a number.

mod below;
mod kinds;
mod locate;
mod same_wire;
mod shape;
mod showing;

pub use locate::locate;

use crate::field::Field;
use crate::print::join;
use crate::scope::{parameter_name, parameter_types, variable_name};
use crate::tool::{family_field, size_example, size_names, Loaded, Options};
use reference::{Outcome, RECORD_BYTES};

/// The most bytes that a program may have.
const MOST_BYTES: usize = 65_535;

/// What to mend for a result, where more can be said than its sentence.
pub fn explain(program: &Loaded, options: &Options, outcome: &Outcome) -> Option<String> {
    let place = usize::try_from(outcome.place).ok()?;
    match outcome.number {
        1 => Some(too_long(program)),
        20 => Some(format!(
            "family numbers start at 0{}",
            program.known_families()
        )),
        21 => sizes_due(program, options),
        22 => size_too_large(program, options),
        23 => Some("this parameter goes past the limit: choose smaller sizes".to_string()),
        26 => Some(format!(
            "the limit is {}: allow more steps with --limit",
            options.limit
        )),
        27 => Some(format!(
            "the output has {} bytes, and a record takes {RECORD_BYTES}: allow more with --output",
            options.output
        )),
        34 => takes_family(program, options),
        3 => match locate(&program.fields, place) {
            Some(found) => shape::misplaced(&found),
            None => shape::tag_alone(program.bytes.get(place)),
        },
        9 => kinds::wrong_kind(&locate(&program.fields, place)?),
        12 => showing::not_shown(&locate(&program.fields, place)?),
        35 => same_wire::named_twice(program, &locate(&program.fields, place)?, place),
        number => shape::misshapen(&locate(&program.fields, place)?, number),
    }
}

/// How long a program is, and where it goes past the limit.
fn too_long(program: &Loaded) -> String {
    let mut end = 0;
    for field in &program.fields {
        let start = end;
        end += field.length();
        if end > MOST_BYTES {
            let length = program.bytes.len();
            let spot = program.spots.of(start).unwrap_or_default();
            return format!(
                "it has {length} bytes, and what stands at {}:{} goes past the limit: shorten it \
                 by loops and families, or split it",
                spot.line, spot.column
            );
        }
    }
    "reading stopped there".to_string()
}

/// How many sizes are due and how many are given.
fn sizes_due(program: &Loaded, options: &Options) -> Option<String> {
    let number = program.family(options).ok()??;
    let due = size_names(family_field(&program.fields, number)?);
    let name = program.families.get(usize::try_from(number).ok()?)?;
    let given = match options.sizes.len() {
        0 => "none is given".to_string(),
        1 => "1 is given".to_string(),
        count => format!("{count} are given"),
    };
    Some(match due.len() {
        0 => format!("family '{name}' takes no sizes, and {given}: leave out --sizes"),
        count => {
            let sizes = if count == 1 { "size" } else { "sizes" };
            let names = due.join(", ");
            let example = size_example(&due);
            format!("family '{name}' takes {count} {sizes} ({names}), and {given}: write {example}")
        }
    })
}

/// Which parameter of a family that is to be listed takes a family.
fn takes_family(program: &Loaded, options: &Options) -> Option<String> {
    let number = program.family(options).ok()??;
    let family = family_field(&program.fields, number)?;
    let name = program.families.get(usize::try_from(number).ok()?)?;
    let mut types = parameter_types(family).iter();
    let parameter = types.position(Field::is_family_type)?;
    Some(format!(
        "'{}' of '{name}' takes a family, and only a call can pass one: \
         list a family that calls '{name}', or the whole program",
        parameter_name(family, parameter)
    ))
}

/// Which sizes are too large.
fn size_too_large(program: &Loaded, options: &Options) -> Option<String> {
    let number = program.family(options).ok()??;
    let family = family_field(&program.fields, number)?;
    let named = |number: usize| variable_name(family, number);
    let large = options.sizes.iter().enumerate();
    let large = large.filter(|(_, (_, size))| *size > 65_535);
    let list = join(large, |(number, (name, size))| {
        let name = name.clone().unwrap_or_else(|| named(number));
        format!("{name} is {size}")
    });
    Some(format!("{list}: choose smaller sizes"))
}
