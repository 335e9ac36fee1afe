//! How a form can come to lie below 0, and whether a loop around it rules that out.

use crate::field::Field;
use crate::form::Form;
use crate::print::join;
use crate::scope::{own_variables, Scope};

/// A form with each loop variable at the bound where the form is least.
struct Least {
    form: Form,
    /// The variables that were replaced, each with its bound.
    bounds: Vec<String>,
}

/// What the range of one loop does for a form.
#[derive(PartialEq)]
enum Trial {
    Shows,
    LeavesOpen,
    /// A number leaves the range of forms.
    OutOfRange,
}

/// How a form can come to lie below 0; none if it is shown to be 0 or more.
pub fn below_zero(form: &Form, scope: &Scope) -> Option<String> {
    let least = Least::of(form, scope)?;
    if least.form.is_natural() {
        return None;
    }
    let loops = scope.loops.iter();
    let trials: Vec<Trial> = loops.map(|open| tried(open, form, scope)).collect();
    match trials.contains(&Trial::Shows) {
        true => None,
        false => Some(least.reason(scope) + &left_open(&trials, scope)),
    }
}

impl Least {
    /// Replaces the loop variables from the innermost out, unless a number leaves the range.
    fn of(form: &Form, scope: &Scope) -> Option<Least> {
        let own = scope.inside.map_or(0, own_variables);
        let mut form = form.clone();
        let mut bounds = Vec::new();
        for (depth, open) in scope.loops.iter().enumerate().rev() {
            let factor = std::mem::take(form.factors.get_mut(own + depth)?);
            if factor == 0 {
                continue;
            }
            let (side, bound) = match factor > 0 {
                true => ("low", &open.parts[0]),
                false => ("high", &open.parts[1]),
            };
            form = form.plus_in_range(factor, &Form::of(bound, scope.variables())?)?;
            let name = scope.variable(own + depth);
            bounds.push(format!("{name} at its {side} bound {}", scope.index(bound)));
        }
        Some(Least { form, bounds })
    }

    /// What the form comes to, and where that lies below 0.
    fn reason(&self, scope: &Scope) -> String {
        let Least { form, bounds } = self;
        let text = form.text(|variable| scope.variable(variable));
        let used = |number: &usize| form.factors[*number] != 0;
        let names = join((0..form.factors.len()).filter(used), |number| {
            format!("{} = 0", scope.variable(number))
        });
        let with = match bounds.is_empty() {
            true => String::new(),
            false => format!(" with {}", bounds.join(" and ")),
        };
        match form.factors.iter().position(|factor| *factor < 0) {
            Some(number) => {
                let name = scope.variable(number);
                format!("comes to {text}{with}, which falls below 0 as {name} grows")
            }
            None if names.is_empty() => format!("comes to {text}{with}"),
            None => format!(
                "comes to {text}{with}, which is {} at {names}",
                form.constant
            ),
        }
    }
}

/// Tries to show a form by one loop: its body runs only where high - low is 0 or more.
fn tried(open: &Field, form: &Form, scope: &Scope) -> Trial {
    let bound = |number: usize| Form::of(open.parts.get(number)?, scope.variables());
    let rest = || {
        let range = bound(1)?.plus_in_range(-1, &bound(0)?)?;
        Least::of(&form.plus_in_range(-1, &range)?, scope)
    };
    match rest() {
        Some(least) if least.form.is_natural() => Trial::Shows,
        Some(_) => Trial::LeavesOpen,
        None => Trial::OutOfRange,
    }
}

/// That no loop around a form shows it either, by the trials from the outermost loop in.
fn left_open(trials: &[Trial], scope: &Scope) -> String {
    let own = scope.inside.map_or(0, own_variables);
    let mut text = match &scope.loops[..] {
        [] => return String::new(),
        [open] => format!(
            ", and that the loop over {} runs only where {} <= {} does not make up for it",
            scope.variable(own),
            scope.index(&open.parts[0]),
            scope.index(&open.parts[1]),
        ),
        _ => ", and no single loop around it makes up for it by running only where low <= high"
            .to_string(),
    };
    let out = |depth: &usize| trials[*depth] == Trial::OutOfRange;
    let names = join((0..trials.len()).filter(out), |depth| {
        scope.variable(own + depth)
    });
    if !names.is_empty() {
        text += &format!(" (for {names}, a number on the way is past 2,000,000,000)");
    }
    text
}
