//! Names in the order in which they are given, each found quickly by its text,
//! and long ones cut short for people.

use std::collections::HashMap;

/// Names that differ from each other, numbered from 0.
#[derive(Clone, Debug, Default)]
pub struct Names {
    order: Vec<String>,
    numbers: HashMap<String, usize>,
}

impl Names {
    /// How many names there are.
    pub fn len(&self) -> usize {
        self.order.len()
    }

    /// The number of a name.
    pub fn number(&self, name: &str) -> Option<usize> {
        self.numbers.get(name).copied()
    }

    /// Adds a name that is not there yet.
    pub fn add(&mut self, name: String) {
        self.numbers.insert(name.clone(), self.order.len());
        self.order.push(name);
    }

    /// Takes the last name away.
    pub fn pop(&mut self) {
        if let Some(name) = self.order.pop() {
            self.numbers.remove(&name);
        }
    }

    /// The names by number.
    pub fn list(&self) -> &[String] {
        &self.order
    }
}

/// A text for a message or a drawing, cut where it is longer than so many characters.
pub fn clipped(text: &str, most: usize) -> String {
    match text.char_indices().nth(most) {
        None => text.to_string(),
        Some(_) => text.chars().take(most - 1).chain(['…']).collect(),
    }
}
