//! Programs made from a seed: well-typed ones, damaged ones and limit cases; and showings.

pub mod build;
pub mod case;
pub mod damage;
pub mod forms;
pub mod histogram;
pub mod libraries;
pub mod library;
pub mod linear;
pub mod random;
pub mod read;
pub mod shapes;
pub mod spelling;
pub mod targeted;
pub mod texts;
pub mod typed;

pub use case::{case, Case};
