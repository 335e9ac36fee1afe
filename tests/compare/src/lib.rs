//! Compares the library's static archives with the reference.
//!
//! Where there is no archive, or it lacks a call, the tests that compare are
//! ignored, and only the reference is held to the recorded answers.

pub mod ask;
pub mod harness;
pub mod header;
pub mod library;
pub mod openqasm;
pub mod promises;
pub mod recorded;
pub mod showing;
pub mod slow;

pub use ask::{ask, Answer, Call, Question, Who};
pub use harness::{compare, Tally};
pub use promises::promises;
