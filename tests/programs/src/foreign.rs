//! Texts of another language, told apart by their first word.

use crate::token::{first_name, Spot, TextError};

/// Turns down a text that says it is OpenQASM.
pub fn refuse(text: &str) -> Result<(), TextError> {
    match first_name(text) {
        Some((name, spot)) if name == "OPENQASM" => Err(openqasm(&version(text), spot)),
        Some((name, spot)) if name == "include" => Err(openqasm("2.0", spot)),
        _ => Ok(()),
    }
}

/// The version that follows the first word, up to the semicolon.
fn version(text: &str) -> String {
    let after = text.split_once("OPENQASM").map_or("", |(_, after)| after);
    let said = after.split([';', '\n']).next().unwrap_or("").trim();
    said.chars().take(10).collect()
}

/// What to mend in a file of OpenQASM.
fn openqasm(version: &str, spot: Spot) -> TextError {
    let message = format!(
        "this is OpenQASM {version}, which is not metaQASM: leave out OPENQASM and include, \
         declare each gate that is used by h, t, tdg, cx, phase and cphase, and write \
         conditions on one bit, as if (c[0] == 1) {{ .. }}; 'mqasm help' shows the text form"
    );
    TextError::new(spot, message)
}
