//! What include/metaqasm.h says: the constants that it defines as numbers.

/// The header's text.
const HEADER: &str = include_str!("../../../include/metaqasm.h");

/// The stack in KiB that a call needs at most, and that a check alone needs.
pub fn stack_kib(call: &str) -> usize {
    match call {
        "check" => number("METAQASM_CHECK_STACK_KIB"),
        _ => number("METAQASM_STACK_KIB"),
    }
}

/// The number that the header defines for a name.
pub fn number(name: &str) -> usize {
    let value = HEADER.lines().find_map(|line| value_of(line, name));
    value.unwrap_or_else(|| panic!("the header defines no number {name}"))
}

/// The number of a line `#define NAME NUMBER`, if it is one for this name.
fn value_of(line: &str, name: &str) -> Option<usize> {
    let mut words = line.split_whitespace();
    let defines = words.next() == Some("#define") && words.next() == Some(name);
    match defines {
        true => words.next()?.parse().ok(),
        false => None,
    }
}

#[cfg(test)]
mod tests {
    use super::*;
    use generate::build::{MOST_BYTES, MOST_FAMILIES};
    use reference::RECORD_BYTES;

    #[test]
    fn numbers_are_read_by_their_whole_names() {
        assert_eq!(value_of("#define NAME 12", "NAME"), Some(12));
        assert_eq!(value_of("#define NAME 12 /* more */", "NAME"), Some(12));
        assert_eq!(value_of("#define NAMES 12", "NAME"), None);
        assert_eq!(value_of(" * NAME 12", "NAME"), None);
    }

    #[test]
    fn limits_are_those_that_programs_are_made_for() {
        assert_eq!(number("METAQASM_MOST_FAMILIES"), MOST_FAMILIES);
        assert_eq!(number("METAQASM_MOST_PROGRAM_BYTES"), MOST_BYTES);
        assert_eq!(number("METAQASM_RECORD_BYTES"), RECORD_BYTES);
    }

    #[test]
    #[should_panic(expected = "defines no number")]
    fn a_name_that_is_not_there_is_noticed() {
        number("METAQASM_NO_SUCH_NAME");
    }
}
