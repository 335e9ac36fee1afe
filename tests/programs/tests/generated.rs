//! The tool on thousands of generated programs: it never fails, and what it says
//! of a refusal fits the refusal.

mod common;

use common::{declared, openqasm};
use generate::case;
use programs::tool::{run, Streams};
use std::collections::BTreeMap;
use std::ffi::OsString;

/// Runs the tool within the test: exit code, output and messages.
fn tool(words: &[&str], input: &[u8]) -> (u8, String, String) {
    let words: Vec<OsString> = words.iter().map(OsString::from).collect();
    let (mut output, mut messages) = (Vec::new(), Vec::new());
    let code = run(
        &words,
        &mut Streams {
            input: &mut &input[..],
            output: &mut output,
            messages: &mut messages,
        },
    );
    let text = |bytes: Vec<u8>| String::from_utf8(bytes).unwrap();
    (code, text(output), text(messages))
}

/// The number in the last line of an output.
fn number(output: &str) -> u32 {
    let last = output.lines().last().unwrap_or_default();
    last.split(' ').nth(1).unwrap().parse().unwrap()
}

#[test]
fn checks_say_why() {
    let (mut shown, mut low, mut late) = (0, 0, 0);
    for seed in 0..6000 {
        let case = case(seed);
        let (code, output, messages) = tool(&["check", "--bytes", "-"], &case.program);
        let number = number(&output);
        assert_eq!(code == 0, number == 0, "{seed}");
        assert_eq!(messages.is_empty(), number == 0, "{seed}");
        if number == 12 && programs::disassemble(&case.program).is_ok() {
            assert!(messages.contains("comes to"), "{seed}: {messages}");
            shown += 1;
        }
        if number == 9 && programs::disassemble(&case.program).is_ok() {
            assert!(messages.contains(" takes "), "{seed}: {messages}");
        }
        if number == 31 && programs::disassemble(&case.program).is_ok() {
            assert!(messages.contains(" by one byte"), "{seed}: {messages}");
            low += 1;
        }
        if number == 33 && programs::disassemble(&case.program).is_ok() {
            assert!(messages.contains("\n  'f"), "{seed}: {messages}");
            late += 1;
        }
    }
    assert!(shown > 100 && low > 1 && late > 5, "{shown}, {low}, {late}");
}

#[test]
fn texts_get_the_same_answers_as_bytes() {
    for seed in 0..2000 {
        let case = case(seed);
        let Ok(text) = programs::disassemble(&case.program) else {
            continue;
        };
        let by_bytes = tool(&["check", "--bytes", "-"], &case.program);
        let by_text = tool(&["check", "-"], text.as_bytes());
        assert_eq!(by_bytes.1, by_text.1, "{seed}");
        let details = |messages: &str| messages.lines().nth(1).map(placeless);
        if number(&by_bytes.1) != 1 {
            assert_eq!(details(&by_bytes.2), details(&by_text.2), "{seed}");
        }
    }
}

/// Details without the line and column, or the byte, behind each `at`.
fn placeless(details: &str) -> String {
    let in_place = |one: char| one.is_ascii_digit() || one == ':';
    let bare = |part: &str| {
        part.trim_start_matches("byte ")
            .trim_start_matches(in_place)
            .to_string()
    };
    let parts: Vec<String> = details.split(" at ").map(bare).collect();
    parts.join(" at ")
}

#[test]
fn a_wire_that_is_named_twice_is_explained_and_drawn() {
    let [mut alike, mut spelled, mut ended] = [0; 3];
    for seed in 0..12_000 {
        let program = case(seed).program;
        let words = ["draw", "--bytes", "-", "--limit=2000"];
        let (_, drawing, messages) = tool(&words, &program);
        if drawing.is_empty() || programs::disassemble(&program).is_err() {
            continue;
        }
        let (number, lines) = (number(&drawing), drawing.lines().count());
        let marks = drawing.matches('✗').count();
        assert_eq!(
            marks,
            usize::from([25, 35].contains(&number)),
            "{seed}: {drawing}"
        );
        ended += usize::from(number == 25);
        if number == 35 {
            let one_way = messages.contains(" is named at byte ");
            let both_ways = messages.contains(" are the same wire, as both indexes are ");
            assert!(
                lines == 2 && one_way != both_ways,
                "{seed}: {drawing}{messages}"
            );
            alike += usize::from(one_way);
            spelled += usize::from(both_ways);
        }
    }
    let found = [alike, spelled, ended];
    assert!(found.iter().all(|count| *count > 20), "{found:?}");
}

#[test]
fn openqasm_says_what_lists_say() {
    let mut written = 0;
    for seed in 0..3000 {
        let case = case(seed);
        let limit = format!("--limit={}", case.limit.min(2000));
        let (code, list, why) = tool(&["list", "--bytes", "-", &limit], &case.program);
        let found = tool(&["qasm", "--bytes", "-", &limit], &case.program);
        if code != 0 {
            assert_eq!(found, (code, String::new(), why), "{seed}");
            continue;
        }
        let text = programs::disassemble(&case.program).unwrap();
        let due = openqasm(&list, declared(&text, "qreg "), declared(&text, "creg "));
        assert_eq!(found, (0, due, String::new()), "{seed}");
        written += usize::from(list.lines().count() > 1);
    }
    assert!(written > 500, "{written}");
}

#[test]
fn a_k_that_is_too_large_is_explained() {
    let mut found = 0;
    for seed in 0..6000 {
        let case = case(seed);
        let words = ["list", "--bytes", "-", "--limit=2000"];
        let (_, list, messages) = tool(&words, &case.program);
        if number(&list) == 32 {
            assert!(messages.contains("\n  k is "), "{seed}: {messages}");
            assert!(messages.contains(" above 63: "), "{seed}: {messages}");
            found += 1;
        }
    }
    assert!(found > 5, "{found}");
}

#[test]
fn drawings_end_as_lists_do() {
    let mut drawn = 0;
    for seed in 0..3000 {
        let case = case(seed);
        let limit = format!("--limit={}", case.limit.min(2000));
        let words = ["list", "--bytes", "-", &limit];
        let (list_code, list, _) = tool(&words, &case.program);
        let words = ["draw", "--bytes", "-", &limit];
        let (code, drawing, messages) = tool(&words, &case.program);
        if drawing.is_empty() {
            assert!(messages.contains("a drawing has at most"), "{seed}");
            continue;
        }
        assert_eq!(drawing.lines().last(), list.lines().last(), "{seed}");
        assert_eq!(code, list_code, "{seed}");
        drawn += 1;
    }
    assert!(drawn > 1000, "{drawn}");
}

/// The marks that the words of a list's line put, each with its row.
fn marks_of_words(words: &[&str]) -> Vec<(String, String)> {
    let wire = |number: &str, mark: &str| (format!("wire {number}"), mark.to_string());
    let bit = |number: &str, mark: &str| (format!("bit {number}"), mark.to_string());
    match words {
        ["if", number, value, rest @ ..] => {
            let mark = if *value == "1" { "●" } else { "○" };
            [vec![bit(number, mark)], marks_of_words(rest)].concat()
        }
        ["h", one] => vec![wire(one, "H")],
        ["t", one] => vec![wire(one, "T")],
        ["tdg", one] => vec![wire(one, "T†")],
        ["reset", one] => vec![wire(one, "|0⟩")],
        ["phase", k, one] => vec![wire(one, &format!("P({k})"))],
        ["phasedg", k, one] => vec![wire(one, &format!("P†({k})"))],
        ["cx", one, other] => vec![wire(one, "●"), wire(other, "⊕")],
        ["cphase", k, one, other] => vec![wire(one, "●"), wire(other, &format!("P({k})"))],
        ["cphasedg", k, one, other] => vec![wire(one, "●"), wire(other, &format!("P†({k})"))],
        ["measure", one, number] => vec![wire(one, "M"), bit(number, "╩")],
        _ => panic!("no line of a list: {words:?}"),
    }
}

/// The marks that the lines of a list put on each row, in order.
fn marks_of_list(list: &str) -> BTreeMap<String, Vec<String>> {
    let mut rows: BTreeMap<String, Vec<String>> = BTreeMap::new();
    for line in list.lines().filter(|line| !line.starts_with("end ")) {
        let words: Vec<&str> = line.split(' ').collect();
        for (row, mark) in marks_of_words(&words) {
            rows.entry(row).or_default().push(mark);
        }
    }
    rows
}

/// The marks on each row of a drawing of one block, in order.
fn marks_of_drawing(drawing: &str) -> BTreeMap<String, Vec<String>> {
    let mut rows = BTreeMap::new();
    let (mut wires, mut bits) = (0, 0);
    for line in drawing.lines() {
        let (row, count) = match line.chars().next() {
            Some('q') => ("wire", &mut wires),
            Some('c') => ("bit", &mut bits),
            _ => continue,
        };
        let (_, line) = line.split_once(' ').unwrap();
        let marks = line.trim().split(['─', '═', '┼', '╫', '╬']);
        let marks = marks.filter(|mark| !["", "✗"].contains(mark));
        let marks: Vec<String> = marks.map(String::from).collect();
        if !marks.is_empty() {
            rows.insert(format!("{row} {count}"), marks);
        }
        *count += 1;
    }
    rows
}

#[test]
fn every_row_has_its_marks_in_order() {
    let (mut marks, mut phases) = (0, 0);
    for seed in 0..3000 {
        let case = case(seed);
        let words = ["list", "--bytes", "-", "--limit=2000"];
        let (_, list, _) = tool(&words, &case.program);
        let words = ["draw", "--bytes", "-", "--limit=2000", "--width=10000"];
        let (_, drawing, _) = tool(&words, &case.program);
        if !drawing.is_empty() && number(&list) != 35 {
            let due = marks_of_list(&list);
            assert_eq!(marks_of_drawing(&drawing), due, "{seed}");
            marks += due.values().map(Vec::len).sum::<usize>();
            phases += list.lines().filter(|line| line.contains("phase")).count();
        }
    }
    assert!(marks > 5000 && phases > 100, "{marks}, {phases}");
}

/// What is said of the loops around what is not shown: of one, and of several.
const OF_LOOPS: [&str; 2] = [
    ", and that the loop over ",
    ", and no single loop around it ",
];

#[test]
fn loops_around_what_is_not_shown_are_named() {
    let mut found = [0; OF_LOOPS.len()];
    for seed in 0..6000 {
        let (_, output, messages) = tool(&["check", "--bytes", "-"], &case(seed).program);
        for (count, words) in found.iter_mut().zip(OF_LOOPS) {
            let said = messages.contains(words);
            assert!(!said || number(&output) == 12, "{seed}: {messages}");
            *count += usize::from(said);
        }
    }
    assert!(found.iter().all(|count| *count > 20), "{found:?}");
}

/// What is said of slices that are not shown, or of the wrong kind.
const OF_SLICES: [&str; 5] = [
    ": the first index ",
    ": the last index ",
    ": its number of cells is not shown",
    "]' has ",
    " is a slice of ",
];

#[test]
fn slices_are_explained() {
    let mut found = [0; OF_SLICES.len()];
    for seed in 0..6000 {
        let (_, output, messages) = tool(&["check", "--bytes", "-"], &case(seed).program);
        if matches!(number(&output), 9 | 12) {
            for (count, words) in found.iter_mut().zip(OF_SLICES) {
                *count += usize::from(messages.contains(words));
            }
        }
    }
    assert!(found.iter().all(|count| *count > 3), "{found:?}");
}

/// What is said of families that are passed, and of parameters that take them.
const OF_PASSING: [&str; 8] = [
    " is a family\n",
    " is a family parameter",
    " sizes, operands and their kinds must agree",
    ", which takes a family itself ",
    "this call takes a parameter of a family type",
    " cells for ",
    " in the type of parameter ",
    " is declared after ",
];

#[test]
fn passing_is_explained() {
    let mut found = [0; OF_PASSING.len()];
    for seed in 0..12_000 {
        let (_, output, messages) = tool(&["check", "--bytes", "-"], &case(seed).program);
        if matches!(number(&output), 9 | 12 | 33) {
            for (count, words) in found.iter_mut().zip(OF_PASSING) {
                *count += usize::from(messages.contains(words));
            }
        }
    }
    assert!(found.iter().all(|count| *count > 3), "{found:?}");
}

#[test]
fn instances_that_nothing_is_passed_to_are_explained() {
    let mut found = 0;
    for seed in 0..6000 {
        let case = case(seed);
        let family = format!("--family={}", case.family);
        let words = ["list", "--bytes", "-", &family, "--limit=10"];
        let (_, list, messages) = tool(&words, &case.program);
        if number(&list) == 34 {
            assert_eq!(list, "end 34 0 0 0\n", "{seed}");
            assert!(messages.contains(" takes a family, and only a call can pass one"));
            found += 1;
        }
    }
    assert!(found > 20, "{found}");
}
