//! Running the `mqasm` program as people call it.
#![allow(dead_code)]

use programs::meaning;
use std::io::Write;
use std::path::PathBuf;
use std::process::{Command, Output, Stdio};

/// The folder of the examples.
pub fn examples() -> PathBuf {
    PathBuf::from(env!("CARGO_MANIFEST_DIR")).join("../../examples")
}

/// The tool in the folder of the examples, before it starts.
pub fn command(words: &[&str]) -> Command {
    let mut command = Command::new(env!("CARGO_BIN_EXE_mqasm"));
    command.args(words).current_dir(examples());
    command
}

/// Runs the tool in the folder of the examples with some input.
pub fn tool(words: &[&str], input: &[u8]) -> Output {
    let mut child = command(words)
        .stdin(Stdio::piped())
        .stdout(Stdio::piped())
        .stderr(Stdio::piped())
        .spawn()
        .unwrap();
    let _ = child.stdin.take().unwrap().write_all(input);
    let output = child.wait_with_output().unwrap();
    assert!(!said(&output).contains("panicked"), "{words:?}");
    output
}

/// What the tool said on standard error.
pub fn said(output: &Output) -> String {
    String::from_utf8_lossy(&output.stderr).into_owned()
}

/// What the tool wrote on standard output.
pub fn wrote(output: &Output) -> String {
    String::from_utf8_lossy(&output.stdout).into_owned()
}

/// Shows what the tool writes, says, and exits with.
pub fn gives(words: &[&str], input: &str, code: i32, output: &str, message: &str) {
    let found = tool(words, input.as_bytes());
    assert_eq!(wrote(&found), output, "{words:?}");
    assert_eq!(said(&found), message, "{words:?}");
    assert_eq!(found.status.code(), Some(code), "{words:?}");
}

/// Shows that a command is refused with a message.
pub fn refuses(words: &[&str], message: &str) {
    let said = format!("mqasm: {message}; 'mqasm help' shows the commands\n");
    gives(words, "", 2, "", &said);
}

/// Shows what is said of a text that is not shown to be within its range.
pub fn not_shown(text: &str, details: &str) {
    let found = tool(&["check", "-"], text.as_bytes());
    let lines = said(&found);
    let second = lines.lines().nth(1).unwrap_or_default();
    assert!(lines.contains(": 12: "), "{text}: {lines}");
    assert_eq!(second.trim_start(), details, "{text}");
}

/// Shows where a text is refused, with which number, and what is said to mend.
pub fn mend(text: &str, spot: &str, end: &str, number: u32, details: &str) {
    let sentence = meaning(number);
    let message = format!("mqasm: standard input:{spot}: {number}: {sentence}\n  {details}\n");
    gives(&["check", "-"], text, 1, end, &message);
}

/// Shows what is said of an operand of the wrong kind.
pub fn kind(text: &str, details: &str) {
    let found = tool(&["check", "-"], text.as_bytes());
    assert!(said(&found).contains(": 9: "), "{text}");
    assert!(said(&found).ends_with(&format!("  {details}\n")), "{text}");
}

/// A file of a test's own, which is removed again.
pub struct Scratch(pub PathBuf);

impl Scratch {
    pub fn new(name: &str) -> Scratch {
        let number = std::process::id();
        Scratch(std::env::temp_dir().join(format!("mqasm-{number}-{name}")))
    }

    pub fn path(&self) -> &str {
        self.0.to_str().unwrap()
    }
}

impl Drop for Scratch {
    fn drop(&mut self) {
        let _ = std::fs::remove_file(&self.0);
    }
}

/// The text of OpenQASM 2.0 for a complete list over wires and bits, made from its lines.
pub fn openqasm(list: &str, wires: u32, bits: u32) -> String {
    let mut text = String::from("OPENQASM 2.0;\ninclude \"qelib1.inc\";\n");
    if wires > 0 {
        text += &format!("qreg q[{wires}];\n");
    }
    for bit in 0..bits {
        text += &format!("creg c{bit}[1];\n");
    }
    for line in list.lines().filter(|line| !line.starts_with("end ")) {
        let words: Vec<&str> = line.split(' ').collect();
        text += &openqasm_line(&words);
    }
    text
}

/// The line of OpenQASM 2.0 for the words of a list's line.
fn openqasm_line(words: &[&str]) -> String {
    match words {
        ["if", bit, value, rest @ ..] => format!("if(c{bit}=={value}) {}", openqasm_line(rest)),
        ["cx", control, target] => format!("cx q[{control}],q[{target}];\n"),
        ["measure", wire, bit] => format!("measure q[{wire}] -> c{bit}[0];\n"),
        ["phase", k, wire] => format!("u1(2*pi/{}) q[{wire}];\n", parts(k)),
        ["phasedg", k, wire] => format!("u1(-2*pi/{}) q[{wire}];\n", parts(k)),
        ["cphase", k, first, second] => {
            format!("cu1(2*pi/{}) q[{first}],q[{second}];\n", parts(k))
        }
        ["cphasedg", k, first, second] => {
            format!("cu1(-2*pi/{}) q[{first}],q[{second}];\n", parts(k))
        }
        [operation, wire] => format!("{operation} q[{wire}];\n"),
        _ => panic!("no line of a list: {words:?}"),
    }
}

/// How many parts of a turn a k makes.
fn parts(k: &str) -> u64 {
    2u64.pow(k.parse().unwrap())
}

/// How many locations a program's text declares by a word such as `qreg `.
pub fn declared(text: &str, word: &str) -> u32 {
    let lines = text.lines().filter(|line| !line.starts_with("//"));
    let statements = lines.flat_map(|line| line.split(';'));
    let sizes = statements.filter_map(|statement| {
        let (_, rest) = statement.trim().strip_prefix(word)?.split_once('[')?;
        rest.strip_suffix(']')?.parse::<u32>().ok()
    });
    sizes.sum()
}
