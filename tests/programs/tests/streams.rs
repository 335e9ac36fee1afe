//! Where the tool reads and writes: closed and full outputs, files, and limits.
#![cfg(unix)]

mod common;

use common::{command, examples, gives, refuses, said, tool, wrote, Scratch};
use std::fs::{self, File};
use std::io::Write;
use std::process::{Command, Output, Stdio};

/// Runs the tool by a shell line, in which `mqasm` is the tool.
fn shell(line: &str) -> Output {
    let tool = env!("CARGO_BIN_EXE_mqasm");
    let output = Command::new("sh")
        .arg("-c")
        .arg(format!("mqasm() {{ '{tool}' \"$@\"; }}; {line}"))
        .current_dir(examples())
        .output()
        .unwrap();
    assert!(!said(&output).contains("panicked"), "{line}");
    output
}

#[test]
fn a_closed_output_is_no_success() {
    for line in [
        "mqasm list bell.mq >&-",
        "mqasm check bell.mq >&-",
        "mqasm qasm bell.mq >&-",
        "mqasm draw bell.mq >&-",
        "mqasm assemble bell.mq >&-",
        "mqasm text bell.bytes >&-",
        "mqasm --version >&-",
        "mqasm help >&-",
        "mqasm list --help >&-",
    ] {
        let found = shell(line);
        let message = "mqasm: cannot write: standard output is closed\n";
        assert_eq!(said(&found), message, "{line}");
        assert_eq!(found.status.code(), Some(1), "{line}");
    }
    let found = shell("mqasm list bell.mq >&- 2>&-");
    assert_eq!(found.status.code(), Some(1));
}

#[test]
fn an_output_that_is_thrown_away_is_a_success() {
    for line in [
        "mqasm list bell.mq >/dev/null",
        "mqasm list bell.mq 1<>/dev/null",
    ] {
        let found = shell(line);
        assert_eq!(said(&found), "", "{line}");
        assert_eq!(found.status.code(), Some(0), "{line}");
    }
}

#[test]
fn a_closed_output_does_not_matter_to_a_file() {
    let file = Scratch::new("closed");
    let found = shell(&format!("mqasm list bell.mq -o '{}' >&-", file.path()));
    assert_eq!(said(&found), "");
    assert_eq!(found.status.code(), Some(0));
    assert_eq!(
        fs::read_to_string(&file.0).unwrap(),
        "h 0\ncx 0 1\nend 0 0 2 2\n"
    );
}

#[test]
fn a_closed_input_is_no_empty_program() {
    let found = shell("mqasm check - <&-");
    let message = "mqasm: cannot read standard input: standard input is closed\n";
    assert_eq!(said(&found), message);
    assert_eq!(found.status.code(), Some(1));
}

#[test]
#[cfg(target_os = "linux")]
fn a_full_output_is_no_success() {
    for words in [
        &["list", "bell.mq"][..],
        &["qasm", "bell.mq"],
        &["draw", "teleport.mq"],
        &["help"],
    ] {
        let full = File::options().write(true).open("/dev/full").unwrap();
        let found = command(words).stdout(full).output().unwrap();
        assert!(
            said(&found).starts_with("mqasm: cannot write: "),
            "{words:?}"
        );
        assert_eq!(found.status.code(), Some(1), "{words:?}");
    }
    let found = tool(&["list", "bell.mq", "-o", "/dev/full"], b"");
    assert!(said(&found).starts_with("mqasm: cannot write /dev/full: "));
    assert_eq!(found.status.code(), Some(1));
}

#[test]
fn a_reader_that_has_gone_is_a_clean_end() {
    let line =
        "(mqasm list loop.mq --family f --sizes 60000 --output 1000000; echo $? >&2) | head -n 1";
    let found = shell(line);
    assert_eq!(wrote(&found), "h 0\n");
    assert_eq!(said(&found), "1\n");
}

#[test]
fn output_goes_to_a_file() {
    let bytes = Scratch::new("bell.bytes");
    gives(&["assemble", "bell.mq", "-o", bytes.path()], "", 0, "", "");
    let list = "h 0\ncx 0 1\nend 0 0 2 2\n";
    gives(&["list", "bell.mq", "-o", "-"], "", 0, list, "");
    let due = fs::read(examples().join("bell.bytes")).unwrap();
    assert_eq!(fs::read(&bytes.0).unwrap(), due);
    for spelling in [
        format!("-o{}", bytes.path()),
        format!("-o={}", bytes.path()),
    ] {
        gives(&["list", "bell.mq", &spelling], "", 0, "", "");
        assert_eq!(fs::read_to_string(&bytes.0).unwrap(), list);
        gives(&["text", "bell.bytes", &spelling], "", 0, "", "");
        assert!(fs::read_to_string(&bytes.0)
            .unwrap()
            .starts_with("qreg q0[2];"));
        gives(&["draw", "bell.mq", &spelling], "", 0, "", "");
        assert!(fs::read_to_string(&bytes.0)
            .unwrap()
            .starts_with("q[0] ─H──●─"));
    }
}

#[test]
fn a_refused_text_leaves_the_file_alone() {
    let file = Scratch::new("kept");
    fs::write(&file.0, "kept").unwrap();
    let found = tool(&["assemble", "-", "-o", file.path()], b"h q[0];");
    assert_eq!(found.status.code(), Some(1));
    assert_eq!(fs::read_to_string(&file.0).unwrap(), "kept");
}

#[test]
fn the_file_that_is_read_is_not_written() {
    let file = Scratch::new("own.mq");
    fs::write(&file.0, "qreg q[1];").unwrap();
    refuses(
        &["assemble", file.path(), "-o", file.path()],
        "-o names the file that is read",
    );
    assert_eq!(fs::read_to_string(&file.0).unwrap(), "qreg q[1];");
    refuses(&["list", "bell.mq", "-o"], "-o needs a value");
    refuses(&["list", "bell.mq", "-o", ""], "-o needs a file");
    let found = tool(&["list", "bell.mq", "-o", "missing/file"], b"");
    assert!(said(&found).starts_with("mqasm: cannot write missing/file: "));
    assert_eq!(found.status.code(), Some(1));
}

#[test]
#[cfg(target_os = "linux")]
fn reading_stops_at_a_limit() {
    let says = |words: &[&str], message: &str| {
        let found = tool(words, b"");
        assert_eq!(
            said(&found),
            format!("mqasm: /dev/zero: {message}\n"),
            "{words:?}"
        );
        assert_eq!(found.status.code(), Some(1), "{words:?}");
    };
    let bytes = "1: the program is longer than 65,535 bytes\n  reading stopped there";
    says(&["check", "--bytes", "/dev/zero"], bytes);
    says(&["list", "--bytes", "/dev/zero"], bytes);
    says(&["qasm", "--bytes", "/dev/zero"], bytes);
    says(&["draw", "--bytes", "/dev/zero"], bytes);
    says(
        &["text", "/dev/zero"],
        "the program is longer than 65,535 bytes; reading stopped there",
    );
    let text = "longer than 2097152 bytes, which is past what the text of a program needs; \
                reading stopped there";
    says(&["check", "/dev/zero"], text);
    says(&["assemble", "/dev/zero"], text);
    says(&["draw", "--listing", "/dev/zero"], text);
    says(
        &["draw", "--records", "/dev/zero"],
        "longer than 786432 bytes, which is past what can be drawn; reading stopped there",
    );
}

#[test]
fn endless_standard_input_is_left() {
    let mut child = command(&["check", "-"])
        .stdin(Stdio::piped())
        .stdout(Stdio::piped())
        .stderr(Stdio::piped())
        .spawn()
        .unwrap();
    let mut input = child.stdin.take().unwrap();
    let line = " ".repeat(1 << 16);
    let mut written = 0;
    while input.write_all(line.as_bytes()).is_ok() {
        written += line.len();
        assert!(written < 64 << 20, "it reads on and on");
    }
    let found = child.wait_with_output().unwrap();
    assert!(said(&found).contains("reading stopped there"));
    assert_eq!(found.status.code(), Some(1));
}

#[test]
fn texts_up_to_the_limit_are_read() {
    let text = format!("qreg q[1];{}h q[0];", " ".repeat(2_097_152 - 17));
    gives(&["check", "-"], &text, 0, "end 0 0 0 0\n", "");
    let found = tool(&["check", "-"], format!("{text} ").as_bytes());
    assert!(said(&found).contains("reading stopped there"));
}

#[test]
fn programs_that_are_too_long() {
    let text = format!("qreg q[1];\n{}", "h q[0];\n".repeat(6000));
    let message = "mqasm: standard input: 1: the program is longer than 65,535 bytes\n  \
        it has 72005 bytes, and what stands at 5462:1 goes past the limit: \
        shorten it by loops and families, or split it\n";
    gives(&["check", "-"], &text, 1, "end 1 0 0 0\n", message);
    gives(&["list", "-"], &text, 1, "end 1 0 0 0\n", message);
    let bytes = [2, 2, 0, 1, 0].repeat(13_107);
    assert_eq!(bytes.len(), 65_535);
    let found = tool(&["check", "--bytes", "-"], &bytes);
    assert!(wrote(&found).starts_with("end 6 "));
}

#[test]
fn many_declarations_do_not_take_long() {
    let declared: String = (0..120_000)
        .map(|number| format!("qreg q{number}[0];"))
        .collect();
    let found = tool(&["check", "-"], declared.as_bytes());
    assert_eq!(wrote(&found), "end 1 0 0 0\n");
}
