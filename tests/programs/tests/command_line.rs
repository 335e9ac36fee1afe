//! The words of the command line: spellings, sizes by name, help and version.

mod common;

use common::{gives, refuses, said, tool, wrote};

#[test]
fn options_in_both_spellings() {
    let list = "h 0\nh 1\nend 26 24 2 6\n";
    let apart = [
        "list", "loop.mq", "--family", "f", "--sizes", "3", "--limit", "6", "--output", "64",
    ];
    let joined = [
        "list",
        "--family=f",
        "--sizes=3",
        "--limit=6",
        "--output=64",
        "loop.mq",
    ];
    assert_eq!(wrote(&tool(&apart, b"")), list);
    assert_eq!(wrote(&tool(&joined, b"")), list);
    let drawing = wrote(&tool(&["draw", "adder.mq", "--width", "60"], b""));
    assert_eq!(
        wrote(&tool(&["draw", "adder.mq", "--width=60"], b"")),
        drawing
    );
}

#[test]
fn values_that_are_not_taken() {
    refuses(
        &["list", "bell.mq", "--limit=x"],
        "'x' is not a number that --limit takes",
    );
    refuses(&["list", "bell.mq", "--fast=1"], "no option '--fast' here");
    refuses(&["check", "bell.mq", "--text=1"], "--text takes no value");
    for command in ["list", "qasm"] {
        refuses(
            &[command, "bell.mq", "--width=60"],
            "no option '--width' here",
        );
    }
    refuses(
        &["qasm", "bell.list", "--listing"],
        "no option '--listing' here",
    );
    refuses(
        &["list", "bell.mq", "--output=bell.txt"],
        "'bell.txt' is not a number that --output takes (-o names the file to write)",
    );
    for width in ["39", "10001"] {
        refuses(
            &["draw", "bell.mq", "--width", width],
            "--width goes from 40 to 10000",
        );
    }
    for holds in ["--records", "--listing"] {
        refuses(
            &["draw", holds, "bell.list", "--family=0"],
            "--family chooses from a program, and not from a list",
        );
    }
}

#[test]
fn sizes_by_name() {
    let text = "family(n, m) f(x: Qbit[n], y: Qbit[m]) { for i = 1..m { h y[i-1]; } }";
    let words =
        |sizes: &str| ["list", "-", "--family=f", &format!("--sizes={sizes}")].map(String::from);
    let list = |sizes: &str| {
        let words = words(sizes);
        let words: Vec<&str> = words.iter().map(String::as_str).collect();
        tool(&words, text.as_bytes())
    };
    for sizes in ["2,1", "n=2,m=1", "m=1,n=2", "m=1, n=2"] {
        assert_eq!(wrote(&list(sizes)), "h 2\nend 0 0 1 3\n", "{sizes}");
    }
    let says = |sizes: &str, message: &str| {
        let found = list(sizes);
        assert_eq!(said(&found), format!("mqasm: {message}\n"));
        assert_eq!(found.status.code(), Some(1));
    };
    says("k=1,m=2", "family 'f' has no size 'k'; it takes n, m");
    says(
        "m=1",
        "the size 'n' of family 'f' is missing: write --sizes n=3,m=3",
    );
    says("n=1,n=2,m=1", "the size 'n' is given twice");
    says("n=1,2", "give all sizes by name, or all in order");
}

#[test]
fn sizes_by_the_invented_names_of_bytes() {
    let words = ["list", "adder.bytes", "--family=f2", "--sizes=n0=1"];
    let by_number = ["list", "adder.bytes", "--family=2", "--sizes=1"];
    let list = wrote(&tool(&words, b""));
    assert!(list.ends_with("end 0 0 55 61\n"));
    assert_eq!(wrote(&tool(&by_number, b"")), list);
}

#[test]
fn a_gate_takes_no_named_size() {
    let words = ["list", "toffoli.mq", "--family=toffoli", "--sizes=n=1"];
    let message = "mqasm: family 'toffoli' has no size 'n'; it takes none\n";
    gives(&words, "", 1, "", message);
}

#[test]
fn every_command_has_its_help() {
    for command in ["assemble", "text", "check", "list", "qasm", "draw"] {
        let help = wrote(&tool(&[command, "--help"], b""));
        assert!(
            help.starts_with(&format!("mqasm {command} FILE")),
            "{command}"
        );
        for words in [
            &[command, "-h"][..],
            &["help", command],
            &[command, "bell.mq", "--help"],
        ] {
            gives(words, "", 0, &help, "");
        }
        assert!(programs::tool::USAGE.contains(&format!("mqasm {command} FILE")));
        assert!(help.lines().all(|line| line.chars().count() <= 80));
        assert!(!help.lines().any(|line| line.starts_with("--")));
    }
    assert!(programs::tool::USAGE
        .lines()
        .all(|line| line.chars().count() <= 80));
    refuses(&["help", "run"], "no command 'run'");
}

#[test]
fn the_version_is_shown() {
    let line = format!("mqasm {}\n", programs::version());
    for word in ["--version", "-V", "version"] {
        gives(&[word], "", 0, &line, "");
    }
    let digits = programs::version().split('.');
    assert!(digits.clone().count() == 3 && digits.clone().all(|part| part.parse::<u32>().is_ok()));
}

#[test]
fn text_read_as_bytes_gets_a_hint() {
    let found = tool(&["text", "bell.mq"], b"");
    assert!(said(&found).contains("this looks like text"));
    assert_eq!(found.status.code(), Some(1));
}
