//! Messages that say what a person must mend, beside the number's sentence.

mod common;

use common::{gives, kind, mend, not_shown, said, tool};
use programs::meaning;

#[test]
fn an_index_below_zero() {
    not_shown(
        "family(n) f(x: Qbit[n]) { for i = 0..n { h x[i-1]; } }",
        "x[i - 1]: the index i - 1 is not shown to be 0 or more: \
         it comes to -1 with i at its low bound 0, \
         and that the loop over i runs only where 0 <= n does not make up for it",
    );
    not_shown(
        "qreg q[1]; for i = 0..3 { for j = 0..3 { h q[i-j]; } }",
        "q[i - j]: the index i - j is not shown to be 0 or more: \
         it comes to -3 with j at its high bound 3 and i at its low bound 0, \
         and no single loop around it makes up for it by running only where low <= high",
    );
}

#[test]
fn an_index_past_the_size() {
    not_shown(
        "family(n) f(x: Qbit[n]) { h x[0]; }",
        "x[0]: the index 0 is 0 or more, but is not shown to be below the size n: \
         size - 1 - index comes to n - 1, which is -1 at n = 0",
    );
    not_shown(
        "family(n) f(x: Qbit[3]) { h x[n]; }",
        "x[n]: the index n is 0 or more, but is not shown to be below the size 3: \
         size - 1 - index comes to -n + 2, which falls below 0 as n grows",
    );
    not_shown(
        "qreg q[2]; creg c[5]; measure q[1] -> c[5];",
        "c[5]: the index 5 is 0 or more, but is not shown to be below the size 5: \
         size - 1 - index comes to -1",
    );
    not_shown(
        "family(n, m) f(x: Qbit[2*n+m]) { for i = 1..n { h x[2*i+m]; } }",
        "x[2 * i + m]: the index 2 * i + m is 0 or more, but is not shown to be below the size \
         2 * n + m: size - 1 - index comes to -1 with i at its high bound n, \
         and that the loop over i runs only where 1 <= n does not make up for it",
    );
}

#[test]
fn sizes_below_zero() {
    not_shown(
        "family(n) f(x: Qbit, y: Qbit[n-1]) {}",
        "the size n - 1 of parameter 'y' is not shown to be 0 or more: \
         it comes to n - 1, which is -1 at n = 0",
    );
    not_shown(
        "family(k) f(x: Qbit[k]) {} family(n) g(x: Qbit[n]) { f(n-1)(x); }",
        "the size n - 1 for 'k' of 'f' is not shown to be 0 or more: \
         it comes to n - 1, which is -1 at n = 0",
    );
}

#[test]
fn a_k_below_zero() {
    not_shown(
        "family(n) f(x: Qbit[n]) { for i = 0..n-1 { phase(i-1) x[i]; } }",
        "the k i - 1 of this phase is not shown to be 0 or more: \
         it comes to -1 with i at its low bound 0, \
         and that the loop over i runs only where 0 <= n - 1 does not make up for it",
    );
    not_shown(
        "family(n) f(x: Qbit[2]) { cphase(n-2) x[0], x[1]; }",
        "the k n - 2 of this phase is not shown to be 0 or more: \
         it comes to n - 2, which is -2 at n = 0",
    );
    mend(
        "qreg q[1];\nreverse { phase(2-3) q[9]; }",
        "2:18",
        "end 12 11 0 0\n",
        12,
        "the k 2 - 3 of this phase is not shown to be 0 or more: it comes to -1",
    );
    not_shown(
        "qreg q[2]; cphase(5) q[1], q[2];",
        "q[2]: the index 2 is 0 or more, but is not shown to be below the size 2: \
         size - 1 - index comes to -1",
    );
}

#[test]
fn registers_that_are_too_small() {
    not_shown(
        "family(n) f(x: Qbit[n+1]) {} qreg q[5]; f(5)(q);",
        "'q' has 5 cells, and 'x' of 'f' takes 6 here: the one less the other comes to -1",
    );
    not_shown(
        "family(k) f(y: Qbit[2*k]) {} family(n) g(x: Qbit[n]) { f(n)(x); }",
        "'x' has n cells, and 'y' of 'f' takes 2*n here: \
         the one less the other comes to -n, which falls below 0 as n grows",
    );
}

/// Shows what is said of a slice of x: Qbit[n], handed over for n cells with i from 0 to n - 1,
/// before the words on that loop.
fn slice_not_shown(slice: &str, details: &str) {
    let range = "and that the loop over i runs only where 0 <= n - 1 does not make up for it";
    let text = format!(
        "family(k) f(y: Qbit[k]) {{}}
         family(n) g(x: Qbit[n]) {{ for i = 0..n-1 {{ f(n)({slice}); }} }}"
    );
    not_shown(&text, &format!("{details}, {range}"));
}

#[test]
fn slices_that_start_below_zero() {
    slice_not_shown(
        "x[i-1..i]",
        "x[i - 1..i]: the first index i - 1 is not shown to be 0 or more: \
         it comes to -1 with i at its low bound 0",
    );
    slice_not_shown(
        "x[0-n..n]",
        "x[0 - n..n]: the first index 0 - n is not shown to be 0 or more: \
         it comes to -n, which falls below 0 as n grows",
    );
}

#[test]
fn slices_that_end_past_the_size() {
    slice_not_shown(
        "x[0..n]",
        "x[0..n]: the last index n, which is in the slice, is not shown to be below the size n: \
         size - 1 - last comes to -1",
    );
    slice_not_shown(
        "x[i..i+1]",
        "x[i..i + 1]: the last index i + 1, which is in the slice, is not shown to be below the \
         size n: size - 1 - last comes to -1 with i at its high bound n - 1",
    );
    mend(
        "family(k) f(y: Qbit[k]) {}\nqreg q[3];\nf(2)(q[2..3]);",
        "3:6",
        "end 12 26 0 0\n",
        12,
        "q[2..3]: the last index 3, which is in the slice, is not shown to be below the size 3: \
         size - 1 - last comes to -1",
    );
}

#[test]
fn slices_with_fewer_cells_than_none() {
    slice_not_shown(
        "x[n..i]",
        "x[n..i]: its number of cells is not shown to be 0 or more: last - first + 1 comes to \
         -n + 1 with i at its low bound 0, which falls below 0 as n grows",
    );
    not_shown(
        "family(k) f(y: Qbit[k]) {} qreg q[5]; f(0)(q[3..1]);",
        "q[3..1]: its number of cells is not shown to be 0 or more: last - first + 1 comes to -1",
    );
}

#[test]
fn slices_that_are_too_small() {
    slice_not_shown(
        "x[i..n-1]",
        "'x[i..n - 1]' has n - i cells, and 'y' of 'f' takes n here: \
         the one less the other comes to -n + 1 with i at its high bound n - 1, \
         which falls below 0 as n grows",
    );
    not_shown(
        "family(n) f(x: Qbit[n+1]) {} qreg q[5]; f(0)(q[5..4]);",
        "'q[5..4]' has 0 cells, and 'x' of 'f' takes 1 here: the one less the other comes to -1",
    );
    let accepted = "family(n) f(x: Qbit[n]) {} qreg q[5]; f(0)(q[5..4]); f(1)(q[1..4]);";
    gives(&["check", "-"], accepted, 0, "end 0 0 0 0\n", "");
}

#[test]
fn slices_in_calls_by_two_bytes() {
    not_shown(
        &format!(
            "{}family(k) f(x: Qbit[k]) {{}} qreg q[5]; f(1)(q[1..5]);",
            families(256)
        ),
        "q[1..5]: the last index 5, which is in the slice, is not shown to be below the size 5: \
         size - 1 - last comes to -1",
    );
}

#[test]
fn details_of_bytes_have_invented_names() {
    let text = "family(n) f(x: Qbit[n]) { h x[0]; }";
    let bytes = programs::assemble(text).unwrap().bytes;
    let found = tool(&["check", "--bytes", "-"], &bytes);
    let details = "x0[0]: the index 0 is 0 or more, but is not shown to be below the size n0: \
                   size - 1 - index comes to n0 - 1, which is -1 at n0 = 0";
    let message = format!(
        "mqasm: standard input: byte 15: 12: {}\n  {details}\n",
        meaning(12)
    );
    assert_eq!(said(&found), message);
}

#[test]
fn calls_without_their_sizes() {
    let declared = "family(n, m) f(x: Qbit[n], y: Qbit) {} gate g(a: Qbit) {} qreg q[2];\n";
    let call = |call: &str, spot: &str, place: &str, number: u32, details: &str| {
        let end = format!("end {number} {place} 0 0\n");
        mend(&format!("{declared}{call}"), spot, &end, number, details);
    };
    call(
        "f(q, q[0]);",
        "2:3",
        "32",
        3,
        "this call lacks its sizes: 'f' takes 2 sizes, as f(n, m)(..)",
    );
    call(
        "f(1)(q, q[0]);",
        "2:6",
        "37",
        3,
        "'f' takes 2 sizes and 2 operands, and this call has 1 size and 2 operands",
    );
    call(
        "f(1, 2)(q);",
        "2:1",
        "28",
        4,
        "'f' takes 2 sizes and 2 operands, and this call has 2 sizes and 1 operand",
    );
    call(
        "g(1)(q[0]);",
        "2:3",
        "32",
        3,
        "'g' takes no size and 1 operand, and this call has 1 size and 1 operand",
    );
}

#[test]
fn what_stands_at_the_top_only() {
    let inside = |text: &str, word: &str, outer: &str| {
        let found = tool(&["check", "-"], text.as_bytes());
        let details = format!(
            "'{word}' stands at the top of a program only, and cannot stand in {outer}: move it out"
        );
        assert!(said(&found).ends_with(&format!("  {details}\n")), "{text}");
        assert!(said(&found).contains(": 3: "), "{text}");
    };
    let declared = "qreg q[1]; creg c[1]; ";
    let measure = "measure q[0] -> c[0];";
    inside(
        &format!("{declared} if (c[0] == 1) {{ {measure} }}"),
        "measure",
        "an 'if'",
    );
    inside(
        &format!("{declared} for i = 0..1 {{ reset q[0]; }}"),
        "reset",
        "a 'for'",
    );
    inside(
        &format!("{declared} reverse {{ qreg r[1]; }}"),
        "qreg",
        "a 'reverse'",
    );
    inside("gate g(a: Qbit) { reset a; }", "reset", "a family or gate");
    let bytes = [0x25, 3, 0, 4, 0, 0];
    let found = tool(&["check", "--bytes", "-"], &bytes);
    assert!(said(&found).ends_with("  'measure' stands at the top of a program only\n"));
}

#[test]
fn operands_of_the_wrong_kind() {
    kind(
        "qreg q[2]; h q;",
        "h takes one qubit here, and q is a whole register of qubits: \
         write q[0], or another element",
    );
    kind(
        "qreg q[1]; creg c[2]; if (c == 1) { h q[0]; }",
        "if takes one bit of a creg here, and c is a whole register of bits: \
         write c[0], or another element",
    );
    kind(
        "gate g(a: Qbit) { h a[0]; }",
        "h takes one qubit here, and a[0] is an element of what is one qubit: write a",
    );
    kind(
        "family(n) f(x: Qbit[n]) {} qreg q[2]; f(2)(q[0]);",
        "'f' takes a register of qubits here, and q[0] is one qubit: \
         write q, or the slice q[0..0]",
    );
    kind(
        "qreg q[2]; measure q[0] -> q[1];",
        "measure takes one bit of a creg here, and q[1] is one qubit",
    );
    kind(
        "creg c[2]; t c[1];",
        "t takes one qubit here, and c[1] is a bit",
    );
}

#[test]
fn slices_of_the_wrong_kind() {
    let one = "is a slice of a register of qubits: write q[1], or another element";
    kind(
        "qreg q[3]; h q[1..2];",
        &format!("h takes one qubit here, and q[1..2] {one}"),
    );
    kind(
        "gate g(a: Qbit) {} qreg q[3]; g(q[1..1]);",
        &format!("'g' takes one qubit here, and q[1..1] {one}"),
    );
    kind(
        "qreg q[3]; creg c[2]; measure q[0] -> c[0..1];",
        "measure takes one bit of a creg here, and c[0..1] is a slice of a register of bits: \
         write c[0], or another element",
    );
    kind(
        "gate g(a: Qbit) { h a[0..0]; }",
        "h takes one qubit here, and a[0..0] is a slice of what is one qubit: write a",
    );
    let f = "family(n) f(x: Qbit[n]) {}";
    kind(
        &format!("{f} creg c[2]; f(2)(c[0..1]);"),
        "'f' takes a register of qubits here, and c[0..1] is a slice of a register of bits",
    );
    kind(
        &format!("{f} gate g(a: Qbit) {{ f(1)(a[0..0]); }}"),
        "'f' takes a register of qubits here, and a[0..0] is a slice of what is one qubit",
    );
}

#[test]
fn operands_of_phases_of_the_wrong_kind() {
    kind(
        "qreg q[2]; cphase(1) q[0], q;",
        "cphase takes one qubit here, and q is a whole register of qubits: \
         write q[0], or another element",
    );
    kind(
        "creg c[2]; phase(1) c[0];",
        "phase takes one qubit here, and c[0] is a bit",
    );
}

#[test]
fn counts_and_numbers() {
    mend(
        "gate g() {}",
        "1:1",
        "end 6 0 0 0\n",
        6,
        "a family needs a parameter",
    );
    mend(
        "family(a, b, c, d, e) f(x: Qbit) {}",
        "1:1",
        "end 6 0 0 0\n",
        6,
        "5 index variables are declared, and 4 are the most",
    );
    mend(
        "qreg q[40000]; qreg r[40000];",
        "1:16",
        "end 7 5 0 0\n",
        7,
        "with this register there are 80000",
    );
    mend(
        "qreg q[1]; h #3[0];",
        "1:14",
        "end 8 8 0 0\n",
        8,
        "#3 is asked for, and there is 1 register here, number 0",
    );
}

#[test]
fn slices_out_of_scope() {
    mend(
        "family(n) f(x: Qbit[n]) {} gate g(a: Qbit, b: Qbit) { f(1)(#2[#9..#8]); }",
        "1:60",
        "end 8 32 0 0\n",
        8,
        "#2 is asked for, and there are 2 parameters here, from number 0 on",
    );
    mend(
        "family(n) f(x: Qbit[n]) {} qreg q[3]; f(1)(q[0..#0]);",
        "1:49",
        "end 8 35 0 0\n",
        8,
        "#0 is asked for, and there is no index variable here",
    );
}

/// The text of so many families of one wire, one to a line.
fn families(count: usize) -> String {
    let gates = (0..count).map(|number| format!("gate f{number}(a: Qbit) {{}}\n"));
    gates.collect()
}

#[test]
fn calls_by_two_bytes_that_one_byte_would_do() {
    let low = |number: &str, name: &str| {
        format!(
            "the two bytes say {number}, and families 0 to 255 are called by one byte: \
             write {name}(..), which is tag 36"
        )
    };
    mend(
        "gate f(a: Qbit) {}\nqreg q[1];\n  ##0(q[0]);",
        "3:3",
        "end 31 13 0 0\n",
        31,
        &low("0", "f"),
    );
    mend(
        "gate g(a: Qbit) { ##255(#9); }",
        "1:19",
        "end 31 8 0 0\n",
        31,
        &low("255", "#255"),
    );
    let found = tool(&["check", "--bytes", "-"], &[0x27, 2, 0, 3, 0]);
    let message = format!("byte 0: 31: {}\n  {}\n", meaning(31), low("3", "#3"));
    assert_eq!(said(&found), format!("mqasm: standard input: {message}"));
}

#[test]
fn calls_of_families_past_255() {
    let behind = |call: &str, number: u32, details: &str| {
        let text = format!("{}qreg q[2];\n{call}", families(300));
        let end = format!("end {number} {} 0 0\n", 300 * 8 + 5);
        mend(&text, "302:1", &end, number, details);
    };
    behind(
        "#300(q[0]);",
        8,
        "#300 is asked for, and there are 300 families here, from number 0 on",
    );
    behind(
        "f299(q[0], q[1]);",
        4,
        "'f299' takes no size and 1 operand, and this call has no size and 2 operands",
    );
    let text = format!("{}qreg q[2];\nf256(q);", families(257));
    let found = tool(&["check", "-"], text.as_bytes());
    let details = "'f256' takes one qubit here, and q is a whole register of qubits: \
                   write q[0], or another element";
    assert!(said(&found).contains(":259:6: 9: "));
    assert!(said(&found).ends_with(&format!("  {details}\n")));
}

#[test]
fn sizes_of_families_past_255() {
    let before = families(256);
    not_shown(
        &format!("{before}family(k) f(x: Qbit[k+1]) {{}} qreg q[5]; f(5)(q);"),
        "'q' has 5 cells, and 'x' of 'f' takes 6 here: the one less the other comes to -1",
    );
    not_shown(
        &format!("{before}family(k) f(x: Qbit[k]) {{}} family(n) g(x: Qbit[n]) {{ f(n-1)(x); }}"),
        "the size n - 1 for 'k' of 'f' is not shown to be 0 or more: \
         it comes to n - 1, which is -1 at n = 0",
    );
}

#[test]
fn more_families_than_there_may_be() {
    gives(&["check", "-"], &families(4096), 0, "end 0 0 0 0\n", "");
    mend(
        &families(4097),
        "4097:1",
        "end 6 32768 0 0\n",
        6,
        "4096 families are declared before this one, and 4096 are the most",
    );
}

#[test]
fn indexes_and_conditions() {
    mend(
        "family(n, m) f(x: Qbit[n*m]) {}",
        "1:25",
        "end 10 8 0 0\n",
        10,
        "n * m: one side of a product must be a number",
    );
    mend(
        "family(n, m) f(x: Qbit) { phase(1+n*m) x; }",
        "1:36",
        "end 10 19 0 0\n",
        10,
        "n * m: one side of a product must be a number",
    );
    mend(
        "creg c[1]; if (c[0] == 2) {}",
        "1:12",
        "end 13 5 0 0\n",
        13,
        "the value is 2: write 0 or 1",
    );
}

#[test]
fn numbers_out_of_range() {
    mend(
        "family(n) f(x: Qbit[65535*65535*n]) {}",
        "1:26",
        "end 11 11 0 0\n",
        11,
        "it is built by 65535 * 65535",
    );
    mend(
        "family(n) f(x: Qbit[n]) { h x[40000*50000]; }",
        "1:29",
        "end 11 15 0 0\n",
        11,
        "it is built for x[40000 * 50000]",
    );
    mend(
        "family(k) f(x: Qbit[k]) {}\nfamily(n) g(x: Qbit[n]) { f(0)(x[0..40000*50000]); }",
        "2:32",
        "end 11 33 0 0\n",
        11,
        "it is built for x[0..40000 * 50000]",
    );
}

#[test]
fn details_come_from_what_can_be_read() {
    let text = "qreg q[1]; h q[1]; bytes \"ff\";";
    let found = tool(&["check", "-"], text.as_bytes());
    assert!(said(&found).contains(": 12: "));
    assert!(said(&found).contains("  q0[1]: the index 1 is 0 or more, but"));
}

#[test]
fn messages_are_short() {
    let name = "a".repeat(5000);
    let sum = "+0".repeat(14);
    for text in [
        format!("h {name}[0];"),
        format!("qreg {name}[1]; qreg {name}[1];"),
        format!("qreg {name}[1]; h {name}[1];"),
        format!("family({name}) f(x: Qbit[{name}]) {{ h x[{name}{sum}]; }}"),
        format!("qreg q[1{name}];"),
        format!("OPENQASM {name};"),
    ] {
        let found = tool(&["check", "-"], text.as_bytes());
        assert_eq!(found.status.code(), Some(1), "{text:.40}");
        let length = said(&found).chars().count();
        assert!(length > 50 && length < 600, "{length}: {text:.40}");
    }
}

#[test]
fn sizes_that_are_due() {
    let list = |words: &[&str], number: u32, details: &str| {
        let words = [&["list"], words].concat();
        let message = format!("{number}: {}\n  {details}\n", meaning(number));
        let end = format!("end {number} 0 0 0\n");
        gives(
            &words,
            "",
            1,
            &end,
            &format!("mqasm: {}: {message}", words[1]),
        );
    };
    list(
        &["adder.mq", "--family", "add"],
        21,
        "family 'add' takes 1 size (n), and none is given: write --sizes n=3",
    );
    list(
        &["adder.mq", "--family", "maj", "--sizes", "4"],
        21,
        "family 'maj' takes no sizes, and 1 is given: leave out --sizes",
    );
    list(
        &["adder.mq", "--family", "7"],
        20,
        "family numbers start at 0; it declares toffoli, maj, add",
    );
    list(
        &["adder.bytes", "--family", "2", "--sizes", "1,2"],
        21,
        "family 'f2' takes 1 size (n0), and 2 are given: write --sizes n0=3",
    );
}

#[test]
fn runs_that_end_early() {
    let words = ["list", "bell.mq", "--output=12"];
    let found = tool(&words, b"");
    let details = "the output has 12 bytes, and a record takes 12: allow more with --output";
    assert!(said(&found).ends_with(&format!("{}\n  {details}\n", meaning(27))));
    let found = tool(&["list", "bell.mq", "--limit=1"], b"");
    let details = "the limit is 1: allow more steps with --limit";
    assert!(said(&found).ends_with(&format!("{}\n  {details}\n", meaning(26))));
}

/// Shows what a run lists, and what is said of its end at a place of the text.
fn ends(text: &str, list: &str, spot: &str, number: u32, details: &str) {
    let sentence = meaning(number);
    let message = format!("mqasm: standard input:{spot}: {number}: {sentence}\n  {details}\n");
    gives(&["list", "-"], text, 1, list, &message);
}

#[test]
fn phases_that_end_a_run() {
    ends(
        "qreg q[2]; for i = 62..64 { phase(i) q[0]; }",
        "phase 62 0\nphase 63 0\nend 32 18 2 7\n",
        "1:29",
        32,
        "k is i here, and in this run it is above 63: choose smaller sizes, \
         or leave out turns that are so small",
    );
    ends(
        "qreg q[2];\nfor i = 0..1 { cphase(65535) q[i], q[1-i]; cphase(i) q[i], q[1]; }",
        "end 32 18 0 3\n",
        "2:16",
        32,
        "k is 65535 here, and in this run it is above 63: choose smaller sizes, \
         or leave out turns that are so small",
    );
    ends(
        "qreg q[2];\nfor i = 0..1 { cphase(64*i) q[i], q[1]; }",
        "cphase 0 0 1\nend 25 18 1 5\n",
        "2:16",
        25,
        "q[i] and q[1] stand for the same wire in this run",
    );
}

#[test]
fn openqasm_is_not_metaqasm() {
    let rest = "which is not metaQASM: leave out OPENQASM and include, declare each gate that is \
                used by h, t, tdg, cx, phase and cphase, and write conditions on one bit, as \
                if (c[0] == 1) { .. }; 'mqasm help' shows the text form\n";
    let foreign = |text: &str, start: &str| {
        for command in ["check", "list", "draw", "assemble"] {
            let message = format!("mqasm: standard input:{start}, {rest}");
            gives(&[command, "-"], text, 1, "", &message);
        }
    };
    foreign(
        "OPENQASM 2.0;\ninclude \"qelib1.inc\";\nqreg q[2];\nh q[0];\n",
        "1:1: this is OpenQASM 2.0",
    );
    foreign(
        "// a Bell pair\n  OPENQASM 3;\nqubit q;\n",
        "2:3: this is OpenQASM 3",
    );
    foreign(
        "include \"qelib1.inc\";\nqreg q[2];\n",
        "1:1: this is OpenQASM 2.0",
    );
}
