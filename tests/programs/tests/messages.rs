//! What is said about texts and bytes that cannot be read, and where.

use programs::{assemble, disassemble};

/// Shows what is said about a text.
fn says(text: &str, message: &str) {
    match assemble(text) {
        Ok(_) => panic!("read: {text:.200}"),
        Err(error) => assert_eq!(error.to_string(), message, "{text:.200}"),
    }
}

/// Shows what is said about bytes.
fn says_of_bytes(bytes: &[u8], message: &str) {
    match disassemble(bytes) {
        Ok(text) => panic!("read: {text:.200}"),
        Err(error) => assert_eq!(error.to_string(), message),
    }
}

#[test]
fn characters_and_numbers() {
    says(
        "qreg q[1];\n  h q[0] @",
        "2:10: the character '@' has no meaning here",
    );
    says("h q[0] / h", "1:8: a comment starts with '//'");
    says("qreg q[65536];", "1:8: the number 65536 is above 65535");
    says(
        "qreg q[99999999999999999999];",
        "1:8: the number 99999999999999999999 is above 65535",
    );
    says("qreg q[3x];", "1:8: '3x' is neither a number nor a name");
    says("bytes \"20\nh", "1:7: this quoted text is not closed");
    says(
        "bytes \"2 0\";",
        "1:7: '2' is not a byte of two hexadecimal digits",
    );
    says(
        "bytes \"+1\";",
        "1:7: '+1' is not a byte of two hexadecimal digits",
    );
    says(
        "bytes 20;",
        "1:7: expected bytes in hexadecimal between quotes, found '20'",
    );
}

#[test]
fn names() {
    says("h q[0];", "1:3: no register named 'q' here");
    says(
        "qreg q[1];\nqreg q[2];",
        "2:6: the name 'q' is already in use here",
    );
    says(
        "qreg t[1];",
        "1:6: 't' has a meaning of its own and cannot name a register",
    );
    says(
        "qreg 5[1];",
        "1:6: expected a name for a register, found '5'",
    );
    says(
        "qreg q[1]; gate g(a: Qbit) { h q[0]; }",
        "1:32: no parameter named 'q' here",
    );
    says(
        "gate g(a: Qbit) { g(a); }",
        "1:19: no statement or family named 'g' here",
    );
    says("foo(q);", "1:1: no statement or family named 'foo' here");
    says(
        "gate g(a: Qbit, a: Qbit) {}",
        "1:17: the name 'a' is already in use here",
    );
    says("for i = 0..i {}", "1:12: no index variable named 'i' here");
    says(
        "for i = 0..1 { for i = 0..1 {} }",
        "1:20: the name 'i' is already in use here",
    );
    says(
        "qreg q[1]; for i = 0..0 { } h q[i];",
        "1:33: no index variable named 'i' here",
    );
}

#[test]
fn phases_are_no_names() {
    says(
        "qreg phase[1];",
        "1:6: 'phase' has a meaning of its own and cannot name a register",
    );
    says(
        "gate cphase(a: Qbit) {}",
        "1:6: 'cphase' has a meaning of its own and cannot name a family",
    );
}

#[test]
fn numbers_past_their_bytes() {
    let registers: String = (0..257)
        .map(|number| format!("qreg q{number}[0];"))
        .collect();
    says(
        &format!("{registers}\nh q256[0];"),
        "2:3: 'q256' is number 256, and numbers go up to 255",
    );
    let gates: String = (0..65_537)
        .map(|number| format!("gate g{number}(){{}}"))
        .collect();
    says(
        &format!("{gates}\ng65536();"),
        "2:1: 'g65536' is number 65536, and numbers go up to 65535",
    );
    assert!(assemble(&format!("{gates}\ng65535();")).is_ok());
}

#[test]
fn numbers_of_calls() {
    says(
        "#f(q);",
        "1:2: expected a number from 0 to 65535, found 'f'",
    );
    says(
        "##f(q);",
        "1:3: expected a number from 0 to 65535, found 'f'",
    );
    says(
        "####3(q);",
        "1:4: expected a number from 0 to 255, found '#'",
    );
    says(
        "###256(q);",
        "1:4: expected a number from 0 to 255, found '256'",
    );
    says(
        "h ###3;",
        "1:5: expected a number from 0 to 65535, found '#'",
    );
    says("#65536(q);", "1:2: the number 65536 is above 65535");
}

#[test]
fn what_is_due() {
    says("qreg q[1]", "1:10: expected ';', found the end of the text");
    says("qreg q(1);", "1:7: expected '[', found '('");
    says(
        "qreg q[n];",
        "1:8: expected a number from 0 to 65535, found 'n'",
    );
    says(
        "qreg q[1]; h q[0]",
        "1:18: expected ';', found the end of the text",
    );
    says("qreg q[1]; cx q[0];", "1:19: expected ',', found ';'");
    says("qreg q[1]; h q[];", "1:16: expected an index, found ']'");
    says("qreg q[1]; h 3;", "1:14: expected an operand, found '3'");
    says("reverse h", "1:9: expected '{', found 'h'");
    says("\nreverse {\n", "2:9: this '{' is not closed");
    says("}", "1:1: expected a statement, found '}'");
    says("for i = 1 { }", "1:11: expected '..', found '{'");
    says("gate g(a Qbit) {}", "1:10: expected ':', found 'Qbit'");
    says(
        "creg c[1]; if (c[0] = 1) {}",
        "1:21: expected '==', found '='",
    );
    says(
        "creg c[1]; if (c[0] == 256) {}",
        "1:24: expected a number from 0 to 255, found '256'",
    );
    says(
        "h #256;",
        "1:4: expected a number from 0 to 255, found '256'",
    );
    says(
        "gate g(a: Qbit) {} g(",
        "1:22: expected an operand, found the end of the text",
    );
    says("gate g(a: Qbit) {} g;", "1:21: expected '(', found ';'");
}

#[test]
fn phases_without_their_parts() {
    let k = "expected '(' (k stands before the operands, as phase(3) q[0])";
    says("qreg q[1]; phase q[0];", &format!("1:18: {k}, found 'q'"));
    says("qreg q[1]; cphase;", &format!("1:18: {k}, found ';'"));
    says(
        "qreg q[1]; phase(q[0]);",
        "1:18: no index variable named 'q' here",
    );
    says(
        "qreg q[1]; phase() q[0];",
        "1:18: expected an index, found ')'",
    );
    says(
        "qreg q[1]; phase(3, q[0]);",
        "1:19: expected ')', found ','",
    );
    says(
        "qreg q[1]; phase(3);",
        "1:20: expected an operand, found ';'",
    );
    says(
        "qreg q[1]; cphase(3) q[0];",
        "1:26: expected ',', found ';'",
    );
    says(
        "qreg q[1]; phase(3) q[0], q[0];",
        "1:25: expected ';', found ','",
    );
    says(
        "qreg q[1]; phase(0-1-) q[0];",
        "1:22: expected an index, found ')'",
    );
    says(
        "qreg q[1]; phase(65536) q[0];",
        "1:18: the number 65536 is above 65535",
    );
}

#[test]
fn slices_without_their_parts() {
    let start = "family(n) f(x: Qbit[n]) {} qreg q[5];\n";
    let call = |slice: &str, message: &str| says(&format!("{start}f(2)({slice});"), message);
    let more = "expected ']', or '..' and the last index of a slice (as q[0..2])";
    call("q[1 3]", &format!("2:10: {more}, found '3'"));
    call("q[1:3]", &format!("2:9: {more}, found ':'"));
    call("q[1,3]", &format!("2:9: {more}, found ','"));
    call("q[1", &format!("2:9: {more}, found ')'"));
    call("q[1..3", "2:12: expected ']', found ')'");
    call("q[1..3..4]", "2:12: expected ']', found '..'");
    call("q[1..]", "2:11: expected an index, found ']'");
    call("q[..3]", "2:8: expected an index, found '..'");
    call("q[1.3]", "2:9: the character '.' has no meaning here");
    call("q[1...3]", "2:11: the character '.' has no meaning here");
    call("q[1..m]", "2:11: no index variable named 'm' here");
    call("q[1..65536]", "2:11: the number 65536 is above 65535");
    call("q[1..3][0]", "2:13: expected ',', found '['");
    says("qreg q[0..2];", "1:9: expected ']', found '..'");
    says(
        "family(n) f(x: Qbit[0..n]) {}",
        "1:22: expected ']', found '..'",
    );
}

#[test]
fn family_types_without_their_parts() {
    let typed = |text: &str, message: &str| says(&format!("gate g(f: {text}) {{}}"), message);
    let types = "expected 'Qbit' (a family type has types only, as family(n)(Qbit, Qbit[n]))";
    typed("Bit", "1:11: expected 'Qbit' or 'family', found 'Bit'");
    typed("family", "1:17: expected '(', found ')'");
    typed("family()", "1:19: expected '(', found ')'");
    typed("family(3)(Qbit)", {
        "1:18: expected a name for an index variable, found '3'"
    });
    typed("family()(x: Qbit)", &format!("1:20: {types}, found 'x'"));
    typed("family()(family()(Qbit))", {
        &format!("1:20: {types}, found 'family'")
    });
    typed("family()(Qbit Qbit)", "1:25: expected ',', found 'Qbit'");
    typed("family(n, n)(Qbit)", {
        "1:21: the name 'n' is already in use here"
    });
    let many: Vec<_> = (0..256).map(|number| format!("n{number}")).collect();
    typed(&format!("family({})(Qbit)", many.join(", ")), {
        "1:11: more than 255 index variables"
    });
    let many = vec!["Qbit"; 256].join(", ");
    typed(&format!("family()({many})"), {
        "1:11: more than 255 parameters"
    });
}

#[test]
fn names_of_family_types_are_their_own() {
    says(
        "family(n) g(f: family(m)(Qbit[n]), x: Qbit[n]) {}",
        "1:31: no index variable named 'n' here",
    );
    says(
        "family(n) g(f: family(m)(Qbit[m]), x: Qbit[m]) {}",
        "1:44: no index variable named 'm' here",
    );
    says(
        "family(n) g(f: family(m)(Qbit[m]), x: Qbit[n]) { f(m)(x); }",
        "1:52: no index variable named 'm' here",
    );
    says(
        "gate g(f: family()(Qbit), f: Qbit) {}",
        "1:27: the name 'f' is already in use here",
    );
}

#[test]
fn families_that_cannot_be_named() {
    let twice = "gate twice(f: family()(Qbit), a: Qbit) { f(a); f(a); }";
    says(
        &format!("{twice}\ngate g(a: Qbit) {{ twice(g, a); }}"),
        "2:25: no parameter named 'g' here",
    );
    says(
        &format!("{twice}\nqreg q[1]; twice(later, q[0]); gate later(a: Qbit) {{}}"),
        "2:18: no register named 'later' here",
    );
    says(
        &format!("{twice}\nh twice[0];"),
        "2:3: no register named 'twice' here",
    );
    says(
        &format!("{twice}\ngate g(a: Qbit) {{ f(a); }}"),
        "2:19: no statement or family named 'f' here",
    );
    says(
        "gate g(a: Qbit, b: Qbit) { a(b); }",
        "1:28: no statement or family named 'a' here",
    );
}

#[test]
fn sizes_where_operands_are_due() {
    says(
        "family(n) f(x: Qbit[n]) {} f(3);",
        "1:30: expected an operand (sizes stand before the operands, as f(3)(q)), found '3'",
    );
    says(
        "family(n) f(x: Qbit[n]) { h n; }",
        "1:29: expected an operand, and 'n' is an index variable",
    );
}

#[test]
fn too_deep_or_too_long() {
    let deep = "reverse {".repeat(20_000);
    says(&deep, "1:586: blocks or parentheses lie deeper than 64");
    let open = format!("qreg q[1]; h q[{}", "(".repeat(20_000));
    says(&open, "1:81: blocks or parentheses lie deeper than 64");
    let chain = format!("qreg q[1]; h q[0{}];", "+1".repeat(20_000));
    says(&chain, "1:143: parts lie deeper in each other than 64");
    let long = format!("qreg q[1]; reverse {{ {} }}", "h q[0]; ".repeat(6000));
    says(
        &long,
        "1:12: this takes 72000 bytes, and a field holds at most 65535",
    );
    let many: Vec<_> = (0..256).map(|number| format!("n{number}")).collect();
    let many = format!("family({}) f(x: Qbit) {{}}", many.join(", "));
    says(&many, "1:1: more than 255 index variables");
}

#[test]
fn long_programs_are_the_checkers_business() {
    let text = format!("qreg q[1]; {}", "h q[0];".repeat(6000));
    assert_eq!(assemble(&text).unwrap().bytes.len(), 72_005);
}

#[test]
fn bytes_that_do_not_read() {
    says_of_bytes(&[0x20], "byte 0: fewer than 3 bytes are left for a field");
    says_of_bytes(
        &[2, 3, 0, 1, 0],
        "byte 0: this field reaches past its enclosing end",
    );
    says_of_bytes(
        &[2, 1, 0, 1],
        "byte 0: this field ends before its own bytes do",
    );
    says_of_bytes(
        &[2, 3, 0, 1, 0, 0],
        "byte 0: this field has bytes left over",
    );
    says_of_bytes(
        &[7, 0, 0],
        "byte 0: a declaration or statement is due here, and tag 7 is none",
    );
    says_of_bytes(
        &[0x25, 3, 0, 2, 0, 0],
        "byte 3: a statement is due here, and tag 2 is none",
    );
    says_of_bytes(
        &[0x20, 0, 0],
        "byte 0: this field ends where an operand is due",
    );
    says_of_bytes(
        &[1, 2, 0, 0, 1],
        "byte 0: this field ends where a type is due",
    );
}

#[test]
fn calls_that_do_not_read() {
    says_of_bytes(
        &[0x24, 9, 0, 0, 0x30, 1, 0, 0, 0x41, 1, 0, 0],
        "byte 0: this call has an index after an operand",
    );
    for head in [&[0x27, 0, 0][..], &[0x27, 1, 0, 44]] {
        says_of_bytes(head, "byte 0: this field ends before its own bytes do");
    }
    says_of_bytes(
        &[0x27, 10, 0, 0, 1, 0x30, 1, 0, 0, 0x41, 1, 0, 0],
        "byte 0: this call has an index after an operand",
    );
}

#[test]
fn phases_that_do_not_read() {
    for tag in [40, 41] {
        let k_missing = "byte 0: this field ends where an index is due";
        says_of_bytes(&[tag, 0, 0], k_missing);
        let no_k = "byte 3: an index is due here, and tag 48 is none";
        says_of_bytes(&[tag, 4, 0, 48, 1, 0, 0], no_k);
    }
    says_of_bytes(
        &[41, 9, 0, 64, 2, 0, 3, 0, 48, 1, 0, 0],
        "byte 0: this field ends where an operand is due",
    );
    says_of_bytes(
        &[40, 13, 0, 64, 2, 0, 3, 0, 48, 1, 0, 0, 48, 1, 0, 0],
        "byte 0: this field has bytes left over",
    );
    says_of_bytes(
        &[43, 0, 0],
        "byte 0: a declaration or statement is due here, and tag 43 is none",
    );
}

#[test]
fn slices_that_do_not_read() {
    let call = |slice: &[u8]| {
        let length = 1 + slice.len() as u8;
        [&[0x24, length, 0, 0], slice].concat()
    };
    says_of_bytes(
        &call(&[50, 0, 0]),
        "byte 4: this field ends before its own bytes do",
    );
    for one_or_none in [&[50, 1, 0, 0][..], &[50, 6, 0, 0, 64, 2, 0, 1, 0]] {
        let missing = "byte 4: this field ends where an index is due";
        says_of_bytes(&call(one_or_none), missing);
    }
    says_of_bytes(
        &call(&[50, 9, 0, 0, 64, 2, 0, 1, 0, 48, 0, 0]),
        "byte 13: an index is due here, and tag 48 is none",
    );
    says_of_bytes(
        &call(&[50, 10, 0, 0, 65, 1, 0, 0, 65, 1, 0, 0, 0]),
        "byte 4: this field has bytes left over",
    );
    says_of_bytes(
        &call(&[52, 0, 0]),
        "byte 4: an index or operand is due here, and tag 52 is none",
    );
}

#[test]
fn family_types_that_do_not_read() {
    let family = |parameter: &[u8]| {
        let length = 2 + parameter.len() as u8;
        [&[1, length, 0, 0, 1], parameter].concat()
    };
    for short in [&[18, 0, 0][..], &[18, 1, 0, 0]] {
        let missing = "byte 5: this field ends before its own bytes do";
        says_of_bytes(&family(short), missing);
    }
    says_of_bytes(
        &family(&[18, 2, 0, 0, 1]),
        "byte 5: this field ends where a type Qbit or Qbit[..] is due",
    );
    says_of_bytes(
        &family(&[18, 6, 0, 0, 1, 16, 0, 0, 0]),
        "byte 5: this field has bytes left over",
    );
    says_of_bytes(
        &family(&[18, 10, 0, 0, 1, 18, 5, 0, 0, 1, 16, 0, 0]),
        "byte 10: a type Qbit or Qbit[..] is due here, and tag 18 is none",
    );
    says_of_bytes(
        &family(&[19, 0, 0]),
        "byte 5: a type is due here, and tag 19 is none",
    );
}

#[test]
fn passed_families_and_parameter_calls_that_do_not_read() {
    says_of_bytes(
        &[42, 0, 0],
        "byte 0: this field ends before its own bytes do",
    );
    says_of_bytes(
        &[42, 9, 0, 0, 48, 1, 0, 0, 65, 1, 0, 0],
        "byte 0: this call has an index after an operand",
    );
    for short in [&[51, 0, 0][..], &[51, 1, 0, 0]] {
        let gate = [&[32, short.len() as u8, 0], short].concat();
        says_of_bytes(&gate, "byte 3: this field ends before its own bytes do");
    }
    says_of_bytes(
        &[32, 6, 0, 51, 3, 0, 0, 0, 0],
        "byte 3: this field has bytes left over",
    );
}

#[test]
fn bytes_nested_too_deep_for_text() {
    let mut bytes: Vec<u8> = Vec::new();
    for _ in 0..1000 {
        let length = u16::try_from(bytes.len()).unwrap().to_le_bytes();
        bytes.splice(0..0, [0x25, length[0], length[1]]);
    }
    says_of_bytes(&bytes, "byte 192: fields lie deeper than 64");
}
