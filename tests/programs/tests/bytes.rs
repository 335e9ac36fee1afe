//! The bytes that each part of the text form stands for.

use programs::assemble;

/// Bytes from hexadecimal.
fn hex(text: &str) -> Vec<u8> {
    let pairs = text.split_whitespace();
    pairs
        .map(|pair| u8::from_str_radix(pair, 16).unwrap())
        .collect()
}

/// Shows that a text assembles to bytes.
fn gives(text: &str, bytes: &str) {
    match assemble(text) {
        Ok(found) => assert_eq!(found.bytes, hex(bytes), "{text}"),
        Err(error) => panic!("{text}: {error}"),
    }
}

#[test]
fn nothing_is_no_bytes() {
    gives("", "");
    gives(" // only a comment", "");
    gives("// one\n\t// two\r\n", "");
}

#[test]
fn registers() {
    gives("qreg q[5];", "02 02 00 05 00");
    gives("creg c[65535];", "03 02 00 ff ff");
    gives("qreg q[0]; creg c[258];", "02 02 00 00 00 03 02 00 02 01");
}

#[test]
fn bell() {
    let bytes = "02 02 00 02 00 20 09 00 31 06 00 00 40 02 00 00 00 \
        23 12 00 31 06 00 00 40 02 00 00 00 31 06 00 00 40 02 00 01 00";
    gives("qreg q[2]; h q[0]; cx q[0], q[1];", bytes);
    gives("qreg q[2]; h(q[0]); cx (q[0], q[1]);", bytes);
}

#[test]
fn gates_on_whole_operands() {
    gives(
        "gate g(a: Qbit, b: Qbit) { h a; t a; tdg b; cx b, a }",
        "01 28 00 00 02 10 00 00 10 00 00 \
         20 04 00 30 01 00 00 21 04 00 30 01 00 00 22 04 00 30 01 00 01 \
         23 08 00 30 01 00 01 30 01 00 00",
    );
}

#[test]
fn phases() {
    let q = "02 02 00 02 00";
    let wire = |number: &str| format!("31 06 00 00 40 02 00 {number} 00");
    let (zero, one) = (wire("00"), wire("01"));
    let phase = format!("{q} 28 0e 00 40 02 00 03 00 {one}");
    gives("qreg q[2]; phase(3) q[1];", &phase);
    gives("qreg q[2]; phase (3)(q[1]);", &phase);
    let cphase = format!("{q} 29 17 00 40 02 00 3f 00 {one} {zero}");
    gives("qreg q[2]; cphase(63) q[1], q[0];", &cphase);
    gives("qreg q[2]; reverse { cphase(63)(q[1], q[0]) }", {
        &format!("{q} 25 1a 00 29 17 00 40 02 00 3f 00 {one} {zero}")
    });
}

#[test]
fn k_is_an_index() {
    gives(
        "for i = 0..1 { for j = i..1 { cphase(j-i+1) #0, #1[i]; } }",
        "26 38 00 40 02 00 00 00 40 02 00 01 00 \
         26 2b 00 41 01 00 00 40 02 00 01 00 \
         29 1f 00 42 10 00 43 08 00 41 01 00 01 41 01 00 00 40 02 00 01 00 \
         30 01 00 00 31 05 00 01 41 01 00 00",
    );
    gives(
        "family(n) f(x: Qbit) { phase((n)) x; phase(2*n) (x); }",
        "01 23 00 01 01 10 00 00 28 08 00 41 01 00 00 30 01 00 00 \
         28 10 00 44 09 00 40 02 00 02 00 41 01 00 00 30 01 00 00",
    );
}

#[test]
fn gate_is_a_family_without_variables() {
    let bytes = "01 05 00 00 01 10 00 00";
    gives("gate g(a: Qbit) {}", bytes);
    gives("family() g(a: Qbit) {}", bytes);
}

#[test]
fn family_with_sizes() {
    gives(
        "family(n, m) f(x: Qbit[n], y: Qbit[m]) {}",
        "01 10 00 02 02 11 04 00 41 01 00 00 11 04 00 41 01 00 01",
    );
}

#[test]
fn measure_reset_if() {
    gives(
        "qreg q[1]; creg c[1]; measure q[0] -> c[0]; reset q[0]; if (c[0] == 1) { h q[0]; }",
        "02 02 00 01 00 03 02 00 01 00 \
         04 12 00 31 06 00 00 40 02 00 00 00 31 06 00 01 40 02 00 00 00 \
         05 09 00 31 06 00 00 40 02 00 00 00 \
         06 16 00 01 31 06 00 01 40 02 00 00 00 20 09 00 31 06 00 00 40 02 00 00 00",
    );
}

#[test]
fn loops_and_variables() {
    let bytes = "01 28 00 01 01 11 04 00 41 01 00 00 \
         26 1c 00 40 02 00 01 00 41 01 00 00 \
         20 10 00 31 0d 00 00 43 09 00 41 01 00 01 40 02 00 01 00";
    gives(
        "family(n) f(x: Qbit[n]) { for i = 1..n { h x[i-1]; } }",
        bytes,
    );
    gives("family(n) f(x:Qbit[n]){for i=1..n do{h(x[i - 1])}}", bytes);
}

#[test]
fn loop_variables_are_numbered_from_outside() {
    gives(
        "for i = 0..1 { for j = i..i { } } for k = 0..0 { reverse { } }",
        "26 15 00 40 02 00 00 00 40 02 00 01 00 26 08 00 41 01 00 00 41 01 00 00 \
         26 0d 00 40 02 00 00 00 40 02 00 00 00 25 00 00",
    );
}

#[test]
fn index_trees() {
    let size = |index: &str| format!("family(a, b) f(x: Qbit[{index}]) {{}}");
    let (a, b) = ("41 01 00 00", "41 01 00 01");
    let head = |length: &str, inner: &str| format!("01 {length} 00 02 01 11 {inner}");
    gives(
        &size("a+b"),
        &head("10", &format!("0b 00 42 08 00 {a} {b}")),
    );
    gives(
        &size("a*b"),
        &head("10", &format!("0b 00 44 08 00 {a} {b}")),
    );
    gives(
        &size("a-b-a"),
        &head("17", &format!("12 00 43 0f 00 43 08 00 {a} {b} {a}")),
    );
    gives(
        &size("a-(b-a)"),
        &head("17", &format!("12 00 43 0f 00 {a} 43 08 00 {b} {a}")),
    );
    gives(
        &size("a+b*a"),
        &head("17", &format!("12 00 42 0f 00 {a} 44 08 00 {b} {a}")),
    );
    gives(
        &size("(a+b)*a"),
        &head("17", &format!("12 00 44 0f 00 42 08 00 {a} {b} {a}")),
    );
    gives(&size("((a))"), &head("09", &format!("04 00 {a}")));
}

#[test]
fn calls() {
    let families = "gate g(a: Qbit) {} family(n) f(x: Qbit[n]) {} qreg q[2];";
    let bytes = "01 05 00 00 01 10 00 00 01 09 00 01 01 11 04 00 41 01 00 00 02 02 00 02 00";
    let with =
        |call: &str, end: &str| gives(&format!("{families} {call}"), &format!("{bytes} {end}"));
    with("g(q[1]);", "24 0a 00 00 31 06 00 00 40 02 00 01 00");
    with("f(2)(q);", "24 0a 00 01 40 02 00 02 00 30 01 00 00");
    with(
        "f((1)+1)(q);",
        "24 12 00 01 42 0a 00 40 02 00 01 00 40 02 00 01 00 30 01 00 00",
    );
    with("g()(q);", "24 05 00 00 30 01 00 00");
}

#[test]
fn slices() {
    let start = "family(n) f(x: Qbit[n]) {} qreg q[5];";
    let bytes = "01 09 00 01 01 11 04 00 41 01 00 00 02 02 00 05 00";
    let literal = |number: &str| format!("40 02 00 {number} 00");
    let (one, three) = (literal("01"), literal("03"));
    let call = format!("{bytes} 24 14 00 00 {three} 32 0b 00 00 {one} {three}");
    for slice in [
        "q[1..3]",
        "q[1 .. 3]",
        "q [ 1.. 3 ]",
        "q[(1)..(3)]",
        "#0[1..3]",
    ] {
        gives(&format!("{start} f(3)({slice});"), &call);
    }
    gives(
        &format!("{start} f(0)(q[5..4]);"),
        &format!(
            "{bytes} 24 14 00 00 {} 32 0b 00 00 {} {}",
            literal("00"),
            literal("05"),
            literal("04")
        ),
    );
}

#[test]
fn slices_have_indexes_at_both_ends() {
    let (n, i, one) = ("41 01 00 00", "41 01 00 01", "40 02 00 01 00");
    let sum = format!("42 08 00 {i} {n}");
    let last = format!("43 10 00 {sum} {one}");
    gives(
        "gate g(a: Qbit) {} family(n) f(z: Qbit[2*n]) { for i=0..n-1 { g(z[i..i+n-1]) } }",
        &format!(
            "01 05 00 00 01 10 00 00 01 44 00 01 01 11 0c 00 44 09 00 40 02 00 02 00 {n} \
             26 30 00 40 02 00 00 00 43 09 00 {n} {one} 24 1c 00 00 32 18 00 00 {i} {last}"
        ),
    );
}

#[test]
fn family_types() {
    gives(
        "gate g(f: family()(Qbit)) {}",
        "01 0a 00 00 01 12 05 00 00 01 10 00 00",
    );
    let bytes = "01 27 00 01 02 12 1b 00 02 03 11 04 00 41 01 00 00 10 00 00 \
         11 0c 00 42 09 00 41 01 00 01 40 02 00 01 00 11 04 00 41 01 00 00";
    gives(
        "family(n) g(f: family(m, k)(Qbit[m], Qbit, Qbit[k+1]), x: Qbit[n]) {}",
        bytes,
    );
    gives(
        "family(m) g(f: family(k, m)(Qbit[k], Qbit, Qbit[m+1]), x: Qbit[m]) {}",
        bytes,
    );
}

#[test]
fn passed_families_and_parameter_calls() {
    let turn = "01 05 00 00 01 10 00 00";
    let twice = "01 1d 00 00 02 12 05 00 00 01 10 00 00 10 00 00 \
         2a 05 00 00 30 01 00 01 2a 05 00 00 30 01 00 01";
    gives(
        "gate turn(a: Qbit) {} gate twice(f: family()(Qbit), a: Qbit) { f(a); f(a); } \
         qreg q[1]; twice(turn, q[0]);",
        &format!(
            "{turn} {twice} 02 02 00 01 00 24 0f 00 01 33 02 00 00 00 31 06 00 00 40 02 00 00 00"
        ),
    );
    gives(
        "family(n) with(x: Qbit[n], f: family(m)(Qbit[m])) { f(n-1)(x[1..n-1]); }",
        "01 3a 00 01 02 11 04 00 41 01 00 00 12 09 00 01 01 11 04 00 41 01 00 00 \
         2a 22 00 01 43 09 00 41 01 00 00 40 02 00 01 00 \
         32 12 00 00 40 02 00 01 00 43 09 00 41 01 00 00 40 02 00 01 00",
    );
}

#[test]
fn families_from_256_on_are_passed_by_the_same_tag() {
    let gates = (0..257).map(|number| format!("gate f{number}(a: Qbit) {{}}\n"));
    let before: String = gates.collect();
    let bytes = "01 05 00 00 01 10 00 00 ".repeat(257);
    gives(
        &format!("{before} gate g(f: family()(Qbit)) {{}} g(f0); g(f255); g(f256);"),
        &format!(
            "{bytes} 01 0a 00 00 01 12 05 00 00 01 10 00 00 27 07 00 01 01 33 02 00 00 00 \
             27 07 00 01 01 33 02 00 ff 00 27 07 00 01 01 33 02 00 00 01"
        ),
    );
}

#[test]
fn parameters_and_registers_come_before_families() {
    let f = "01 05 00 00 01 10 00 00";
    let typed = "12 05 00 00 01 10 00 00";
    gives(
        "gate f(a: Qbit) {} gate g(f: family()(Qbit)) { f(f); } gate h1(a: Qbit) { f(f); }",
        &format!(
            "{f} 01 12 00 00 01 {typed} 2a 05 00 00 30 01 00 00 \
             01 0e 00 00 01 10 00 00 24 06 00 00 33 02 00 00 00"
        ),
    );
    gives(
        "gate f(a: Qbit) {} gate g(f: Qbit) { f(f); } qreg f[1]; f(f); h f;",
        &format!(
            "{f} 01 0d 00 00 01 10 00 00 24 05 00 00 30 01 00 00 02 02 00 01 00 \
             24 05 00 00 30 01 00 00 20 04 00 30 01 00 00"
        ),
    );
    gives(
        "gate n(a: Qbit) {} family(n) g(f: family()(Qbit)) { h n; }",
        &format!("{f} 01 12 00 01 01 {typed} 20 05 00 33 02 00 00 00"),
    );
}

#[test]
fn families_from_256_on_are_called_by_two_bytes() {
    let gates = (0..299).map(|number| format!("gate f{number}(a: Qbit) {{}}\n"));
    let before: String = gates.collect();
    let last = "gate last(a: Qbit) { f256(a); f10(a); f255(a); f298(a); } last(#0);";
    let bytes = "01 05 00 00 01 10 00 00 ".repeat(299)
        + "01 27 00 00 01 10 00 00 \
           27 06 00 00 01 30 01 00 00 24 05 00 0a 30 01 00 00 \
           24 05 00 ff 30 01 00 00 27 06 00 2a 01 30 01 00 00 \
           27 06 00 2b 01 30 01 00 00";
    gives(&format!("{before}{last}"), &bytes);
}

#[test]
fn what_the_checker_refuses_can_be_written() {
    gives("h #7;", "20 04 00 30 01 00 07");
    gives("h #7[#9];", "20 08 00 31 05 00 07 41 01 00 09");
    gives("phase(#9) #7;", "28 08 00 41 01 00 09 30 01 00 07");
    gives(
        "h #7[#9..#8];",
        "20 0c 00 32 09 00 07 41 01 00 09 41 01 00 08",
    );
    gives("#3(1)(#0);", "24 0a 00 03 40 02 00 01 00 30 01 00 00");
    gives("#255(); #256();", "24 01 00 ff 27 02 00 00 01");
    gives("##3(1)(#0);", "27 0b 00 03 00 40 02 00 01 00 30 01 00 00");
    gives("##255(); ##65535();", "27 02 00 ff 00 27 02 00 ff ff");
    gives("###3(1)(#0);", "2a 0a 00 03 40 02 00 01 00 30 01 00 00");
    gives("###0(); ###255();", "2a 01 00 00 2a 01 00 ff");
    gives(
        "h ##300; #0(##65535, # #3);",
        "20 05 00 33 02 00 2c 01 24 0b 00 00 33 02 00 ff ff 33 02 00 03 00",
    );
    gives("gate g(f: family(n)()) {}", "01 07 00 00 01 12 02 00 01 00");
    gives(
        "gate g(f: family()(Qbit[#9])) {}",
        "01 0e 00 00 01 12 09 00 00 01 11 04 00 41 01 00 09",
    );
    gives(
        "creg c[1]; if (c == 200) {}",
        "03 02 00 01 00 06 05 00 c8 30 01 00 00",
    );
    gives("reverse { qreg q[1]; }", "25 05 00 02 02 00 01 00");
    gives("gate g() {} g();", "01 02 00 00 00 24 01 00 00");
    gives(
        "bytes \"ff 00 0A\"; reverse { bytes \"\" }",
        "ff 00 0a 25 00 00",
    );
}

#[test]
fn family_names_are_kept() {
    let found = assemble("gate g(a: Qbit) {} family(n) f(x: Qbit[n]) {}").unwrap();
    assert_eq!(found.families, ["g", "f"]);
}

#[test]
fn fields_know_where_they_stand() {
    let found = assemble("qreg q[2];\nfor i = 0..1 {\n    h q[i];\n}\n").unwrap();
    let spot = |place| found.spots.of(place).map(|spot| (spot.line, spot.column));
    assert_eq!(spot(0), Some((1, 1)));
    assert_eq!(spot(5), Some((2, 1)));
    assert_eq!(spot(18), Some((3, 5)));
    assert_eq!(spot(21), Some((3, 7)));
    assert_eq!(spot(6), None);
}
