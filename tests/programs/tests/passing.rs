//! What the tool says of families that are passed, of the parameters that take them, and of the
//! calls of these parameters.

mod common;

use common::{gives, kind, mend, not_shown, said, tool, wrote};
use programs::meaning;

/// A family of one wire, and one that calls what it is given for it twice.
const TWICE: &str = "gate turn(a: Qbit) { t a; }
gate twice(f: family()(Qbit), a: Qbit) { f(a); f(a); }\n";

/// The text of these families and more behind them.
fn behind(text: &str) -> String {
    format!("{TWICE}{text}")
}

/// Shows that a text is accepted.
fn accepted(text: &str) {
    gives(&["check", "-"], text, 0, "end 0 0 0 0\n", "");
}

#[test]
fn what_is_passed_is_called() {
    let text = behind("qreg q[2]; twice(turn, q[1]); reverse { twice(turn, q[0]); }");
    let listing = "t 1\nt 1\ntdg 0\ntdg 0\nend 0 0 4 11\n";
    gives(&["list", "-"], &text, 0, listing, "");
    let bytes = programs::assemble(&text).unwrap().bytes;
    let found = tool(&["list", "--bytes", "-"], &bytes);
    assert_eq!(wrote(&found), listing);
}

#[test]
fn what_is_passed_may_take_fewer_cells() {
    let given = "family(k) with(f: family(m)(Qbit[2*m+1], Qbit), x: Qbit[2*k+1], a: Qbit) \
                 { f(k)(x, a); }";
    for taken in ["2*m+1", "m+1", "2*m", "m", "1", "0"] {
        let family = format!("family(m) g(y: Qbit[{taken}], a: Qbit) {{}}\n");
        accepted(&format!("{family}{given} qreg q[3]; with(1)(g, q, q[0]);"));
    }
}

#[test]
fn families_that_are_passed_too_late() {
    mend(
        &behind("gate late(a: Qbit) {}\nqreg q[1]; twice(late, q[0]);"),
        "4:18",
        "end 33 64 0 0\n",
        33,
        "'late' is declared after 'twice': declare it before 'twice'",
    );
    mend(
        &behind("gate late(x: Qbit[2]) {} gate g(a: Qbit) { twice(late, a); }"),
        "3:50",
        "end 33 72 0 0\n",
        33,
        "'late' is declared after 'twice': declare it before 'twice'",
    );
    mend(
        &behind("qreg q[1]; twice(turn, twice);"),
        "3:24",
        "end 33 61 0 0\n",
        33,
        "'twice' cannot be passed to itself",
    );
    let bytes = programs::assemble(&behind("##1(##1, #0);")).unwrap().bytes;
    let found = tool(&["check", "--bytes", "-"], &bytes);
    assert!(said(&found).contains(": 31: "));
    let bytes = programs::assemble(&behind("#1(##1, #0);")).unwrap().bytes;
    let found = tool(&["check", "--bytes", "-"], &bytes);
    let message = format!(
        "byte 51: 33: {}\n  'f1' cannot be passed to itself\n",
        meaning(33)
    );
    assert_eq!(said(&found), format!("mqasm: standard input: {message}"));
}

#[test]
fn instances_that_nothing_is_passed_to() {
    let details = "'f' of 'twice' takes a family, and only a call can pass one: \
                   list a family that calls 'twice', or the whole program";
    let message = format!("mqasm: standard input: 34: {}\n  {details}\n", meaning(34));
    for command in ["list", "draw"] {
        for sizes in [&[][..], &["--sizes=3"], &["--sizes=70000"]] {
            let words = [&[command, "-", "--family=twice"], sizes].concat();
            gives(&words, TWICE, 1, "end 34 0 0 0\n", &message);
        }
    }
    gives(&["qasm", "-", "--family=1"], TWICE, 1, "", &message);
    let listing = "t 0\nend 0 0 1 1\n";
    gives(&["list", "-", "--family=turn"], TWICE, 0, listing, "");
    let bytes = programs::assemble(TWICE).unwrap().bytes;
    let found = tool(&["list", "--bytes", "-", "--family=f1"], &bytes);
    assert!(said(&found).contains("\n  'x0' of 'f1' takes a family, and only a call can"));
    let message = format!(
        "mqasm: standard input: 20: {}\n  family numbers start at 0; it declares turn, twice\n",
        meaning(20)
    );
    let words = ["list", "-", "--family=2"];
    gives(&words, TWICE, 1, "end 20 0 0 0\n", &message);
}

#[test]
fn families_of_another_type() {
    let takes = |declared: &str, details: &str| {
        let text = format!("{declared}\n{TWICE}qreg q[1]; twice(g, q[0]);");
        let agree = "sizes, operands and their kinds must agree";
        let details = format!("'twice' takes family()(Qbit) here, and g is {details}: {agree}");
        kind(&text, &details);
    };
    takes("gate g(x: Qbit[1]) {}", "family()(Qbit[1])");
    takes("gate g(a: Qbit, b: Qbit) {}", "family()(Qbit, Qbit)");
    takes("family(n) g(a: Qbit) {}", "family(n)(Qbit)");
    kind(
        &behind("gate over(f: family(n)(Qbit[n])) {} over(turn);"),
        "'over' takes family(n)(Qbit[n]) here, and turn is family()(Qbit): \
         sizes, operands and their kinds must agree",
    );
    kind(
        &behind("gate over(f: family()(Qbit, Qbit)) {} over(twice);"),
        "'over' takes family()(Qbit, Qbit) here, and twice is family()(family()(Qbit), Qbit), \
         which takes a family itself and so cannot be passed",
    );
}

#[test]
fn families_where_none_is_taken() {
    let declared = "qreg q[2]; creg c[1];";
    let is_none = |text: &str, takes: &str| {
        let text = behind(&format!("{declared} {text}"));
        kind(&text, &format!("{takes} here, and turn is a family"));
    };
    is_none("h turn;", "h takes one qubit");
    is_none("cx q[0], turn;", "cx takes one qubit");
    is_none("phase(1) turn;", "phase takes one qubit");
    is_none("reset turn;", "reset takes one qubit");
    is_none("measure turn -> c[0];", "measure takes one qubit");
    is_none("measure q[0] -> turn;", "measure takes one bit of a creg");
    is_none("if (turn == 1) {}", "if takes one bit of a creg");
    is_none("twice(turn, turn);", "'twice' takes one qubit");
    is_none(
        "family(n) each(x: Qbit[n]) {} each(1)(turn);",
        "'each' takes a register of qubits",
    );
    is_none(
        "gate g(f: family()(Qbit), a: Qbit) { f(turn); }",
        "'f' takes one qubit",
    );
}

#[test]
fn other_operands_where_a_family_is_taken() {
    let takes = "'twice' takes family()(Qbit) here, and";
    kind(
        &behind("qreg q[2]; twice(q, q[0]);"),
        &format!("{takes} q is a whole register of qubits"),
    );
    kind(
        &behind("qreg q[2]; twice(q[1], q[0]);"),
        &format!("{takes} q[1] is one qubit"),
    );
    kind(
        &behind("gate g(a: Qbit) { twice(a, a); }"),
        &format!("{takes} a is one qubit"),
    );
}

#[test]
fn parameters_that_take_a_family_are_called_only() {
    let inside = |text: &str, details: &str| {
        let text = format!("gate g(f: family()(Qbit), a: Qbit) {{ {text} }}");
        kind(&behind(&text), details);
    };
    let on = "it can be called and not passed on, so name a declared family";
    inside(
        "twice(f, a);",
        &format!("'twice' takes family()(Qbit) here, and f is a family parameter: {on}"),
    );
    inside(
        "h f;",
        "h takes one qubit here, and f is a family parameter",
    );
    inside(
        "f(f);",
        "'f' takes one qubit here, and f is a family parameter",
    );
    inside(
        "t f[0];",
        "t takes one qubit here, and f[0] is an element of a family parameter",
    );
    inside(
        "f(f[0..1]);",
        "'f' takes one qubit here, and f[0..1] is a slice of a family parameter",
    );
}

#[test]
fn calls_of_what_takes_no_family() {
    let call = "this call takes a parameter of a family type, and";
    kind(
        &behind("qreg q[1]; ###0(q[0]);"),
        &format!("{call} q is a whole register of qubits"),
    );
    kind(
        "creg c[1]; ###0();",
        &format!("{call} c is a whole register of bits"),
    );
    kind(
        &behind("gate g(f: family()(Qbit), a: Qbit) { ###1(a); }"),
        &format!("{call} a is one qubit"),
    );
    kind(
        "family(n) g(x: Qbit[n]) { ###0(n)(x); }",
        &format!("{call} x is a whole register of qubits"),
    );
}

#[test]
fn families_and_parameters_out_of_scope() {
    mend(
        &behind("qreg q[1]; twice(##2, q[0]);"),
        "3:18",
        "end 8 56 0 0\n",
        8,
        "#2 is asked for, and there are 2 families here, from number 0 on",
    );
    mend(
        &behind("gate g(a: Qbit) { twice(##2, a); }"),
        "3:25",
        "end 8 59 0 0\n",
        8,
        "#2 is asked for, and there are 2 families here, from number 0 on",
    );
    mend(
        &behind("gate g(f: family()(Qbit), a: Qbit) { ###2(a); }"),
        "3:38",
        "end 8 63 0 0\n",
        8,
        "#2 is asked for, and there are 2 parameters here, from number 0 on",
    );
    mend(
        "###0();",
        "1:1",
        "end 8 0 0 0\n",
        8,
        "#0 is asked for, and there is no register here",
    );
    mend(
        "gate g(f: family(n)(Qbit[#1])) {}",
        "1:26",
        "end 8 13 0 0\n",
        8,
        "#1 is asked for, and there is 1 index variable here, number 0",
    );
}

#[test]
fn calls_of_parameters_with_other_parts() {
    let call = |call: &str, spot: &str, end: &str, number: u32, details: &str| {
        let text = format!("family(k) g(f: family(n)(Qbit[n]), x: Qbit[k]) {{ {call} }}");
        mend(&text, spot, end, number, details);
    };
    call(
        "f(x);",
        "1:52",
        "end 3 28 0 0\n",
        3,
        "this call lacks its sizes: 'f' takes 1 size, as f(n)(..)",
    );
    call(
        "f(k)(x, x);",
        "1:50",
        "end 4 24 0 0\n",
        4,
        "'f' takes 1 size and 1 operand, and this call has 1 size and 2 operands",
    );
    call(
        "f(k, k)(x);",
        "1:55",
        "end 3 32 0 0\n",
        3,
        "'f' takes 1 size and 1 operand, and this call has 2 sizes and 1 operand",
    );
}

#[test]
fn calls_of_parameters_that_are_not_shown() {
    let call = |call: &str, details: &str| {
        let text = format!("family(k) g(f: family(n)(Qbit[2*n]), x: Qbit[k]) {{ {call} }}");
        not_shown(&text, details);
    };
    call(
        "f(k)(x);",
        "'x' has k cells, and 'f' takes 2*k here: \
         the one less the other comes to -k, which falls below 0 as k grows",
    );
    call(
        "f(k-1)(x);",
        "the size k - 1 for 'n' of 'f' is not shown to be 0 or more: \
         it comes to k - 1, which is -1 at k = 0",
    );
    call(
        "f(0)(x[1..k]);",
        "x[1..k]: the last index k, which is in the slice, is not shown to be below the size k: \
         size - 1 - last comes to -1",
    );
}

#[test]
fn families_that_take_more_cells_than_they_are_given() {
    let passed = |given: &str, taken: &str, details: &str| {
        let text = format!(
            "family(i, j) g(a: Qbit, y: Qbit[{taken}]) {{}}
             family(k) with(f: family(n, m)(Qbit, Qbit[{given}]), a: Qbit) {{}}
             qreg q[1]; for i = 1..0 {{ with(9)(g, q[0]); }}"
        );
        not_shown(&text, details);
    };
    passed(
        "n",
        "i+1",
        "'f' of 'with' gives n cells for 'y' of 'g', which takes n + 1: \
         the one less the other comes to -1",
    );
    passed(
        "n+m",
        "2*j",
        "'f' of 'with' gives n + m cells for 'y' of 'g', which takes 2*m: \
         the one less the other comes to n - m, which falls below 0 as m grows",
    );
    passed(
        "2*n+m",
        "1",
        "'f' of 'with' gives 2*n + m cells for 'y' of 'g', which takes 1: \
         the one less the other comes to 2*n + m - 1, which is -1 at n = 0, m = 0",
    );
}

#[test]
fn sizes_and_counts_of_family_types() {
    not_shown(
        "family(k) g(x: Qbit[k], f: family(n)(Qbit, Qbit[n-1])) {}",
        "the size n - 1 in the type of parameter 'f' is not shown to be 0 or more: \
         it comes to n - 1, which is -1 at n = 0",
    );
    let counts = |parameter: &str, details: &str| {
        let text = format!("gate g(f: {parameter}) {{}}");
        mend(&text, "1:11", "end 6 5 0 0\n", 6, details);
    };
    counts("family()()", "a family needs a parameter");
    counts(
        "family(a, b, c, d, e)()",
        "5 index variables are declared, and 4 are the most",
    );
    let nine = vec!["Qbit"; 9].join(", ");
    counts(
        &format!("family()({nine})"),
        "9 parameters are declared, and 8 are the most",
    );
    mend(
        "gate g(f: family(n, m)(Qbit[n*m])) {}",
        "1:30",
        "end 10 13 0 0\n",
        10,
        "n * m: one side of a product must be a number",
    );
    mend(
        "gate g(f: family(n)(Qbit[65535*65535*n])) {}",
        "1:31",
        "end 11 16 0 0\n",
        11,
        "it is built by 65535 * 65535",
    );
}

#[test]
fn details_of_bytes_have_invented_names() {
    let text = "family(i) g(y: Qbit[i+1]) {} \
                family(k) with(a: Qbit, f: family(n)(Qbit[n])) {} qreg q[1]; with(0)(q[0], g);";
    let bytes = programs::assemble(text).unwrap().bytes;
    let found = tool(&["check", "--bytes", "-"], &bytes);
    let details = "'x1' of 'f1' gives n0 cells for 'x0' of 'f0', which takes n0 + 1: \
                   the one less the other comes to -1";
    assert!(said(&found).ends_with(&format!("  {details}\n")));
    let text = "gate g(a: Qbit, f: family(n)(Qbit[n-1])) {}";
    let bytes = programs::assemble(text).unwrap().bytes;
    let found = tool(&["check", "--bytes", "-"], &bytes);
    assert!(said(&found).contains("\n  the size n0 - 1 in the type of parameter 'x1' is not"));
}
