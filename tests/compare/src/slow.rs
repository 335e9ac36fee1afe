//! The slowest programs that were found: to check, and to step through.

use generate::build::*;

/// The index v0 + v1 + v2 + v3, each times a factor.
fn all_sizes(factor: u16) -> Field {
    let times = |number| product(literal(factor), variable(number));
    (1..4).fold(times(0), |sizes, number| sum(sizes, times(number)))
}

/// The family that is called: 4 index variables and 8 parameters
/// Qbit[v0 + v1 + v2 + v3], so that each call builds and shows 8 sizes.
fn called() -> Field {
    let size = (1..4).fold(variable(0), |sizes, number| sum(sizes, variable(number)));
    family(4, vec![qbits(size); 8], vec![])
}

/// The sum of all variables above: every number of this form that may be other than 0 is,
/// but for the constant.
fn all_above(number: u8) -> Field {
    (1..number).fold(variable(0), |above, next| sum(above, variable(next)))
}

/// Statements inside 8 loops, each bounded by the sum of all variables above, so that
/// what is shown of the innermost variable goes through all of them.
fn in_eight_loops(statements: Vec<Field>) -> Vec<Field> {
    let inner = (5..12).rev().fold(statements, |inside, number| {
        vec![repeat(all_above(number), all_above(number), inside)]
    });
    vec![repeat(literal(0), all_above(4), inner)]
}

/// A family of 4 index variables that makes so many calls inside 8 loops.
fn calls_in_eight_loops(calls: usize) -> Vec<Field> {
    let one = call(0, vec![variable(11); 4], vec![whole(0); 8]);
    let body = in_eight_loops(vec![one; calls]);
    vec![called(), family(4, vec![qbits(all_sizes(512))], body)]
}

/// A family of 4 index variables that makes so many calls inside 8 loops, with slices from
/// the variable of the last loop but one to that of the last: what is shown of them goes
/// through all loops.
fn slices_in_eight_loops(calls: usize) -> Vec<Field> {
    let part = slice(0, variable(10), variable(11));
    let one = call(0, vec![], vec![part; 8]);
    let body = in_eight_loops(vec![one; calls]);
    let size = sum(all_sizes(512), literal(1));
    vec![
        family(0, vec![qbits(literal(1)); 8], vec![]),
        family(4, vec![qbits(size)], body),
    ]
}

/// The index 0 - s less a number, s being v0 + v1 + v2 + v3 times a factor.
fn below_sizes(factor: u16, less: u16) -> Field {
    let above = sum(all_sizes(factor), literal(less));
    difference(literal(0), above)
}

/// Statements inside 8 loops, of which only the outermost helps to show anything.
///
/// The outermost goes from -2s - 3 to -300s - 300, with s = v0 + v1 + v2 + v3, so that its
/// range shows much. The second may go up by 600s + 600, which is why what is shown against
/// the high ends fails too. All others go from a form to the same form, with every variable
/// above in it, so that all is gone through in each trial.
fn in_tried_loops(statements: Vec<Field>) -> Vec<Field> {
    let last = sum(all_above(11), variable(10));
    let innermost = vec![repeat(last.clone(), last, statements)];
    let inner = (6..11).rev().fold(innermost, |inside, number| {
        vec![repeat(all_above(number), all_above(number), inside)]
    });
    let further = sum(all_above(5), sum(all_sizes(600), literal(600)));
    let second = vec![repeat(all_above(5), further, inner)];
    vec![repeat(below_sizes(2, 3), below_sizes(300, 300), second)]
}

/// A family of 4 index variables with so many statements inside the loops that are tried,
/// behind one that takes 8 registers.
fn tried(statement: Field, count: usize) -> Vec<Field> {
    let body = in_tried_loops(vec![statement; count]);
    let size = sum(all_sizes(1), literal(1));
    vec![
        family(0, vec![qbits(literal(1)); 8], vec![]),
        family(4, vec![qbits(size)], body),
    ]
}

/// So many gates, each with two showings.
fn gates_in_tried_loops(gates: usize) -> Vec<Field> {
    tried(h(element(0, variable(11))), gates)
}

/// So many calls with 8 slices, each with four showings.
fn slices_in_tried_loops(calls: usize) -> Vec<Field> {
    let part = slice(0, variable(10), variable(11));
    tried(call(0, vec![], vec![part; 8]), calls)
}

/// The type of a family over 4 index variables with 8 sizes, each of one variable: the most
/// sizes for its bytes.
fn eight_sizes() -> Field {
    let sizes = (0..8).map(|number| qbits(variable(number % 4)));
    family_type(4, sizes.collect())
}

/// So many families with 8 parameters that are families with 8 sizes each.
fn families_of_families(families: usize) -> Vec<Field> {
    vec![family(4, vec![eight_sizes(); 8], vec![]); families]
}

/// The size v0 + v1 + v2 + v3, each times a factor, and the factor: it has every number that a
/// family's size may have.
fn every_number(factor: u16) -> Field {
    sum(all_sizes(factor), literal(factor))
}

/// So many calls that pass a family with 8 sizes for 8 parameters: each shows 64 differences
/// of sizes, all numbers of which are other than 0.
fn passes(calls: usize) -> Vec<Field> {
    let formal = family_type(4, vec![qbits(every_number(2)); 8]);
    let mut fields = vec![
        family(4, vec![qbits(every_number(1)); 8], vec![]),
        family(0, vec![formal; 8], vec![]),
    ];
    fields.extend(vec![call(1, vec![], vec![passed(0); 8]); calls]);
    fields
}

/// A family of 4 index variables that makes so many calls of a parameter inside 8 loops: as
/// `calls_in_eight_loops`, but for what is called.
fn parameter_calls_in_eight_loops(calls: usize) -> Vec<Field> {
    let called = called();
    let formal = family_type(4, called.parts.clone());
    let one = parameter_call(1, vec![variable(11); 4], vec![whole(0); 8]);
    let body = in_eight_loops(vec![one; calls]);
    let types = vec![qbits(all_sizes(512)), formal];
    vec![called, family(4, types, body)]
}

/// A family of 4 index variables that has so many times two gates inside 8 loops from 0 to 0,
/// each on two elements of its register: the forms of the first gate differ in nothing but the
/// coefficient of the last variable, those of the second in nothing but the constant.
fn pairs_in_eight_loops(times: usize) -> Vec<Field> {
    let (none, one) = (|| at(0, 0), at(0, 1));
    let last = element(0, variable(11));
    let both = vec![cx(none(), last), cx(none(), one)];
    let around = |inside, _| vec![repeat(literal(0), literal(0), inside)];
    let body = (0..8).fold(vec![both; times].concat(), around);
    vec![family(4, vec![qbits(literal(2))], body)]
}

/// A program of as many statements as fit into one.
fn full(made: fn(usize) -> Vec<Field>) -> Vec<Field> {
    let bytes = |count| program(&made(count)).len();
    let each = bytes(1) - bytes(0);
    made((MOST_BYTES - bytes(0)) / each)
}

/// The program of calls that takes the longest to check for each byte.
pub fn called_check() -> Vec<Field> {
    full(calls_in_eight_loops)
}

/// The program of slices that takes the longest to check for each byte.
pub fn sliced_check() -> Vec<Field> {
    full(slices_in_eight_loops)
}

/// The program of gates that takes the longest to check for each byte: every showing
/// fails by the plain rule and in all trials but that of the outermost of 8 loops.
pub fn tried_check() -> Vec<Field> {
    full(gates_in_tried_loops)
}

/// The same with slices, which have more showings for each byte.
pub fn tried_slices() -> Vec<Field> {
    full(slices_in_tried_loops)
}

/// The program of family types that takes the longest to check for each byte; its last family
/// has as many of them as still fit.
pub fn typed_check() -> Vec<Field> {
    let mut fields = full(families_of_families);
    let formal = eight_sizes();
    let head = family(4, vec![], vec![]).size();
    let room = MOST_BYTES - length(&fields) - head;
    let last = family(4, vec![formal.clone(); room / formal.size()], vec![]);
    fields.push(last);
    fields
}

/// The program of passed families that takes the longest to check for each byte.
pub fn passed_check() -> Vec<Field> {
    full(passes)
}

/// The program of calls of a parameter that takes the longest to check for each byte.
pub fn parameter_check() -> Vec<Field> {
    full(parameter_calls_in_eight_loops)
}

/// The program of gates on two wires that compares the most numbers for each byte.
pub fn paired_check() -> Vec<Field> {
    full(pairs_in_eight_loops)
}

/// The index 0 as a sum of so many literals, halved at each level.
fn wide_index(literals: usize) -> Field {
    match literals {
        0 | 1 => literal(0),
        _ => sum(
            wide_index(literals / 2),
            wide_index(literals - literals / 2),
        ),
    }
}

/// A loop of so many rounds with a gate whose index takes 60,000 bytes: each
/// gate's step evaluates all of it.
pub fn slowest_steps(rounds: u16) -> Vec<Field> {
    let gate = h(element(0, wide_index(7_500)));
    vec![qreg(1), repeat(literal(1), literal(rounds), vec![gate])]
}
