//! Named programs: the paper's adder, Fourier transforms, a product by slices, and programs
//! at the limits.

use crate::build::*;

/// The Toffoli gate as fifteen gates on three wires.
pub fn toffoli() -> Field {
    let (a, b, c) = (|| whole(0), || whole(1), || whole(2));
    let body = vec![
        h(c()),
        cx(b(), c()),
        tdg(c()),
        cx(a(), c()),
        t(c()),
        cx(b(), c()),
        tdg(c()),
        cx(a(), c()),
        t(b()),
        t(c()),
        h(c()),
        cx(a(), b()),
        t(a()),
        tdg(b()),
        cx(a(), b()),
    ];
    family(0, vec![qbit(), qbit(), qbit()], body)
}

/// The majority gate of the paper's figure 8; Toffoli is family 0.
pub fn majority() -> Field {
    let [a, b, c, result] = [0, 1, 2, 3].map(whole);
    let body = vec![
        call(0, vec![], vec![b.clone(), c.clone(), result.clone()]),
        cx(b.clone(), c.clone()),
        call(0, vec![], vec![a, c.clone(), result]),
        cx(b, c),
    ];
    family(0, vec![qbit(); 4], body)
}

/// The paper's adder on n+1 bits, as family 2 behind Toffoli and majority.
pub fn adder() -> Vec<Field> {
    let i = || variable(1);
    let before = || element(3, minus(1, 1));
    let round = vec![
        cx(element(0, i()), element(2, i())),
        cx(element(1, i()), element(2, i())),
        cx(before(), element(2, i())),
        call(
            1,
            vec![],
            vec![element(0, i()), element(1, i()), before(), element(3, i())],
        ),
    ];
    let body = vec![
        cx(at(0, 0), at(2, 0)),
        cx(at(1, 0), at(2, 0)),
        call(0, vec![], vec![at(0, 0), at(1, 0), at(3, 0)]),
        repeat(literal(1), variable(0), round),
    ];
    let types = vec![qbits(plus(0, 1)); 4];
    vec![toffoli(), majority(), family(1, types, body)]
}

/// The adder and, as family 3, the same adder reversed.
pub fn reversed_adder() -> Vec<Field> {
    let mut fields = adder();
    let same = call(2, vec![variable(0)], [0, 1, 2, 3].map(whole).to_vec());
    let types = vec![qbits(plus(0, 1)); 4];
    fields.push(family(1, types, vec![reverse(vec![same])]));
    fields
}

/// A product without carries, by slices. Behind Toffoli, family 1 adds y to z where x is
/// set, family 2 does so for each wire of x at z[i..i+n-1], and family 3 runs it backward.
pub fn multiplier() -> Vec<Field> {
    let (n, i) = (|| variable(0), || variable(1));
    let cell = vec![whole(0), element(1, i()), element(2, i())];
    let add = repeat(literal(0), minus(0, 1), vec![call(0, vec![], cell)]);
    let part = slice(2, i(), sum(i(), minus(0, 1)));
    let once = call(1, vec![n()], vec![element(0, i()), whole(1), part]);
    let each = repeat(literal(0), minus(0, 1), vec![once]);
    let types = vec![qbits(n()), qbits(n()), qbits(sum(n(), n()))];
    let same = call(2, vec![n()], [0, 1, 2].map(whole).to_vec());
    vec![
        toffoli(),
        family(1, vec![qbit(), qbits(n()), qbits(n())], vec![add]),
        family(1, types.clone(), vec![each]),
        family(1, types, vec![reverse(vec![same])]),
    ]
}

/// The same product with what adds passed to it: family 2 takes it beside x, y and z, family 3
/// passes family 1, and family 4 runs that backward.
pub fn passed_multiplier() -> Vec<Field> {
    let (n, i) = (|| variable(0), || variable(1));
    let [toffoli, add, product, _] = <[Field; 4]>::try_from(multiplier()).expect("four families");
    let plain = product.parts[..3].to_vec();
    let mut types = plain.clone();
    types.push(family_type(1, add.parts[..3].to_vec()));
    let part = slice(2, i(), sum(i(), minus(0, 1)));
    let once = parameter_call(3, vec![n()], vec![element(0, i()), whole(1), part]);
    let each = repeat(literal(0), minus(0, 1), vec![once]);
    let mut operands = [0, 1, 2].map(whole).to_vec();
    let same = call(3, vec![n()], operands.clone());
    operands.push(passed(1));
    let passing = call(2, vec![n()], operands);
    vec![
        toffoli,
        add,
        family(1, types, vec![each]),
        family(1, plain.clone(), vec![passing]),
        family(1, plain, vec![reverse(vec![same])]),
    ]
}

/// A family on two wires, called by family 1 for each pair x[i..i+1] of n + 1 wires.
pub fn neighbours() -> Vec<Field> {
    let i = || variable(1);
    let pair = slice(0, i(), plus(1, 1));
    let once = call(0, vec![], vec![pair]);
    let each = repeat(literal(0), minus(0, 1), vec![once]);
    vec![
        family(0, vec![qbits(literal(2))], vec![cx(at(0, 0), at(0, 1))]),
        family(1, vec![qbits(plus(0, 1))], vec![each]),
    ]
}

/// So many families: the first has h on its only wire, each further one is passed one wire
/// more and passes the others on, without the first.
pub fn shortened(families: usize) -> Vec<Field> {
    let mut fields = vec![family(0, vec![qbits(literal(1))], vec![h(at(0, 0))])];
    for number in 1..families as u16 {
        let passed = between(0, 1, number);
        let body = vec![call(number - 1, vec![], vec![passed])];
        fields.push(family(0, vec![qbits(literal(number + 1))], body));
    }
    fields
}

/// A family over a size and a register, and one that runs it backward.
fn with_inverse(size: Field, body: Vec<Field>) -> Vec<Field> {
    let types = vec![qbits(size)];
    let inverse = reverse(vec![call(0, vec![variable(0)], vec![whole(0)])]);
    vec![
        family(1, types.clone(), body),
        family(1, types, vec![inverse]),
    ]
}

/// The Fourier transform of n wires, without the exchange of wires at its end; behind
/// it its inverse. Its largest k is n, so that it runs for up to 63 wires.
pub fn fourier() -> Vec<Field> {
    let (i, j) = (|| variable(1), || variable(2));
    let k = sum(difference(j(), i()), literal(1));
    let turn = cphase(k, element(0, j()), element(0, i()));
    let round = vec![
        h(element(0, i())),
        repeat(plus(1, 1), minus(0, 1), vec![turn]),
    ];
    let body = vec![repeat(literal(0), minus(0, 1), round)];
    with_inverse(variable(0), body)
}

/// The Fourier transform of n + 62 wires that leaves out every k above 63; behind it
/// its inverse.
pub fn approximate_fourier() -> Vec<Field> {
    let (n, i, j) = (|| variable(0), || variable(1), || variable(2));
    let ahead = element(0, sum(i(), j()));
    let first = vec![
        h(element(0, i())),
        repeat(
            literal(1),
            literal(62),
            vec![cphase(plus(2, 1), ahead, element(0, i()))],
        ),
    ];
    let behind = |index| element(0, sum(n(), index));
    let k = sum(difference(j(), i()), literal(1));
    let turn = cphase(k, behind(j()), behind(i()));
    let last = vec![h(behind(i())), repeat(plus(1, 1), literal(61), vec![turn])];
    let body = vec![
        repeat(literal(0), minus(0, 1), first),
        repeat(literal(0), literal(61), last),
    ];
    with_inverse(plus(0, 62), body)
}

/// Two loops over a register, one inside the other, with a gate inside.
pub fn nested_loops() -> Vec<Field> {
    let inner = repeat(
        literal(0),
        minus(0, 1),
        vec![h(element(0, variable(2))), t(element(0, variable(1)))],
    );
    let outer = repeat(literal(0), minus(0, 1), vec![inner]);
    vec![family(1, vec![qbits(variable(0))], vec![outer])]
}

/// A statement wrapped in so many reversals.
pub fn wrapped(levels: usize, statement: Field) -> Field {
    (0..levels).fold(statement, |inner, _| reverse(vec![inner]))
}

/// So many families, each calling the one before with the call wrapped up.
fn calling(families: usize, wrap: impl Fn(Field) -> Field) -> Vec<Field> {
    let mut fields = Vec::new();
    for number in 0..families {
        let innermost = match number {
            0 => t(whole(0)),
            _ => call((number - 1) as u16, vec![], vec![whole(0)]),
        };
        fields.push(family(0, vec![qbit()], vec![wrap(innermost)]));
    }
    fields
}

/// So many families, each calling the one before from so many levels down.
pub fn deep_calls(families: usize, levels: usize) -> Vec<Field> {
    calling(families, |inner| wrapped(levels - 1, inner))
}

/// Families, a register of nine qubits and a call: a family over n on n + 7 wires is passed for
/// one on so many more than n. So many families and registers stand before.
fn passed_at_the_end(families: u16, registers: u8, wires: u16) -> [Field; 4] {
    let formal = family_type(1, vec![qbits(plus(0, wires))]);
    let once = parameter_call(1, vec![literal(1)], vec![whole(0)]);
    let operands = vec![whole(registers), passed(families)];
    [
        family(1, vec![qbits(plus(0, 7))], vec![h(at(0, 0))]),
        family(0, vec![qbits(literal(9)), formal], vec![once]),
        qreg(9),
        call(families + 1, vec![], operands),
    ]
}

/// A program of about so many bytes and no more: so many bits, as many types of family
/// parameters of one inner type as fit, and the passed family of `passed_at_the_end`.
pub fn packed(bytes: usize, registers: u8, inner: &Field, wires: u16) -> Vec<Field> {
    let of_types = |count| {
        family(
            1,
            vec![family_type(1, vec![inner.clone(); 8]); count],
            vec![],
        )
    };
    let room = bytes - length(&passed_at_the_end(256, registers, wires));
    let mut fields = vec![creg(1); registers.into()];
    let full = of_types(8);
    let count = (room - length(&fields)) / full.size();
    fields.extend(vec![full; count]);
    let each = of_types(2).size() - of_types(1).size();
    let left = (room - length(&fields)).saturating_sub(of_types(0).size()) / each;
    if left > 0 {
        fields.push(of_types(left));
    }
    let number = families(&fields) as u16;
    fields.extend(passed_at_the_end(number, registers, wires));
    fields
}

/// Where the passed family of such a program stands.
pub fn packed_place(fields: &[Field]) -> u64 {
    headers(fields).last().copied().unwrap_or(0) as u64
}

/// So many families on a wire, and between each two one that takes a family: each of the first
/// kind but the first passes the one before it, and both call from so many levels down.
pub fn passed_on(families: usize, levels: usize) -> Vec<Field> {
    let wrap = |inner| vec![wrapped(levels - 1, inner)];
    let mut fields = vec![family(0, vec![qbit()], wrap(t(whole(0))))];
    let types = vec![qbit(), family_type(0, vec![qbit()])];
    let once = parameter_call(1, vec![], vec![whole(0)]);
    let taking = family(0, types, wrap(once));
    for before in (0..2 * (families as u16 - 1)).step_by(2) {
        let passing = call(before + 1, vec![], vec![whole(0), passed(before)]);
        fields.push(taking.clone());
        fields.push(family(0, vec![qbit()], wrap(passing)));
    }
    fields
}

/// So many families, each calling the one before from so many levels down, with a gate beside
/// the statement at each level.
pub fn deep_lists(families: usize, levels: usize) -> Vec<Field> {
    let beside = |inner| reverse(vec![inner, t(whole(0))]);
    calling(families, |inner| {
        (1..levels).fold(inner, |inner, _| beside(inner))
    })
}

/// Deep calls that pass a size and a register down through loops of one round
/// and reversals.
pub fn deep_loops(families: usize, loops: usize, reversals: usize) -> Vec<Field> {
    let mut fields = Vec::new();
    for number in 0..families {
        let mut inner = match number {
            0 => t(at(0, 0)),
            _ => call((number - 1) as u16, vec![variable(0)], vec![whole(0)]),
        };
        for _ in 0..loops {
            inner = repeat(literal(1), literal(1), vec![inner]);
        }
        let body = vec![wrapped(reversals, inner)];
        fields.push(family(1, vec![qbits(plus(0, 1))], body));
    }
    fields
}

/// A family with so many statements: gates, with empty reversals between.
pub fn long_list(statements: usize) -> Field {
    family(0, vec![qbit()], statement_list(statements))
}

/// The same statements, reversed.
pub fn reversed_list(statements: usize) -> Field {
    let body = vec![reverse(statement_list(statements))];
    family(0, vec![qbit()], body)
}

/// Statements of three kinds in turn, short enough for 10,000 of them.
fn statement_list(statements: usize) -> Vec<Field> {
    (0..statements)
        .map(|number| match number % 4 {
            0 => t(whole(0)),
            1 => reverse(vec![]),
            2 => h(whole(0)),
            _ => reverse(vec![]),
        })
        .collect()
}

/// A family of so many gates on one wire, 7 bytes each, as they stand or reversed.
pub fn gate_list(gates: usize, reversed: bool) -> Field {
    let list: Vec<Field> = (0..gates)
        .map(|number| match number % 2 {
            0 => t(whole(0)),
            _ => h(whole(0)),
        })
        .collect();
    let body = match reversed {
        true => vec![reverse(list)],
        false => list,
    };
    family(0, vec![qbit()], body)
}

/// A loop over a register whose body is a reversal of so many gates.
pub fn short_reversals(gates: usize) -> Vec<Field> {
    let gate = t(element(0, variable(1)));
    let round = vec![reverse(vec![gate; gates])];
    let body = vec![repeat(literal(0), minus(0, 1), round)];
    vec![family(1, vec![qbits(variable(0))], body)]
}

/// h and cx on two wires.
pub fn bell() -> Vec<Field> {
    vec![qreg(2), h(at(0, 0)), cx(at(0, 0), at(0, 1))]
}

/// A large library: as many adders as fit into one program.
pub fn large_library() -> Vec<Field> {
    let mut fields = vec![toffoli(), majority()];
    let adder = adder().swap_remove(2);
    let room = (MOST_BYTES - length(&fields)) / adder.size();
    fields.extend(vec![adder; room.min(MOST_FAMILIES - fields.len())]);
    fields
}

/// As many gates as fit, inside 8 loops from 0 to n - 1: each on the wire that one loop's
/// variable names, by turns.
pub fn loops_in_loops() -> Vec<Field> {
    let nested = |gates: usize| {
        let gate = |number| h(element(0, variable(1 + (number % 8) as u8)));
        let body = (0..gates).map(gate).collect();
        let around = |inside, _| vec![repeat(literal(0), minus(0, 1), inside)];
        let loops = (0..8).fold(body, around);
        vec![family(1, vec![qbits(variable(0))], loops)]
    };
    let each = length(&nested(1)) - length(&nested(0));
    nested((MOST_BYTES - length(&nested(0))) / each)
}

/// 4,000 small families: most of them call an earlier one, by turns with a number of
/// one byte and, from family 257 on, of two.
pub fn small_families() -> Vec<Field> {
    let calling = |number| vec![call(number, vec![], vec![whole(0)])];
    let body = |number: u16| match (number % 16, number % 2) {
        (0, _) => vec![],
        (_, 0) => calling(number / 2 % 256),
        _ => calling(number - 1),
    };
    let small = |number| family(0, vec![qbit()], body(number));
    (0..4_000).map(small).collect()
}

/// h and cx on two wires, as a family.
pub fn bell_family() -> Vec<Field> {
    let body = vec![h(whole(0)), cx(whole(0), whole(1))];
    vec![family(0, vec![qbit(), qbit()], body)]
}

/// Two loops that take a hundred million steps and write nothing.
pub fn empty_rounds() -> Vec<Field> {
    let inner = repeat(literal(1), literal(1998), vec![]);
    vec![repeat(literal(1), literal(50_000), vec![inner])]
}

/// A loop of three rounds that starts at the smallest number there is.
pub fn far_loop() -> Field {
    let last = sum(smallest(), literal(2));
    let index = sum(variable(0), largest());
    repeat(smallest(), last, vec![h(element(0, index))])
}

/// A loop over all numbers there are, with a gate on one wire.
pub fn longest_loop() -> Field {
    repeat(smallest(), largest(), vec![t(at(0, 0))])
}

/// The program L of the examples: h on each cell of x:Qbit[n], counted from 1.
pub fn each_cell() -> Vec<Field> {
    let round = vec![h(element(0, minus(1, 1)))];
    let body = vec![repeat(literal(1), variable(0), round)];
    vec![family(1, vec![qbits(variable(0))], body)]
}
