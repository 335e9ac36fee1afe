//! Bytes to text and back are the same bytes, and nothing makes the assembler crash.

use programs::{assemble, disassemble};
use std::fs;
use std::path::Path;

/// Numbers that look like chance but are the same each time.
struct Dice(u64);

impl Dice {
    /// A number from 0 to below a bound.
    fn below(&mut self, bound: usize) -> usize {
        self.0 ^= self.0 << 13;
        self.0 ^= self.0 >> 7;
        self.0 ^= self.0 << 17;
        (self.0 % bound as u64) as usize
    }

    fn byte(&mut self, bound: usize) -> u8 {
        self.below(bound) as u8
    }
}

/// A field with its length.
fn field(tag: u8, content: Vec<u8>) -> Vec<u8> {
    let length = (content.len() as u16).to_le_bytes();
    [vec![tag], length.to_vec(), content].concat()
}

fn index(dice: &mut Dice, depth: usize) -> Vec<u8> {
    match dice.below(if depth > 5 { 2 } else { 5 }) {
        0 => field(64, vec![dice.byte(256), dice.byte(256)]),
        1 => field(65, vec![dice.byte(4)]),
        kind => {
            let (left, right) = (index(dice, depth + 1), index(dice, depth + 1));
            field(64 + kind as u8, [left, right].concat())
        }
    }
}

fn operand(dice: &mut Dice) -> Vec<u8> {
    let number = dice.byte(4);
    match dice.below(5) {
        0 => field(48, vec![number]),
        4 => field(51, vec![number, dice.byte(2)]),
        1 => {
            let (first, last) = (index(dice, 1), index(dice, 1));
            field(50, [vec![number], first, last].concat())
        }
        _ => field(49, [vec![number], index(dice, 1)].concat()),
    }
}

fn some(dice: &mut Dice, most: usize, mut part: impl FnMut(&mut Dice) -> Vec<u8>) -> Vec<u8> {
    let count = dice.below(most + 1);
    (0..count).flat_map(|_| part(dice)).collect()
}

fn statements(dice: &mut Dice, depth: usize) -> Vec<u8> {
    some(dice, 3, |dice| statement(dice, depth))
}

fn statement(dice: &mut Dice, depth: usize) -> Vec<u8> {
    match dice.below(if depth > 5 { 7 } else { 9 }) {
        kind @ 0..=2 => field(32 + kind as u8, operand(dice)),
        3 => field(35, [operand(dice), operand(dice)].concat()),
        4 => field(40, [index(dice, 1), operand(dice)].concat()),
        5 => field(41, [index(dice, 1), operand(dice), operand(dice)].concat()),
        6 => {
            let indexes = some(dice, 2, |dice| index(dice, 1));
            let operands = some(dice, 3, operand);
            let (tag, number) = called(dice);
            field(tag, [number, indexes, operands].concat())
        }
        7 => field(37, statements(dice, depth + 1)),
        _ => {
            let (low, high) = (index(dice, 1), index(dice, 1));
            field(38, [low, high, statements(dice, depth + 1)].concat())
        }
    }
}

/// The tag and number of a call: of a family, by one byte or by two that one byte may hold as
/// well, or of a parameter.
fn called(dice: &mut Dice) -> (u8, Vec<u8>) {
    match dice.below(4) {
        0 => (39, vec![dice.byte(3), dice.byte(3)]),
        1 => (42, vec![dice.byte(4)]),
        _ => (36, vec![dice.byte(3)]),
    }
}

fn plain_type(dice: &mut Dice) -> Vec<u8> {
    match dice.below(2) {
        0 => field(16, vec![]),
        _ => field(17, index(dice, 1)),
    }
}

fn family_type(dice: &mut Dice) -> Vec<u8> {
    let parameters = dice.byte(4);
    let types = (0..parameters).flat_map(|_| plain_type(dice)).collect();
    field(18, [vec![dice.byte(4), parameters], types].concat())
}

fn family(dice: &mut Dice) -> Vec<u8> {
    let parameters = dice.byte(4);
    let mut content = vec![dice.byte(4), parameters];
    for _ in 0..parameters {
        content.extend(match dice.below(3) {
            0 => family_type(dice),
            _ => plain_type(dice),
        });
    }
    content.extend(statements(dice, 1));
    field(1, content)
}

fn top(dice: &mut Dice) -> Vec<u8> {
    match dice.below(8) {
        0 | 1 => family(dice),
        2 => field(2, vec![dice.byte(256), dice.byte(256)]),
        3 => field(3, vec![dice.byte(256), dice.byte(256)]),
        4 => field(4, [operand(dice), operand(dice)].concat()),
        5 => field(5, operand(dice)),
        6 => {
            let bit = operand(dice);
            field(6, [vec![dice.byte(256)], bit, statements(dice, 1)].concat())
        }
        _ => statement(dice, 1),
    }
}

/// Shows that bytes go to text and back, and gives the text.
fn goes_round(bytes: &[u8]) -> String {
    let text = disassemble(bytes).unwrap_or_else(|error| panic!("{error}: {bytes:?}"));
    match assemble(&text) {
        Ok(found) => assert_eq!(found.bytes, bytes, "{text}"),
        Err(error) => panic!("{error} in {text}"),
    }
    text
}

#[test]
fn made_programs_go_round() {
    let mut dice = Dice(2019);
    let mut longest = 0;
    for _ in 0..1000 {
        let bytes = some(&mut dice, 9, top);
        longest = longest.max(bytes.len());
        if bytes.len() <= 65_535 {
            goes_round(&bytes);
        }
    }
    assert!(longest > 1000);
}

#[test]
fn examples_go_round() {
    let folder = Path::new(env!("CARGO_MANIFEST_DIR")).join("../../examples");
    let mut count = 0;
    for entry in fs::read_dir(folder).unwrap() {
        let path = entry.unwrap().path();
        if path.extension().is_some_and(|ending| ending == "mq") {
            let text = fs::read_to_string(&path).unwrap();
            goes_round(&assemble(&text).unwrap().bytes);
            count += 1;
        }
    }
    assert!(count >= 20);
}

#[test]
fn the_deepest_fields_go_round() {
    let nested =
        |count: usize, inner: Vec<u8>| (0..count).fold(inner, |inside, _| field(37, inside));
    goes_round(&nested(64, vec![]));
    assert!(disassemble(&nested(65, vec![])).is_err());
    let literal = field(64, vec![1, 0]);
    for left in [true, false] {
        let index = (0..40).fold(literal.clone(), |inside, _| match left {
            true => field(67, [inside, literal.clone()].concat()),
            false => field(67, [literal.clone(), inside].concat()),
        });
        let gate = field(32, field(49, [vec![0], index].concat()));
        goes_round(&nested(21, gate.clone()));
        assert!(disassemble(&nested(22, gate)).is_err());
    }
}

#[test]
fn invented_names_read_well() {
    let text = "\
family(n0) f0(x0: Qbit[n0 + 1], x1: Qbit) {
    for i1 = 0..n0 - (1 - 1) * 2 {
        cx x0[i1], x1;
        reverse {
            t #2[#3];
            phase(n0) x1;
        }
        cphase(i1 + 2 * n0) x0[i1], x1;
        ##0(i1)(x0[i1..i1 + n0 - 1], x1);
    }
}
qreg q0[3];
creg c1[1];
f0(2)(q0, q0[0]);
f0(1)(q0[1..2], q0[0]);
f0(0)(q0[3 - 1..(1 + 1) * 1], #9[#3..0]);
measure q0[0] -> c1[0];
reset q0[1];
phase(0) q0[2];
if (c1[0] == 1) {
    tdg #7;
    #1(q0);
    #256(2)(q0);
    ##0(2)(q0, q0[0]);
}
";
    assert_eq!(goes_round(&assemble(text).unwrap().bytes), text);
}

#[test]
fn libraries_past_255_families_go_round() {
    let family = field(1, [vec![0, 1], field(16, vec![])].concat());
    let call = |tag: u8, number: &[u8]| field(tag, [number, &field(48, vec![0])].concat());
    let calls = [
        call(36, &[10]),
        call(36, &[255]),
        call(39, &[0, 1]),
        call(39, &[43, 1]),
        call(39, &[44, 1]),
        call(39, &[10, 0]),
    ];
    let text = goes_round(&[family.repeat(300), calls.concat()].concat());
    let found: Vec<_> = text.lines().skip(600).collect();
    let due = ["f10", "f255", "f256", "f299", "#300", "##10"];
    assert_eq!(found, due.map(|name| format!("{name}(#0);")));
}

#[test]
fn invented_names_of_family_types_read_well() {
    let text = "\
family(n0, n1) f0(x0: Qbit[n0], x1: Qbit) {
}
family(n0) f1(x0: family(n0, n1)(Qbit[n0], Qbit), x1: Qbit[n0 + 1], x2: family()(Qbit[#1])) {
    for i1 = 0..n0 {
        x0(n0, i1)(x1, x1[i1]);
        reverse {
            x2(x1[0..i1 - 1], x0, f0);
        }
    }
    ###1(n0)(x1);
    ###3(x1);
    f0(1, 2)(f0, ##1, ##2);
}
gate f2(x0: family()(), x1: family(n0, n1, n2)(Qbit[n2 - (n0 - n1)])) {
    h x0;
    t x1[0];
    x0();
    x1(#2);
}
qreg q0[3];
f1(2)(f0, q0, f2);
f1(2)(##3, ##256, ##65535);
###0(q0);
cx f0, f1;
";
    assert_eq!(goes_round(&assemble(text).unwrap().bytes), text);
}

#[test]
fn damaged_bytes_are_refused_or_go_round() {
    let mut dice = Dice(7);
    let mut refused = 0;
    for _ in 0..2000 {
        let mut bytes = some(&mut dice, 5, top);
        for _ in 0..1 + dice.below(3) {
            if !bytes.is_empty() {
                let place = dice.below(bytes.len());
                match dice.below(3) {
                    0 => bytes[place] = dice.byte(256),
                    1 => drop(bytes.remove(place)),
                    _ => bytes.insert(place, dice.byte(256)),
                }
            }
        }
        match disassemble(&bytes) {
            Ok(_) => drop(goes_round(&bytes)),
            Err(_) => refused += 1,
        }
    }
    assert!(refused > 500);
}

#[test]
fn damaged_texts_are_read_or_refused() {
    let mut dice = Dice(11);
    let pieces = [
        "family", "gate", "qreg", "for", "i", "=", "..", "{", "}", "(", ")", "[", "]", ";", ",",
        "#", "##", "###", "1", "300", "65536", "x", ":", "Qbit", "h", "cx", "phase", "cphase",
        "->", "==", "\"", "é", "\n", "/", "//", "bytes", "reverse", "if", "+", "-", "*",
    ];
    for _ in 0..3000 {
        let count = dice.below(40);
        let words: Vec<_> = (0..count)
            .map(|_| pieces[dice.below(pieces.len())])
            .collect();
        let _ = assemble(&words.join(" "));
        let _ = assemble(&words.concat());
    }
}
