//! The type of a family parameter: its counts, its inner types and their sizes, in reading
//! order.

use super::{ON_A_WIRE, ON_N_WIRES, QBIT};
use crate::recorded::slices::{family, number};
use crate::recorded::{bytes, field, joined, nested, Recorded};

/// Where the type of the only parameter stands, its first inner type, and that one's size.
const TYPE_AT: u32 = 5;
const INNER_AT: u32 = 10;
const SIZE_AT: u32 = 13;

/// All rows.
pub fn rows() -> Vec<Recorded> {
    let mut rows = counts();
    rows.extend(most());
    rows.extend(inner());
    rows.extend(indexes());
    rows.extend(shown());
    rows.extend(levels());
    rows.extend(orders());
    rows.extend(variables());
    rows.extend(places());
    rows
}

/// A family without index variables that has one parameter of a type.
fn row(name: &str, own: &str, answer: u32, place: u32) -> Recorded {
    Recorded::check(name, family(0, &[own], &[]), answer, place)
}

/// The numbers of index variables and of parameters, each tested when it is read.
fn counts() -> Vec<Recorded> {
    let refused = |name, own, answer| row(name, own, answer, TYPE_AT);
    vec![
        row("a family on a wire", ON_A_WIRE, 0, 0),
        row("a family on n wires", ON_N_WIRES, 0, 0),
        refused("a family type without content", "12 00 00", 4),
        refused("no number of parameters", "12 01 00 00", 4),
        refused("4 variables, no parameters", "12 01 00 04", 4),
        refused("5 variables, nothing else", "12 01 00 05", 6),
        refused("255 variables", "12 05 00 ff 01 10 00 00", 6),
        refused("5 variables and a wire", "12 05 00 05 01 10 00 00", 6),
        refused("5 variables before 0 parameters", "12 02 00 05 00", 6),
        row("4 variables and a wire", "12 05 00 04 01 10 00 00", 0, 0),
        refused("0 parameters", "12 02 00 00 00", 6),
        refused("9 parameters, nothing else", "12 02 00 00 09", 6),
        refused("255 parameters", "12 05 00 00 ff 10 00 00", 6),
        refused("1 parameter, nothing else", "12 02 00 00 01", 4),
        refused("2 parameters, one type", "12 05 00 00 02 10 00 00", 4),
    ]
}

/// Eight parameters that are families of eight each, and nine.
fn most() -> Vec<Recorded> {
    let wires = |count: u8| {
        let types = bytes(QBIT).repeat(count.into());
        field(0x12, &joined(&[&[4, count], &types]))
    };
    let of = |count: u8, own: &[u8]| {
        let types = own.repeat(count.into());
        field(1, &joined(&[&[4, count], &types]))
    };
    vec![
        Recorded::check("8 families on 8 wires", of(8, &wires(8)), 0, 0),
        Recorded::check("8 families on 9 wires", of(8, &wires(9)), 6, TYPE_AT),
        Recorded::check("9 families on 8 wires", of(9, &wires(8)), 6, 0),
    ]
}

/// Headers, tags and content of inner types.
fn inner() -> Vec<Recorded> {
    let at = |name, own, answer| row(name, own, answer, INNER_AT);
    vec![
        at("one byte of an inner type", "12 03 00 00 01 10", 2),
        at("two bytes of an inner type", "12 04 00 00 01 10 00", 2),
        at("an inner type past the end", "12 05 00 00 01 10 01 00", 2),
        at("an inner tag 15", "12 05 00 00 01 0f 00 00", 3),
        at("an inner tag 19", "12 05 00 00 01 13 00 00", 3),
        at("an empty inner family type", "12 05 00 00 01 12 00 00", 3),
        at(
            "an inner family type",
            "12 0a 00 00 01 12 05 00 00 01 10 00 00",
            3,
        ),
        at("an inner family", "12 05 00 00 01 01 00 00", 3),
        at("an inner index", "12 07 00 00 01 40 02 00 01 00", 3),
        at("an inner operand", "12 06 00 00 01 30 01 00 00", 3),
        at("a byte in an inner wire", "12 06 00 00 01 10 01 00 00", 4),
        at("an inner size is missing", "12 05 00 00 01 11 00 00", 4),
        at(
            "a byte behind an inner size",
            "12 0b 00 00 01 11 06 00 40 02 00 01 00 00",
            4,
        ),
    ]
}

/// Inner sizes that are no indexes, or name no variable of the type.
fn indexes() -> Vec<Recorded> {
    let at = |name, count: u8, size: &str, answer| {
        let inner = field(0x11, &bytes(size));
        let own = field(0x12, &joined(&[&[count, 1], &inner]));
        let program = field(1, &joined(&[&[0, 1], &own]));
        let place = if answer == 0 { 0 } else { SIZE_AT };
        Recorded::check(name, program, answer, place)
    };
    let squared = "44 08 00 41 01 00 00 41 01 00 00";
    let past = "44 0a 00 40 02 00 ff ff 40 02 00 ff ff";
    vec![
        at("a wire for an inner size", 0, "10 00 00", 3),
        at("an inner size of one byte", 0, "40 01 00 01", 4),
        at("variable 0 of none", 0, "41 01 00 00", 8),
        at("variable 1 of one", 1, "41 01 00 01", 8),
        at("variable 3 of four", 4, "41 01 00 03", 0),
        at("variable 4 of four", 4, "41 01 00 04", 8),
        at("n times n", 1, squared, 10),
        at("65,535 times 65,535 wires", 0, past, 11),
    ]
}

/// Inner sizes that are 0 or more for all values of the type's variables, and others.
fn shown() -> Vec<Recorded> {
    let at = |name, own, answer| row(name, own, answer, INNER_AT);
    let accepted = |name, own| row(name, own, 0, 0);
    vec![
        accepted("no wires", "12 0a 00 00 01 11 05 00 40 02 00 00 00"),
        accepted(
            "2,000,000,000 wires",
            "12 12 00 00 01 11 0d 00 44 0a 00 40 02 00 40 9c 40 02 00 50 c3",
        ),
        at(
            "0 - 1 wires",
            "12 12 00 00 01 11 0d 00 43 0a 00 40 02 00 00 00 40 02 00 01 00",
            12,
        ),
        at(
            "n - 1 wires",
            "12 11 00 01 01 11 0c 00 43 09 00 41 01 00 00 40 02 00 01 00",
            12,
        ),
        accepted(
            "n + 1 wires",
            "12 11 00 01 01 11 0c 00 42 09 00 41 01 00 00 40 02 00 01 00",
        ),
        at(
            "a - b wires",
            "12 10 00 02 01 11 0b 00 43 08 00 41 01 00 00 41 01 00 01",
            12,
        ),
    ]
}

/// The deepest inner size, and one that is too deep: an inner size counts from 1.
fn levels() -> Vec<Recorded> {
    let row = |name, times, answer, place| {
        let size = nested(0x42, times, &number(0), &number(0));
        let inner = field(0x11, &size);
        let own = field(0x12, &joined(&[&[0, 1], &inner]));
        let program = field(1, &joined(&[&[0, 1], &own]));
        Recorded::check(name, program, answer, place)
    };
    // Each level starts 8 bytes further on; the first too deep is the left side of a sum.
    vec![
        row("an inner size of 16 levels", 15, 0, 0),
        row("an inner size of 17 levels", 16, 5, 136),
    ]
}

/// Two faults: the first in reading order is told.
fn orders() -> Vec<Recorded> {
    let below = "11 0d 00 43 0a 00 40 02 00 00 00 40 02 00 01 00";
    let two = |name, next: &str, answer, place| {
        let content = bytes(&format!("00 02 {below} {next}"));
        let program = field(1, &joined(&[&[0, 1], &field(0x12, &content)]));
        Recorded::check(name, program, answer, place)
    };
    let types = |name, types: &[&str], answer, place| {
        Recorded::check(name, family(0, types, &[]), answer, place)
    };
    let long = "12 06 00 00 01 10 00 00 00";
    let leftover = "12 13 00 00 01 11 0e 00 43 0a 00 40 02 00 00 00 40 02 00 01 00 00";
    vec![
        two("12 of one size before 3 of the next", "12 00 00", 12, 10),
        two("12 of one size before no next", "", 12, 10),
        row("leftover in a size before 12", leftover, 4, 10),
        row("a byte left over in a type", long, 4, TYPE_AT),
        row(
            "an inner type too many",
            "12 08 00 00 01 10 00 00 10 00 00",
            4,
            TYPE_AT,
        ),
        row(
            "3 of an inner type before a byte left over",
            "12 09 00 00 02 10 00 00 13 00 00 00",
            3,
            13,
        ),
        types("leftover before the next type", &[long, "13 00 00"], 4, 5),
        types("3 of the next type", &[ON_A_WIRE, "13 00 00"], 3, 13),
        types("a wire behind a family", &[ON_A_WIRE, QBIT], 0, 0),
    ]
}

/// The variables of a type are its own, and not those of the family or of another type.
fn variables() -> Vec<Recorded> {
    let none = "12 09 00 00 01 11 04 00 41 01 00 00";
    let of_n = "11 04 00 41 01 00 00";
    let row = |name, count, types: &[&str], answer, place| {
        Recorded::check(name, family(count, types, &[]), answer, place)
    };
    vec![
        row(
            "a type's variable in a family of none",
            0,
            &[ON_N_WIRES],
            0,
            0,
        ),
        row("a family's variable in a type of none", 1, &[none], 8, 13),
        row(
            "a type's variable in the next type",
            0,
            &[ON_N_WIRES, none],
            8,
            25,
        ),
        row(
            "a type's variable behind the type",
            0,
            &[ON_N_WIRES, of_n],
            8,
            20,
        ),
        row("both variables", 1, &[ON_N_WIRES, of_n], 0, 0),
    ]
}

/// A family's type where none may stand.
fn places() -> Vec<Recorded> {
    let row = |program: &str, place| Recorded::check(program, bytes(program), 3, place);
    vec![
        row("12 05 00 00 01 10 00 00", 0),
        row("25 08 00 12 05 00 00 01 10 00 00", 3),
        row("20 08 00 12 05 00 00 01 10 00 00", 3),
        row("26 08 00 12 05 00 00 01 10 00 00", 3),
        row("01 0d 00 00 01 10 00 00 12 05 00 00 01 10 00 00", 8),
    ]
}
