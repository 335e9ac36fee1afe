//! The two wires of a cx or cphase, which must not be one wire in every run.

use crate::bytes::{refuse, Content, Refusal};
use crate::index::Scope;
use crate::operand::TypedWire;
use crate::tree::WireOperand;

impl TypedWire {
    /// Whether two operands are one wire in every run: they have the same number, and are both
    /// whole or have equal forms.
    fn is_same(&self, other: &TypedWire) -> bool {
        self.operand.number() == other.operand.number() && self.form == other.form
    }
}

impl Scope<'_> {
    /// Reads the last two operands of a gate, which stands at a place, to its end.
    pub fn two_wires(
        &self,
        content: &mut Content,
        place: u32,
    ) -> Result<[WireOperand; 2], Refusal> {
        let control = self.typed_wire(content)?;
        let target = self.typed_wire(content)?;
        content.end()?;
        match control.is_same(&target) {
            true => refuse(35, place),
            false => Ok([control.operand, target.operand]),
        }
    }
}

#[cfg(test)]
mod tests {
    use crate::{check, instance, run, Outcome};

    /// A field around content.
    fn field(tag: u8, parts: &[&[u8]]) -> Vec<u8> {
        let content = parts.concat();
        let [low, high] = (content.len() as u16).to_le_bytes();
        [&[tag, low, high], &content[..]].concat()
    }

    /// A literal, a variable, and a pair of indexes with a tag.
    fn number(value: u16) -> Vec<u8> {
        field(64, &[&value.to_le_bytes()])
    }
    fn variable(value: u8) -> Vec<u8> {
        field(65, &[&[value]])
    }
    fn pair(tag: u8, left: &[u8], right: &[u8]) -> Vec<u8> {
        field(tag, &[left, right])
    }

    /// An element and a whole operand.
    fn element(operand: u8, index: &[u8]) -> Vec<u8> {
        field(49, &[&[operand], index])
    }
    fn whole(operand: u8) -> Vec<u8> {
        field(48, &[&[operand]])
    }

    /// Both gates on two wires, a cphase by 3.
    fn gates(first: &[u8], second: &[u8]) -> [Vec<u8>; 2] {
        let k = number(3);
        [field(35, &[first, second]), field(41, &[&k, first, second])]
    }

    /// A family over n and m with x:Qbit[n + 2], y:Qbit[n + 2], a:Qbit and b:Qbit, whose body
    /// is a loop over i from 0 to n, with another over j from i to i, with a gate; and the
    /// gate's place.
    fn in_a_family(gate: &[u8]) -> (Vec<u8>, u32) {
        let cells = field(17, &[&pair(66, &variable(0), &number(2))]);
        let wire = field(16, &[]);
        let inner = field(38, &[&variable(2), &variable(2), gate]);
        let outer = field(38, &[&number(0), &variable(0), &inner]);
        let types = [&cells[..], &cells, &wire, &wire].concat();
        let program = field(1, &[&[2, 4], &types, &outer]);
        let place = (program.len() - gate.len()) as u32;
        (program, place)
    }

    /// Tests that both gates in the family are refused with a number at their place, or
    /// accepted.
    fn hold(first: &[u8], second: &[u8], number: u32) {
        for gate in gates(first, second) {
            let (program, at) = in_a_family(&gate);
            let place = if number == 0 { 0 } else { at };
            let due = Outcome::before_run(number, place);
            assert_eq!(check(&program), due, "{first:?}, {second:?}");
        }
    }

    /// Indexes of one form each, in several spellings: i, n + 1, 1, and n - i.
    fn spellings() -> [Vec<Vec<u8>>; 4] {
        let [n, i] = [0, 2].map(variable);
        let [zero, one, two] = [0, 1, 2].map(number);
        let [sum, difference, product] =
            [66, 67, 68].map(|tag| move |l: &[u8], r: &[u8]| pair(tag, l, r));
        let left = difference(&n, &i);
        [
            vec![
                i.clone(),
                sum(&i, &product(&zero, &n)),
                difference(&product(&two, &i), &i),
                difference(&sum(&n, &i), &n),
            ],
            vec![
                sum(&n, &one),
                sum(&one, &n),
                difference(&sum(&n, &two), &one),
                sum(&difference(&n, &i), &sum(&i, &one)),
            ],
            vec![
                one.clone(),
                difference(&two, &one),
                product(&one, &one),
                difference(&sum(&n, &one), &n),
            ],
            vec![
                left.clone(),
                difference(&zero, &difference(&i, &n)),
                sum(&difference(&zero, &i), &n),
                product(&left, &one),
            ],
        ]
    }

    #[test]
    fn elements_are_the_same_exactly_where_their_forms_are_equal() {
        let spellings = spellings();
        for (one, firsts) in spellings.iter().enumerate() {
            for (other, seconds) in spellings.iter().enumerate() {
                let due = if one == other { 35 } else { 0 };
                for first in firsts {
                    for second in seconds {
                        hold(&element(0, first), &element(0, second), due);
                    }
                }
            }
        }
    }

    #[test]
    fn the_number_of_the_operands_counts_too() {
        let one = number(1);
        hold(&element(0, &one), &element(1, &one), 0);
        hold(&element(1, &one), &element(1, &one), 35);
        hold(&whole(2), &whole(2), 35);
        hold(&whole(3), &whole(3), 35);
        hold(&whole(2), &whole(3), 0);
        hold(&whole(2), &element(0, &one), 0);
    }

    #[test]
    fn forms_that_differ_in_one_number_are_not_the_same() {
        let [n, m, i, j] = [0, 1, 2, 3].map(variable);
        let zero = number(0);
        for other in [&n, &i, &j, &number(1)] {
            hold(&element(0, &zero), &element(0, other), 0);
            hold(&element(0, other), &element(0, &zero), 0);
        }
        // j is i in every round, but by its range and not by its form.
        hold(&element(0, &i), &element(0, &j), 0);
        let no_m = pair(66, &i, &pair(68, &zero, &m));
        hold(&element(0, &i), &element(0, &no_m), 35);
    }

    /// The numbers and places that check gives to both gates with these operands, in a program
    /// of q[2], where they stand at 5, with a byte left over or not.
    fn answers(first: &[u8], second: &[u8], left: &[u8]) -> [(u32, u32); 2] {
        let register = field(2, &[&[2, 0]]);
        let [cx, cphase] = gates(first, second).map(|gate| gate[3..].to_vec());
        [(35, cx), (41, cphase)].map(|(tag, content)| {
            let program = [&register[..], &field(tag, &[&content, left])].concat();
            let answer = check(&program);
            (answer.number, answer.place)
        })
    }

    #[test]
    fn it_is_the_last_test_of_the_gate() {
        let wire = element(0, &number(0));
        let past = element(0, &number(2));
        assert_eq!(answers(&wire, &wire, &[]), [(35, 5); 2]);
        assert_eq!(answers(&wire, &wire, &[0]), [(4, 5); 2]);
        assert_eq!(answers(&past, &past, &[]), [(12, 8), (12, 13)]);
        assert_eq!(answers(&whole(0), &whole(0), &[]), [(9, 8), (9, 13)]);
        assert_eq!(answers(&wire, &whole(0), &[]), [(9, 17), (9, 22)]);
        assert_eq!(answers(&whole(1), &whole(1), &[]), [(8, 8), (8, 13)]);
    }

    #[test]
    fn k_comes_before_the_operands() {
        let register = field(2, &[&[2, 0]]);
        let wire = element(0, &number(0));
        let below = pair(67, &number(0), &number(1));
        let answer = |k: &[u8]| {
            let program = [&register[..], &field(41, &[k, &wire, &wire])].concat();
            let answer = check(&program);
            (answer.number, answer.place)
        };
        assert_eq!(answer(&below), (12, 8));
        assert_eq!(answer(&number(64)), (35, 5));
    }

    #[test]
    fn no_call_gets_past_it_and_nothing_is_written() {
        let wire = whole(2);
        for gate in gates(&wire, &wire) {
            let (program, place) = in_a_family(&gate);
            let due = Outcome::before_run(35, place);
            let mut output = [7; 24];
            assert_eq!(run(&program, 10, &mut output), due);
            assert_eq!(instance(&program, 9, &[], 10, &mut output), due);
            assert_eq!(output, [7; 24]);
        }
    }

    #[test]
    fn equal_wires_by_different_forms_still_end_a_run() {
        let [i, j] = [2, 3].map(variable);
        for gate in gates(&element(0, &i), &element(0, &j)) {
            let (program, place) = in_a_family(&gate);
            let mut output = [7; 24];
            let answer = instance(&program, 0, &[0; 8], 10, &mut output);
            assert_eq!((answer.number, answer.place, answer.steps), (25, place, 5));
        }
    }
}
