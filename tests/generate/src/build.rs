//! Builders for program bytes: one small function for each kind of field.

/// The most bytes of a program.
pub const MOST_BYTES: usize = 65_535;
/// The most families of a program.
pub const MOST_FAMILIES: usize = 4_096;

/// A field as a tree: raw bytes, inner fields, then raw bytes again.
#[derive(Clone, Debug, PartialEq, Eq)]
pub struct Field {
    pub tag: u8,
    /// The numbers at the start of the content.
    pub head: Vec<u8>,
    /// The fields inside.
    pub parts: Vec<Field>,
    /// Leftover bytes; a sound field has none.
    pub tail: Vec<u8>,
}

impl Field {
    /// A field without leftover bytes.
    pub fn new(tag: u8, head: &[u8], parts: Vec<Field>) -> Field {
        Field {
            tag,
            head: head.to_vec(),
            parts,
            tail: Vec::new(),
        }
    }

    /// The number of bytes of the whole field.
    pub fn size(&self) -> usize {
        3 + self.head.len() + length(&self.parts) + self.tail.len()
    }

    /// Writes the field; a length past two bytes is written without its rest.
    fn write(&self, bytes: &mut Vec<u8>) {
        bytes.push(self.tag);
        bytes.extend(((self.size() - 3) as u16).to_le_bytes());
        bytes.extend(&self.head);
        for part in &self.parts {
            part.write(bytes);
        }
        bytes.extend(&self.tail);
    }

    /// Adds the offsets of all headers in the field.
    fn headers(&self, start: usize, offsets: &mut Vec<usize>) {
        offsets.push(start);
        let mut inside = start + 3 + self.head.len();
        for part in &self.parts {
            part.headers(inside, offsets);
            inside += part.size();
        }
    }
}

/// The bytes of a program.
pub fn program(fields: &[Field]) -> Vec<u8> {
    let mut bytes = Vec::new();
    for field in fields {
        field.write(&mut bytes);
    }
    bytes
}

/// The offsets of all headers of a program, in reading order.
pub fn headers(fields: &[Field]) -> Vec<usize> {
    let mut offsets = Vec::new();
    let mut start = 0;
    for field in fields {
        field.headers(start, &mut offsets);
        start += field.size();
    }
    offsets
}

/// The number of bytes of fields.
pub fn length(fields: &[Field]) -> usize {
    fields.iter().map(Field::size).sum()
}

/// How many families fields declare.
pub fn families(fields: &[Field]) -> usize {
    fields.iter().filter(|field| field.tag == 1).count()
}

/// Sizes as an instance takes them, four bytes for each.
pub fn sizes(numbers: &[u32]) -> Vec<u8> {
    numbers.iter().flat_map(|n| n.to_le_bytes()).collect()
}

/// A family with `m` index variables.
pub fn family(m: u8, types: Vec<Field>, body: Vec<Field>) -> Field {
    let count = types.len() as u8;
    let mut parts = types;
    parts.extend(body);
    Field::new(1, &[m, count], parts)
}

/// The type of one wire.
pub fn qbit() -> Field {
    Field::new(16, &[], vec![])
}

/// The type of a register with a size.
pub fn qbits(size: Field) -> Field {
    Field::new(17, &[], vec![size])
}

/// The type of a family with `m` index variables and parameters of types.
pub fn family_type(m: u8, types: Vec<Field>) -> Field {
    Field::new(18, &[m, types.len() as u8], types)
}

/// A quantum register.
pub fn qreg(size: u16) -> Field {
    Field::new(2, &size.to_le_bytes(), vec![])
}

/// A classical register.
pub fn creg(size: u16) -> Field {
    Field::new(3, &size.to_le_bytes(), vec![])
}

/// A measurement of a wire into a bit.
pub fn measure(wire: Field, bit: Field) -> Field {
    Field::new(4, &[], vec![wire, bit])
}

/// A reset of a wire.
pub fn reset(wire: Field) -> Field {
    Field::new(5, &[], vec![wire])
}

/// Statements under the condition that a bit has a value.
pub fn when(value: u8, bit: Field, body: Vec<Field>) -> Field {
    let mut parts = vec![bit];
    parts.extend(body);
    Field::new(6, &[value], parts)
}

/// The gate h.
pub fn h(wire: Field) -> Field {
    Field::new(32, &[], vec![wire])
}

/// The gate t.
pub fn t(wire: Field) -> Field {
    Field::new(33, &[], vec![wire])
}

/// The gate tdg.
pub fn tdg(wire: Field) -> Field {
    Field::new(34, &[], vec![wire])
}

/// The gate cx.
pub fn cx(control: Field, target: Field) -> Field {
    Field::new(35, &[], vec![control, target])
}

/// A part of a turn, one by 2 to the k.
pub fn phase(k: Field, wire: Field) -> Field {
    Field::new(40, &[], vec![k, wire])
}

/// Such a part of a turn under a control.
pub fn cphase(k: Field, control: Field, target: Field) -> Field {
    Field::new(41, &[], vec![k, control, target])
}

/// A call of a family, with a number of one byte where that is enough.
pub fn call(family: u16, sizes: Vec<Field>, operands: Vec<Field>) -> Field {
    match u8::try_from(family) {
        Ok(family) => Field::new(36, &[family], [sizes, operands].concat()),
        Err(_) => wide_call(family, sizes, operands),
    }
}

/// A call of a family with a number of two bytes, whether or not one is enough.
pub fn wide_call(family: u16, sizes: Vec<Field>, operands: Vec<Field>) -> Field {
    Field::new(39, &family.to_le_bytes(), [sizes, operands].concat())
}

/// A call of the parameter with a number, which is a family.
pub fn parameter_call(number: u8, sizes: Vec<Field>, operands: Vec<Field>) -> Field {
    Field::new(42, &[number], [sizes, operands].concat())
}

/// Statements run backward.
pub fn reverse(body: Vec<Field>) -> Field {
    Field::new(37, &[], body)
}

/// A loop from low to high.
pub fn repeat(low: Field, high: Field, body: Vec<Field>) -> Field {
    let mut parts = vec![low, high];
    parts.extend(body);
    Field::new(38, &[], parts)
}

/// An operand by its number alone.
pub fn whole(number: u8) -> Field {
    Field::new(48, &[number], vec![])
}

/// An element of the operand with a number.
pub fn element(number: u8, index: Field) -> Field {
    Field::new(49, &[number], vec![index])
}

/// The part of the operand with a number from a first to a last element.
pub fn slice(number: u8, first: Field, last: Field) -> Field {
    Field::new(50, &[number], vec![first, last])
}

/// A declared family that is passed.
pub fn passed(family: u16) -> Field {
    Field::new(51, &family.to_le_bytes(), vec![])
}

/// A part of which both ends are fixed.
pub fn between(number: u8, first: u16, last: u16) -> Field {
    slice(number, literal(first), literal(last))
}

/// An element at a fixed place.
pub fn at(number: u8, index: u16) -> Field {
    element(number, literal(index))
}

/// A literal index.
pub fn literal(number: u16) -> Field {
    Field::new(64, &number.to_le_bytes(), vec![])
}

/// An index variable.
pub fn variable(number: u8) -> Field {
    Field::new(65, &[number], vec![])
}

/// A sum of two indexes.
pub fn sum(left: Field, right: Field) -> Field {
    Field::new(66, &[], vec![left, right])
}

/// A difference of two indexes.
pub fn difference(left: Field, right: Field) -> Field {
    Field::new(67, &[], vec![left, right])
}

/// A product of two indexes.
pub fn product(left: Field, right: Field) -> Field {
    Field::new(68, &[], vec![left, right])
}

/// An index variable plus a number.
pub fn plus(number: u8, more: u16) -> Field {
    sum(variable(number), literal(more))
}

/// An index variable minus a number.
pub fn minus(number: u8, less: u16) -> Field {
    difference(variable(number), literal(less))
}

/// The index 2,000,000,000, the largest there is.
pub fn largest() -> Field {
    product(literal(40_000), literal(50_000))
}

/// The index -2,000,000,000, the smallest there is.
pub fn smallest() -> Field {
    difference(literal(0), largest())
}
