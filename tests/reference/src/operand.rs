//! Reading and typing operands: wires, bits and a call's arguments, slices and families among
//! them.

use crate::bytes::{refuse, Content, Refusal};
use crate::form::Form;
use crate::index::{ranged, Kind, Scope};
use crate::tree::{
    Argument, BitOperand, Called, Family, FamilyType, Index, Slice, Type, WireOperand,
};

/// What a call has to hand to a parameter.
pub enum Wanted<'w> {
    Wire,
    Wires(&'w Form),
    Family(&'w FamilyType),
}

/// An operand field that has been read but not typed.
struct Operand<'s> {
    place: u32,
    named: Named<'s>,
}

/// What an operand names: all, an element or a slice of what a number in scope stands for,
/// or a declared family.
enum Named<'s> {
    Whole(u8, &'s Kind),
    Element(u8, &'s Kind, (Index, Form)),
    Slice(u8, &'s Kind, Span),
    Family(u16),
}

/// The first and the last index of a slice, as trees and as forms.
struct Span {
    first: (Index, Form),
    last: (Index, Form),
}

impl Family {
    /// Whether this family has the counts and kinds of a family's type.
    fn agrees(&self, formal: &FamilyType) -> bool {
        let counts = (self.sizes, self.parameters.len());
        let mut pairs = formal.parameters.iter().zip(&self.parameters);
        counts == (formal.sizes, formal.parameters.len())
            && pairs.all(|(formal, own)| match formal {
                None => matches!(own.kind, Type::Wire),
                Some(_) => matches!(own.kind, Type::Wires(_)),
            })
    }
}

/// A wire that has been typed: its operand and, for an element, the form of its index.
pub struct TypedWire {
    pub operand: WireOperand,
    pub form: Option<Form>,
}

impl Scope<'_> {
    /// Reads an operand that must be a wire.
    pub fn wire(&self, content: &mut Content) -> Result<WireOperand, Refusal> {
        Ok(self.typed_wire(content)?.operand)
    }

    /// The same with the form of its index.
    pub fn typed_wire(&self, content: &mut Content) -> Result<TypedWire, Refusal> {
        self.as_wire(self.operand(content, None)?)
    }

    /// Reads an operand that must be a bit.
    pub fn bit(&self, content: &mut Content) -> Result<BitOperand, Refusal> {
        let Operand { place, named } = self.operand(content, None)?;
        match named {
            Named::Element(number, Kind::Bits(size), (index, form)) => {
                self.inside(&form, size, place)?;
                Ok(BitOperand(number, index))
            }
            _ => refuse(9, place),
        }
    }

    /// Reads what a call with these forms hands to a parameter.
    pub fn argument(
        &self,
        content: &mut Content,
        called: Called,
        wanted: Wanted,
        forms: &[Form],
    ) -> Result<Argument, Refusal> {
        let operand = self.operand(content, Some(called))?;
        match wanted {
            Wanted::Wire => Ok(Argument::Wire(self.as_wire(operand)?.operand)),
            Wanted::Wires(asked) => self.as_register(operand, asked, forms),
            Wanted::Family(formal) => self.as_family(operand, formal),
        }
    }

    /// Types an operand that must be a wire.
    fn as_wire(&self, Operand { place, named }: Operand) -> Result<TypedWire, Refusal> {
        match named {
            Named::Whole(number, Kind::Wire) => Ok(TypedWire {
                operand: WireOperand::Whole(number),
                form: None,
            }),
            Named::Element(number, Kind::Wires(size), (index, form)) => {
                self.inside(&form, size, place)?;
                Ok(TypedWire {
                    operand: WireOperand::Element(number, index),
                    form: Some(form),
                })
            }
            _ => refuse(9, place),
        }
    }

    /// Types a register, whole or a slice of it, that must have at least the size that a
    /// parameter asks for.
    fn as_register(
        &self,
        Operand { place, named }: Operand,
        asked: &Form,
        forms: &[Form],
    ) -> Result<Argument, Refusal> {
        match named {
            Named::Whole(number, Kind::Wires(size)) => {
                self.large_enough(size, asked, forms, place)?;
                Ok(Argument::Register(number))
            }
            Named::Slice(number, Kind::Wires(size), span) => {
                let held = self.slice_size(&span, size, place)?;
                self.large_enough(&held, asked, forms, place)?;
                let (first, last) = (span.first.0, span.last.0);
                Ok(Argument::Slice(Box::new(Slice {
                    number,
                    first,
                    last,
                })))
            }
            _ => refuse(9, place),
        }
    }

    /// Types a declared family, which must have the counts and kinds of a family's type and
    /// ask for no more wires, whatever its own variables are.
    fn as_family(
        &self,
        Operand { place, named }: Operand,
        formal: &FamilyType,
    ) -> Result<Argument, Refusal> {
        let Named::Family(number) = named else {
            return refuse(9, place);
        };
        let family = &self.families[usize::from(number)];
        if !family.agrees(formal) {
            return refuse(9, place);
        }
        for (given, own) in formal.parameters.iter().zip(&family.parameters) {
            if let (Some(given), Type::Wires(asked)) = (given, &own.kind) {
                let spare = ranged(given.minus(&asked.form), place)?;
                if !ranged(spare.shown(formal.sizes, &[]), place)? {
                    return refuse(12, place);
                }
            }
        }
        Ok(Argument::Family(number))
    }

    /// Asks for a size to be shown as large as a parameter asks for.
    fn large_enough(
        &self,
        size: &Form,
        asked: &Form,
        forms: &[Form],
        place: u32,
    ) -> Result<(), Refusal> {
        let asked = ranged(asked.put_in(forms), place)?;
        let spare = ranged(size.minus(&asked), place)?;
        self.show(&spare, place)
    }

    /// Asks for a slice to be shown inside a register, and gives its size.
    fn slice_size(&self, span: &Span, size: &Form, place: u32) -> Result<Form, Refusal> {
        let (first, last) = (&span.first.1, &span.last.1);
        self.show(first, place)?;
        self.before_end(last, size, place)?;
        let distance = ranged(last.minus(first), place)?;
        let held = ranged(distance.plus(&Form::constant(1)), place)?;
        self.show(&held, place)?;
        Ok(held)
    }

    /// Asks for an index to be shown inside a register.
    fn inside(&self, index: &Form, size: &Form, place: u32) -> Result<(), Refusal> {
        self.show(index, place)?;
        self.before_end(index, size, place)
    }

    /// Asks for an index to be shown no larger than the last of a register.
    fn before_end(&self, index: &Form, size: &Form, place: u32) -> Result<(), Refusal> {
        let last = ranged(size.minus(&Form::constant(1)), place)?;
        let rest = ranged(last.minus(index), place)?;
        self.show(&rest, place)
    }

    /// Reads an operand field up to its leftover bytes; in a call it is an argument.
    fn operand(
        &self,
        content: &mut Content,
        called: Option<Called>,
    ) -> Result<Operand<'_>, Refusal> {
        let mut field = content.field()?;
        let place = field.place;
        let named = match field.tag {
            48..=50 => self.part(field.tag, &mut field.content, place)?,
            51 => Named::Family(self.family_number(&mut field.content, place, called)?),
            _ => return refuse(3, place),
        };
        field.content.end()?;
        Ok(Operand { place, named })
    }

    /// Reads the number of a declared family. Where a family is called by its own number, the
    /// passed one must be declared before it.
    fn family_number(
        &self,
        content: &mut Content,
        place: u32,
        called: Option<Called>,
    ) -> Result<u16, Refusal> {
        let number = content.number()?;
        if usize::from(number) >= self.families.len() {
            return refuse(8, place);
        }
        match called {
            Some(Called::Family(family)) if number >= family => refuse(33, place),
            _ => Ok(number),
        }
    }

    /// Reads an operand number and the indexes that stand behind it.
    fn part(&self, tag: u8, content: &mut Content, place: u32) -> Result<Named<'_>, Refusal> {
        let number = content.byte()?;
        let Some(kind) = self.kinds.get(usize::from(number)) else {
            return refuse(8, place);
        };
        Ok(match tag {
            48 => Named::Whole(number, kind),
            49 => Named::Element(number, kind, self.index(content)?),
            _ => {
                let first = self.index(content)?;
                let last = self.index(content)?;
                Named::Slice(number, kind, Span { first, last })
            }
        })
    }
}
