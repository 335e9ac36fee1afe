//! Reading fields from program bytes: headers, numbers and where content ends.

/// Why a program, or the start of an instance, is turned down, and where.
#[derive(Clone, Copy, Debug, PartialEq, Eq)]
pub struct Refusal {
    pub number: u32,
    pub place: u32,
}

/// Turns the input down at a place.
pub fn refuse<T>(number: u32, place: u32) -> Result<T, Refusal> {
    Err(Refusal { number, place })
}

/// A field whose header has been read.
pub struct Field<'a> {
    pub tag: u8,
    pub place: u32,
    pub content: Content<'a>,
}

/// The unread rest of one field's content, or of the whole program.
pub struct Content<'a> {
    /// The place of the field whose content this is.
    place: u32,
    /// The offset of the first unread byte.
    offset: u32,
    rest: &'a [u8],
}

impl<'a> Content<'a> {
    /// The whole program as a list of fields.
    pub fn of_program(program: &'a [u8]) -> Content<'a> {
        Content {
            place: 0,
            offset: 0,
            rest: program,
        }
    }

    /// The offset of the first unread byte.
    pub fn offset(&self) -> u32 {
        self.offset
    }

    /// Reads a byte that is due.
    pub fn byte(&mut self) -> Result<u8, Refusal> {
        let Some((&byte, rest)) = self.rest.split_first() else {
            return refuse(4, self.place);
        };
        self.rest = rest;
        self.offset += 1;
        Ok(byte)
    }

    /// Reads a two-byte number that is due.
    pub fn number(&mut self) -> Result<u16, Refusal> {
        Ok(u16::from_le_bytes([self.byte()?, self.byte()?]))
    }

    /// Reads the header of a field that is due.
    pub fn field(&mut self) -> Result<Field<'a>, Refusal> {
        match self.next_field() {
            Some(field) => field,
            None => refuse(4, self.place),
        }
    }

    /// Reads the header of the next field of a list, or none at its end.
    pub fn next_field(&mut self) -> Option<Result<Field<'a>, Refusal>> {
        if self.rest.is_empty() {
            return None;
        }
        Some(self.header().ok_or(Refusal {
            number: 2,
            place: self.offset,
        }))
    }

    /// Splits off one field, or none where header or content do not fit.
    fn header(&mut self) -> Option<Field<'a>> {
        let (&[tag, low, high], after) = self.rest.split_first_chunk()?;
        let length = u16::from_le_bytes([low, high]);
        let (content, rest) = after.split_at_checked(usize::from(length))?;
        let place = self.offset;
        self.rest = rest;
        self.offset = place + 3 + u32::from(length);
        Some(Field {
            tag,
            place,
            content: Content {
                place,
                offset: place + 3,
                rest: content,
            },
        })
    }

    /// Turns leftover bytes down.
    pub fn end(&self) -> Result<(), Refusal> {
        if self.rest.is_empty() {
            Ok(())
        } else {
            refuse(4, self.place)
        }
    }
}
