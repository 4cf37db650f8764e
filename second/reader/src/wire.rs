//! What the NTLM messages share: the opening checks and field heads.

use crate::refusal::{Reason, Refusal};

/// The longest message: check 1 and check 30.
pub const MAX_MESSAGE: usize = 65_535;

/// The signature of an NTLM message.
pub(crate) const SIGNATURE: [u8; 8] = *b"NTLMSSP\0";

/// The `N` bytes at `AT` of a fixed part. A place outside the fixed part does
/// not compile.
#[allow(clippy::indexing_slicing)] // the range is checked by the assertion
pub(crate) fn part<const AT: usize, const N: usize, const FIXED: usize>(
    fixed: &[u8; FIXED],
) -> [u8; N] {
    const { assert!(AT + N <= FIXED) };
    let mut bytes = [0; N];
    bytes.copy_from_slice(&fixed[AT..AT + N]);
    bytes
}

/// The 32-bit number at `AT` of a fixed part.
pub(crate) fn number_at<const AT: usize, const FIXED: usize>(fixed: &[u8; FIXED]) -> u32 {
    u32::from_le_bytes(part::<AT, 4, FIXED>(fixed))
}

/// Check 1, "message over 65,535 bytes".
pub(crate) fn check_length(message: &[u8]) -> Result<(), Refusal> {
    if message.len() > MAX_MESSAGE {
        return Err(Reason::MessageTooLong.of_message());
    }
    Ok(())
}

/// Checks 1 to 4 of an NTLM message; its fixed part.
pub(crate) fn open<const FIXED: usize>(
    message: &[u8],
    message_type: u32,
) -> Result<&[u8; FIXED], Refusal> {
    check_length(message)?;
    let fixed = message
        .first_chunk::<FIXED>()
        .ok_or(Reason::MessageTooShort.of_message())?;
    if part::<0, 8, FIXED>(fixed) != SIGNATURE {
        return Err(Reason::Signature.of_message());
    }
    if number_at::<8, FIXED>(fixed) != message_type {
        return Err(Reason::MessageType.of_message());
    }
    Ok(fixed)
}

/// A field's place in its message, its own bytes and its MaxLen. "An empty
/// field's offset is ignored and its place is 0."
#[derive(Clone, Copy, Debug, Default, PartialEq, Eq)]
pub struct Field<'a> {
    /// Where the field begins, from the start of the message.
    pub place: usize,
    /// The field's bytes.
    pub bytes: &'a [u8],
    /// MaxLen as the head has it, also of an empty field; "0 where the field
    /// doesn't count".
    pub max_len: u16,
}

/// "Each field's place and bytes": the `len` bytes of `message` from `offset`
/// on. "A nonempty field ends past the message" is refused 6, with no field's
/// number; "an empty field's offset is ignored".
pub fn field_bytes(message: &[u8], offset: u32, len: u16) -> Result<&[u8], Refusal> {
    let head = Head {
        len,
        max_len: 0,
        offset,
    };
    head.locate(message, 0).map(|field| field.bytes)
}

impl Field<'_> {
    /// Whether the field has no bytes.
    pub const fn is_empty(&self) -> bool {
        self.bytes.is_empty()
    }

    /// The place after the field. A located field ends inside its message.
    const fn end(&self) -> usize {
        self.place.saturating_add(self.bytes.len())
    }

    /// "1 where a field that counts has MaxLen unlike Len": one that doesn't count
    /// has neither.
    pub(crate) const fn max_len_differs(&self) -> bool {
        self.max_len as usize != self.bytes.len()
    }

    /// Whether both fields hold one byte of the message.
    pub(crate) const fn shares_byte_with(&self, other: &Field<'_>) -> bool {
        !self.is_empty()
            && !other.is_empty()
            && self.place < other.end()
            && other.place < self.end()
    }

    /// Check 7, "a nonempty field begins in the fixed part".
    const fn check_begin(&self, fixed: usize, field: u8) -> Result<(), Refusal> {
        if !self.is_empty() && self.place < fixed {
            return Err(Reason::FieldInFixedPart.of_field(field));
        }
        Ok(())
    }

    /// Check 8 for a Unicode name, "at an odd offset or of odd length".
    pub(crate) const fn check_even(&self, field: u8) -> Result<(), Refusal> {
        if !self.is_empty() && (self.place | self.bytes.len()) & 1 == 1 {
            return Err(Reason::OddName.of_field(field));
        }
        Ok(())
    }
}

/// "A field head is Len (2 bytes), MaxLen (2), offset (4) from the start of
/// the message." No check looks at MaxLen; since request 9/12 "the record of a
/// field .. holds MaxLen as well".
#[derive(Clone, Copy, Default)]
pub(crate) struct Head {
    pub(crate) len: u16,
    max_len: u16,
    pub(crate) offset: u32,
}

/// The head of a field by its number, the first being 1.
pub(crate) fn head_of<const N: usize>(heads: [Head; N], field: u8) -> Option<Head> {
    heads.get(usize::from(field).checked_sub(1)?).copied()
}

impl Head {
    pub(crate) fn read<const AT: usize, const FIXED: usize>(fixed: &[u8; FIXED]) -> Self {
        let [len_low, len_high, max_low, max_high, offset @ ..] = part::<AT, 8, FIXED>(fixed);
        Self {
            len: u16::from_le_bytes([len_low, len_high]),
            max_len: u16::from_le_bytes([max_low, max_high]),
            offset: u32::from_le_bytes(offset),
        }
    }

    /// "A field that doesn't count is read as empty."
    pub(crate) const fn counted(self, counts: bool) -> Self {
        if counts {
            self
        } else {
            Self {
                len: 0,
                max_len: 0,
                offset: 0,
            }
        }
    }

    /// Check 6, "a nonempty field ends past the message"; otherwise the field.
    fn locate(self, message: &[u8], field: u8) -> Result<Field<'_>, Refusal> {
        if self.len == 0 {
            return Ok(Field {
                max_len: self.max_len,
                ..Field::default()
            });
        }
        self.slice_of(message)
            .ok_or(Reason::FieldPastEnd.of_field(field))
    }

    /// The stretch of `message`, with offset and length added without wrapping.
    fn slice_of(self, message: &[u8]) -> Option<Field<'_>> {
        let place = usize::try_from(self.offset).ok()?;
        let end = place.checked_add(usize::from(self.len))?;
        let bytes = message.get(place..end)?;
        Some(Field {
            place,
            bytes,
            max_len: self.max_len,
        })
    }
}

/// Checks 6 and 7, each over all heads in field order, the first being that of
/// field 1; otherwise the fields.
pub(crate) fn locate<const N: usize>(
    message: &[u8],
    fixed: usize,
    heads: [Head; N],
) -> Result<[Field<'_>; N], Refusal> {
    let mut fields = [Field::default(); N];
    for ((field, head), number) in fields.iter_mut().zip(heads).zip(1..) {
        *field = head.locate(message, number)?;
    }
    for (field, number) in fields.iter().zip(1..) {
        field.check_begin(fixed, number)?;
    }
    Ok(fields)
}
