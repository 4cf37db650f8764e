//! Refusals: the table of document 01, "What comes back", with the place of
//! document 02's request 3/12.

use std::fmt;

/// Why a call refused. The discriminant is the number in document 01's table.
#[derive(Clone, Copy, Debug, PartialEq, Eq)]
#[repr(u8)]
pub enum Reason {
    /// "message over 65,535 bytes"
    MessageTooLong = 1,
    /// "shorter than the fixed part (NL_AUTH: 8)"
    MessageTooShort = 2,
    /// "signature differs"
    Signature = 3,
    /// "type differs"
    MessageType = 4,
    /// "UNICODE and OEM both clear"
    NoCharacterSet = 5,
    /// "a nonempty field ends past the message"
    FieldPastEnd = 6,
    /// "a nonempty field begins in the fixed part"
    FieldInFixedPart = 7,
    /// "UNICODE set, a nonempty name or TargetName at an odd offset or of odd length"
    OddName = 8,
    /// "a name shares a byte with a secret"
    NameOnSecret = 9,
    /// "a pair's value passes the end of the list"
    PairPastEnd = 10,
    /// "under 4 bytes left where a pair should start"
    PairCutOff = 11,
    /// "end pair with nonzero length, or bytes after it"
    EndPair = 12,
    /// "a pair of a size that its id forbids"
    PairSize = 13,
    /// "NL_AUTH request with no bit A to E"
    NoStrings = 14,
    /// "a string without its zero byte", in C, D and E "a length byte, label or
    /// jump cut short"
    StringNotEnded = 15,
    /// "bytes after the last string"
    BytesAfterStrings = 16,
    /// "a response's buffer isn't one zero byte"
    ResponseBuffer = 17,
    /// "128-bit demanded, not in the flags (SEC_E_UNSUPPORTED_FUNCTION)"
    No128Bit = 20,
    /// "NTLMv2 and either integrity or confidentiality wanted, pairs 1 and 2
    /// not both there (STATUS_LOGON_FAILURE)"
    NoServerNames = 21,
    /// "a message to write would pass 65,535 bytes"
    WrittenTooLong = 30,
    /// "UNICODE set, a name to write has odd length"
    WrittenOddName = 31,
    /// "a key neither empty nor 16 bytes, or not empty with KEY_EXCH clear"
    WrittenKey = 32,
    /// "the output is shorter than what is written"
    NoRoom = 33,
    /// "an NL_AUTH string to write holds a zero byte"
    WrittenZeroByte = 34,
    /// "other top bits", in writing "an empty label or one over 63"
    WrongLabel = 50,
    /// "a place not before"
    JumpNotBack = 51,
    /// "a seventeenth jump"
    TooManyJumps = 52,
    /// "over 255"
    NameTooLong = 53,
    /// "start plus length passes the buffer's end"
    PlaceOutside = 54,
    /// "a key that isn't 16 bytes"
    SessionKey = 55,
    /// "the AUTHENTICATE has no MIC"
    NoMic = 56,
    /// "the scheme word or missing space"
    Scheme = 57,
    /// "a bad character, padding, group or last bits"
    Base64 = 58,
}

impl Reason {
    /// This reason with field 0.
    pub const fn of_message(self) -> Refusal {
        self.of_field(0)
    }

    /// This reason with the field it is about.
    pub const fn of_field(self, field: u8) -> Refusal {
        Refusal {
            reason: self,
            field,
            place: 0,
        }
    }
}

/// A refusal gives its number, its field and its place.
#[derive(Clone, Copy, Debug, PartialEq, Eq)]
pub struct Refusal {
    /// What was wrong.
    pub reason: Reason,
    /// The field, string or 0 that the table returns with the number.
    pub field: u8,
    /// For 10 to 13 "the byte place, from the start of the message (of the list,
    /// where a list alone is walked), of the first byte of the pair that failed.
    /// For 11 it's the place where a pair should have started"; 0 for every other
    /// number.
    pub place: usize,
}

impl Refusal {
    /// This refusal of a pair at `place`.
    pub(crate) const fn at(self, place: usize) -> Self {
        Self { place, ..self }
    }

    /// This refusal of a list's pair, with the place counted from the start of
    /// the message in which the list begins at `list`. The sum lies inside the
    /// message.
    pub(crate) const fn in_message(self, list: usize) -> Self {
        self.at(self.place.saturating_add(list))
    }

    /// The number in document 01's table.
    pub const fn number(self) -> u8 {
        self.reason as u8
    }
}

impl fmt::Display for Refusal {
    fn fmt(&self, f: &mut fmt::Formatter<'_>) -> fmt::Result {
        let Self { field, place, .. } = self;
        write!(f, "refused {} field={field} at={place}", self.number())
    }
}

impl std::error::Error for Refusal {}
