//! Refusals: a number, a field and a place.

use core::error::Error;
use core::fmt;

/// Each reason once: its number, its name and what is wrong. The names are those of the header's
/// DIALTABLE_REFUSED_, without the underscores.
macro_rules! reasons {
    ($($number:literal $name:ident $text:literal;)*) => {
        /// Why a call refused.
        #[derive(Clone, Copy, Debug, PartialEq, Eq, Hash)]
        pub enum Reason {
            $(#[doc = $text] $name,)*
            /// A number that this version doesn't know.
            Other(u8),
        }

        impl Reason {
            /// The reason of a number.
            pub const fn of(number: u8) -> Self {
                match number {
                    $($number => Self::$name,)*
                    other => Self::Other(other),
                }
            }

            /// The reason's number.
            pub const fn number(self) -> u8 {
                match self {
                    $(Self::$name => $number,)*
                    Self::Other(number) => number,
                }
            }

            const fn text(self) -> &'static str {
                match self {
                    $(Self::$name => $text,)*
                    Self::Other(_) => "another reason",
                }
            }
        }
    };
}

reasons! {
    1 TooLong "message over 65,535 bytes";
    2 TooShort "shorter than its fixed part";
    3 WrongSignature "signature differs";
    4 WrongType "type differs";
    5 NoCharset "UNICODE and OEM both clear";
    6 PastEnd "a field ends past the message";
    7 InFixedPart "a field begins in the fixed part";
    8 OddName "a name at an odd place or of odd length";
    9 NameOverSecret "a name shares a byte with a secret";
    10 PairPastEnd "a pair's value passes the end of the list";
    11 PairMissing "under 4 bytes left where a pair should start";
    12 WrongEndPair "end pair with nonzero length, or bytes after it";
    13 WrongPairSize "a pair of a size that its id forbids";
    14 NoStrings "NL_AUTH request with no bit A to E";
    15 Unterminated "a string without its zero byte, or a name cut short";
    16 BytesLeft "bytes after the last string";
    17 WrongResponse "a response's buffer isn't one zero byte";
    20 No128Bit "128-bit demanded, not in the flags";
    21 NoServerNames "integrity or confidentiality wanted, pairs 1 and 2 not both there";
    30 TooLongToWrite "a message to write would pass 65,535 bytes";
    31 OddNameToWrite "a name to write has odd length";
    32 WrongKey "a key neither empty nor 16 bytes, or without KEY_EXCH";
    33 NoRoom "an output is too short";
    34 ZeroInString "an NL_AUTH string to write holds a zero byte";
    50 WrongLabel "a length byte of other top bits, or a label to write that is empty or over 63";
    51 PlaceNotBefore "a jump to a place that is not before its run of labels";
    52 TooManyJumps "a seventeenth jump in one name";
    53 NameTooLong "a name whose coded length is over 255";
    54 PlaceOutside "a message that passes the end of the night's buffer";
    55 WrongSessionKey "a session key that isn't 16 bytes";
    56 NoMic "an AUTHENTICATE without a MIC";
    57 WrongScheme "a header's text without the word NTLM and a space";
    58 WrongBase64 "a bad character, padding, group or last bits in base64";
}

/// A refused call. It changed no byte that it was lent.
#[derive(Clone, Copy, Debug, PartialEq, Eq, Hash)]
pub struct Refusal {
    /// What was wrong.
    pub reason: Reason,
    /// The field or string that it is about, or 0.
    pub field: u8,
    /// For 10 to 13 where the pair begins that failed, or for 11 where one should
    /// have, from the start of the message, or of a list that is lent alone; else
    /// 0. A place past `0x7FFF_FFFF_FFFF` is shown as that.
    pub place: usize,
}

impl Refusal {
    /// The refusal's number.
    pub const fn number(self) -> u8 {
        self.reason.number()
    }

    /// An answer of the library: the refusal where its highest bit is set, with
    /// the field in the first byte, the number in the second and the place in what
    /// is left.
    pub(crate) const fn check(answer: u64) -> Result<u64, Self> {
        if answer >> 63 == 0 {
            return Ok(answer);
        }
        let [field, number, ..] = answer.to_le_bytes();
        Err(Self {
            reason: Reason::of(number),
            field,
            place: (answer >> 16 & 0x7FFF_FFFF_FFFF) as usize,
        })
    }
}

impl fmt::Display for Refusal {
    fn fmt(&self, f: &mut fmt::Formatter<'_>) -> fmt::Result {
        let Self { field, place, .. } = self;
        write!(f, "refused {} field={field} at={place}: ", self.number())?;
        f.write_str(self.reason.text())
    }
}

impl Error for Refusal {}
