//! Where things stand in each kind of message: docs/MESSAGES.md, "The messages on the wire".

use std::ops::Range;

use reader::NegotiateFlags;

/// A kind of message, as the programs read it.
#[derive(Clone, Copy, Debug, PartialEq, Eq)]
pub enum Kind {
    Negotiate,
    Challenge,
    Authenticate,
    NlAuth,
}

/// What a stretch of a message is.
#[derive(Clone, Copy, Debug, PartialEq, Eq)]
pub enum What {
    Signature,
    Type,
    Flags,
    ServerChallenge,
    Reserved,
    Version,
    Mic,
    /// The head of a field, by the field's number.
    Head(u8),
    /// The bytes of a field, or of a string of NL_AUTH.
    Field(u8),
    /// A pair of TargetInfo, by its id.
    Pair(u16),
    /// What nothing covers.
    Left,
}

/// What a field holds.
#[derive(Clone, Copy, Debug, PartialEq, Eq)]
pub enum Role {
    Secret,
    Name,
    Pairs,
}

/// A field of a kind of message.
#[derive(Debug)]
pub struct FieldShape {
    pub number: u8,
    pub name: &'static str,
    /// Where its head stands.
    pub head: usize,
    pub role: Role,
}

/// A kind of NTLM message.
#[derive(Debug)]
pub struct Shape {
    /// How long the fixed part is. Version comes after it, where it is there.
    pub fixed: usize,
    pub flags: usize,
    /// What stands in the fixed part besides the heads.
    pub parts: &'static [(What, Range<usize>)],
    pub fields: &'static [FieldShape],
}

const fn field(number: u8, name: &'static str, head: usize, role: Role) -> FieldShape {
    FieldShape {
        number,
        name,
        head,
        role,
    }
}

const NEGOTIATE: Shape = Shape {
    fixed: 32,
    flags: 12,
    parts: &[
        (What::Signature, 0..8),
        (What::Type, 8..12),
        (What::Flags, 12..16),
    ],
    fields: &[
        field(1, "domain", 16, Role::Name),
        field(2, "workstation", 24, Role::Name),
    ],
};

const CHALLENGE: Shape = Shape {
    fixed: 48,
    flags: 20,
    parts: &[
        (What::Signature, 0..8),
        (What::Type, 8..12),
        (What::Flags, 20..24),
        (What::ServerChallenge, 24..32),
        (What::Reserved, 32..40),
    ],
    fields: &[
        field(1, "target name", 12, Role::Name),
        field(2, "target info", 40, Role::Pairs),
    ],
};

const AUTHENTICATE: Shape = Shape {
    fixed: 64,
    flags: 60,
    parts: &[
        (What::Signature, 0..8),
        (What::Type, 8..12),
        (What::Flags, 60..64),
    ],
    fields: &[
        field(1, "LM response", 12, Role::Secret),
        field(2, "NT response", 20, Role::Secret),
        field(3, "domain", 28, Role::Name),
        field(4, "user name", 36, Role::Name),
        field(5, "workstation", 44, Role::Name),
        field(6, "session key", 52, Role::Secret),
    ],
};

const NL_AUTH: Shape = Shape {
    fixed: 8,
    flags: 4,
    parts: &[(What::Type, 0..4), (What::Flags, 4..8)],
    fields: &[],
};

/// What the strings of NL_AUTH hold, A first.
pub const STRINGS: [&str; 5] = [
    "NetBIOS domain",
    "NetBIOS computer",
    "DNS domain",
    "DNS host",
    "NetBIOS computer in UTF-8",
];

impl Kind {
    /// The kind as which the NTLM program reads a message.
    pub fn of_ntlm(message: &[u8]) -> Self {
        match number(message, 8..12) {
            Some(1) => Self::Negotiate,
            Some(2) => Self::Challenge,
            _ => Self::Authenticate,
        }
    }

    pub const fn shape(self) -> &'static Shape {
        match self {
            Self::Negotiate => &NEGOTIATE,
            Self::Challenge => &CHALLENGE,
            Self::Authenticate => &AUTHENTICATE,
            Self::NlAuth => &NL_AUTH,
        }
    }

    pub const fn name(self) -> &'static str {
        match self {
            Self::Negotiate => "NEGOTIATE",
            Self::Challenge => "CHALLENGE",
            Self::Authenticate => "AUTHENTICATE",
            Self::NlAuth => "NL_AUTH",
        }
    }

    /// Whether a field counts with these flags. Where a message ends before its flags,
    /// those of an AUTHENTICATE count, so that a secret is taken for one.
    pub fn counts(self, number: u8, flags: Option<u32>) -> bool {
        let Some(flags) = flags.map(NegotiateFlags) else {
            return self == Self::Authenticate;
        };
        match (self, number) {
            (Self::Negotiate, 1) => flags.domain_counts(),
            (Self::Negotiate, _) => flags.workstation_counts(),
            (Self::Challenge, 1) => flags.target_name_counts(),
            (Self::Challenge, _) => flags.target_info_counts(),
            (Self::Authenticate, 6) => flags.key_counts(),
            _ => true,
        }
    }

    /// The name of a field, or of a string of NL_AUTH.
    pub fn field_name(self, number: u8) -> &'static str {
        if self == Self::NlAuth {
            let string = usize::from(number).checked_sub(1);
            return string
                .and_then(|string| STRINGS.get(string).copied())
                .unwrap_or("string");
        }
        let mut fields = self.shape().fields.iter();
        fields
            .find(|field| field.number == number)
            .map_or("field", |field| field.name)
    }
}

/// The number, lowest byte first, of up to four bytes of a message.
pub fn number(message: &[u8], range: Range<usize>) -> Option<u32> {
    let bytes = message.get(range)?;
    Some(
        bytes
            .iter()
            .rev()
            .fold(0, |sum, &byte| sum << 8 | u32::from(byte)),
    )
}
