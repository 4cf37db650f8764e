//! Flag bits, each named once.

use crate::refusal::{Reason, Refusal};

/// The NegotiateFlags of an NTLM message (MS-NLMP 2.2.2.5).
#[derive(Clone, Copy, Debug, Default, PartialEq, Eq)]
pub struct NegotiateFlags(pub u32);

impl NegotiateFlags {
    /// NTLMSSP_NEGOTIATE_UNICODE
    pub const UNICODE: u32 = 0x1;
    /// NTLM_NEGOTIATE_OEM
    pub const OEM: u32 = 0x2;
    /// NTLMSSP_REQUEST_TARGET
    pub const REQUEST_TARGET: u32 = 0x4;
    /// NTLMSSP_NEGOTIATE_SIGN
    pub const SIGN: u32 = 0x10;
    /// NTLMSSP_NEGOTIATE_SEAL
    pub const SEAL: u32 = 0x20;
    /// NTLMSSP_NEGOTIATE_OEM_DOMAIN_SUPPLIED
    pub const OEM_DOMAIN_SUPPLIED: u32 = 0x1000;
    /// NTLMSSP_NEGOTIATE_OEM_WORKSTATION_SUPPLIED
    pub const OEM_WORKSTATION_SUPPLIED: u32 = 0x2000;
    /// NTLMSSP_NEGOTIATE_TARGET_INFO
    pub const TARGET_INFO: u32 = 0x80_0000;
    /// NTLMSSP_NEGOTIATE_VERSION
    pub const VERSION: u32 = 0x200_0000;
    /// NTLMSSP_NEGOTIATE_128
    pub const BITS_128: u32 = 0x2000_0000;
    /// NTLMSSP_NEGOTIATE_KEY_EXCH
    pub const KEY_EXCH: u32 = 0x4000_0000;

    const fn any(self, bits: u32) -> bool {
        self.0 & bits != 0
    }

    /// Check 5, "UNICODE and OEM both clear"; otherwise the character set of
    /// the names: "UNICODE wins over OEM".
    pub const fn character_set(self) -> Result<CharacterSet, Refusal> {
        if self.any(Self::UNICODE) {
            Ok(CharacterSet::Unicode)
        } else if self.any(Self::OEM) {
            Ok(CharacterSet::Oem)
        } else {
            Err(Reason::NoCharacterSet.of_message())
        }
    }

    /// These flags with `bits` set or clear.
    pub(crate) const fn with(self, bits: u32, set: bool) -> Self {
        Self(if set { self.0 | bits } else { self.0 & !bits })
    }

    /// A NEGOTIATE's DomainName: "The domain counts only with 0x1000".
    pub const fn domain_counts(self) -> bool {
        self.any(Self::OEM_DOMAIN_SUPPLIED)
    }

    /// A NEGOTIATE's Workstation: "the workstation only with 0x2000".
    pub const fn workstation_counts(self) -> bool {
        self.any(Self::OEM_WORKSTATION_SUPPLIED)
    }

    /// "TargetName counts only with REQUEST_TARGET."
    pub const fn target_name_counts(self) -> bool {
        self.any(Self::REQUEST_TARGET)
    }

    /// "TargetInfo only with TARGET_INFO."
    pub const fn target_info_counts(self) -> bool {
        self.any(Self::TARGET_INFO)
    }

    /// "The session key counts only with KEY_EXCH."
    pub const fn key_counts(self) -> bool {
        self.any(Self::KEY_EXCH)
    }

    /// "The key given is written exactly when KEY_EXCH and at least one of
    /// SIGN and SEAL are set."
    pub const fn key_is_answered(self) -> bool {
        self.any(Self::KEY_EXCH) && self.any(Self::SIGN | Self::SEAL)
    }

    /// The Version that is written: "the caller's .. with VERSION, else zeros".
    pub const fn version_of(self, version: [u8; 8]) -> [u8; 8] {
        if self.any(Self::VERSION) {
            version
        } else {
            [0; 8]
        }
    }

    /// The 128-bit flag of check 20.
    pub const fn bits_128(self) -> bool {
        self.any(Self::BITS_128)
    }
}

/// How the names of a message are encoded.
#[derive(Clone, Copy, Debug, PartialEq, Eq)]
pub enum CharacterSet {
    /// Little-endian 16-bit units.
    Unicode,
    /// Single bytes.
    Oem,
}

/// The flags of an NL_AUTH message: "Bits A to E are 0x1 to 0x10; the others
/// are ignored." The others are dropped when the value is made.
#[derive(Clone, Copy, Debug, Default, PartialEq, Eq)]
pub struct NlAuthFlags(u32);

impl NlAuthFlags {
    /// NetBIOS domain name
    pub const A: u32 = 0x1;
    /// NetBIOS computer name
    pub const B: u32 = 0x2;
    /// DNS domain name
    pub const C: u32 = 0x4;
    /// DNS host name
    pub const D: u32 = 0x8;
    /// NetBIOS computer name, UTF-8
    pub const E: u32 = 0x10;

    /// Bits A to E with the number of each one's string, "A = 1".
    pub(crate) const STRINGS: [(u32, u8); 5] = [
        (Self::A, 1),
        (Self::B, 2),
        (Self::C, 3),
        (Self::D, 4),
        (Self::E, 5),
    ];

    /// "Strings C, D and E follow RFC 1035."
    pub(crate) const DNS_NAMES: u32 = Self::C | Self::D | Self::E;

    /// Bits A to E of `flags`.
    pub const fn new(flags: u32) -> Self {
        Self(flags & (Self::A | Self::B | Self::C | Self::D | Self::E))
    }

    /// The flags as a number.
    pub const fn bits(self) -> u32 {
        self.0
    }

    /// Whether `bit` is set.
    pub const fn has(self, bit: u32) -> bool {
        self.0 & bit != 0
    }

    /// Whether no bit A to E is set.
    pub const fn is_empty(self) -> bool {
        self.0 == 0
    }
}
