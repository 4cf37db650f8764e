//! Reading AUTHENTICATE.

use crate::flags::{CharacterSet, NegotiateFlags};
use crate::refusal::{Reason, Refusal};
use crate::wire::{head_of, locate, number_at, open, part, Field, Head};

/// An AUTHENTICATE message that every check holds for.
#[derive(Clone, Copy, Debug, PartialEq, Eq)]
pub struct Authenticate<'a> {
    /// NegotiateFlags
    pub flags: NegotiateFlags,
    /// The character set that the flags choose.
    pub set: CharacterSet,
    /// The MIC, where it is present.
    pub mic: Option<[u8; 16]>,
    /// LmChallengeResponse
    pub lm: Field<'a>,
    /// NtChallengeResponse
    pub nt: Field<'a>,
    /// DomainName
    pub domain: Field<'a>,
    /// UserName
    pub user: Field<'a>,
    /// Workstation
    pub workstation: Field<'a>,
    /// EncryptedRandomSessionKey, empty without KEY_EXCH.
    pub key: Field<'a>,
}

impl<'a> Authenticate<'a> {
    /// The number of DomainName.
    pub const DOMAIN: u8 = 3;
    /// The number of UserName.
    pub const USER: u8 = 4;
    /// The number of Workstation.
    pub const WORKSTATION: u8 = 5;
    /// The number of the session key.
    pub const KEY: u8 = 6;

    pub(crate) const TYPE: u32 = 3;
    /// "House fixed part: 64 bytes."
    const FIXED: usize = 64;
    /// "Payload from 88": what lies before it is the fixed part with a MIC.
    pub(crate) const FIXED_WITH_MIC: usize = 88;

    /// Reads `message` by checks 1 to 9, in that order.
    pub fn read(message: &'a [u8]) -> Result<Self, Refusal> {
        let fixed = open::<{ Authenticate::FIXED }>(message, Self::TYPE)?;
        let flags = NegotiateFlags(number_at::<60, { Authenticate::FIXED }>(fixed));
        let set = flags.character_set()?;

        let [lm, nt, domain, user, workstation, key] = Self::heads(fixed);
        let key = key.counted(flags.key_counts());
        let heads = [lm, nt, domain, user, workstation, key];
        let [lm, nt, domain, user, workstation, key] = locate(message, Self::FIXED, heads)?;
        let mut reading = Self {
            flags,
            set,
            mic: None,
            lm,
            nt,
            domain,
            user,
            workstation,
            key,
        };
        reading.check_even_names()?;
        reading.check_names_apart()?;
        reading.mic = reading.find_mic(message);
        Ok(reading)
    }

    /// "MIC presence and bytes (zeros if absent)": the bytes.
    pub fn mic_bytes(&self) -> [u8; 16] {
        self.mic.unwrap_or_default()
    }

    /// The heads in field order.
    fn heads(fixed: &[u8; Authenticate::FIXED]) -> [Head; 6] {
        [
            Head::read::<12, { Authenticate::FIXED }>(fixed),
            Head::read::<20, { Authenticate::FIXED }>(fixed),
            Head::read::<28, { Authenticate::FIXED }>(fixed),
            Head::read::<36, { Authenticate::FIXED }>(fixed),
            Head::read::<44, { Authenticate::FIXED }>(fixed),
            Head::read::<52, { Authenticate::FIXED }>(fixed),
        ]
    }

    /// The head of a field, where `message` has a fixed part.
    pub(crate) fn head(message: &[u8], field: u8) -> Option<Head> {
        head_of(Self::heads(message.first_chunk()?), field)
    }

    /// The fields in field order.
    pub const fn fields(&self) -> [Field<'a>; 6] {
        [
            self.lm,
            self.nt,
            self.domain,
            self.user,
            self.workstation,
            self.key,
        ]
    }

    /// "Fields 3, 4 and 5 are names."
    const fn names(&self) -> [(&Field<'a>, u8); 3] {
        [
            (&self.domain, Self::DOMAIN),
            (&self.user, Self::USER),
            (&self.workstation, Self::WORKSTATION),
        ]
    }

    /// "1, 2 and 6 are secrets."
    const fn secrets(&self) -> [&Field<'a>; 3] {
        [&self.lm, &self.nt, &self.key]
    }

    /// Check 8 over the names.
    fn check_even_names(&self) -> Result<(), Refusal> {
        if self.set == CharacterSet::Unicode {
            for (name, number) in self.names() {
                name.check_even(number)?;
            }
        }
        Ok(())
    }

    /// Check 9, "a name shares a byte with a secret".
    fn check_names_apart(&self) -> Result<(), Refusal> {
        let secrets = self.secrets();
        for (name, number) in self.names() {
            if secrets.iter().any(|secret| name.shares_byte_with(secret)) {
                return Err(Reason::NameOnSecret.of_field(number));
            }
        }
        Ok(())
    }

    /// "The MIC is present exactly when the lowest offset of a nonempty field,
    /// or the message length if all are empty, is at least 88."
    fn find_mic(&self, message: &[u8]) -> Option<[u8; 16]> {
        let lowest = self
            .fields()
            .iter()
            .filter(|field| !field.is_empty())
            .map(|field| field.place)
            .min()
            .unwrap_or(message.len());
        if lowest < Self::FIXED_WITH_MIC {
            return None;
        }
        let start = message.first_chunk::<{ Authenticate::FIXED_WITH_MIC }>()?;
        Some(part::<72, 16, { Authenticate::FIXED_WITH_MIC }>(start))
    }
}
