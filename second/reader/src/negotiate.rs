//! Reading NEGOTIATE: document 02, request 1/12.

use crate::flags::NegotiateFlags;
use crate::refusal::Refusal;
use crate::wire::{head_of, locate, number_at, open, Field, Head};

/// A NEGOTIATE message that every check holds for. "Both are OEM bytes even
/// where UNICODE is set", so it has no character set.
#[derive(Clone, Copy, Debug, PartialEq, Eq)]
pub struct Negotiate<'a> {
    /// NegotiateFlags
    pub flags: NegotiateFlags,
    /// DomainName, empty without OEM_DOMAIN_SUPPLIED.
    pub domain: Field<'a>,
    /// Workstation, empty without OEM_WORKSTATION_SUPPLIED.
    pub workstation: Field<'a>,
}

impl<'a> Negotiate<'a> {
    pub(crate) const TYPE: u32 = 1;
    /// "House fixed part 32."
    const FIXED: usize = 32;
    /// "Payload from 40": the fixed part with the Version.
    pub(crate) const FIXED_WITH_VERSION: usize = 40;

    /// Reads `message` by checks 1 to 7, in that order.
    pub fn read(message: &'a [u8]) -> Result<Self, Refusal> {
        let fixed = open::<{ Negotiate::FIXED }>(message, Self::TYPE)?;
        let flags = NegotiateFlags(number_at::<12, { Negotiate::FIXED }>(fixed));
        // Check 5. The set itself decides nothing here.
        flags.character_set()?;

        let [domain, workstation] = Self::heads(fixed);
        let heads = [
            domain.counted(flags.domain_counts()),
            workstation.counted(flags.workstation_counts()),
        ];
        let [domain, workstation] = locate(message, Self::FIXED, heads)?;

        Ok(Self {
            flags,
            domain,
            workstation,
        })
    }

    /// The heads in field order.
    fn heads(fixed: &[u8; Negotiate::FIXED]) -> [Head; 2] {
        [
            Head::read::<16, { Negotiate::FIXED }>(fixed),
            Head::read::<24, { Negotiate::FIXED }>(fixed),
        ]
    }

    /// The head of a field, where `message` has a fixed part.
    pub(crate) fn head(message: &[u8], field: u8) -> Option<Head> {
        head_of(Self::heads(message.first_chunk()?), field)
    }

    /// The fields in field order.
    pub const fn fields(&self) -> [Field<'a>; 2] {
        [self.domain, self.workstation]
    }
}
