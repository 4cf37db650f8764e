//! Writing NEGOTIATE: document 02, request 1/12.

use crate::flags::NegotiateFlags;
use crate::layout::{heads, room_for};
use crate::negotiate::Negotiate;
use crate::output::{Cursor, Sink};
use crate::refusal::Refusal;
use crate::wire::SIGNATURE;

/// What a NEGOTIATE message is written from.
#[derive(Clone, Copy, Debug, Default)]
pub struct NegotiateParts<'a> {
    /// NegotiateFlags; the bits of the two names are written as the names make
    /// them.
    pub flags: NegotiateFlags,
    /// Version, written with VERSION only.
    pub version: [u8; 8],
    /// DomainName
    pub domain: &'a [u8],
    /// Workstation
    pub workstation: &'a [u8],
}

impl NegotiateParts<'_> {
    /// "A nonempty name sets its bit and an empty one clears it."
    const fn written_flags(&self) -> NegotiateFlags {
        self.flags
            .with(NegotiateFlags::OEM_DOMAIN_SUPPLIED, !self.domain.is_empty())
            .with(
                NegotiateFlags::OEM_WORKSTATION_SUPPLIED,
                !self.workstation.is_empty(),
            )
    }
}

/// Writes a NEGOTIATE message to the start of `out` and gives its length: "a
/// 40-byte fixed part, then domain, then workstation". Refuses by 5, 30, 33, in
/// that order, with `out` unchanged.
pub fn write_negotiate(parts: &NegotiateParts<'_>, out: &mut [u8]) -> Result<usize, Refusal> {
    parts.flags.character_set()?;
    let payload = [parts.domain, parts.workstation];
    let message = room_for(Negotiate::FIXED_WITH_VERSION, &payload, out)?;

    let mut cursor = Cursor::new(message);
    cursor.put(&SIGNATURE);
    cursor.put(&Negotiate::TYPE.to_le_bytes());
    cursor.put(&parts.written_flags().0.to_le_bytes());
    for head in heads(Negotiate::FIXED_WITH_VERSION, payload) {
        cursor.put(&head);
    }
    cursor.put(&parts.flags.version_of(parts.version));
    for field in payload {
        cursor.put(field);
    }
    Ok(cursor.len())
}
