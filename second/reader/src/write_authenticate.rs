//! Writing AUTHENTICATE: document 01, "Laying out what we send".

use crate::authenticate::Authenticate;
use crate::flags::{CharacterSet, NegotiateFlags};
use crate::layout::{heads, room_for};
use crate::output::{Cursor, Sink};
use crate::refusal::{Reason, Refusal};
use crate::wire::SIGNATURE;

/// What an AUTHENTICATE message is written from.
#[derive(Clone, Copy, Debug, Default)]
pub struct AuthenticateParts<'a> {
    /// NegotiateFlags
    pub flags: NegotiateFlags,
    /// Version, written with VERSION only.
    pub version: [u8; 8],
    /// MIC
    pub mic: [u8; 16],
    /// LmChallengeResponse
    pub lm: &'a [u8],
    /// NtChallengeResponse
    pub nt: &'a [u8],
    /// DomainName
    pub domain: &'a [u8],
    /// UserName
    pub user: &'a [u8],
    /// Workstation
    pub workstation: &'a [u8],
    /// EncryptedRandomSessionKey
    pub key: &'a [u8],
}

impl<'a> AuthenticateParts<'a> {
    /// Check 31 over the names, "UNICODE set, a name to write has odd length".
    fn check_names(&self, set: CharacterSet) -> Result<(), Refusal> {
        let names = [
            (self.domain, Authenticate::DOMAIN),
            (self.user, Authenticate::USER),
            (self.workstation, Authenticate::WORKSTATION),
        ];
        for (name, number) in names {
            if set == CharacterSet::Unicode && !name.len().is_multiple_of(2) {
                return Err(Reason::WrittenOddName.of_field(number));
            }
        }
        Ok(())
    }

    /// Check 32, "a key neither empty nor 16 bytes, or not empty with KEY_EXCH
    /// clear".
    fn check_key(&self) -> Result<(), Refusal> {
        match self.key.len() {
            0 => Ok(()),
            16 if self.flags.key_counts() => Ok(()),
            _ => Err(Reason::WrittenKey.of_field(Authenticate::KEY)),
        }
    }

    /// The payload: "then domain, user, workstation, LM response, NT response,
    /// key, with no padding".
    const fn payload(&self) -> [&'a [u8]; 6] {
        [
            self.domain,
            self.user,
            self.workstation,
            self.lm,
            self.nt,
            self.key,
        ]
    }
}

/// Writes an AUTHENTICATE message to the start of `out` and gives its length.
/// Refuses by 5, 31, 32, 30, 33, in that order, with `out` unchanged.
pub fn write_authenticate(parts: &AuthenticateParts<'_>, out: &mut [u8]) -> Result<usize, Refusal> {
    let set = parts.flags.character_set()?;
    parts.check_names(set)?;
    parts.check_key()?;
    let payload = parts.payload();
    let message = room_for(Authenticate::FIXED_WITH_MIC, &payload, out)?;

    let [domain, user, workstation, lm, nt, key] = heads(Authenticate::FIXED_WITH_MIC, payload);
    let mut cursor = Cursor::new(message);
    cursor.put(&SIGNATURE);
    cursor.put(&Authenticate::TYPE.to_le_bytes());
    for head in [lm, nt, domain, user, workstation, key] {
        cursor.put(&head);
    }
    cursor.put(&parts.flags.0.to_le_bytes());
    cursor.put(&parts.flags.version_of(parts.version));
    cursor.put(&parts.mic);
    for field in payload {
        cursor.put(field);
    }
    Ok(cursor.len())
}
