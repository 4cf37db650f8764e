//! One meaning, one writing: document 02, request 11/12.

use crate::authenticate::Authenticate;
use crate::refusal::Refusal;
use crate::write_authenticate::{write_authenticate, AuthenticateParts};

/// "Read an AUTHENTICATE and write it by document 01's layout, with zero Version, a
/// missing MIC as sixteen zeros, and a field that doesn't count as empty", to the
/// start of `out`; gives its length. Refuses by the reading, 32, 30, 33, with `out`
/// unchanged: a message that was read has a character set, and even names where
/// that is Unicode, so that 5 and 31 can't come.
pub fn canonical_authenticate(message: &[u8], out: &mut [u8]) -> Result<usize, Refusal> {
    let read = Authenticate::read(message)?;
    let parts = AuthenticateParts {
        flags: read.flags,
        version: [0; 8],
        mic: read.mic_bytes(),
        lm: read.lm.bytes,
        nt: read.nt.bytes,
        domain: read.domain.bytes,
        user: read.user.bytes,
        workstation: read.workstation.bytes,
        key: read.key.bytes,
    };
    write_authenticate(&parts, out)
}
