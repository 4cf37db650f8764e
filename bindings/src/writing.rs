//! Writing NEGOTIATE, AUTHENTICATE and NL_AUTH.

use crate::{raw, written, Parts, Refusal};

/// Writes an AUTHENTICATE message.
pub fn write_authenticate<'a>(
    out: &'a mut [u8],
    flags: u32,
    parts: &Parts<'_>,
) -> Result<&'a [u8], Refusal> {
    written(raw::write_authenticate(out, flags, parts), out)
}

/// Writes a NEGOTIATE message. A name that isn't empty sets its bit in the flags
/// written, and an empty one clears it. Version is written where the flags have
/// VERSION.
pub fn write_negotiate<'a>(
    out: &'a mut [u8],
    flags: u32,
    version: &[u8; 8],
    domain: &[u8],
    workstation: &[u8],
) -> Result<&'a [u8], Refusal> {
    let answer = raw::write_negotiate(out, flags, version, domain, workstation);
    written(answer, out)
}

/// Writes an NL_AUTH request with the strings of bits A to E. Bits above are
/// dropped, and a clear bit's string is passed over. C, D and E are given as text
/// and written as names, whose labels are what stands between full stops.
pub fn write_nl_auth_request<'a>(
    out: &'a mut [u8],
    flags: u32,
    strings: &[&[u8]; 5],
) -> Result<&'a [u8], Refusal> {
    written(raw::write_nl_auth_request(out, flags, strings), out)
}

/// Writes an NL_AUTH response.
pub fn write_nl_auth_response(out: &mut [u8]) -> Result<&[u8], Refusal> {
    written(raw::write_nl_auth_response(out), out)
}

/// Reads an AUTHENTICATE message and writes it by the layout of
/// [`write_authenticate`], with zero Version and sixteen zeros for a MIC that isn't
/// there. Two messages come out equal exactly when their flags, six fields and MICs
/// are. What comes out holds secrets.
pub fn canonical_authenticate<'a>(out: &'a mut [u8], message: &[u8]) -> Result<&'a [u8], Refusal> {
    written(raw::canonical_authenticate(out, message), out)
}
