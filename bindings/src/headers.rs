//! Messages in HTTP header lines. A text holds the message's secrets.

use crate::{raw, written, Refusal};

/// Writes the scheme word `NTLM`, a space and the message in base64.
pub fn export_header<'a>(out: &'a mut [u8], message: &[u8]) -> Result<&'a [u8], Refusal> {
    written(raw::export_header(out, message), out)
}

/// Writes the message that a text carries. The word may have any letter case, and one
/// or more spaces follow it; nothing follows the text.
pub fn import_header<'a>(out: &'a mut [u8], text: &[u8]) -> Result<&'a [u8], Refusal> {
    written(raw::import_header(out, text), out)
}
