//! Messages in HTTP header lines: document 02, request 12/12.

use crate::base64::{decode, decoded_len, encode, encoded_len};
use crate::refusal::{Reason, Refusal};
use crate::wire::{check_length, MAX_MESSAGE};

/// "The scheme word."
const SCHEME: &[u8; 4] = b"NTLM";

/// "Export writes the scheme word `NTLM`, one space, and the message in RFC 4648
/// section 4 base64 with padding", to the start of `out`; gives its length. Refuses
/// by 1, 33, with `out` unchanged.
pub fn export_header(message: &[u8], out: &mut [u8]) -> Result<usize, Refusal> {
    check_length(message)?;
    let before = SCHEME.len().saturating_add(1);
    let len = before.saturating_add(encoded_len(message.len()));
    let text = out.get_mut(..len).ok_or(Reason::NoRoom.of_message())?;
    if let Some((start, digits)) = text.split_at_mut_checked(before) {
        start.copy_from_slice(b"NTLM ");
        encode(message, digits);
    }
    Ok(len)
}

/// "Import reads that, with the scheme word in any letter case and one or more
/// spaces; nothing follows the text." Writes the message to the start of `out` and
/// gives its length. Refuses by 57, 58, 1, 33, with `out` unchanged.
pub fn import_header(text: &[u8], out: &mut [u8]) -> Result<usize, Refusal> {
    let digits = after_scheme(text).ok_or(Reason::Scheme.of_message())?;
    let len = decoded_len(digits).ok_or(Reason::Base64.of_message())?;
    if len > MAX_MESSAGE {
        return Err(Reason::MessageTooLong.of_message());
    }
    let message = out.get_mut(..len).ok_or(Reason::NoRoom.of_message())?;
    decode(digits, message);
    Ok(len)
}

/// What follows the scheme word and its spaces, none where one of them is missing.
fn after_scheme(text: &[u8]) -> Option<&[u8]> {
    let (word, rest) = text.split_first_chunk::<4>()?;
    let spaces = rest.iter().take_while(|&&byte| byte == b' ').count();
    if !word.eq_ignore_ascii_case(SCHEME) || spaces == 0 {
        return None;
    }
    rest.get(spaces..)
}
