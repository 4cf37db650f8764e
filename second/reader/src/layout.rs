//! What the writers of AUTHENTICATE and NEGOTIATE share: room and heads.

use crate::refusal::{Reason, Refusal};
use crate::wire::MAX_MESSAGE;

/// Checks 30 and 33: the start of `out`, as long as a fixed part of `fixed`
/// bytes and the payload after it.
pub(crate) fn room_for<'a>(
    fixed: usize,
    payload: &[&[u8]],
    out: &'a mut [u8],
) -> Result<&'a mut [u8], Refusal> {
    let total = payload
        .iter()
        .fold(fixed, |sum, field| sum.saturating_add(field.len()));
    if total > MAX_MESSAGE {
        return Err(Reason::WrittenTooLong.of_message());
    }
    out.get_mut(..total).ok_or(Reason::NoRoom.of_message())
}

/// The heads of fields that stand one after the other from `start` on. "An
/// empty field's offset is where it would stand."
pub(crate) fn heads<const N: usize>(start: usize, payload: [&[u8]; N]) -> [[u8; 8]; N] {
    let mut next = start;
    payload.map(|field| {
        let head = written_head(field.len(), next);
        next = next.saturating_add(field.len());
        head
    })
}

/// A field head: MaxLen "equals Len when written". Check 30 has kept both
/// numbers below 65,536.
const fn written_head(len: usize, offset: usize) -> [u8; 8] {
    let [len_low, len_high, ..] = len.to_le_bytes();
    let [offset_low, offset_high, ..] = offset.to_le_bytes();
    [
        len_low,
        len_high,
        len_low,
        len_high,
        offset_low,
        offset_high,
        0,
        0,
    ]
}
