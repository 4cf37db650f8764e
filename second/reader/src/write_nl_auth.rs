//! Writing NL_AUTH.

use crate::dns_name::NameText;
use crate::flags::NlAuthFlags;
use crate::nl_auth::{NlAuth, NlAuthType};
use crate::output::{Cursor, Sink};
use crate::refusal::{Reason, Refusal};
use crate::wire::MAX_MESSAGE;

/// Writes an NL_AUTH request with the strings of bits A to E to the start of
/// `out` and gives its length. "Other bits are zero, a clear bit's string is
/// passed over." C, D and E are given as text, whose labels are "split at full
/// stops". Refuses by 14, 34, 50, 53, 30, 33, in that order and "each over all
/// strings", with `out` unchanged.
pub fn write_nl_auth_request(
    flags: NlAuthFlags,
    strings: &[&[u8]; 5],
    out: &mut [u8],
) -> Result<usize, Refusal> {
    if flags.is_empty() {
        return Err(Reason::NoStrings.of_message());
    }
    let sent = || {
        NlAuthFlags::STRINGS
            .into_iter()
            .zip(strings)
            .filter(|((bit, _), _)| flags.has(*bit))
    };
    for ((_, number), string) in sent() {
        if string.contains(&0) {
            return Err(Reason::WrittenZeroByte.of_field(number));
        }
    }
    for check in [NameText::check_labels, NameText::check_length] {
        for ((bit, number), string) in sent() {
            if let Written::Name(text) = Written::of(bit, string) {
                check(text).map_err(|reason| reason.of_field(number))?;
            }
        }
    }
    let total = sent().fold(NlAuth::FIXED, |sum, ((bit, _), string)| {
        sum.saturating_add(Written::of(bit, string).len())
    });
    if total > MAX_MESSAGE {
        return Err(Reason::WrittenTooLong.of_message());
    }
    let message = out.get_mut(..total).ok_or(Reason::NoRoom.of_message())?;

    let mut cursor = Cursor::new(message);
    cursor.put(&(NlAuthType::Request as u32).to_le_bytes());
    cursor.put(&flags.bits().to_le_bytes());
    for ((bit, _), string) in sent() {
        Written::of(bit, string).put(&mut cursor);
    }
    Ok(cursor.len())
}

/// A string to write: A and B as they are, C, D and E as names.
enum Written<'a> {
    Plain(&'a [u8]),
    Name(NameText<'a>),
}

impl<'a> Written<'a> {
    const fn of(bit: u32, string: &'a [u8]) -> Self {
        if bit & NlAuthFlags::DNS_NAMES == 0 {
            Self::Plain(string)
        } else {
            Self::Name(NameText(string))
        }
    }

    /// How many bytes are written, with the zero byte.
    fn len(&self) -> usize {
        match self {
            Self::Plain(string) => string.len().saturating_add(1),
            Self::Name(text) => text.coded(),
        }
    }

    fn put(&self, sink: &mut impl Sink) {
        match self {
            Self::Plain(string) => {
                sink.put(string);
                sink.put_byte(0);
            }
            Self::Name(text) => text.put(sink),
        }
    }
}

/// Writes an NL_AUTH response to the start of `out` and gives its length: "a
/// response's flags are zero" and "its buffer is one zero byte". Refuses by
/// 33 with `out` unchanged.
pub fn write_nl_auth_response(out: &mut [u8]) -> Result<usize, Refusal> {
    let message = out
        .first_chunk_mut::<{ NlAuth::FIXED + 1 }>()
        .ok_or(Reason::NoRoom.of_message())?;
    let mut cursor = Cursor::new(message);
    cursor.put(&(NlAuthType::Response as u32).to_le_bytes());
    cursor.put(&NlAuthFlags::default().bits().to_le_bytes());
    cursor.put(&[0]);
    Ok(cursor.len())
}
