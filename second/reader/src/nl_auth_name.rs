//! The text of NL_AUTH's strings, which are words of its line.

use crate::dns_name::DnsName;
use crate::flags::CharacterSet;
use crate::line::{is_plain, put_bytes, put_name, write_line, Line};
use crate::nl_auth::{NlAuth, Text};
use crate::output::Sink;
use crate::refusal::Refusal;

/// Writes the text of one string of `message`, read as NL_AUTH, to the start of
/// `out`, as its word in the line shows it, and gives its length. `which` is the
/// string's number, "A = 1"; one that isn't there, and any other number, has an
/// empty text. Refuses by the reading, then 33, with `out` unchanged.
pub fn nl_auth_name(message: &[u8], which: u32, out: &mut [u8]) -> Result<usize, Refusal> {
    let message = NlAuth::read(message)?;
    let wanted = message
        .texts()
        .find(|(number, _)| u32::from(*number) == which);
    write_line(&wanted.map_or(Text::Plain(&[]), |(_, text)| text), out)
}

/// More than the text of a DNS name has: its coded length is at most 255, and an
/// escaped byte has 4 characters.
const DNS_NAME_LIMIT: usize = 4 * 255;

/// The text of a string, which is a part of a line and has no 0A.
impl Line for Text<'_> {
    fn length_limit(&self) -> usize {
        match self {
            Self::Plain(bytes) => bytes.len().saturating_mul(4),
            Self::Name(_) => DNS_NAME_LIMIT,
        }
    }

    fn put<S: Sink>(&self, sink: &mut S) {
        match self {
            Self::Plain(bytes) => put_name(sink, CharacterSet::Oem, bytes),
            Self::Name(name) => put_dns_name(sink, *name),
        }
    }
}

/// "The line joins labels with a full stop, and a full stop inside a label is
/// `\x2E`."
fn put_dns_name<S: Sink>(sink: &mut S, name: DnsName<'_>) {
    for (place, label) in name.labels().enumerate() {
        if place > 0 {
            sink.put_byte(b'.');
        }
        put_bytes(sink, label, |byte| is_plain(byte) && byte != b'.');
    }
}
