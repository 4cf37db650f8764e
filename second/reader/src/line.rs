//! The log line of each message read: document 01, "The log line".

use crate::authenticate::Authenticate;
use crate::challenge::Challenge;
use crate::flags::CharacterSet;
use crate::kind::Kind;
use crate::negotiate::Negotiate;
use crate::nl_auth::NlAuth;
use crate::output::{Count, Cursor, Sink};
use crate::refusal::{Reason, Refusal};
use crate::wire::Field;

/// Writes the line of `message`, read as AUTHENTICATE, to the start of `out`
/// and gives its length. "A refused message's line is the last form above,
/// and the line call's answer is then that line's length." "A log line that
/// has no room is 33", and `out` is then unchanged.
pub fn authenticate_line(message: &[u8], out: &mut [u8]) -> Result<usize, Refusal> {
    line_of(Authenticate::read(message), out)
}

/// Writes the line of `message`, read as CHALLENGE; see [`authenticate_line`].
pub fn challenge_line(message: &[u8], out: &mut [u8]) -> Result<usize, Refusal> {
    line_of(Challenge::read(message), out)
}

/// Writes the line of `message`, read as NEGOTIATE; see [`authenticate_line`].
pub fn negotiate_line(message: &[u8], out: &mut [u8]) -> Result<usize, Refusal> {
    line_of(Negotiate::read(message), out)
}

/// Writes the line of `message`, read as NL_AUTH; see [`authenticate_line`].
pub fn nl_auth_line(message: &[u8], out: &mut [u8]) -> Result<usize, Refusal> {
    line_of(NlAuth::read(message), out)
}

/// Writes the line of `message` read as the NTLM program does.
pub fn ntlm_line(message: &[u8], out: &mut [u8]) -> Result<usize, Refusal> {
    match Kind::of(message) {
        Kind::Negotiate => negotiate_line(message, out),
        Kind::Challenge => challenge_line(message, out),
        Kind::Authenticate => authenticate_line(message, out),
    }
}

fn line_of<L: Line>(reading: Result<L, Refusal>, out: &mut [u8]) -> Result<usize, Refusal> {
    match reading {
        Ok(message) => write_line(&message, out),
        Err(refusal) => write_line(&refusal, out),
    }
}

/// Writes a line to the start of `out`, or refuses by 33 before any byte of
/// `out` changes. The line is measured only where its room is in doubt.
pub(crate) fn write_line<L: Line>(line: &L, out: &mut [u8]) -> Result<usize, Refusal> {
    if line.length_limit() > out.len() {
        let mut count = Count::default();
        line.put(&mut count);
        if count.0 > out.len() {
            return Err(Reason::NoRoom.of_message());
        }
    }
    let mut cursor = Cursor::new(out);
    line.put(&mut cursor);
    Ok(cursor.len())
}

/// Something that has a log line, or a text in one.
pub(crate) trait Line {
    /// A length that the line does not pass.
    fn length_limit(&self) -> usize;

    /// Puts the line with its 0A.
    fn put<S: Sink>(&self, sink: &mut S);
}

/// More than any line has outside its names: the longest is
/// `auth flags=FFFFFFFF set=U domain= user= work= lm=65535 nt=65535 key=65535
/// mic=1 kind=none max=000000`.
const WORDS_LIMIT: usize = 128;

/// `auth flags=H set=S domain=N user=N work=N lm=D nt=D key=D mic=B kind=K`, and
/// since request 9/12 ` max=` with a digit for each field.
impl Line for Authenticate<'_> {
    fn length_limit(&self) -> usize {
        limit_with([self.domain, self.user, self.workstation])
    }

    fn put<S: Sink>(&self, sink: &mut S) {
        sink.put(b"auth flags=");
        put_hex(sink, self.flags.0.to_be_bytes());
        put_set(sink, self.set);
        sink.put(b" domain=");
        put_name(sink, self.set, self.domain.bytes);
        sink.put(b" user=");
        put_name(sink, self.set, self.user.bytes);
        sink.put(b" work=");
        put_name(sink, self.set, self.workstation.bytes);
        sink.put(b" lm=");
        put_decimal(sink, self.lm.bytes.len());
        sink.put(b" nt=");
        put_decimal(sink, self.nt.bytes.len());
        sink.put(b" key=");
        put_decimal(sink, self.key.bytes.len());
        sink.put(if self.mic.is_some() {
            b" mic=1"
        } else {
            b" mic=0"
        });
        sink.put(kind(self.nt.bytes.len()));
        put_max(sink, &self.fields());
        sink.put(b"\n");
    }
}

/// "K goes by NT response length: 0 `none`, 24 `v1`", and since request 11/12, by
/// MS-NLMP 2.2.2.7 and 2.2.2.8, "lengths 1 to 23 and 25 to 43 are `odd`, not `v2`".
const fn kind(nt_len: usize) -> &'static [u8] {
    match nt_len {
        0 => b" kind=none",
        24 => b" kind=v1",
        1..=43 => b" kind=odd",
        _ => b" kind=v2",
    }
}

/// `chal flags=H set=S target=N pairs=D time=T`; "with no timestamp, the last
/// word and its space are left out"; ` max=` "comes after it".
impl Line for Challenge<'_> {
    fn length_limit(&self) -> usize {
        limit_with([self.target_name])
    }

    fn put<S: Sink>(&self, sink: &mut S) {
        sink.put(b"chal flags=");
        put_hex(sink, self.flags.0.to_be_bytes());
        put_set(sink, self.set);
        sink.put(b" target=");
        put_name(sink, self.set, self.target_name.bytes);
        sink.put(b" pairs=");
        put_decimal(sink, self.pairs.pairs);
        if let Some(time) = self.pairs.timestamp {
            sink.put(b" time=");
            put_hex(sink, time.to_be_bytes());
        }
        put_max(sink, &self.fields());
        sink.put(b"\n");
    }
}

/// `nego flags=H domain=N work=N`, the names as bytes also where UNICODE is set, and
/// ` max=`.
impl Line for Negotiate<'_> {
    fn length_limit(&self) -> usize {
        limit_with([self.domain, self.workstation])
    }

    fn put<S: Sink>(&self, sink: &mut S) {
        sink.put(b"nego flags=");
        put_hex(sink, self.flags.0.to_be_bytes());
        sink.put(b" domain=");
        put_name(sink, CharacterSet::Oem, self.domain.bytes);
        sink.put(b" work=");
        put_name(sink, CharacterSet::Oem, self.workstation.bytes);
        put_max(sink, &self.fields());
        sink.put(b"\n");
    }
}

/// `nl type=D flags=H a=N b=N c=N d=N e=N`, without the "words for clear
/// NL_AUTH bits".
impl Line for NlAuth<'_> {
    fn length_limit(&self) -> usize {
        let limits = self.texts().map(|(_, text)| text.length_limit());
        limits.fold(WORDS_LIMIT, usize::saturating_add)
    }

    fn put<S: Sink>(&self, sink: &mut S) {
        sink.put(b"nl type=");
        put_decimal(sink, self.message_type as usize);
        sink.put(b" flags=");
        put_hex(sink, self.flags.bits().to_be_bytes());
        for (number, text) in self.texts() {
            // a to e
            sink.put(&[b' ', number.saturating_add(b'a' - 1), b'=']);
            text.put(sink);
        }
        sink.put(b"\n");
    }
}

/// `refused D field=D at=D`
impl Line for Refusal {
    fn length_limit(&self) -> usize {
        WORDS_LIMIT
    }

    fn put<S: Sink>(&self, sink: &mut S) {
        sink.put(b"refused ");
        put_decimal(sink, usize::from(self.number()));
        sink.put(b" field=");
        put_decimal(sink, usize::from(self.field));
        sink.put(b" at=");
        put_decimal(sink, self.place);
        sink.put(b"\n");
    }
}

/// "A last word `max=` with a digit for each field in order: 1 where a field that
/// counts has MaxLen unlike Len, else 0."
fn put_max<S: Sink>(sink: &mut S, fields: &[Field<'_>]) {
    sink.put(b" max=");
    for field in fields {
        sink.put_byte(b'0' + u8::from(field.max_len_differs()));
    }
}

/// "S is U or O."
fn put_set<S: Sink>(sink: &mut S, set: CharacterSet) {
    sink.put(match set {
        CharacterSet::Unicode => b" set=U",
        CharacterSet::Oem => b" set=O",
    });
}

/// A length that a line with these names does not pass: an escaped byte has 4
/// characters, an escaped unit of two bytes 6.
fn limit_with<const N: usize>(names: [Field<'_>; N]) -> usize {
    names.iter().fold(WORDS_LIMIT, |limit, name| {
        limit.saturating_add(name.bytes.len().saturating_mul(4))
    })
}

/// "In N a unit 0x21 to 0x7E other than backslash stands for itself. Any other
/// 16-bit unit is `\u` and four hex digits, any other byte `\x` and two, upper
/// case."
pub(crate) fn put_name<S: Sink>(sink: &mut S, set: CharacterSet, name: &[u8]) {
    match set {
        CharacterSet::Unicode => put_units(
            sink,
            // Check 8 has made the length even.
            name.as_chunks::<2>().0,
            |&[low, high]| (high == 0 && is_plain(low)).then_some(low),
            |&[low, high]| {
                let [a, b] = hex_digits(high);
                let [c, d] = hex_digits(low);
                [b'\\', b'u', a, b, c, d]
            },
        ),
        CharacterSet::Oem => put_bytes(sink, name, is_plain),
    }
}

/// Puts bytes, those that aren't plain as escapes.
pub(crate) fn put_bytes<S: Sink>(sink: &mut S, bytes: &[u8], plain: impl Fn(u8) -> bool) {
    put_units(
        sink,
        bytes,
        |&byte| plain(byte).then_some(byte),
        |&byte| {
            let [a, b] = hex_digits(byte);
            [b'\\', b'x', a, b]
        },
    );
}

/// Puts the units that stand for themselves run by run, and each unit that
/// ends a run as its escape.
fn put_units<S: Sink, Unit, const N: usize>(
    sink: &mut S,
    mut units: &[Unit],
    plain: impl Fn(&Unit) -> Option<u8>,
    escape: impl Fn(&Unit) -> [u8; N],
) {
    loop {
        let run = sink.put_each(units.iter().map_while(&plain));
        let Some((other, rest)) = units.get(run..).and_then(<[Unit]>::split_first) else {
            return;
        };
        sink.put(&escape(other));
        units = rest;
    }
}

pub(crate) const fn is_plain(byte: u8) -> bool {
    matches!(byte, 0x21..=0x7E) && byte != b'\\'
}

/// The two upper-case hex digits of a byte.
const fn hex_digits(byte: u8) -> [u8; 2] {
    [hex_digit(byte >> 4), hex_digit(byte)]
}

#[allow(clippy::indexing_slicing)] // the index is below 16
const fn hex_digit(nibble: u8) -> u8 {
    b"0123456789ABCDEF"[(nibble & 0xF) as usize]
}

/// "H is eight upper-case hex digits", and T "sixteen such digits": two for
/// each byte of a number, the highest byte first.
fn put_hex<S: Sink, const N: usize>(sink: &mut S, number: [u8; N]) {
    sink.put(number.map(hex_digits).as_flattened());
}

/// "D is decimal, without leading zeros."
pub(crate) fn put_decimal<S: Sink>(sink: &mut S, number: usize) {
    if number >= 10 {
        put_decimal(sink, number / 10);
    }
    sink.put_byte(b'0' + (number % 10) as u8);
}
