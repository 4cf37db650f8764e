//! A refusal in words: what its number means, and what to look at in the message.
//!
//! What a number means are the words of include/dialtable.h. The figures come from the
//! second reader's own reading of the message, and only where that refuses by the same
//! number. They are lengths, places and flags: no other byte of a message is told.
//! Nothing here decides anything.

use std::ops::Range;

use reader::{Authenticate, Challenge, Negotiate, NlAuth, Refusal};

use crate::form::base64_stop;

/// What each number means, as include/dialtable.h lists it.
pub const WORDS: [(u8, &str); 33] = [
    (1, "message over 65,535 bytes"),
    (2, "shorter than its fixed part"),
    (3, "signature differs"),
    (4, "type differs"),
    (5, "UNICODE and OEM both clear"),
    (6, "a field ends past the message"),
    (7, "a field begins in the fixed part"),
    (8, "a name at an odd place or of odd length"),
    (9, "a name shares a byte with a secret"),
    (10, "a pair's value passes the end of the list"),
    (11, "under 4 bytes left where a pair should start"),
    (12, "end pair with nonzero length, or bytes after it"),
    (13, "a pair of a size that its id forbids"),
    (14, "NL_AUTH request with no bit A to E"),
    (15, "a string without its zero byte, or a name cut short"),
    (16, "bytes after the last string"),
    (17, "a response's buffer isn't one zero byte"),
    (20, "128-bit demanded, not in the flags"),
    (
        21,
        "integrity or confidentiality wanted, pairs 1 and 2 not both there",
    ),
    (30, "a message to write would pass 65,535 bytes"),
    (31, "a name to write has odd length"),
    (32, "a key neither empty nor 16 bytes, or without KEY_EXCH"),
    (33, "an output is too short"),
    (34, "an NL_AUTH string to write holds a zero byte"),
    (
        50,
        "a length byte of other top bits, or a label to write that is empty or over 63",
    ),
    (51, "a jump to a place that is not before its run of labels"),
    (52, "a seventeenth jump in one name"),
    (53, "a name whose coded length is over 255"),
    (54, "a message that passes the end of the night's buffer"),
    (55, "a session key that isn't 16 bytes"),
    (56, "an AUTHENTICATE without a MIC"),
    (57, "a header's text without the word NTLM and a space"),
    (58, "a bad character, padding, group or last bits in base64"),
];

/// What a refused text of bytes was read as.
#[derive(Clone, Copy, Debug, PartialEq, Eq)]
pub enum ReadAs {
    /// NEGOTIATE, CHALLENGE or AUTHENTICATE, by its type.
    Ntlm,
    /// NL_AUTH.
    NlAuth,
    /// The text of a header line.
    HeaderText,
}

/// What the number of a refusal means.
pub fn meaning(number: u8) -> Option<&'static str> {
    let listed = WORDS.iter().find(|(listed, _)| *listed == number);
    listed.map(|(_, words)| *words)
}

/// The number of a line `refused D ..`, or of one `check D failed ..`.
pub fn number_of(line: &[u8]) -> Option<u8> {
    let line = std::str::from_utf8(line).ok()?;
    let mut words = line.split_ascii_whitespace();
    let (first, number, third) = (words.next()?, words.next()?, words.next()?);
    let told = first == "refused" || (first == "check" && third == "failed");
    number.parse().ok().filter(|_| told)
}

/// What the refusal of `bytes` by `number` means, and behind a colon what to look at,
/// where the second reader refuses them by that number too.
pub fn of(number: u8, read_as: ReadAs, bytes: &[u8]) -> Option<String> {
    let meaning = meaning(number)?;
    let figures = match read_as {
        ReadAs::Ntlm => ntlm_figures(number, bytes),
        ReadAs::NlAuth => nl_auth_figures(number, bytes),
        ReadAs::HeaderText => header_figures(number, bytes),
    };
    Some(match figures {
        Some(figures) => format!("{meaning}: {figures}"),
        None => meaning.to_owned(),
    })
}

/// Where the parts of one kind of NTLM message stand.
struct Layout {
    kind: &'static str,
    fixed: usize,
    flags: usize,
    /// Each field's name and the place of its head, in field order.
    fields: &'static [(&'static str, usize)],
}

const NEGOTIATE: Layout = Layout {
    kind: "a NEGOTIATE",
    fixed: 32,
    flags: 12,
    fields: &[("the domain", 16), ("the workstation", 24)],
};

const CHALLENGE: Layout = Layout {
    kind: "a CHALLENGE",
    fixed: 48,
    flags: 20,
    fields: &[("the target name", 12), ("the target info", 40)],
};

const AUTHENTICATE: Layout = Layout {
    kind: "an AUTHENTICATE",
    fixed: 64,
    flags: 60,
    fields: &[
        ("the LM response", 12),
        ("the NT response", 20),
        ("the domain", 28),
        ("the user name", 36),
        ("the workstation", 44),
        ("the session key", 52),
    ],
};

/// The secrets of an AUTHENTICATE, by their field numbers.
const SECRETS: [u8; 3] = [1, 2, 6];

/// KEY_EXCH, without which the session key doesn't count.
const KEY_EXCH: u32 = 0x4000_0000;

/// A field as its head has it.
struct Field {
    name: &'static str,
    head: usize,
    bytes: Range<u64>,
}

impl Layout {
    /// The layout that a message is read by, and the second reader's refusal.
    fn of(message: &[u8]) -> (&'static Self, Option<Refusal>) {
        match number_at(message, 8) {
            Some(1) => (&NEGOTIATE, Negotiate::read(message).err()),
            Some(2) => (&CHALLENGE, Challenge::read(message).err()),
            _ => (&AUTHENTICATE, Authenticate::read(message).err()),
        }
    }

    fn field(&self, message: &[u8], number: u8) -> Option<Field> {
        let (name, head) = *self.fields.get(usize::from(number).checked_sub(1)?)?;
        let offset = u64::from(number_at(message, head + 4)?);
        let length = u64::from(number_at(message, head)? & 0xFFFF);
        Some(Field {
            name,
            head,
            bytes: offset..offset + length,
        })
    }

    /// The first secret of an AUTHENTICATE that a name shares a byte with.
    fn secret_under(&self, message: &[u8], name: &Field) -> Option<Field> {
        let key_counts = number_at(message, self.flags)? & KEY_EXCH != 0;
        let counts = |number: &&u8| **number != 6 || key_counts;
        let secrets = SECRETS.iter().filter(counts);
        let shares = |secret: &Field| {
            !secret.bytes.is_empty()
                && secret.bytes.start < name.bytes.end
                && name.bytes.start < secret.bytes.end
        };
        secrets
            .filter_map(|number| self.field(message, *number))
            .find(shares)
    }
}

/// The 32-bit number at a place.
fn number_at(message: &[u8], at: usize) -> Option<u32> {
    let bytes = message.get(at..at.checked_add(4)?)?;
    Some(u32::from_le_bytes(bytes.try_into().ok()?))
}

/// `bytes 88 to 96`: the second is the first byte after them.
fn places(bytes: &Range<u64>) -> String {
    format!("bytes {} to {}", bytes.start, bytes.end)
}

fn ntlm_figures(number: u8, message: &[u8]) -> Option<String> {
    let (layout, refusal) = Layout::of(message);
    let refusal = refusal.filter(|refusal| refusal.number() == number)?;
    let field = || layout.field(message, refusal.field);
    Some(match number {
        1 => format!("it has {}", message.len()),
        2 => length_figures(message, layout),
        3 => signature_figures(message),
        4 => "the number at byte 8 is not 1, 2 or 3".to_owned(),
        5 => {
            let (flags, at) = (number_at(message, layout.flags)?, layout.flags);
            format!("flags {flags:08X} at byte {at}")
        }
        6..=9 => field_figures(number, message, layout, &field()?)?,
        10..=13 => pair_figures(message, &refusal, &field()?)?,
        _ => return None,
    })
}

/// How long the fixed part should be. What is of no type of its own is read as AUTHENTICATE, and is
/// called none.
fn length_figures(message: &[u8], layout: &Layout) -> String {
    let (len, Layout { kind, fixed, .. }) = (message.len(), layout);
    match number_at(message, 8) {
        None => format!("it has {len} bytes, and its type would be at byte 8"),
        Some(1..=3) => format!("it has {len} bytes, and {kind} at least {fixed}"),
        Some(_) => format!(
            "it has {len} bytes, and a message of another type is read as AUTHENTICATE, which has {fixed}"
        ),
    }
}

/// Where a field stands that is not where it should.
fn field_figures(number: u8, message: &[u8], layout: &Layout, field: &Field) -> Option<String> {
    let Field { name, head, bytes } = field;
    let of_field = places(bytes);
    Some(match number {
        6 => {
            let len = message.len();
            format!("{name} is {of_field} of {len}; its head is at byte {head}")
        }
        7 => {
            let fixed = layout.fixed;
            format!(
                "{name} is {of_field}, and the fixed part has {fixed}; its head is at byte {head}"
            )
        }
        8 => {
            let (flags, at) = (number_at(message, layout.flags)?, layout.flags);
            format!(
                "{name} is {of_field}, {} long; its head is at byte {head}, and flags {flags:08X} at byte \
                 {at} have UNICODE",
                bytes.end - bytes.start
            )
        }
        _ => {
            let secret = layout.secret_under(message, field)?;
            format!(
                "{name} is {of_field}, {} {}; their heads are at bytes {head} and {}",
                secret.name,
                places(&secret.bytes),
                secret.head
            )
        }
    })
}

/// The first byte of the eight that is another one.
fn signature_figures(message: &[u8]) -> String {
    let signature = b"NTLMSSP\0";
    let alike = message.iter().zip(signature).take_while(|(a, b)| a == b);
    let at = alike.count();
    format!("byte {at} is the first that is not as in NTLMSSP and a zero byte")
}

/// The name of a pair's id, and what a value of it must have.
fn pair_id(id: u32) -> (&'static str, &'static str) {
    let even = "an even number of bytes";
    match id {
        0 => ("end", "none"),
        1 => ("NetBIOS computer name", even),
        2 => ("NetBIOS domain name", even),
        3 => ("DNS computer name", even),
        4 => ("DNS domain name", even),
        5 => ("DNS tree name", even),
        6 => ("flags", "4"),
        7 => ("timestamp", "8"),
        8 => ("single host", "any"),
        9 => ("target name", even),
        10 => ("channel bindings", "16"),
        _ => ("unknown", "any"),
    }
}

fn pair_figures(message: &[u8], refusal: &Refusal, list: &Field) -> Option<String> {
    let (at, end) = (refusal.place, list.bytes.end);
    let Field { name, head, bytes } = list;
    let of_list = format!("{name} is {}; its head is at byte {head}", places(bytes));
    if refusal.number() == 11 {
        let left = end.saturating_sub(at as u64);
        return Some(format!("{left} are left at byte {at}; {of_list}"));
    }
    let (id, size) = {
        let start = number_at(message, at)?;
        (start & 0xFFFF, start >> 16)
    };
    let (name, wanted) = pair_id(id);
    Some(match refusal.number() {
        10 => format!("pair {id} ({name}) at byte {at} has a value of {size} bytes; {of_list}"),
        12 if size > 0 => format!("the end pair at byte {at} has length {size}; {of_list}"),
        12 => format!("the 4 bytes of the end pair at byte {at} are not the last; {of_list}"),
        _ => format!("pair {id} ({name}) at byte {at} has {size} bytes, not {wanted}; {of_list}"),
    })
}

/// The strings of an NL_AUTH request.
const STRINGS: [&str; 5] = [
    "string A (NetBIOS domain name)",
    "string B (NetBIOS computer name)",
    "string C (DNS domain name)",
    "string D (DNS host name)",
    "string E (NetBIOS computer name in UTF-8)",
];

fn nl_auth_figures(number: u8, message: &[u8]) -> Option<String> {
    let refusal = NlAuth::read(message).err();
    let refusal = refusal.filter(|refusal| refusal.number() == number)?;
    let len = message.len();
    Some(match number {
        1 => format!("it has {len}"),
        2 => format!("it has {len} bytes, and an NL_AUTH message at least 8"),
        4 => "the number at byte 0 is neither 0, a request's, nor 1, a response's".to_owned(),
        14 => "none of the flags at byte 4 is one of theirs".to_owned(),
        15 | 50..=53 => {
            let string = STRINGS.get(usize::from(refusal.field).checked_sub(1)?)?;
            let at = NlAuth::string_place(message, refusal.field)?;
            format!("{string} begins at byte {at} of {len}")
        }
        16 => {
            let end = NlAuth::string_place(message, 6)?;
            format!("the strings end at byte {end} of {len}")
        }
        17 if len == 9 => "its one byte isn't zero".to_owned(),
        17 => format!("it has {} bytes", len.saturating_sub(8)),
        _ => return None,
    })
}

/// Scheme words that may be told: any other word could be a secret.
const SCHEMES: [&str; 5] = ["Negotiate", "Basic", "Digest", "Bearer", "Kerberos"];

fn header_figures(number: u8, text: &[u8]) -> Option<String> {
    let mut room = vec![0; text.len()];
    let refusal = reader::import_header(text, &mut room).err();
    refusal.filter(|refusal| refusal.number() == number)?;
    match number {
        57 if text.eq_ignore_ascii_case(b"NTLM") => {
            Some("the word stands alone, as a server offers it".to_owned())
        }
        57 => {
            let word = text.split(u8::is_ascii_whitespace).next()?;
            let is = |scheme: &&&str| word.eq_ignore_ascii_case(scheme.as_bytes());
            let scheme = SCHEMES.iter().find(is)?;
            Some(format!("the word is {scheme}"))
        }
        58 => {
            let word = text.get(4..)?;
            let spaces = word.iter().take_while(|&&byte| byte == b' ').count();
            let digits = word.get(spaces..)?;
            let (stop, len) = (4 + spaces + base64_stop(digits)?, text.len());
            Some(if stop == len {
                format!("it breaks off after character {len}")
            } else {
                format!("it stops at character {} of {len}", stop + 1)
            })
        }
        _ => None,
    }
}

#[cfg(test)]
mod tests {
    use super::{meaning, number_of, of, ReadAs, WORDS};
    use reader::Program;

    fn told(read_as: ReadAs, bytes: &[u8]) -> String {
        let program = match read_as {
            ReadAs::NlAuth => Program::NlAuth,
            _ => Program::Ntlm,
        };
        let mut room = vec![0; reader::LINE_LIMIT];
        let len = program.write_line(bytes, &mut room).expect("a line");
        let number = number_of(&room[..len]).expect("a refusal");
        of(number, read_as, bytes).expect("words")
    }

    fn header_told(text: &[u8]) -> String {
        let refusal = reader::import_header(text, &mut [0; 100]).expect_err("a refusal");
        of(refusal.number(), ReadAs::HeaderText, text).expect("words")
    }

    /// An AUTHENTICATE of 64 bytes with these flags, and heads set by their places.
    fn authenticate(flags: u32, heads: &[(usize, u16, u32)], after: usize) -> Vec<u8> {
        let mut message = b"NTLMSSP\0\x03\0\0\0".to_vec();
        message.resize(64 + after, 0);
        message[60..64].copy_from_slice(&flags.to_le_bytes());
        for (at, len, offset) in heads {
            message[*at..at + 2].copy_from_slice(&len.to_le_bytes());
            message[at + 4..at + 8].copy_from_slice(&offset.to_le_bytes());
        }
        message
    }

    /// A CHALLENGE whose target info is `list`, at byte 48.
    fn challenge(list: &[u8]) -> Vec<u8> {
        let mut message = b"NTLMSSP\0\x02\0\0\0".to_vec();
        message.resize(48, 0);
        message[20..24].copy_from_slice(&0x80_0001_u32.to_le_bytes());
        message[40..42].copy_from_slice(&(list.len() as u16).to_le_bytes());
        message[44] = 48;
        message.extend_from_slice(list);
        message
    }

    #[test]
    fn the_words_are_the_headers() {
        let header = concat!(env!("CARGO_MANIFEST_DIR"), "/../../include/dialtable.h");
        let header = std::fs::read_to_string(header).expect("the header");
        let listed = header.lines().filter_map(|line| {
            let (_, rest) = line.trim().strip_prefix("X(")?.split_once(", ")?;
            let (number, rest) = rest.split_once(", \"")?;
            Some((number.parse().ok()?, rest.split_once('"')?.0))
        });
        let listed: Vec<(u8, &str)> = listed.collect();
        assert_eq!(listed, WORDS);
    }

    #[test]
    fn the_number_is_that_of_the_line() {
        assert_eq!(number_of(b"refused 6 field=4 at=0\n"), Some(6));
        assert_eq!(number_of(b"check 13 failed field=2 offset=0\n"), Some(13));
        for line in ["check 1 held\n", "auth 6 flags\n", "refused", "refused x y"] {
            assert_eq!(number_of(line.as_bytes()), None, "{line}");
        }
        assert_eq!((meaning(0), meaning(18)), (None, None));
    }

    #[test]
    fn an_ntlm_message_is_told_by_its_figures() {
        let ntlm = |message: &[u8]| told(ReadAs::Ntlm, message);
        assert_eq!(
            ntlm(&vec![0; 65_536]),
            "message over 65,535 bytes: it has 65536"
        );
        assert_eq!(
            ntlm(b"NTLMSSP\0"),
            "shorter than its fixed part: it has 8 bytes, and its type would be at byte 8"
        );
        assert_eq!(
            ntlm(&authenticate(1, &[], 0)[..63]),
            "shorter than its fixed part: it has 63 bytes, and an AUTHENTICATE at least 64"
        );
        assert_eq!(
            ntlm(&challenge(&[])[..47]),
            "shorter than its fixed part: it has 47 bytes, and a CHALLENGE at least 48"
        );
        let mut damaged = challenge(&[]);
        damaged[8] = 0x82;
        assert_eq!(
            ntlm(&damaged[..47]),
            "shorter than its fixed part: it has 47 bytes, and a message of another type is read as AUTHENTICATE, \
             which has 64"
        );
        let mut damaged = authenticate(1, &[], 0);
        damaged[6] = b'Q';
        assert_eq!(
            ntlm(&damaged),
            "signature differs: byte 6 is the first that is not as in NTLMSSP and a zero byte"
        );
        damaged[6] = b'P';
        damaged[8] = 7;
        assert_eq!(
            ntlm(&damaged),
            "type differs: the number at byte 8 is not 1, 2 or 3"
        );
        assert_eq!(
            ntlm(&authenticate(0x200, &[], 0)),
            "UNICODE and OEM both clear: flags 00000200 at byte 60"
        );
        assert_eq!(
            ntlm(&authenticate(2, &[(36, 8, 113)], 56)),
            "a field ends past the message: the user name is bytes 113 to 121 of 120; its head is at byte 36"
        );
        assert_eq!(
            ntlm(&authenticate(2, &[(28, 1, 63)], 2)),
            "a field begins in the fixed part: the domain is bytes 63 to 64, and the fixed part has 64; \
             its head is at byte 28"
        );
        assert_eq!(
            ntlm(&authenticate(1, &[(44, 3, 64)], 8)),
            "a name at an odd place or of odd length: the workstation is bytes 64 to 67, 3 long; its head is \
             at byte 44, and flags 00000001 at byte 60 have UNICODE"
        );
        // The session key doesn't count without KEY_EXCH; the LM response is apart.
        let heads = [(36, 4, 66), (52, 9, 64), (12, 2, 64), (20, 9, 69)];
        assert_eq!(
            ntlm(&authenticate(1, &heads, 20)),
            "a name shares a byte with a secret: the user name is bytes 66 to 70, the NT response bytes 69 \
             to 78; their heads are at bytes 36 and 20"
        );
    }

    #[test]
    fn a_pair_is_told_by_its_place() {
        let told = |list: &[u8]| told(ReadAs::Ntlm, &challenge(list));
        let list =
            |end: usize| format!("the target info is bytes 48 to {end}; its head is at byte 40");
        assert_eq!(
            told(b"\x03\0\x64\0ab\0\0\0\0"),
            format!(
                "a pair's value passes the end of the list: pair 3 (DNS computer name) at byte 48 has a value of \
                 100 bytes; {}",
                list(58)
            )
        );
        assert_eq!(
            told(b"\x03\0\0\0\0\0"),
            format!(
                "under 4 bytes left where a pair should start: 2 are left at byte 52; {}",
                list(54)
            )
        );
        assert_eq!(
            told(b"\0\0\x01\0"),
            format!(
                "end pair with nonzero length, or bytes after it: the end pair at byte 48 has length 1; {}",
                list(52)
            )
        );
        assert_eq!(
            told(b"\0\0\0\0\0"),
            format!(
                "end pair with nonzero length, or bytes after it: the 4 bytes of the end pair at byte 48 are not the last; {}",
                list(53)
            )
        );
        assert_eq!(
            told(b"\x07\0\x04\0abcd\0\0\0\0"),
            format!(
                "a pair of a size that its id forbids: pair 7 (timestamp) at byte 48 has 4 bytes, not 8; {}",
                list(60)
            )
        );
    }

    #[test]
    fn an_nl_auth_message_is_told_by_its_strings() {
        let nl = |message: &[u8]| told(ReadAs::NlAuth, message);
        assert_eq!(
            nl(b"\0\0\0\0"),
            "shorter than its fixed part: it has 4 bytes, and an NL_AUTH message at least 8"
        );
        assert_eq!(
            nl(b"\x02\0\0\0\x01\0\0\0\0"),
            "type differs: the number at byte 0 is neither 0, a request's, nor 1, a response's"
        );
        assert_eq!(
            nl(b"\0\0\0\0\x20\0\0\0\0"),
            "NL_AUTH request with no bit A to E: none of the flags at byte 4 is one of theirs"
        );
        assert_eq!(
            nl(b"\0\0\0\0\x0B\0\0\0A\0B\0\x01d"),
            "a string without its zero byte, or a name cut short: string D (DNS host name) begins at byte 12 of 14"
        );
        assert_eq!(
            nl(b"\0\0\0\0\x06\0\0\0B\0\xC0\0"),
            "a length byte of other top bits, or a label to write that is empty or over 63: string C (DNS domain \
             name) begins at byte 10 of 12"
        );
        assert_eq!(
            nl(b"\0\0\0\0\x01\0\0\0A\0\0\0"),
            "bytes after the last string: the strings end at byte 10 of 12"
        );
        assert_eq!(
            nl(b"\x01\0\0\0\0\0\0\0\0\0"),
            "a response's buffer isn't one zero byte: it has 2 bytes"
        );
        assert_eq!(
            nl(b"\x01\0\0\0\0\0\0\0"),
            "a response's buffer isn't one zero byte: it has 0 bytes"
        );
        assert_eq!(
            nl(b"\x01\0\0\0\0\0\0\0\x01"),
            "a response's buffer isn't one zero byte: its one byte isn't zero"
        );
    }

    #[test]
    fn a_header_text_is_told_without_its_words() {
        assert_eq!(
            header_told(b"Negotiate YII="),
            "a header's text without the word NTLM and a space: the word is Negotiate"
        );
        assert_eq!(
            header_told(b"NTLM"),
            "a header's text without the word NTLM and a space: the word stands alone, as a server offers it"
        );
        for secret in ["c2VjcmV0", "c2VjcmV0 NTLM", "NTLMc2VjcmV0"] {
            assert_eq!(
                header_told(secret.as_bytes()),
                "a header's text without the word NTLM and a space"
            );
        }
        assert_eq!(
            header_told(b"ntlm  Zm9v!m9v"),
            "a bad character, padding, group or last bits in base64: it stops at character 11 of 14"
        );
        assert_eq!(
            header_told(b"NTLM Zm9vZg="),
            "a bad character, padding, group or last bits in base64: it stops at character 12 of 12"
        );
        assert_eq!(
            header_told(b"NTLM Zm9vZg"),
            "a bad character, padding, group or last bits in base64: it breaks off after character 11"
        );
    }

    /// Another number than the second reader's has no figures.
    #[test]
    fn a_refusal_that_the_second_reader_does_not_share_has_its_words_alone() {
        let sound = authenticate(1, &[], 0);
        for number in 1..=9 {
            let words = of(number, ReadAs::Ntlm, &sound).expect("words");
            assert_eq!(Some(words.as_str()), meaning(number));
        }
        let cut = &sound[..63];
        assert_eq!(of(3, ReadAs::Ntlm, cut).as_deref(), meaning(3));
        assert_eq!(of(5, ReadAs::NlAuth, cut).as_deref(), meaning(5));
        assert_eq!(of(99, ReadAs::Ntlm, cut), None);
    }
}
