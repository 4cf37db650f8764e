//! What a file holds: a message as it is, in hex, in base64 or in a dump; or HTTP
//! header lines.
//!
//! A raw message is never taken for text. One that begins with the signature or
//! with an NL_AUTH type has a zero byte among its first eight, and text has
//! none.

use std::fmt;

use crate::dump::{self, NoDump};

/// `NTLMSSP\0`, the first eight bytes of an NTLM message.
const SIGNATURE: &[u8; 8] = b"NTLMSSP\0";

/// The first four bytes of an NL_AUTH request and of a response.
const NL_AUTH_TYPES: [&[u8; 4]; 2] = [&[0, 0, 0, 0], &[1, 0, 0, 0]];

/// The marks that some editors put before a text: UTF-8, UTF-16 in both orders.
const BYTE_ORDER_MARKS: [&[u8]; 3] = [&[0xEF, 0xBB, 0xBF], &[0xFF, 0xFE], &[0xFE, 0xFF]];

/// How a file holds its message.
#[derive(Clone, Copy, Debug, PartialEq, Eq)]
pub enum Form {
    Raw,
    Hex,
    Base64,
    Dump,
}

impl fmt::Display for Form {
    fn fmt(&self, f: &mut fmt::Formatter<'_>) -> fmt::Result {
        f.write_str(match self {
            Self::Raw => "raw",
            Self::Hex => "hex text",
            Self::Base64 => "base64 text",
            Self::Dump => "dump",
        })
    }
}

/// A place in a text, the first line and the first column being 1.
#[derive(Clone, Copy, Debug, PartialEq, Eq)]
pub struct Place {
    pub line: usize,
    pub column: usize,
}

impl Place {
    fn of(text: &[u8], at: usize) -> Self {
        let before = &text[..at.min(text.len())];
        let line_start = before.iter().rposition(|&byte| byte == b'\n');
        Self {
            line: 1 + before.iter().filter(|&&byte| byte == b'\n').count(),
            column: 1 + before.len() - line_start.map_or(0, |end| end + 1),
        }
    }
}

impl fmt::Display for Place {
    fn fmt(&self, f: &mut fmt::Formatter<'_>) -> fmt::Result {
        write!(f, "line {}, column {}", self.line, self.column)
    }
}

/// Why a file holds no message. Each says what to do.
#[derive(Clone, Copy, Debug, PartialEq, Eq)]
pub enum NoMessage {
    /// Text in none of the forms, and where each of them stops. Base64 that doesn't stop
    /// begins no message.
    OtherText {
        hex: Place,
        dump: Place,
        base64: Option<Place>,
        /// The first line that is no header line, where another is one.
        other_line: Option<usize>,
    },
    /// Text that begins with a byte order mark.
    ByteOrderMark,
    /// The base64 of a message, but for so many characters of padding.
    NoPadding(usize),
    /// The base64 of a message in the alphabet for URLs, but for so many characters of
    /// padding.
    Base64Url(usize),
    /// A dump of words in the order of the machine that printed it.
    Words,
    /// A dump in which a `*` stands for lines, nobody knows how many.
    Starred,
    /// A capture of packets.
    Capture,
}

impl fmt::Display for NoMessage {
    fn fmt(&self, f: &mut fmt::Formatter<'_>) -> fmt::Result {
        match self {
            Self::OtherText {
                hex,
                dump,
                base64,
                other_line,
            } => f.write_str(&in_no_form([hex, dump], *base64, *other_line)),
            Self::ByteOrderMark => {
                f.write_str("it begins with a byte order mark: save it as plain ASCII text")
            }
            Self::NoPadding(missing) => {
                write!(f, "it is base64 without its padding: {}", put(*missing))
            }
            Self::Base64Url(missing) => {
                f.write_str("it is base64url: write + for each - in it and / for each _")?;
                match missing {
                    0 => Ok(()),
                    missing => write!(f, ", and {}", put(*missing)),
                }
            }
            Self::Words => f.write_str(
                "it is a dump of words, whose bytes are in the order of the machine that printed it: \
                 dump bytes, as hexdump -C, od -t x1 or xxd do",
            ),
            Self::Starred => f.write_str(
                "a line * in it stands for lines that were left out, and how many can't be told: \
                 dump it again with -v",
            ),
            Self::Capture => f.write_str(
                "it is a capture: make messages of it, as make capture FILE=capture OUT=folder, and run that folder",
            ),
        }
    }
}

/// Where each form of a text stops: hex, a dump, base64 and header lines.
fn in_no_form(
    [hex, dump]: [&Place; 2],
    base64: Option<Place>,
    other_line: Option<usize>,
) -> String {
    let base64 = base64.map_or("base64 begins no message".to_owned(), |at| {
        format!("base64 at {at}")
    });
    let header = other_line.map_or("no line is a header line".to_owned(), |line| {
        format!("line {line} is no header line")
    });
    format!(
        "it is text in no form that is read: hex stops at {hex}, a dump at {dump}, {base64}, and {header}: \
         correct it or take it out of the folder"
    )
}

/// What to do where so many characters of padding are missing.
fn put(missing: usize) -> String {
    format!("put {} at its end", "=".repeat(missing))
}

/// Whether a text begins with a byte order mark. Bytes that a signature goes on from, or that are
/// no text behind it, are a message whose beginning is damaged.
fn has_mark(content: &[u8]) -> bool {
    let mut marks = BYTE_ORDER_MARKS.iter();
    let Some(mark) = marks.find(|mark| content.starts_with(mark)) else {
        return false;
    };
    let (rest, part) = (&content[mark.len()..], &SIGNATURE[mark.len()..7]);
    let goes_on = rest.starts_with(part) || !rest.is_empty() && part.starts_with(rest);
    let order = match *mark {
        [0xFF, 0xFE] => u16::from_le_bytes,
        [0xFE, 0xFF] => u16::from_be_bytes,
        _ => return !goes_on && !rest.contains(&0),
    };
    let units = rest.as_chunks::<2>().0.iter().map(|&two| order(two));
    let is_plain = |c: char| !c.is_control() || "\t\r\n".contains(c);
    !goes_on && char::decode_utf16(units).all(|c| c.is_ok_and(is_plain))
}

/// The message in a file's content, and the form that it has there.
pub fn read(content: Vec<u8>) -> Result<(Form, Vec<u8>), NoMessage> {
    // A message cut off inside its signature is raw too, though letters alone.
    let signature_text = &SIGNATURE[..7];
    if content.starts_with(signature_text) || signature_text.starts_with(&content) {
        return Ok((Form::Raw, content));
    }
    if has_mark(&content) {
        return Err(NoMessage::ByteOrderMark);
    }
    if is_capture(&content) {
        return Err(NoMessage::Capture);
    }
    if !content.iter().all(|&byte| is_text(byte)) {
        return Ok((Form::Raw, content));
    }
    let dump = match dump::read(&content) {
        Ok(dump) if dump.words && dump.sure => return Err(NoMessage::Words),
        Ok(dump) if dump.sure => return Ok((Form::Dump, dump.bytes)),
        other => other,
    };
    if dump.is_err() && dump::is_octal(&content) {
        return Err(NoMessage::Words);
    }
    let hex = match decode_hex(&content) {
        Ok(_) if dump::has_addresses(&content) => Err(0),
        other => other,
    };
    // Letters may be base64 by chance, so the base64 of anything but a
    // message's beginning doesn't count, or of something that a message is
    // inside of. With it, hex digits that are base64 too are told apart: no
    // text begins a message both ways.
    let base64 = decode_base64(&content);
    match (hex, base64, dump) {
        (_, Ok(message), _) if counts(&message) => Ok((Form::Base64, message)),
        (Ok(message), _, _) => Ok((Form::Hex, message)),
        (_, _, Ok(dump)) if dump.words => Err(NoMessage::Words),
        (_, _, Ok(dump)) => Ok((Form::Dump, dump.bytes)),
        (Err(hex), base64, Err(dump)) => Err(told(&content, hex, base64.err(), dump)),
    }
}

/// Why a text that stops at these places in hex, in base64 and as a dump is no message.
fn told(text: &[u8], hex: usize, base64: Option<usize>, dump: NoDump) -> NoMessage {
    let starred = |line: &[u8]| line.trim_ascii() == b"*";
    let stop = match dump {
        NoDump::Starred => return NoMessage::Starred,
        NoDump::Stops(stop) => stop,
    };
    if let Some(other) = other_base64(text) {
        return other;
    }
    // The bytes of od -An, which has no addresses.
    if text.split(|&byte| byte == b'\n').any(starred) && text.get(hex) == Some(&b'*') {
        return NoMessage::Starred;
    }
    let place = |at| Place::of(text, at);
    NoMessage::OtherText {
        hex: place(hex),
        dump: place(stop),
        base64: base64.map(place),
        other_line: first_other_line(text),
    }
}

/// The first line that is no header line, of a text that has a header line too.
fn first_other_line(text: &[u8]) -> Option<usize> {
    let lines = text.split(|&byte| byte == b'\n').map(<[u8]>::trim_ascii);
    let lines = (1..).zip(lines).filter(|(_, line)| !line.is_empty());
    let (texts, others): (Vec<_>, Vec<_>) =
        lines.partition(|(_, line)| header_text(line).is_some());
    let first = others.first().filter(|_| !texts.is_empty());
    first.map(|(number, _)| *number)
}

/// A text that would be the base64 of a message with its padding, or in the other
/// alphabet.
fn other_base64(text: &[u8]) -> Option<NoMessage> {
    let text = text.trim_ascii_end();
    let padded = |mut text: Vec<u8>| {
        let digits = text
            .iter()
            .filter(|byte| !byte.is_ascii_whitespace())
            .count();
        let missing = (4 - digits % 4) % 4;
        text.extend(&b"=="[..missing.min(2)]);
        (missing, decode_base64(&text).ok())
    };
    let plain = |byte: &u8| match byte {
        b'-' => b'+',
        b'_' => b'/',
        byte => *byte,
    };
    let sound = |(missing, message): (usize, Option<Vec<u8>>)| {
        message.filter(|message| counts(message)).map(|_| missing)
    };
    let missing = sound(padded(text.to_vec())).filter(|&missing| missing > 0);
    let other = text.iter().any(|byte| b"-_".contains(byte));
    let for_urls = || sound(padded(text.iter().map(plain).collect())).filter(|_| other);
    missing
        .map(NoMessage::NoPadding)
        .or_else(|| for_urls().map(NoMessage::Base64Url))
}

/// Whether the bytes of a text count as a message: they begin one, or one is inside.
fn counts(message: &[u8]) -> bool {
    begins_a_message(message) || !signatures(message).is_empty()
}

/// The places at which the signature of an NTLM message stands.
pub fn signatures(bytes: &[u8]) -> Vec<usize> {
    let places = bytes.windows(SIGNATURE.len()).enumerate();
    places
        .filter(|(_, eight)| eight == SIGNATURE)
        .map(|(at, _)| at)
        .collect()
}

/// What is told of bytes that don't begin as an NTLM message, but have one inside.
pub fn inside(bytes: &[u8]) -> Option<String> {
    let places = signatures(bytes);
    let at = *places.first().filter(|&&at| at > 0)?;
    let more = match places.len() - 1 {
        0 => String::new(),
        more => format!(" ({more} more after it)"),
    };
    Some(format!(
        "NTLMSSP stands at byte {at}{more}: a message inside something else, as SPNEGO or a packet; \
         cut off what stands before it"
    ))
}

/// Whether a file is a capture: one of pcap by its magic number and version, one of
/// pcapng by its first block.
fn is_capture(content: &[u8]) -> bool {
    let little = [[0xD4, 0xC3, 0xB2, 0xA1], [0x4D, 0x3C, 0xB2, 0xA1]];
    let big = [[0xA1, 0xB2, 0xC3, 0xD4], [0xA1, 0xB2, 0x3C, 0x4D]];
    let Some((start, rest)) = content.split_first_chunk::<4>() else {
        return false;
    };
    let order = rest.get(4..8);
    little.contains(start) && rest.starts_with(&[2, 0, 4, 0])
        || big.contains(start) && rest.starts_with(&[0, 2, 0, 4])
        || *start == [0x0A, 0x0D, 0x0D, 0x0A]
            && (order == Some(&[0x4D, 0x3C, 0x2B, 0x1A])
                || order == Some(&[0x1A, 0x2B, 0x3C, 0x4D]))
}

/// The names of the header fields that carry messages.
const HEADERS: [&[u8]; 4] = [
    b"Authorization",
    b"WWW-Authenticate",
    b"Proxy-Authorization",
    b"Proxy-Authenticate",
];

/// The header lines of a file.
#[derive(Clone, Debug, PartialEq, Eq)]
pub struct HeaderLines<'a> {
    /// The text that each carries, behind its line's number.
    pub texts: Vec<(usize, &'a [u8])>,
    /// How many other lines there are, but for empty ones.
    pub others: usize,
}

/// The header lines of a file, as they are copied from a trace, one to a line. Other
/// lines are passed over where a line has one of the names; without a name every line
/// must be a text by itself. None where there is no header line. No file of another form
/// has one.
pub fn header_lines(content: &[u8]) -> Option<HeaderLines<'_>> {
    let is_plain = |c: char| !c.is_control() || "\t\r\n".contains(c);
    std::str::from_utf8(content)
        .ok()
        .filter(|text| text.chars().all(is_plain))?;
    let mut found = HeaderLines {
        texts: Vec::new(),
        others: 0,
    };
    let mut named = false;
    let lines = content.split(|&byte| byte == b'\n').map(<[u8]>::trim_ascii);
    for (number, line) in (1..).zip(lines).filter(|(_, line)| !line.is_empty()) {
        match header_text(line).filter(|(text, _)| text.is_ascii()) {
            Some((text, by_name)) => {
                named |= by_name;
                found.texts.push((number, text));
            }
            None => found.others += 1,
        }
    }
    let sound = !found.texts.is_empty() && (named || found.others == 0);
    sound.then_some(found)
}

/// What stands behind the name of one of the header fields, without the blanks
/// around it, and true; or a text by itself, and false. curl puts a mark for the
/// direction first.
fn header_text(line: &[u8]) -> Option<(&[u8], bool)> {
    let marks = [&b"> "[..], b"< "];
    let mark = marks.into_iter().find_map(|mark| line.strip_prefix(mark));
    let line = mark.unwrap_or(line);
    let colon = line.iter().position(|&byte| byte == b':');
    let named = colon.map(|at| (&line[..at], &line[at + 1..]));
    let is_header = |name: &[u8]| {
        HEADERS
            .iter()
            .any(|header| name.eq_ignore_ascii_case(header))
    };
    match named {
        Some((name, text)) if is_header(name) => Some((text.trim_ascii(), true)),
        _ => {
            let scheme = line.len() > 4 && line[..5].eq_ignore_ascii_case(b"NTLM ");
            scheme.then_some((line, false))
        }
    }
}

fn is_text(byte: u8) -> bool {
    matches!(byte, b' '..=b'~' | b'\t' | b'\r' | b'\n')
}

fn begins_a_message(message: &[u8]) -> bool {
    !matches!(Kind::of(message), Kind::Unclear)
}

/// Which program a message is for.
#[derive(Clone, Copy, Debug, PartialEq, Eq)]
pub enum Kind {
    /// It begins with the signature.
    Ntlm,
    /// Its first four bytes are the type of a request or a response.
    NlAuth,
    /// Neither: its beginning is damaged or cut off.
    Unclear,
}

impl Kind {
    /// Goes by the message alone. A file's name has no say.
    pub fn of(message: &[u8]) -> Self {
        if message.starts_with(SIGNATURE) {
            Self::Ntlm
        } else if NL_AUTH_TYPES.iter().any(|&kind| message.starts_with(kind)) {
            Self::NlAuth
        } else {
            Self::Unclear
        }
    }
}

/// Pairs of hex digits of either case. Between pairs may stand blanks, line ends,
/// commas, colons and hyphens, before one `0x` (but inside no run of digits) or `\x`. At
/// least one pair. Otherwise the place in the text where it stops.
fn decode_hex(text: &[u8]) -> Result<Vec<u8>, usize> {
    let mut message = Vec::with_capacity(text.len() / 2);
    let (mut at, mut in_run) = (0, false);
    while let Some(&byte) = text.get(at) {
        let rest = &text[at..];
        if byte.is_ascii_whitespace() || b",:-".contains(&byte) {
            (at, in_run) = (at + 1, false);
            continue;
        }
        let prefixed = rest.starts_with(b"\\x") || !in_run && is_hex_prefix(rest);
        at += if prefixed { 2 } else { 0 };
        let digit = |at: usize| text.get(at).and_then(|&digit| hex_value(digit)).ok_or(at);
        message.push(digit(at)? << 4 | digit(at + 1)?);
        (at, in_run) = (at + 2, true);
    }
    if message.is_empty() {
        return Err(0);
    }
    Ok(message)
}

fn is_hex_prefix(text: &[u8]) -> bool {
    text.starts_with(b"0x") || text.starts_with(b"0X")
}

fn hex_value(digit: u8) -> Option<u8> {
    match digit {
        b'0'..=b'9' => Some(digit - b'0'),
        b'A'..=b'F' => Some(digit - b'A' + 10),
        b'a'..=b'f' => Some(digit - b'a' + 10),
        _ => None,
    }
}

/// Base64 (RFC 4648, section 4) on one or more lines, each of whole groups of
/// four, with nothing between them but line ends. The padding must be there,
/// and the bits that it leaves over must be zero. At least one group. Otherwise
/// the place in the text where it stops.
pub(crate) fn decode_base64(text: &[u8]) -> Result<Vec<u8>, usize> {
    let mut message = Vec::with_capacity(text.len() / 4 * 3);
    let mut ended = false;
    let mut at = 0;
    for whole_line in text.split(|&byte| byte == b'\n') {
        let line = whole_line.strip_suffix(b"\r").unwrap_or(whole_line);
        let (groups, rest) = line.as_chunks::<4>();
        for (group, place) in groups.iter().zip((at..).step_by(4)) {
            if ended {
                return Err(place);
            }
            ended = decode_group(group, &mut message).map_err(|stop| place + stop)?;
        }
        if !rest.is_empty() {
            let digits = rest
                .iter()
                .take_while(|&&byte| base64_value(byte).is_some());
            let sound = if ended { 0 } else { digits.count() };
            return Err(at + line.len() - rest.len() + sound);
        }
        at += whole_line.len() + 1;
    }
    if message.is_empty() {
        return Err(0);
    }
    Ok(message)
}

/// Where the base64 of a text stops, which it has to its end.
pub(crate) fn base64_stop(text: &[u8]) -> Option<usize> {
    decode_base64(text).err()
}

/// Puts the bytes of one group. True where padding ends the text; otherwise the
/// character where it stops.
fn decode_group(group: &[u8; 4], message: &mut Vec<u8>) -> Result<bool, usize> {
    let (digits, bytes) = match group {
        [_, _, b'=', b'='] => (2, 1),
        [_, _, _, b'='] => (3, 2),
        _ => (4, 3),
    };
    let mut bits: u32 = 0;
    for (place, &digit) in group[..digits].iter().enumerate() {
        bits = bits << 6 | u32::from(base64_value(digit).ok_or(place)?);
    }
    bits <<= 6 * (4 - digits);
    let [_, decoded @ ..] = bits.to_be_bytes();
    let (kept, left_over) = decoded.split_at(bytes);
    if left_over.iter().any(|&byte| byte != 0) {
        return Err(digits - 1);
    }
    message.extend_from_slice(kept);
    Ok(bytes < 3)
}

fn base64_value(digit: u8) -> Option<u8> {
    match digit {
        b'A'..=b'Z' => Some(digit - b'A'),
        b'a'..=b'z' => Some(digit - b'a' + 26),
        b'0'..=b'9' => Some(digit - b'0' + 52),
        b'+' => Some(62),
        b'/' => Some(63),
        _ => None,
    }
}

#[cfg(test)]
mod tests {
    use super::{
        decode_base64, decode_hex, header_lines, inside, read, Form, Kind, NoMessage, Place,
        BYTE_ORDER_MARKS, SIGNATURE,
    };

    const P12: [u8; 13] = *b"\0\0\0\0\x01\0\0\0LINE\0";

    fn form_of(content: &[u8]) -> Result<Form, NoMessage> {
        read(content.to_vec()).map(|(form, _)| form)
    }

    #[test]
    fn a_message_that_begins_as_one_is_raw_whatever_follows() {
        for start in [&SIGNATURE[..], &[0, 0, 0, 0], &[1, 0, 0, 0]] {
            for after in ["", "4E544C4D", "TlRMTVNTUAAD", "AAAAAAEAAAAA", " text\n"] {
                let content = [start, after.as_bytes()].concat();
                let read = read(content.clone());
                assert_eq!(read, Ok((Form::Raw, content)));
            }
        }
    }

    #[test]
    fn a_message_cut_off_anywhere_is_raw() {
        for whole in [&SIGNATURE[..], &P12] {
            for len in 0..=whole.len() {
                assert_eq!(form_of(&whole[..len]), Ok(Form::Raw), "{len}");
            }
        }
        assert_eq!(form_of(b"NTLMSSP5"), Ok(Form::Raw));
    }

    #[test]
    fn a_byte_that_no_text_has_makes_it_raw() {
        for byte in (0..=0x1F).chain(0x7F..=0xFF) {
            if b"\t\r\n".contains(&byte) {
                continue;
            }
            assert_eq!(form_of(&[b'4', b'E', byte, b'5']), Ok(Form::Raw), "{byte}");
        }
    }

    #[test]
    fn hex_is_read_with_and_without_blanks() {
        for text in [
            "000000000100 00004c494E4500",
            "00 00 00 00 01 00 00 00 4C 49 4E 45 00",
            "\t00000000\r\n01000000\r\n4c494e4500\r\n",
            "\n\n00000000010000004C494E4500 ",
            "0x00000000010000004C494E4500",
            "0x00, 0x00, 0x00, 0x00,\n 0x01, 0x00, 0x00, 0x00,\n 0X4c,0x49,0x4e,0x45,0x00,\n",
            "00:00:00:00:01:00:00:00:4c:49:4e:45:00\n",
            "00-00-00-00-01-00-00-00-4C-49-4E-45-00",
            "\\x00\\x00\\x00\\x00\\x01\\x00\\x00\\x00\\x4c\\x49\\x4e\\x45\\x00",
        ] {
            assert_eq!(read(text.into()), Ok((Form::Hex, P12.to_vec())), "{text}");
        }
    }

    #[test]
    fn hex_of_a_damaged_message_is_hex() {
        // Eight digits are base64 too, but of nothing that begins a message.
        assert_eq!(read("4F544C4D".into()), Ok((Form::Hex, b"OTLM".to_vec())));
        assert_eq!(form_of(b"02000000"), Ok(Form::Hex));
    }

    #[test]
    fn what_is_not_pairs_of_digits_is_not_hex() {
        for text in [
            "", " \n", ",", "0", "000", "0 0", "00 0", "0g", "-1", "+1", "0x", "0x0", "000x00",
            "\\x0", "00;00", "{0x00}", "0x\\x00",
        ] {
            assert!(decode_hex(text.as_bytes()).is_err(), "{text}");
        }
    }

    #[test]
    fn base64_is_read_on_one_line_or_more() {
        for text in [
            "AAAAAAEAAABMSU5FAA==",
            "AAAAAAEAAABMSU5FAA==\n",
            "AAAAAAEA\r\nAABMSU5F\r\nAA==\r\n",
            "\nAAAA\nAAEAAABMSU5FAA==\n\n",
        ] {
            let read = read(text.into());
            assert_eq!(read, Ok((Form::Base64, P12.to_vec())), "{text}");
        }
        let (form, message) = read("TlRMTVNTUAADAAAA".into()).expect("a message");
        assert_eq!((form, &message[..8]), (Form::Base64, &SIGNATURE[..]));
    }

    #[test]
    fn base64_that_is_hex_too_goes_by_what_begins_a_message() {
        // A request with an empty string; as hex AA AA AA EA AA AA.
        let (form, message) = read("AAAAAAEAAAAA".into()).expect("a message");
        assert_eq!(form, Form::Base64);
        assert_eq!(message, b"\0\0\0\0\x01\0\0\0\0");
        // The other way round: as base64 D3 4D 34 ..
        assert_eq!(form_of(b"000000000100000041424300"), Ok(Form::Hex));
    }

    #[test]
    fn base64_is_strict() {
        for (text, bytes) in [("QQ==", "A"), ("QUE=", "AA"), ("QUFB", "AAA"), ("+/+/", "")] {
            let decoded = decode_base64(text.as_bytes()).expect(text);
            assert!(bytes.is_empty() || decoded == bytes.as_bytes());
        }
        for text in [
            "",
            "\n",
            "Q",
            "QQ",
            "QQ=",
            "QQ===",
            "=QQ=",
            "Q===",
            "====",
            "QR==",
            "QUF=",
            "QQ==QUFB",
            "QQ==\nQUFB",
            "QU FB",
            " QUFB",
            "QUFB ",
            "QU\nFB",
            "QU-_",
            "QUFB\rQUFB",
            "QUE=\n=",
        ] {
            assert!(decode_base64(text.as_bytes()).is_err(), "{text}");
        }
    }

    #[test]
    fn base64_gives_every_byte_back() {
        const DIGITS: &[u8; 64] =
            b"ABCDEFGHIJKLMNOPQRSTUVWXYZabcdefghijklmnopqrstuvwxyz0123456789+/";
        let message: Vec<u8> = (0..=255).chain((0..=255).rev()).chain([7]).collect();
        assert_eq!(message.len() % 3, 0);
        let mut text = Vec::new();
        for &[a, b, c] in message.as_chunks::<3>().0 {
            let bits = u32::from_be_bytes([0, a, b, c]);
            text.extend([18, 12, 6, 0].map(|shift| DIGITS[(bits >> shift & 63) as usize]));
        }
        assert_eq!(decode_base64(&text), Ok(message));
    }

    fn place(line: usize, column: usize) -> Place {
        Place { line, column }
    }

    #[test]
    fn other_text_is_told_by_where_each_form_stops() {
        let cases = [
            ("test", place(1, 1), place(1, 1), None),
            (
                "hello, box 31\n",
                place(1, 1),
                place(1, 1),
                Some(place(1, 6)),
            ),
            ("4E544C4D5", place(1, 10), place(1, 10), Some(place(1, 10))),
            ("4E54\n4Z", place(2, 2), place(2, 1), Some(place(2, 3))),
            (
                "0000: 4e54\n0002: 4g",
                place(2, 8),
                place(2, 8),
                Some(place(1, 5)),
            ),
            ("VGhpcyBpcyBubyBtZXNzYWdl", place(1, 1), place(1, 1), None),
            (" ", place(1, 1), place(1, 2), Some(place(1, 1))),
            ("\n", place(1, 1), place(2, 1), Some(place(1, 1))),
        ];
        for (text, hex, dump, base64) in cases {
            let told = NoMessage::OtherText {
                hex,
                dump,
                base64,
                other_line: None,
            };
            assert_eq!(form_of(text.as_bytes()), Err(told), "{text}");
        }
        let told = form_of(b"4E54\n4Z").expect_err("no message").to_string();
        assert!(
            told.contains("hex stops at line 2, column 2, a dump at line 2, column 1, base64 at ")
        );
        assert!(told.contains(", and no line is a header line: "));
    }

    /// Where some lines are header lines, the first that is none is named.
    #[test]
    fn the_line_that_is_no_header_line_is_told() {
        for (text, line) in [
            ("NTLM TlRMTVNTUAAD\nX-Auth: foo\nHost: a\n", 2),
            ("\nHost: a\nNTLM TlRMTVNTUAAD\n", 2),
            ("> NTLM Zg==\n\nnotes", 3),
        ] {
            let told = form_of(text.as_bytes())
                .expect_err("no message")
                .to_string();
            let expected = format!(", and line {line} is no header line: correct it");
            assert!(told.contains(&expected), "{told}");
        }
    }

    #[test]
    fn base64_of_another_kind_is_told_by_its_name() {
        for (text, told) in [
            ("TlRMTVNTUAAD//8", NoMessage::NoPadding(1)),
            ("TlRMTVNT\nUAADAA\n", NoMessage::NoPadding(2)),
            ("TlRMTVNTUAAD_-8=", NoMessage::Base64Url(0)),
            ("TlRMTVNTUAAD_-8", NoMessage::Base64Url(1)),
            ("TlRMTVNTUAADAA-_/w", NoMessage::Base64Url(2)),
        ] {
            assert_eq!(form_of(text.as_bytes()), Err(told), "{text}");
        }
        let told = NoMessage::NoPadding(2).to_string();
        assert_eq!(told, "it is base64 without its padding: put == at its end");
        // A blank at its end, and what would begin no message.
        for text in ["TlRMTVNTUAAD//8= ", "VGhpcyBpcyBubw", "VGhpcyBpcyBu-_"] {
            let told = form_of(text.as_bytes());
            assert!(matches!(told, Err(NoMessage::OtherText { .. })), "{text}");
        }
    }

    #[test]
    fn a_dump_is_a_form_and_one_of_words_is_told() {
        for text in [
            "00000000: 0000 0000 0100 0000 4c49 4e45 00         ........LINE.",
            "0000000 00 00 00 00 01 00 00 00 4c 49 4e 45 00\n0000015\n",
            // Its addresses are whole pairs, so that it could be hex too.
            "000000 00 00 00 00 01 00 00 00 4c 49 4e 45 00\n00000d\n",
        ] {
            assert_eq!(read(text.into()), Ok((Form::Dump, P12.to_vec())), "{text}");
        }
        for text in [
            "0000000 0000 0000 0001 0000 494c 454e 0000\n000000e\n",
            "000000 0000 0000 0001 0000 494c 454e\n00000c\n",
        ] {
            assert_eq!(form_of(text.as_bytes()), Err(NoMessage::Words), "{text}");
        }
        let starred = " 4e 54 4c 4d\n 00 00 00 00\n*\n";
        assert_eq!(form_of(starred.as_bytes()), Err(NoMessage::Starred));
        assert_eq!(form_of(b"00000000 01000000 4C494E45 00"), Ok(Form::Hex));
    }

    #[test]
    fn a_message_inside_something_else_is_told() {
        let mut packet = vec![0x60; 34];
        packet.extend_from_slice(SIGNATURE);
        let told = inside(&packet).expect("told");
        assert!(told.starts_with("NTLMSSP stands at byte 34: "), "{told}");
        packet.extend_from_slice(SIGNATURE);
        let told = inside(&packet).expect("told");
        assert!(told.starts_with("NTLMSSP stands at byte 34 (1 more after it): "));
        for other in [&SIGNATURE[..], b"NTLMSSP", b"", &packet[..41]] {
            assert_eq!(inside(other), None);
        }
        // Base64 of such a thing is none by chance.
        let base64 = b"YIEATlRMTVNTUAAB";
        assert_eq!(form_of(base64), Ok(Form::Base64));
    }

    #[test]
    fn a_capture_is_told() {
        let pcap: [&[u8]; 4] = [
            b"\xD4\xC3\xB2\xA1\x02\0\x04\0",
            b"\x4D\x3C\xB2\xA1\x02\0\x04\0rest",
            b"\xA1\xB2\xC3\xD4\0\x02\0\x04",
            b"\x0A\x0D\x0D\x0A\x1C\0\0\0\x4D\x3C\x2B\x1A",
        ];
        for content in pcap {
            assert_eq!(form_of(content), Err(NoMessage::Capture));
            assert_eq!(form_of(&content[..7]), Ok(Form::Raw));
        }
        assert_eq!(form_of(b"\xD4\xC3\xB2\xA1\x02\0\x05\0"), Ok(Form::Raw));
    }

    #[test]
    fn header_lines_are_read_as_they_are_copied() {
        let texts = |content: &'static str| {
            let lines = header_lines(content.as_bytes())?;
            assert_eq!(lines.others, 0);
            Some(lines.texts.into_iter().map(|(_, text)| text).collect())
        };
        let ntlm: Option<Vec<&[u8]>> = Some(vec![b"NTLM Zg=="]);
        for content in [
            "Authorization: NTLM Zg==",
            "authorization:NTLM Zg==\r\n",
            "WWW-Authenticate:  NTLM Zg== \n",
            "\n  Proxy-Authorization: NTLM Zg==\r\n\r\n",
            "< Proxy-Authenticate:\tNTLM Zg==\n",
            "> Authorization: NTLM Zg==\n",
            "NTLM Zg==\n",
        ] {
            assert_eq!(texts(content), ntlm, "{content:?}");
            let told = form_of(content.as_bytes());
            assert!(matches!(told, Err(NoMessage::OtherText { .. })));
        }
        let three = "Authorization: ntlm  a\nWWW-Authenticate: NTLM\nAuthorization: Basic b:c\n";
        let expected: Vec<&[u8]> = vec![b"ntlm  a", b"NTLM", b"Basic b:c"];
        assert_eq!(texts(three), Some(expected));
    }

    #[test]
    fn other_lines_of_a_block_are_counted() {
        let block = "* Connected to f\u{fc}r\n> GET /box HTTP/1.1\r\n> Host: depot\r\n\
                     > Authorization: NTLM Zg==\r\n>\r\n\r\n< HTTP/1.1 401 Unauthorized\r\n\
                     < WWW-Authenticate: NTLM Zm8=\r\nNTLM Zm9v\r\n{ [0 bytes data]\n";
        let lines = header_lines(block.as_bytes()).expect("header lines");
        let expected: Vec<(usize, &[u8])> =
            vec![(4, b"NTLM Zg=="), (8, b"NTLM Zm8="), (9, b"NTLM Zm9v")];
        assert_eq!((lines.texts, lines.others), (expected, 6));
    }

    #[test]
    fn a_header_line_has_its_number_in_the_file() {
        let content = b"\r\nNTLM a\n\n \nNTLM b\nNTLM c";
        let expected: Vec<(usize, &[u8])> = vec![(2, b"NTLM a"), (5, b"NTLM b"), (6, b"NTLM c")];
        let lines = header_lines(content).expect("header lines");
        assert_eq!((lines.texts, lines.others), (expected, 0));
    }

    #[test]
    fn other_lines_are_no_header_lines() {
        for content in [
            "",
            "\n \n",
            "NTLM",
            "NTLMSSP: x",
            "Host: depot",
            "Authorization NTLM Zg==",
            "X-Authorization: NTLM Zg==",
            "NTLM is spoken here\nby all of us\n",
            "TlRMTVNTUAADAAAA",
            "4E544C4D",
            "Authorization: NTLM Zg==\0",
            "Authorization: NTLM \u{e4}",
        ] {
            assert_eq!(header_lines(content.as_bytes()), None, "{content:?}");
        }
    }

    #[test]
    fn a_byte_order_mark_is_named() {
        for mark in [&[0xEF, 0xBB, 0xBF][..], &[0xFF, 0xFE], &[0xFE, 0xFF]] {
            let content = [mark, b"00"].concat();
            assert_eq!(form_of(&content), Err(NoMessage::ByteOrderMark));
        }
        let text = "4E 54\r\n";
        let little = text.bytes().flat_map(|byte| [byte, 0]);
        let big = text.bytes().flat_map(|byte| [0, byte]);
        let little: Vec<u8> = [0xFF, 0xFE].into_iter().chain(little).collect();
        let big: Vec<u8> = [0xFE, 0xFF].into_iter().chain(big).collect();
        for content in [little, big] {
            assert_eq!(form_of(&content), Err(NoMessage::ByteOrderMark));
        }
    }

    /// A message whose first bytes are damaged into a mark is a message, cut off too.
    #[test]
    fn a_damaged_message_is_no_text_with_a_mark() {
        for mark in BYTE_ORDER_MARKS {
            for sound in [&b"NTLMSSP\0\x03\0\0\0"[..], b"NTLMSSP\0", b"NTLMSS", &P12] {
                let content = [mark, &sound[mark.len()..]].concat();
                assert_eq!(read(content.clone()), Ok((Form::Raw, content)));
            }
        }
    }

    #[test]
    fn the_beginning_decides_the_program() {
        assert_eq!(Kind::of(SIGNATURE), Kind::Ntlm);
        assert_eq!(Kind::of(&P12), Kind::NlAuth);
        assert_eq!(Kind::of(&[1, 0, 0, 0]), Kind::NlAuth);
        let unclear: [&[u8]; 6] = [
            b"",
            b"NTLMSSP",
            b"NTLMSSQ\0\x03\0\0\0",
            &[0, 0, 0],
            &[2, 0, 0, 0],
            &[0, 0, 0, 1],
        ];
        for message in unclear {
            assert_eq!(Kind::of(message), Kind::Unclear);
        }
    }
}
