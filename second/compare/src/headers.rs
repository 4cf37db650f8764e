//! HTTP header texts that carry a message, sound and damaged.

use crate::random::Random;

const DIGITS: &[u8; 64] = b"ABCDEFGHIJKLMNOPQRSTUVWXYZabcdefghijklmnopqrstuvwxyz0123456789+/";

/// How long the word and its space are, as they are written.
const BEFORE: usize = 5;

/// The text that carries a message.
pub fn text(message: &[u8]) -> Vec<u8> {
    let mut text = b"NTLM ".to_vec();
    for group in message.chunks(3) {
        let bits = group.iter().zip([16, 8, 0]);
        let bits: u32 = bits.map(|(&byte, shift)| u32::from(byte) << shift).sum();
        let digits = [18, 12, 6, 0].map(|shift| DIGITS[(bits >> shift & 63) as usize]);
        text.extend(&digits[..group.len() + 1]);
        text.extend(&b"=="[group.len() - 1..]);
    }
    text
}

/// The same text with another case of the word and other spaces: it carries the same
/// message.
pub fn other_text(random: &mut Random, message: &[u8]) -> Vec<u8> {
    let mut text = text(message);
    for letter in &mut text[..4] {
        if random.one_in(2) {
            letter.make_ascii_lowercase();
        }
    }
    let spaces = random.pick(&[0, 0, 1, 2, 9]);
    text.splice(4..4, vec![b' '; spaces]);
    text
}

/// A change that spoils a text, or not.
pub type Change = fn(&mut Random, &mut Vec<u8>);

/// Everything that can be wrong with a text, one at a time; where it can't be with
/// this one, the text stays.
pub const CHANGES: [Change; 24] = [
    // The word and the space.
    |_, text| text.truncate(4),
    |random, text| text.truncate(random.below(BEFORE)),
    |_, text| drop(text.drain(4..5)),
    |random, text| text[4] = random.pick(b"\t\r\n\0=,;_\xA0"),
    |_, text| text.insert(4, b'X'),
    |random, text| text.insert(0, random.pick(b" \tN")),
    |random, text| text[random.below(4)] ^= random.pick(&[1, 2, 0x40, 0x80]),
    // Characters.
    |random, text| put(text, random.byte(), random),
    |random, text| put(text, random.pick(b"-_.,:@[`{* \t\0\x7F\xC1"), random),
    |random, text| text.insert(BEFORE, random.pick(b"\t\r\n\0-")),
    |_, text| text.insert(BEFORE, b' '),
    |_, text| each(text, b'+', b'-'),
    |_, text| each(text, b'/', b'_'),
    // What follows.
    |random, text| text.push(random.pick(b" \t\r\n,;=\0A")),
    |_, text| text.extend(b"\r\n"),
    |_, text| text.extend(b"    "),
    |_, text| text.extend(b"AAAA"),
    // Padding and groups.
    |_, text| text.retain(|&byte| byte != b'='),
    |_, text| text.truncate(text.len() - 1),
    |random, text| text.truncate(BEFORE + random.below(text.len() - BEFORE + 1)),
    |_, text| text.extend(b"===="),
    |random, text| put(text, b'=', random),
    |_, text| {
        let len = text.len();
        if text.ends_with(b"=") && !text.ends_with(b"==") {
            text.swap(len - 1, len - 2);
        }
    },
    // Bits that are left over: the last digit's neighbour.
    |random, text| {
        let digit = text[BEFORE..].iter().rposition(|&byte| byte != b'=');
        if let Some(at) = digit {
            let value = DIGITS.iter().position(|&d| d == text[BEFORE + at]);
            let other = value.unwrap_or_default() ^ random.pick(&[1, 2, 4, 8]);
            text[BEFORE + at] = DIGITS[other % 64];
        }
    },
];

/// Another byte somewhere after the space.
fn put(text: &mut [u8], byte: u8, random: &mut Random) {
    if text.len() > BEFORE {
        let at = BEFORE + random.below(text.len() - BEFORE);
        text[at] = byte;
    }
}

fn each(text: &mut [u8], from: u8, to: u8) {
    for byte in &mut text[BEFORE..] {
        if *byte == from {
            *byte = to;
        }
    }
}

/// A text with one of these changes.
pub fn changed(random: &mut Random, message: &[u8], change: Change) -> Vec<u8> {
    let mut text = text(message);
    change(random, &mut text);
    text
}

#[cfg(test)]
mod tests {
    use super::{changed, other_text, text, CHANGES};
    use crate::random::Random;

    #[test]
    fn texts_are_those_of_rfc_4648() {
        for (message, expected) in [
            ("", "NTLM "),
            ("f", "NTLM Zg=="),
            ("fo", "NTLM Zm8="),
            ("foo", "NTLM Zm9v"),
            ("foobar", "NTLM Zm9vYmFy"),
        ] {
            assert_eq!(text(message.as_bytes()), expected.as_bytes());
        }
    }

    #[test]
    fn every_change_can_be_made_of_every_text() {
        let mut random = Random::new(2);
        for len in 0..20 {
            let message = random.bytes(len);
            other_text(&mut random, &message);
            for change in CHANGES {
                changed(&mut random, &message, change);
            }
        }
    }
}
