//! Names, with the units at the edges of what a line escapes.

use crate::random::Random;

/// Character sets, as the flags choose them.
#[derive(Clone, Copy, Debug, PartialEq, Eq)]
pub enum Set {
    Unicode,
    Oem,
}

/// Bytes at both sides of each edge between plain and escaped.
pub const EDGES: [u8; 14] = [
    0x00, 0x01, 0x1F, 0x20, 0x21, 0x22, 0x5B, 0x5C, 0x5D, 0x7E, 0x7F, 0x80, 0xA0, 0xFF,
];

/// 16-bit units whose two bytes are easily confused, and surrogates.
pub const UNIT_EDGES: [u16; 14] = [
    0x0000, 0x0020, 0x0021, 0x005C, 0x007E, 0x007F, 0x00FF, 0x0100, 0x2100, 0x4141, 0x5C00, 0x5C5C,
    0xD83D, 0xDE00,
];

/// A name of so many units.
pub fn name(random: &mut Random, set: Set, units: usize) -> Vec<u8> {
    let mut name = Vec::new();
    for _ in 0..units {
        match set {
            Set::Oem => name.push(byte(random)),
            Set::Unicode if random.one_in(4) => {
                let unit = match random.below(3) {
                    0 => random.pick(&UNIT_EDGES),
                    1 => u16::from(random.pick(&EDGES)),
                    _ => u16::from_le_bytes(random.array()),
                };
                name.extend(unit.to_le_bytes());
            }
            Set::Unicode => name.extend([letter(random), 0]),
        }
    }
    name
}

/// A string without a zero byte, as NL_AUTH has them.
pub fn string(random: &mut Random, len: usize) -> Vec<u8> {
    (0..len).map(|_| byte(random).max(1)).collect()
}

fn byte(random: &mut Random) -> u8 {
    match random.below(8) {
        0 => random.pick(&EDGES),
        1 => random.byte(),
        _ => letter(random),
    }
}

fn letter(random: &mut Random) -> u8 {
    random.pick(b"ABCDEFGHIJKLMNOPQRSTUVWXYZabcdefghijklmnopqrstuvwxyz0123456789.-@$")
}

/// A name of single bytes that makes a line of `line` characters beside `words`.
pub fn bytes_of_line(random: &mut Random, line: usize, words: &str) -> Vec<u8> {
    let escapes = random.between(3_000, 12_000);
    name_of_width(random, Set::Oem, line - words.len(), escapes)
}

/// A name that a line shows in exactly `width` characters, which are enough for
/// `escapes` escaped units.
pub fn name_of_width(random: &mut Random, set: Set, width: usize, escapes: usize) -> Vec<u8> {
    let per_escape = match set {
        Set::Unicode => 6,
        Set::Oem => 4,
    };
    let mut plain = width - per_escape * escapes;
    let mut escaped = escapes;
    let mut name = Vec::new();
    while plain + escaped > 0 {
        let escape = random.below(plain + escaped) < escaped;
        let byte = if escape {
            escaped -= 1;
            // No zero byte, so that it may stand in an NL_AUTH string too.
            random.pick(&[0x01, 0x20, 0x5C, 0x7F, 0x80, 0xFF])
        } else {
            plain -= 1;
            letter(random)
        };
        name.push(byte);
        if set == Set::Unicode {
            name.push(0);
        }
    }
    name
}
