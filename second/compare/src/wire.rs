//! What the kinds of message share: heads, flags, sizes and damage.

use crate::names::Set;
use crate::random::Random;

pub const UNICODE: u32 = 0x1;
pub const OEM: u32 = 0x2;
pub const REQUEST_TARGET: u32 = 0x4;
pub const OEM_DOMAIN: u32 = 0x1000;
pub const OEM_WORKSTATION: u32 = 0x2000;
pub const TARGET_INFO: u32 = 0x80_0000;
pub const KEY_EXCH: u32 = 0x4000_0000;

pub const SIGNATURE: [u8; 8] = *b"NTLMSSP\0";

/// The longest message that is not refused by its length.
pub const MAX_MESSAGE: usize = 65_535;

/// The longest line that a program prints, with its 0A.
pub const MAX_LINE: usize = 65_536;

/// Lengths of messages at and past the limit.
pub const LONG: [usize; 6] = [65_533, 65_534, 65_535, 65_536, 65_537, 66_000];

/// Lengths of lines at and past the limit, with the 0A.
pub const LONG_LINES: [usize; 6] = [
    MAX_LINE - 2,
    MAX_LINE - 1,
    MAX_LINE,
    MAX_LINE + 1,
    MAX_LINE + 2,
    MAX_LINE + 5_000,
];

/// Flags from which the cases take one bit away or add one: each character
/// set alone, both, none, and nearly all bits.
pub const FLAG_SETS: [u32; 8] = [
    0,
    UNICODE,
    OEM,
    UNICODE | OEM,
    UNICODE | KEY_EXCH | REQUEST_TARGET | TARGET_INFO,
    OEM | KEY_EXCH | REQUEST_TARGET | TARGET_INFO,
    !0,
    !(UNICODE | OEM),
];

/// A field head.
#[derive(Clone, Copy, Debug, Default)]
pub struct Head {
    pub len: u16,
    pub max_len: u16,
    pub offset: u32,
}

impl Head {
    /// A head whose MaxLen equals Len.
    pub fn new(len: usize, offset: usize) -> Self {
        let len = u16::try_from(len).expect("a field's length");
        Self {
            len,
            max_len: len,
            offset: u32::try_from(offset).expect("a field's offset"),
        }
    }

    pub fn bytes(self) -> [u8; 8] {
        let [len_low, len_high] = self.len.to_le_bytes();
        let [max_low, max_high] = self.max_len.to_le_bytes();
        let [a, b, c, d] = self.offset.to_le_bytes();
        [len_low, len_high, max_low, max_high, a, b, c, d]
    }
}

/// The set that flags choose: UNICODE wins.
pub const fn set_of(flags: u32) -> Set {
    if flags & UNICODE != 0 {
        Set::Unicode
    } else {
        Set::Oem
    }
}

/// Lengths that a field is tried with at each of [`offsets`].
pub const FIELD_LENGTHS: [u16; 7] = [0, 1, 2, 3, 24, 25, 0xFFFF];

/// Offsets at every boundary for a field of `len` bytes in a message of
/// `total` bytes: around each part of the fixed parts, where the field ends
/// there, around the end of the message, and where a sum in 32 bits wraps.
pub fn offsets(len: u16, total: usize) -> Vec<u32> {
    let len = u32::from(len);
    let total = u32::try_from(total).expect("a message's length");
    let mut offsets = vec![
        0x7FFF_FFFF,
        0x8000_0000,
        0xFFFF_FFFE,
        0xFFFF_FFFF,
        0xFFFF,
        0x1_0000,
    ];
    let mut around = |place: u32| {
        offsets.extend([place.wrapping_sub(1), place, place.wrapping_add(1)]);
    };
    for part in [12, 32, 40, 48, 56, 64, 72, 88] {
        around(part);
    }
    around(64_u32.wrapping_sub(len));
    around(total.wrapping_sub(len));
    around(total);
    around(0_u32.wrapping_sub(len));
    offsets.sort_unstable();
    offsets.dedup();
    offsets
}

/// Messages of each type around the lengths of the fixed parts, the shortest
/// in which the type decides among them.
pub fn short_of_each_type() -> Vec<Vec<u8>> {
    let mut messages = Vec::new();
    for len in [11, 12, 13, 31, 32, 33, 47, 48, 63, 64] {
        for number in [1_u32, 2, 3] {
            let mut message = vec![0; len.max(20)];
            message[..8].copy_from_slice(&SIGNATURE);
            set_type(&mut message, number);
            // UNICODE, for a NEGOTIATE.
            message[12] = 1;
            message.truncate(len);
            messages.push(message.clone());
            // The signature is looked at by the reader that the type chose.
            message[0] ^= 0x20;
            messages.push(message);
        }
    }
    messages
}

/// Each length that a message can be cut off at, and a few bytes more.
fn cut_off(random: &mut Random, message: &[u8]) -> Vec<Vec<u8>> {
    let longer = (1..=3).map(|more| [message, &random.bytes(more)].concat());
    let longer: Vec<_> = longer.collect();
    let shorter = (0..=message.len()).map(|len| message[..len].to_vec());
    shorter.chain(longer).collect()
}

/// Each byte before `end` changed by one bit and to any other.
fn byte_by_byte(random: &mut Random, message: &[u8], end: usize) -> Vec<Vec<u8>> {
    let mut messages = Vec::new();
    for at in 0..end {
        for change in [1 << random.below(8), random.between(1, 255)] {
            let mut damaged = message.to_vec();
            damaged[at] ^= u8::try_from(change).expect("a byte");
            messages.push(damaged);
        }
    }
    messages
}

/// A message cut off everywhere, and each byte of it before `end` changed.
pub fn cut_or_changed(random: &mut Random, message: &[u8], end: usize) -> Vec<Vec<u8>> {
    let mut messages = cut_off(random, message);
    messages.extend(byte_by_byte(random, message, end));
    messages
}

/// Gives a message another type.
pub fn set_type(message: &mut [u8], number: u32) {
    message[8..12].copy_from_slice(&number.to_le_bytes());
}

/// Any flags, mostly with a character set.
pub fn drawn_flags(random: &mut Random) -> u32 {
    let flags = u32::from_le_bytes(random.array());
    if random.one_in(20) {
        flags
    } else {
        flags | random.pick(&[UNICODE, OEM])
    }
}

/// A message as it is, or with some damage.
pub fn maybe_damaged(random: &mut Random, mut message: Vec<u8>) -> Vec<u8> {
    while random.one_in(3) {
        damage(random, &mut message);
    }
    message
}

/// Damages a message somewhere, in one of the ways that captures and boxes do.
pub fn damage(random: &mut Random, message: &mut Vec<u8>) {
    let len = message.len();
    match random.below(6) {
        _ if len == 0 => message.push(random.byte()),
        0 => message.truncate(random.below(len)),
        1 => {
            let more = random.between(1, 8);
            message.extend(random.bytes(more));
        }
        // In the fixed part, where heads and flags are.
        2 | 3 => {
            let at = random.below(len.min(64));
            message[at] = random.pick(&[0, 1, 2, 0x40, 0x57, 0x58, 0x7F, 0x80, 0xFF]);
        }
        4 => {
            let at = random.below(len);
            message[at] ^= 1 << random.below(8);
        }
        _ => {
            let at = random.below(len);
            message.remove(at);
        }
    }
}
