//! Changes of an NTLM message.

use super::{pairs, Draw, TELLING};

/// Where a message's heads stand, and its flags, by its type's first byte.
fn heads(message: &[u8]) -> (&'static [usize], usize) {
    match message.get(8) {
        Some(1) => (&[16, 24], 12),
        Some(2) => (&[12, 40], 20),
        _ => (&[12, 20, 28, 36, 44, 52], 60),
    }
}

/// The head of a challenge's pair list.
const TARGET_INFO: usize = 40;

/// Bits of the flags that some check goes by.
const BITS: [usize; 11] = [0, 1, 2, 4, 5, 12, 13, 23, 25, 29, 30];

/// A head as it stands in the message.
#[derive(Clone, Copy)]
struct Field {
    at: usize,
    len: usize,
    offset: usize,
}

impl Field {
    fn read(message: &[u8], at: usize) -> Self {
        let len = number(message, at, 2);
        let offset = number(message, at + 4, 4);
        Self { at, len, offset }
    }

    /// Its bytes, where the message has them.
    fn bytes(self, message: &[u8]) -> Option<&[u8]> {
        message.get(self.offset..self.offset.checked_add(self.len)?)
    }
}

fn number(message: &[u8], at: usize, len: usize) -> usize {
    let byte = |at: usize| usize::from(message.get(at).copied().unwrap_or_default());
    (at..at + len)
        .rev()
        .fold(0, |number, at| number << 8 | byte(at))
}

fn set(message: &mut [u8], at: usize, len: usize, value: usize) {
    for (byte, value) in message
        .iter_mut()
        .skip(at)
        .take(len)
        .zip(value.to_le_bytes())
    {
        *byte = value;
    }
}

pub fn change(draw: &mut Draw, message: &mut Vec<u8>) {
    let (places, flags) = heads(message);
    if places.contains(&TARGET_INFO) && draw.one_in(2) {
        return pair_list(draw, message);
    }
    let at = draw.pick(places);
    let field = Field::read(message, at);
    match draw.below(13) {
        0 => wrong_len(draw, message, field),
        1 => wrong_offset(draw, message, field),
        2 => {
            let bits = number(message, flags, 4) ^ 1 << draw.pick(&BITS);
            set(message, flags, 4, bits);
        }
        3 => set(message, at + 2, 2, max_len(draw, field.len)),
        4..=6 => {
            let value = drawn_value(draw, field.len);
            replace(message, field, &value);
        }
        7..=9 => move_to_end(draw, message, field),
        10 => exchange(message, field, draw.pick(places)),
        11 => some_bytes(draw, message, field),
        _ => {
            let end = draw.pick(&[12, 32, 40, 48, 56, 64, 72, 88, message.len()]);
            let to = (end + draw.below(5)).saturating_sub(2);
            message.resize(to.min(message.len() + 2), 0);
        }
    }
}

/// A length near what it was, at the message's end, or at a limit of some check.
fn wrong_len(draw: &mut Draw, message: &mut [u8], field: Field) {
    let left = message.len().wrapping_sub(field.offset);
    let len = field.len;
    let near = [
        0,
        1,
        2,
        len ^ 1,
        len + 1,
        len + 2,
        len.wrapping_sub(1),
        left,
        left.wrapping_add(1),
        14,
        16,
        24,
        0xFFFF,
    ];
    set(message, field.at, 2, draw.pick(&near));
}

/// An offset into the fixed part, over another field, or past the end.
fn wrong_offset(draw: &mut Draw, message: &mut [u8], field: Field) {
    let (places, _) = heads(message);
    let other = Field::read(message, draw.pick(places));
    let end = other.offset + other.len;
    let last = message.len().wrapping_sub(field.len);
    let fixed = draw.pick(&[32, 40, 48, 56, 63, 64, 72, 87, 88]);
    let any = draw.number(message.len() + 1);
    let near = [
        0,
        fixed,
        other.offset,
        end,
        end.wrapping_sub(1),
        other.offset.wrapping_sub(field.len),
        last,
        last.wrapping_add(1),
        field.offset ^ 1,
        field.offset + 2,
        any,
        0xFFFF_FFFF,
    ];
    set(message, field.at + 4, 4, draw.pick(&near));
}

fn max_len(draw: &mut Draw, len: usize) -> usize {
    match draw.below(3) {
        0 => draw.pick(&[0, 1, len, len + 1, len.wrapping_sub(1), len | 0x100, 0xFFFF]),
        1 => draw.below(256),
        _ => draw.number(0x1_0000),
    }
}

/// A value of a drawn length, mostly even and short, of one byte or of drawn ones.
fn drawn_value(draw: &mut Draw, len: usize) -> Vec<u8> {
    let len = match draw.below(8) {
        0 => (len + 4).saturating_sub(draw.pick(&[2, 6])),
        1 => 8 * draw.below(33) + draw.pick(&[0, 0, 3, 4]),
        _ => draw.len(),
    };
    if draw.one_in(2) {
        let byte = draw.pick(&TELLING);
        return vec![byte; len];
    }
    let unit = |_| {
        let any = draw.byte();
        [draw.pick(&[b'a', b'Z', b'5', 0x20, 0x5C, any]), 0]
    };
    (0..len.div_ceil(2)).flat_map(unit).take(len).collect()
}

/// Puts another value in the place of a field's, with its length put right and every
/// later field moved.
fn replace(message: &mut Vec<u8>, field: Field, value: &[u8]) {
    if field.bytes(message).is_none() {
        return;
    }
    let end = field.offset + field.len;
    message.splice(field.offset..end, value.iter().copied());
    let (places, _) = heads(message);
    for &at in places {
        let other = Field::read(message, at);
        if at == field.at {
            set(message, at, 2, value.len());
            set(message, at + 2, 2, value.len());
        } else if other.offset >= end {
            set(message, at + 4, 4, other.offset - field.len + value.len());
        }
    }
}

/// A field of another length at the message's end, where it shares nothing.
fn move_to_end(draw: &mut Draw, message: &mut Vec<u8>, field: Field) {
    let value = drawn_value(draw, field.len);
    let gap = 2 * draw.below(20);
    let to = message.len() + message.len() % 2 + draw.pick(&[0, 0, 0, 0, 1, gap]);
    message.resize(to, 0);
    set(message, field.at, 2, value.len());
    set(message, field.at + 2, 2, value.len());
    set(message, field.at + 4, 4, to);
    message.extend(value);
}

/// Two heads exchanged, or the one put over the other.
fn exchange(message: &mut [u8], field: Field, other: usize) {
    if other.max(field.at) + 8 <= message.len() && other != field.at {
        let (one, two) = (other.min(field.at), other.max(field.at));
        let (front, back) = message.split_at_mut(two);
        front[one..one + 8].swap_with_slice(&mut back[..8]);
    }
}

/// Bytes of a field that mean something.
fn some_bytes(draw: &mut Draw, message: &mut [u8], field: Field) {
    if field.bytes(message).is_some_and(|bytes| !bytes.is_empty()) {
        for _ in 0..=draw.below(4) {
            let at = field.offset + draw.below(field.len);
            message[at] = draw.pick(&TELLING);
        }
    }
}

/// A challenge's pair list, with the head put right.
fn pair_list(draw: &mut Draw, message: &mut Vec<u8>) {
    let list = Field::read(message, TARGET_INFO);
    if let Some(bytes) = list.bytes(message) {
        let mut bytes = bytes.to_vec();
        pairs::change(draw, &mut bytes);
        replace(message, list, &bytes);
    }
}

#[cfg(test)]
mod tests {
    use reader::{Authenticate, Challenge};

    use super::super::tests::drawing;
    use super::{move_to_end, replace, Field};

    fn file(name: &str) -> Vec<u8> {
        let folder = concat!(env!("CARGO_MANIFEST_DIR"), "/../../messages/");
        std::fs::read(format!("{folder}{name}")).expect("a message")
    }

    /// A field that is resized leaves the others as they were, and the message sound.
    #[test]
    fn heads_are_put_right() {
        let whole = file("authenticate-smbclient.bin");
        let before = Authenticate::read(&whole).expect("sound").fields();
        for (at, which) in [(28, 2), (36, 3), (44, 4)] {
            for len in [0, 2, 26, 50] {
                let mut message = whole.clone();
                let field = Field::read(&message, at);
                replace(&mut message, field, &vec![b'a'; len]);
                let read = Authenticate::read(&message).expect("still sound");
                let after = read.fields();
                for (place, (one, two)) in before.iter().zip(&after).enumerate() {
                    let bytes = if place == which {
                        &vec![b'a'; len][..]
                    } else {
                        one.bytes
                    };
                    assert_eq!(two.bytes, bytes, "{which} {len} {place}");
                }
            }
        }
    }

    #[test]
    fn a_list_is_put_right_too() {
        let mut message = file("challenge-smbd.bin");
        let list = Field::read(&message, 40);
        replace(&mut message, list, &[1, 0, 2, 0, b'A', 0, 0, 0, 0, 0]);
        let read = Challenge::read(&message).expect("still sound");
        assert_eq!(read.fields()[1].bytes.len(), 10);
    }

    #[test]
    fn a_field_at_the_end_is_there() {
        let draw = &mut drawing(3);
        for _ in 0..100 {
            let mut message = file("authenticate-smbclient.bin");
            let field = Field::read(&message, 36);
            move_to_end(draw, &mut message, field);
            let moved = Field::read(&message, 36);
            assert_eq!(moved.offset + moved.len, message.len());
        }
    }
}
