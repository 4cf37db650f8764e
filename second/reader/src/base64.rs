//! Base64: RFC 4648, section 4.

/// How many characters so many bytes have, padding included.
pub(crate) const fn encoded_len(bytes: usize) -> usize {
    bytes.div_ceil(3).saturating_mul(4)
}

/// Puts the characters of `bytes` into `out`, which has room for exactly these.
pub(crate) fn encode(bytes: &[u8], out: &mut [u8]) {
    let (groups, rest) = bytes.as_chunks::<3>();
    let mut places = out.as_chunks_mut::<4>().0.iter_mut();
    for (group, place) in groups.iter().zip(&mut places) {
        *place = digits(*group);
    }
    let Some(place) = places.next() else {
        return;
    };
    // "When fewer than 24 input bits are available in an input group, bits with
    // value zero are added (on the right)", and padding for what they fill.
    *place = match *rest {
        [a, b] => {
            let [first, second, third, _] = digits([a, b, 0]);
            [first, second, third, PAD]
        }
        [a] => {
            let [first, second, _, _] = digits([a, 0, 0]);
            [first, second, PAD, PAD]
        }
        _ => *place,
    };
}

const PAD: u8 = b'=';

/// "The Base 64 Alphabet."
const ALPHABET: &[u8; 64] = b"ABCDEFGHIJKLMNOPQRSTUVWXYZabcdefghijklmnopqrstuvwxyz0123456789+/";

/// The four characters of three bytes, six bits each.
#[allow(clippy::indexing_slicing)] // the index is below 64
const fn digits([a, b, c]: [u8; 3]) -> [u8; 4] {
    let bits = u32::from_be_bytes([0, a, b, c]);
    [
        ALPHABET[(bits >> 18 & 63) as usize],
        ALPHABET[(bits >> 12 & 63) as usize],
        ALPHABET[(bits >> 6 & 63) as usize],
        ALPHABET[(bits & 63) as usize],
    ]
}

/// What [`VALUES`] has for a character that is no digit.
const NO_DIGIT: u8 = 0xFF;

/// The value of each character.
#[allow(clippy::indexing_slicing)] // each index is a byte
const VALUES: [u8; 256] = {
    let mut values = [NO_DIGIT; 256];
    let mut value = 0;
    while value < 64 {
        values[ALPHABET[value as usize] as usize] = value;
        value += 1;
    }
    values
};

/// The three bytes of four digits, none where one is no digit.
#[allow(clippy::indexing_slicing)] // the index is a byte
fn bytes_of(group: &[u8; 4]) -> Option<[u8; 3]> {
    let [a, b, c, d] = group.map(|digit| VALUES[usize::from(digit)]);
    // A value has six bits, and what stands for none has all eight.
    if (a | b | c | d) & 0xC0 != 0 {
        return None;
    }
    let bits = u32::from(a) << 18 | u32::from(b) << 12 | u32::from(c) << 6 | u32::from(d);
    let [_, bytes @ ..] = bits.to_be_bytes();
    Some(bytes)
}

/// The bytes of a group that may end the text: with padding they are one or two, and
/// the bits that are left over must be zero.
fn last_bytes_of(group: &[u8; 4]) -> Option<([u8; 3], usize)> {
    // A digit of value zero in the place of the padding leaves the others' bits.
    const ZERO: u8 = b'A';
    let (filled, len) = match *group {
        [a, b, PAD, PAD] => ([a, b, ZERO, ZERO], 1),
        [a, b, c, PAD] => ([a, b, c, ZERO], 2),
        group => (group, 3),
    };
    let bytes = bytes_of(&filled)?;
    let left_over = bytes.iter().skip(len);
    left_over
        .fold(true, |zero, byte| zero & (*byte == 0))
        .then_some((bytes, len))
}

/// Groups of four that are all digits, and the last group, which may be padded.
struct Groups<'a> {
    others: &'a [[u8; 4]],
    last: Option<&'a [u8; 4]>,
}

/// The groups of a text, none where it doesn't end with a whole one.
fn groups(text: &[u8]) -> Option<Groups<'_>> {
    let (groups, rest) = text.as_chunks::<4>();
    let (last, others) = match groups.split_last() {
        Some((last, others)) => (Some(last), others),
        None => (None, groups),
    };
    rest.is_empty().then_some(Groups { others, last })
}

/// How many bytes a text holds, none where it is not base64.
pub(crate) fn decoded_len(text: &[u8]) -> Option<usize> {
    let Groups { others, last } = groups(text)?;
    for group in others {
        bytes_of(group)?;
    }
    let last = match last {
        Some(last) => last_bytes_of(last)?.1,
        None => 0,
    };
    Some(others.len().saturating_mul(3).saturating_add(last))
}

/// Puts the bytes of a text that [`decoded_len`] has measured into `out`, which has
/// room for exactly these.
pub(crate) fn decode(text: &[u8], out: &mut [u8]) {
    let Some(Groups { others, last }) = groups(text) else {
        return;
    };
    let (places, end) = out.as_chunks_mut::<3>();
    let mut places = places.iter_mut();
    for (group, place) in others.iter().zip(&mut places) {
        *place = bytes_of(group).unwrap_or_default();
    }
    let Some((bytes, _)) = last.and_then(last_bytes_of) else {
        return;
    };
    let place = places.next().map_or(end, |place| &mut place[..]);
    for (slot, byte) in place.iter_mut().zip(bytes) {
        *slot = byte;
    }
}
