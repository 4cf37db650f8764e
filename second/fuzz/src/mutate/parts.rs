//! Changes of what a message is written from: parts behind their lengths.

use std::ops::Range;

use super::{Draw, TELLING};

/// Changes what stands before the lengths, or one of the parts, of which there are
/// `many`, with its length put right.
pub fn change(draw: &mut Draw, bytes: &mut Vec<u8>, before: usize, many: usize) {
    let fixed = before + many;
    if bytes.len() < fixed {
        bytes.resize(fixed, 0);
    }
    if before > 0 && draw.one_in(4) {
        let at = draw.below(before);
        bytes[at] ^= 1 << draw.below(8);
        return;
    }
    let which = draw.below(many);
    let mut start = fixed;
    for part in 0..which {
        start += usize::from(bytes[before + part]);
    }
    let end = start + usize::from(bytes[before + which]);
    let len = match draw.below(4) {
        0 => draw.number(256),
        _ => draw.len().min(255),
    };
    bytes[before + which] = len as u8;
    resize(draw, bytes, start..end, len);
}

/// Puts as many drawn bytes in the place of a range, as far as it is there.
pub fn resize(draw: &mut Draw, bytes: &mut Vec<u8>, range: Range<usize>, len: usize) {
    let start = range.start.min(bytes.len());
    let end = range.end.min(bytes.len());
    let byte = draw.pick(&TELLING);
    let filled = draw.one_in(2);
    let value: Vec<u8> = (0..len)
        .map(|_| {
            let any = draw.byte();
            let drawn = draw.pick(&[b'a', b'.', b'Z', b'-', any]);
            if filled {
                byte
            } else {
                drawn
            }
        })
        .collect();
    bytes.splice(start..end, value);
}

#[cfg(test)]
mod tests {

    use super::super::tests::drawing;
    use super::change;
    use crate::input::Stream;

    #[test]
    fn the_other_parts_stay() {
        let draw = &mut drawing(1);
        let whole = b"flags\x02\x03\x01aabbbc".to_vec();
        for _ in 0..500 {
            let mut bytes = whole.clone();
            change(draw, &mut bytes, 5, 3);
            let mut stream = Stream(&bytes);
            stream.array::<5>();
            let parts = stream.parts::<3>();
            let kept = parts
                .iter()
                .zip([&b"aa"[..], b"bbb", b"c"])
                .filter(|(one, two)| *one == two);
            assert!(kept.count() >= 2 && stream.0.is_empty());
        }
    }
}
