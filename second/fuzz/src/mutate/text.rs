//! Changes of a header line's text.

use super::Draw;

/// Bytes that a text may be wrong by: blanks, padding, the other alphabet, ends of
/// lines, and digits.
const TELLING: [u8; 14] = *b" \t=+/-_\r\nAz0\0\xFF";

pub fn change(draw: &mut Draw, text: &mut Vec<u8>) {
    let at = draw.below(text.len() + 1);
    match (draw.below(5), text.get_mut(at)) {
        (0, Some(byte)) => *byte = draw.pick(&TELLING),
        (1, Some(byte)) => *byte ^= 0x20,
        (2, Some(_)) => {
            text.remove(at);
        }
        (3, _) => {
            text.pop();
        }
        _ => text.insert(at, draw.pick(&TELLING)),
    }
}
