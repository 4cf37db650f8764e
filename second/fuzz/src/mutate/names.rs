//! Changes of an NL_AUTH message: its strings, labels and jumps.

use super::Draw;

/// The type and the flags, before the buffer that jumps go into.
const FIXED: usize = 8;

pub fn change(draw: &mut Draw, message: &mut Vec<u8>) {
    if message.len() < FIXED {
        message.resize(FIXED, 0);
    }
    let places = message.len() - FIXED;
    match draw.below(8) {
        0 => {
            let at = draw.pick(&[0, 4, 4, 4, 5]);
            message[at] ^= 1 << draw.below(5);
        }
        1 => insert(draw, message, |draw, _| drawn_label(draw)),
        2 => insert(draw, message, |draw, at| jump(draw.below(at + 2)).to_vec()),
        3 => move_jump(draw, message),
        4 => {
            let to = draw.below(places + 1);
            message.truncate(FIXED + to);
        }
        5 => *message = request(draw),
        _ => *message = with_chain(draw),
    }
}

/// The two bytes of a jump to a place of the buffer.
const fn jump(place: usize) -> [u8; 2] {
    (0xC000 | place as u16 & 0x3FFF).to_be_bytes()
}

/// A label behind its length.
fn drawn_label(draw: &mut Draw) -> Vec<u8> {
    let len = match draw.below(4) {
        0 => draw.pick(&[1, 2, 62, 63]),
        1 => draw.below(64),
        _ => 1 + draw.below(8),
    };
    let mut label = vec![len as u8];
    label.extend((0..len).map(|_| draw.pick(&[b'a', b'z', b'-', b'.', 0, 0x5C, 0xC3, b'A'])));
    label
}

/// Bytes at a drawn place of the buffer: `drawn` is given the place.
fn insert(draw: &mut Draw, message: &mut Vec<u8>, drawn: impl Fn(&mut Draw, usize) -> Vec<u8>) {
    let at = draw.below(message.len() - FIXED + 1);
    let new = drawn(draw, at);
    message.splice(FIXED + at..FIXED + at, new);
}

/// Another place in some jump.
fn move_jump(draw: &mut Draw, message: &mut [u8]) {
    let jumps: Vec<usize> = (FIXED..message.len().saturating_sub(1))
        .filter(|&at| message[at] >= 0xC0)
        .collect();
    if !jumps.is_empty() {
        let at = draw.pick(&jumps);
        let place = usize::from(message[at + 1]);
        let any = draw.number(message.len());
        let near = [
            place + 1,
            place.saturating_sub(1),
            place + 2,
            place.saturating_sub(2),
            any,
        ];
        message[at..at + 2].copy_from_slice(&jump(draw.pick(&near)));
    }
}

/// A request with drawn strings: C, D and E end in a zero byte or in a jump to a place
/// that was a label, the end of a name or any.
fn request(draw: &mut Draw) -> Vec<u8> {
    let flags = draw.below(32);
    let mut message = vec![0, 0, 0, 0, flags as u8, 0, 0, 0];
    let mut places = vec![0];
    for string in 0..5 {
        if flags >> string & 1 == 0 {
            continue;
        }
        if string < 2 {
            let len = draw.below(12);
            message.extend(vec![b'A'; len]);
            message.push(0);
            continue;
        }
        for _ in 0..draw.below(4) {
            places.push(message.len() - FIXED);
            message.extend(drawn_label(draw));
        }
        let end = message.len() - FIXED;
        places.push(end);
        match draw.below(3) {
            0 => message.push(0),
            1 => message.extend(jump(draw.pick(&places))),
            _ => message.extend(jump(draw.below(end + 2))),
        }
    }
    message
}

/// A request whose last name goes through a chain of jumps, which lies inside a label
/// of the name before it: so many jumps, and with so many bytes between, as is drawn.
fn with_chain(draw: &mut Draw) -> Vec<u8> {
    let flags: u8 = draw.pick(&[0x0C, 0x14, 0x18, 0x0D, 0x0E, 0x0F, 0x1C]);
    let mut message = vec![0, 0, 0, 0, flags, 0, 0, 0];
    for _ in 0..(flags & 3).count_ones() {
        let len = draw.below(9);
        message.extend(vec![b'A'; len]);
        message.push(0);
    }
    let label = message.len();
    message.push(0);
    message.extend(vec![b'x'; draw.below(12)]);
    let mut last = message.len() - FIXED;
    message.push(0);
    for _ in 0..=draw.below(18) {
        let between = draw.pick(&[0, 0, 0, 1, 2, 3]);
        message.extend(vec![b'y'; between]);
        let at = message.len() - FIXED;
        if draw.one_in(6) {
            // The jump ends a run of one label.
            message.extend([1, b'z']);
        }
        message.extend(jump(last));
        last = at;
    }
    let len = (message.len() - label - 1).min(63);
    message.truncate(label + 1 + len);
    message[label] = len as u8;
    message.push(0);
    if flags & 0x1C == 0x1C {
        message.push(0);
    }
    if draw.one_in(3) {
        message.extend(drawn_label(draw));
    }
    message.extend(jump(last));
    message
}

#[cfg(test)]
mod tests {
    use reader::NlAuth;

    use super::super::tests::drawing;
    use super::{request, with_chain};

    /// Names of every number of jumps that is followed are drawn, and too many.
    #[test]
    fn chains_have_drawn_lengths() {
        let draw = &mut drawing(11);
        let (mut jumps, mut refused) = ([false; 17], false);
        for _ in 0..3000 {
            match NlAuth::read(&with_chain(draw)) {
                Ok(read) => read
                    .strings
                    .iter()
                    .for_each(|string| jumps[string.jumps] = true),
                Err(_) => refused = true,
            }
        }
        assert_eq!((jumps, refused), ([true; 17], true));
    }

    #[test]
    fn requests_are_sound_and_not() {
        let draw = &mut drawing(12);
        let sound = (0..1000).filter(|_| NlAuth::read(&request(draw)).is_ok());
        assert!((100..900).contains(&sound.count()));
    }
}
