//! Which bytes of an AUTHENTICATE message are secret, by document 01's rule for
//! demand 3, worked out here from the heads alone; and which bytes of a night may
//! change, by request 8/12.

use reader::Entry;

use super::night::Place;
use crate::wire::{KEY_EXCH, OEM_DOMAIN, OEM_WORKSTATION};

/// "A message under 64 bytes has neither" fields nor a MIC.
const FIXED: usize = 64;
const WITH_MIC: usize = 88;
const MIC: usize = 72;

/// Heads of LM response, NT response, DomainName, UserName, Workstation and
/// session key; the first, second and last are secrets.
const HEADS: [usize; 6] = [12, 20, 28, 36, 44, 52];
const SECRETS: [usize; 3] = [12, 20, 52];
const NAMES: [usize; 3] = [28, 36, 44];

/// Heads of a NEGOTIATE's names, each with the flag at 12 that it counts with, and
/// its fixed part.
const OPENING_NAMES: [(usize, u32); 2] = [(16, OEM_DOMAIN), (24, OEM_WORKSTATION)];
const OPENING_FIXED: usize = 32;

fn number(message: &[u8], at: usize, len: usize) -> usize {
    let bytes = message[at..at + len].iter().rev();
    bytes.fold(0, |number, &byte| number << 8 | usize::from(byte))
}

/// The offset and length of the field with this head, none where it doesn't
/// count or is empty.
fn field(message: &[u8], head: usize) -> Option<(usize, usize)> {
    let counts = head != 52 || number(message, 60, 4) & KEY_EXCH as usize != 0;
    counts.then(|| counted(message, head)).flatten()
}

/// The same of a field that counts.
fn counted(message: &[u8], head: usize) -> Option<(usize, usize)> {
    let len = number(message, head, 2);
    (len > 0).then(|| (number(message, head + 4, 4), len))
}

/// "Those from its offset on, Len of them, as far as the message reaches", of
/// each secret, and the MIC where it is there.
pub fn secret_places(message: &[u8]) -> Vec<usize> {
    if message.len() < FIXED {
        return Vec::new();
    }
    let mut places = Vec::new();
    for head in SECRETS {
        if let Some((offset, len)) = field(message, head) {
            places.extend(offset.min(message.len())..(offset + len).min(message.len()));
        }
    }
    let fields = HEADS.iter().filter_map(|&head| field(message, head));
    let lowest = fields.map(|(offset, _)| offset).min();
    if lowest.unwrap_or(message.len()) >= WITH_MIC {
        places.extend(MIC.min(message.len())..WITH_MIC.min(message.len()));
    }
    places
}

/// The secret places that two messages may differ in: demand 3 has them alike
/// in their first 64 bytes.
pub fn changeable_places(message: &[u8]) -> Vec<usize> {
    let mut places = secret_places(message);
    places.retain(|&at| at >= FIXED);
    places
}

/// The places of the names of a message that is read by this mark, as far as it
/// reaches.
fn name_places(message: &[u8], mark: u32) -> Vec<usize> {
    let names: Vec<(usize, usize)> = match mark {
        Entry::AUTHENTICATE if message.len() >= FIXED => {
            let names = NAMES.iter();
            names.filter_map(|&head| counted(message, head)).collect()
        }
        Entry::NEGOTIATE if message.len() >= OPENING_FIXED => {
            let flags = number(message, 12, 4);
            let counting = OPENING_NAMES.iter();
            let counting = counting.filter(|(_, flag)| flags & *flag as usize != 0);
            let names = counting.filter_map(|&(head, _)| counted(message, head));
            names.collect()
        }
        _ => Vec::new(),
    };
    let end = message.len();
    let places = names.into_iter();
    let places = places.flat_map(|(offset, len)| offset.min(end)..(offset + len).min(end));
    places.collect()
}

/// The places that two nights' buffers may differ in: "only inside the secrets that
/// count, or a MIC that is there, of listed AUTHENTICATE messages, and in no byte
/// that any listed message has as a name, in its first 64 bytes or in a challenge".
pub fn changeable_in_night(buffer: &[u8], places: &[Place]) -> Vec<usize> {
    let mut secret = vec![false; buffer.len()];
    let mut kept = vec![false; buffer.len()];
    for place in places {
        let Some(message) = place.message(buffer) else {
            continue;
        };
        let start = buffer.len().min(place.start as usize);
        if place.mark == Entry::AUTHENTICATE {
            for at in secret_places(message) {
                secret[start + at] = true;
            }
        }
        for at in name_places(message, place.mark) {
            kept[start + at] = true;
        }
        let first = if place.mark == Entry::CHALLENGE {
            message.len()
        } else {
            message.len().min(FIXED)
        };
        kept[start..start + first].fill(true);
    }
    (0..buffer.len())
        .filter(|&at| secret[at] && !kept[at])
        .collect()
}

#[cfg(test)]
mod tests {
    use super::{changeable_in_night, changeable_places, secret_places, Place};

    fn message(len: usize, heads: &[(usize, u16, u32)], flags: u32) -> Vec<u8> {
        let mut message = vec![0; len];
        for &(head, len, offset) in heads {
            message[head..head + 2].copy_from_slice(&len.to_le_bytes());
            message[head + 4..head + 8].copy_from_slice(&offset.to_le_bytes());
        }
        message[60..64].copy_from_slice(&flags.to_le_bytes());
        message
    }

    #[test]
    fn secrets_go_by_their_heads() {
        let lm = message(100, &[(12, 3, 90), (28, 2, 96)], 0);
        let mic: Vec<usize> = (72..88).collect();
        assert_eq!(secret_places(&lm), [vec![90, 91, 92], mic.clone()].concat());
        // Cut off by the message's end; a name below 88 leaves no MIC.
        let cut = message(100, &[(20, 9, 97), (36, 2, 86)], 0);
        assert_eq!(secret_places(&cut), [97, 98, 99]);
        // The key counts with KEY_EXCH alone, and far offsets have no bytes.
        let key = [(52, 2, 70), (12, 5, 0xFFFF_FFFF)];
        assert_eq!(secret_places(&message(80, &key, 0x4000_0000)), [70, 71]);
        let far: Vec<usize> = (72..80).collect();
        assert_eq!(secret_places(&message(80, &key, 0)), far);
    }

    #[test]
    fn the_first_64_bytes_stay() {
        let low = message(70, &[(12, 8, 60)], 0);
        assert_eq!(secret_places(&low), [60, 61, 62, 63, 64, 65, 66, 67]);
        assert_eq!(changeable_places(&low), [64, 65, 66, 67]);
        assert!(secret_places(&low[..63]).is_empty());
    }

    #[test]
    fn a_night_keeps_what_any_listed_message_has_in_the_open() {
        // LM response at 90 to 92, a name at 93 and 94; no MIC with a name there.
        let lm = message(100, &[(12, 3, 90), (28, 2, 93), (20, 2, 70)], 0);
        let buffer = [lm.clone(), vec![0; 100]].concat();
        let whole = Place::new(0, 100, 3);
        let of = |others: &[Place]| {
            let places = [&[whole], others].concat();
            changeable_in_night(&buffer, &places)
        };
        assert_eq!(of(&[]), [70, 71, 90, 91, 92]);
        assert_eq!(of(&[whole]), [70, 71, 90, 91, 92]);
        // The first 64 bytes of another message, all of a challenge; nothing of one
        // that passes the buffer's end.
        assert_eq!(of(&[Place::new(91, 70, 3)]), [70, 71, 90]);
        assert_eq!(of(&[Place::new(91, 70, 9)]), [70, 71, 90]);
        assert_eq!(of(&[Place::new(71, 1, 2)]), [70, 90, 91, 92]);
        assert_eq!(of(&[Place::new(0, 91, 2)]), [91, 92]);
        assert_eq!(of(&[Place::new(71, 130, 2)]), [70, 71, 90, 91, 92]);
        // By a mark that is no AUTHENTICATE's nothing is secret.
        assert!(changeable_in_night(&buffer, &[Place::new(0, 100, 1)]).is_empty());
    }

    #[test]
    fn a_name_of_any_listed_message_is_kept() {
        let secret = message(100, &[(12, 20, 80)], 0);
        // A message in the same buffer whose name lies over the secret.
        let named = message(164, &[(36, 2, 150)], 0);
        let mut opening = vec![0; 160];
        opening[12..16].copy_from_slice(&0x1000_u32.to_le_bytes());
        opening[16..18].copy_from_slice(&3_u16.to_le_bytes());
        opening[20..24].copy_from_slice(&155_u32.to_le_bytes());
        for (before, mark, kept) in [(named, 3, 86..88), (opening, 1, 91..94)] {
            // The other message begins 64 bytes before the one with the secret.
            let mut buffer = before;
            let start = 64;
            buffer.resize(start, 0);
            buffer.extend(&secret);
            let places = [Place::new(start, 100, 3), Place::new(0, buffer.len(), mark)];
            let found = changeable_in_night(&buffer, &places);
            let expected: Vec<usize> = (80..100).filter(|at| !kept.contains(at)).collect();
            let found: Vec<usize> = found.iter().map(|at| at - start).collect();
            assert_eq!(found, expected);
        }
    }
}
