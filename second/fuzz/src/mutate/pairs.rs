//! Changes of a pair list.

use super::Draw;

/// The most pairs that a change adds at once.
const MANY: [usize; 7] = [1, 1, 1, 1, 2, 8, 40];

/// The longest list that a change makes longer.
const LONGEST: usize = 1500;

/// A pair: its id and its value.
#[derive(Clone, Debug, PartialEq, Eq)]
struct Pair {
    id: u16,
    value: Vec<u8>,
}

/// The pairs of a list before its end pair, and what is left with it.
fn taken_apart(list: &[u8]) -> (Vec<Pair>, Vec<u8>) {
    let (mut pairs, mut rest) = (Vec::new(), list);
    while let &[a, b, c, d, ref after @ ..] = rest {
        let len = usize::from(u16::from_le_bytes([c, d]));
        let id = u16::from_le_bytes([a, b]);
        let Some(value) = after.get(..len).filter(|_| id != 0) else {
            break;
        };
        let value = value.to_vec();
        pairs.push(Pair { id, value });
        rest = &after[len..];
    }
    (pairs, rest.to_vec())
}

fn put_together(pairs: &[Pair], rest: &[u8]) -> Vec<u8> {
    let mut list = Vec::new();
    for Pair { id, value } in pairs {
        list.extend(id.to_le_bytes());
        list.extend((value.len() as u16).to_le_bytes());
        list.extend(value);
    }
    list.extend(rest);
    list
}

/// An id of those that are known, the end's, and some that aren't.
fn drawn_id(draw: &mut Draw) -> u16 {
    match draw.below(16) {
        0 => draw.number(0x1_0000) as u16,
        _ => draw.below(13) as u16,
    }
}

/// A value of the size that its id must have, or of a drawn length up to 64.
fn drawn_value(draw: &mut Draw, id: u16) -> Vec<u8> {
    let own = match id {
        6 => 4,
        7 => 8,
        8 => 48,
        10 => 16,
        _ => 2 * draw.below(12),
    };
    let len = match draw.below(3) {
        0 => own,
        _ => draw.number(65),
    };
    match draw.below(3) {
        0 => vec![draw.byte(); len],
        _ => draw.bytes(len),
    }
}

fn drawn(draw: &mut Draw) -> Pair {
    let id = drawn_id(draw);
    let value = drawn_value(draw, id);
    Pair { id, value }
}

pub fn change(draw: &mut Draw, list: &mut Vec<u8>) {
    let (mut pairs, mut rest) = taken_apart(list);
    let at = draw.below(pairs.len() + 1);
    match (draw.below(12), pairs.get_mut(at)) {
        (0..=2, _) => {
            let many = if list.len() < LONGEST {
                draw.pick(&MANY)
            } else {
                1
            };
            let pair = drawn(draw);
            pairs.splice(at..at, vec![pair; many]);
        }
        (3, Some(_)) => {
            pairs.remove(at);
        }
        (4, Some(pair)) => pair.id = drawn_id(draw),
        (5 | 6, Some(pair)) => pair.value.resize(draw.number(65), 0),
        (7, Some(pair)) => pair.value = drawn_value(draw, pair.id),
        (8, Some(_)) => {
            let other = draw.below(pairs.len());
            pairs.swap(at, other);
        }
        (9, _) => rest = draw.pick(&ENDS).to_vec(),
        (10, _) => rest.extend(draw.array::<1>()),
        _ => {
            // A length that is one off.
            let wrong: usize = pairs[..at].iter().map(|pair| 4 + pair.value.len()).sum();
            *list = put_together(&pairs, &rest);
            if let Some(byte) = list.get_mut(wrong + 2) {
                *byte = byte.wrapping_add(draw.pick(&[1, 0xFF, 2]));
            }
            return;
        }
    }
    *list = put_together(&pairs, &rest);
}

/// What may stand after the last pair: an end pair, none, one that is cut or has a
/// length, bytes after it.
const ENDS: [&[u8]; 8] = [
    &[0, 0, 0, 0],
    &[0, 0, 0, 0],
    &[],
    &[0, 0, 0],
    &[0],
    &[0, 0, 1, 0],
    &[0, 0, 0, 0, 0],
    &[1, 0, 4, 0],
];

#[cfg(test)]
mod tests {

    use super::super::tests::drawing;
    use super::{change, put_together, taken_apart};

    #[test]
    fn a_list_comes_together_again() {
        let draw = &mut drawing(9);
        let mut list = vec![1, 0, 2, 0, b'A', 0, 7, 0, 1, 0, 5, 0, 0, 0, 0];
        assert_eq!(taken_apart(&list).0.len(), 2);
        for _ in 0..2000 {
            let (pairs, rest) = taken_apart(&list);
            assert_eq!(put_together(&pairs, &rest), list);
            change(draw, &mut list);
            list.truncate(400);
        }
    }

    /// Every id up to 12 comes with every length up to 64.
    #[test]
    fn ids_and_lengths_are_drawn() {
        let draw = &mut drawing(5);
        let mut seen = [[false; 65]; 13];
        for _ in 0..200_000 {
            let mut list = vec![0, 0, 0, 0];
            change(draw, &mut list);
            for pair in taken_apart(&list).0 {
                if let Some(seen) = seen.get_mut(usize::from(pair.id)) {
                    seen[pair.value.len()] = true;
                }
            }
        }
        assert!(seen[1..].iter().flatten().all(|seen| *seen));
    }
}
