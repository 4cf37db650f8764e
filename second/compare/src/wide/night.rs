//! A night's entries, as they lie in the numbers that are lent: four for each, the
//! mark with the answer's number and its field with its place in one of 64 bits,
//! the first of the two in the lower half. So lies the header's structure on a
//! little-endian machine.

use reader::Entry;

use crate::random::Random;
use crate::wire::{LONG, MAX_MESSAGE};
use crate::{authenticate, challenge, negotiate};

/// Numbers of 64 bits that an entry takes.
pub const WORDS: usize = 4;

/// The most entries of a list.
pub const MOST_ENTRIES: usize = 15;

/// The three marks.
pub const MARKS: [u32; 3] = [Entry::NEGOTIATE, Entry::CHALLENGE, Entry::AUTHENTICATE];

/// Marks that are none of the three.
const OTHER_MARKS: [u32; 6] = [0, 4, 0x101, 0x1_0002, 0x8000_0003, u32::MAX];

/// What an entry is given: where its message stands, and its mark.
#[derive(Clone, Copy, Debug, PartialEq, Eq)]
pub struct Place {
    pub start: u64,
    pub length: u64,
    pub mark: u32,
}

impl Place {
    pub const fn new(start: usize, length: usize, mark: u32) -> Self {
        Self {
            start: start as u64,
            length: length as u64,
            mark,
        }
    }

    /// Its message, where it doesn't pass the buffer's end.
    pub fn message<'a>(&self, buffer: &'a [u8]) -> Option<&'a [u8]> {
        let start = usize::try_from(self.start).ok()?;
        let length = usize::try_from(self.length).ok()?;
        buffer.get(start..start.checked_add(length)?)
    }
}

/// Lays the places out. The rooms for their answers stay as they are.
pub fn lay_out(places: &[Place], numbers: &mut [u64]) {
    for (words, place) in numbers.chunks_exact_mut(WORDS).zip(places) {
        words[0] = place.start;
        words[1] = place.length;
        words[2] = words[2] >> 32 << 32 | u64::from(place.mark);
    }
}

/// The entries that lie in the numbers.
pub fn entries(numbers: &[u64]) -> Vec<Entry> {
    let low = |word: u64| (word & 0xFFFF_FFFF) as u32;
    let high = |word: u64| (word >> 32) as u32;
    let entry = |words: &[u64]| Entry {
        start: words[0],
        length: words[1],
        mark: low(words[2]),
        number: high(words[2]),
        field: low(words[3]),
        place: high(words[3]),
    };
    numbers.chunks_exact(WORDS).map(entry).collect()
}

/// Puts entries where they lay.
pub fn put_entries(entries: &[Entry], numbers: &mut [u64]) {
    let both = |low: u32, high: u32| u64::from(high) << 32 | u64::from(low);
    for (words, entry) in numbers.chunks_exact_mut(WORDS).zip(entries) {
        words[0] = entry.start;
        words[1] = entry.length;
        words[2] = both(entry.mark, entry.number);
        words[3] = both(entry.field, entry.place);
    }
}

/// A buffer of `total` bytes as one message: by every mark and two others, twice by
/// the last; at the buffer's end and past it; where a sum of 64 bits, or start or
/// length in 32, goes round.
pub fn boundaries(random: &mut Random, total: usize) -> Vec<Place> {
    let whole = |mark| Place::new(0, total, mark);
    let mut places: Vec<Place> = MARKS.map(whole).to_vec();
    let any = |random: &mut Random| random.pick(&MARKS);
    let far = |start, length, mark| Place {
        start,
        length,
        mark,
    };
    places.extend([
        whole(0),
        whole(random.pick(&OTHER_MARKS)),
        Place::new(total, 0, any(random)),
        Place::new(total + 1, 0, any(random)),
        Place::new(total + 1, 0, 0),
        Place::new(total, 1, any(random)),
        Place::new(0, total + 1, any(random)),
        far(u64::MAX, total as u64 + 1, any(random)),
        far(total as u64 + 1, u64::MAX, any(random)),
        far(1 << 32, total as u64, any(random)),
        far(0, 1 << 32 | total as u64, any(random)),
        whole(Entry::AUTHENTICATE),
    ]);
    places
}

/// A night: the buffer and its list.
pub struct Night {
    pub buffer: Vec<u8>,
    pub places: Vec<Place>,
}

/// The message behind some bytes and before drawn ones, read by every mark; the
/// drawn ones each by its own; and places drawn over all of it, in any order.
pub fn drawn(random: &mut Random, message: &[u8]) -> Night {
    let mut buffer = vec![random.byte(); random.between(1, 9)];
    let mut places: Vec<Place> = MARKS
        .iter()
        .map(|&mark| Place::new(buffer.len(), message.len(), mark))
        .collect();
    buffer.extend(message);
    for _ in 0..random.below(4) {
        let (other, mark) = match random.below(4) {
            0 => (negotiate::drawn(random), Entry::NEGOTIATE),
            1 => (challenge::drawn(random), Entry::CHALLENGE),
            _ => (authenticate::drawn(random), Entry::AUTHENTICATE),
        };
        // A night that is too long is drawn below.
        if buffer.len() + other.len() <= MAX_MESSAGE || random.one_in(4) {
            places.push(Place::new(buffer.len(), other.len(), mark));
            buffer.extend(other);
        }
    }
    for _ in 0..random.below(6) {
        let place = drawn_place(random, &places, buffer.len());
        places.push(place);
    }
    for last in (1..places.len()).rev() {
        places.swap(last, random.below(last + 1));
    }
    if random.one_in(60) {
        buffer.resize(random.pick(&LONG), random.byte());
    }
    if random.one_in(40) {
        places.truncate(random.below(3));
    }
    Night { buffer, places }
}

/// A place that is there already, by another mark or moved a little, or any.
fn drawn_place(random: &mut Random, places: &[Place], total: usize) -> Place {
    let mut place = random.pick(places);
    match random.below(6) {
        0 => place.mark = random.pick(&MARKS),
        1 => place.mark = random.pick(&OTHER_MARKS),
        2 => place.start = place.start.wrapping_add(random.pick(&[1, 2, u64::MAX])),
        3 => place.length = place.length.wrapping_add(random.pick(&[1, u64::MAX])),
        4 => {
            let start = random.below(total + 1);
            place = Place::new(start, random.below(total - start + 2), place.mark);
        }
        _ => {}
    }
    place
}

#[cfg(test)]
mod tests {
    use super::{boundaries, drawn, entries, lay_out, put_entries, Place, MOST_ENTRIES, WORDS};
    use crate::random::Random;

    #[test]
    fn entries_lie_as_the_header_has_them() {
        let mut numbers = [0x1111_1111_2222_2222; 2 * WORDS];
        let place = Place {
            start: 5,
            length: u64::MAX,
            mark: 3,
        };
        lay_out(&[place], &mut numbers);
        let same = 0x1111_1111_2222_2222;
        assert_eq!(numbers[..4], [5, u64::MAX, 0x1111_1111_0000_0003, same]);
        assert_eq!(numbers[4..], [same; 4]);
        let [mut entry, other] = entries(&numbers)[..] else {
            panic!("two entries");
        };
        assert_eq!((entry.mark, entry.number), (3, 0x1111_1111));
        assert_eq!((entry.field, entry.place), (0x2222_2222, 0x1111_1111));
        entry.number = 13;
        entry.field = 2;
        entry.place = 118;
        put_entries(&[entry, other], &mut numbers);
        assert_eq!(numbers[..4], [5, u64::MAX, 13 << 32 | 3, 118 << 32 | 2]);
        assert_eq!(numbers[4..], [same; 4]);
    }

    #[test]
    fn lists_have_room() {
        let random = &mut Random::new(3);
        let message = vec![7; 100];
        for _ in 0..500 {
            assert!(boundaries(random, message.len()).len() <= MOST_ENTRIES);
            let night = drawn(random, &message);
            assert!(night.places.len() <= MOST_ENTRIES);
        }
    }
}
