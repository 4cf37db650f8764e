//! Pair lists, sound and faulty.

use crate::random::Random;

const END: u16 = 0;
pub const TIMESTAMP: u16 = 7;
/// The named ids, the one after them, and some that have named ones for a byte.
pub const IDS: [u16; 16] = [
    1, 2, 3, 4, 5, 6, 7, 8, 9, 10, 11, 0x0100, 0x0700, 0x0701, 0x7FFF, 0xFFFF,
];
/// Ids with a size of their own, and sizes that they forbid.
const WRONG_SIZES: [(u16, &[usize]); 9] = [
    (1, &[1, 3, 255]),
    (2, &[1, 3]),
    (3, &[1, 5]),
    (4, &[1, 7]),
    (5, &[1, 9]),
    (9, &[1, 11]),
    (6, &[0, 2, 3, 5, 8]),
    (TIMESTAMP, &[0, 4, 7, 9, 16]),
    (10, &[0, 8, 15, 17]),
];

/// The one size that an id allows.
const fn only_size(id: u16) -> Option<usize> {
    match id {
        6 => Some(4),
        TIMESTAMP => Some(8),
        10 => Some(16),
        _ => None,
    }
}

/// Whether an id is that of a name, which has an even size.
const fn is_name(id: u16) -> bool {
    matches!(id, 1..=5 | 9)
}

/// What can be wrong where a pair should start.
#[derive(Clone, Copy, Debug)]
pub enum Fault {
    /// The list ends after so many bytes of the pair: 11.
    Cut(usize),
    /// An end pair with this length and so many bytes of value: 12.
    EndLength(usize, usize),
    /// So many bytes after the end pair: 12.
    AfterEnd(usize),
    /// A value that has so many bytes more than the list: 10.
    PastEnd(u16, usize),
    /// A pair of this id and size: 13.
    Size(u16, usize),
    /// A size that its id forbids, and past the end: 10 comes before 13.
    SizePastEnd(u16, usize),
}

/// Every fault, at each of its boundaries.
pub fn faults() -> Vec<Fault> {
    let mut faults: Vec<Fault> = (0..4).map(Fault::Cut).collect();
    for (len, value) in [(1, 0), (1, 1), (4, 4), (4, 3), (0xFFFF, 0), (0x100, 2)] {
        faults.push(Fault::EndLength(len, value));
    }
    faults.extend([1, 2, 3, 4, 5, 12].map(Fault::AfterEnd));
    for id in IDS {
        faults.extend([1, 2, 40].map(|more| Fault::PastEnd(id, more)));
    }
    for (id, sizes) in WRONG_SIZES {
        faults.extend(sizes.iter().map(|&size| Fault::Size(id, size)));
        faults.push(Fault::SizePastEnd(id, sizes[0].max(1)));
    }
    faults
}

/// A list that is put together pair by pair.
#[derive(Clone, Debug, Default)]
pub struct List(Vec<u8>);

impl List {
    /// Pairs of these ids, without an end pair.
    pub fn sound(random: &mut Random, ids: &[u16]) -> Self {
        let mut list = Self::default();
        for &id in ids {
            list.put_sound(random, id);
        }
        list
    }

    /// The bytes, with an end pair.
    pub fn ended(mut self) -> Vec<u8> {
        self.put(END, &[]);
        self.0
    }

    /// The bytes so far.
    pub fn bytes(self) -> Vec<u8> {
        self.0
    }

    /// A pair with the length that it is given, whatever the value's is.
    fn put_with_len(&mut self, id: u16, len: usize, value: &[u8]) {
        let len = u16::try_from(len).expect("a pair's length");
        self.0.extend(id.to_le_bytes());
        self.0.extend(len.to_le_bytes());
        self.0.extend(value);
    }

    /// A pair.
    pub fn put(&mut self, id: u16, value: &[u8]) {
        self.put_with_len(id, value.len(), value);
    }

    /// A pair of a size that its id allows.
    pub fn put_sound(&mut self, random: &mut Random, id: u16) {
        let len = match only_size(id) {
            Some(len) => len,
            None if is_name(id) => 2 * random.below(8),
            None => random.below(12),
        };
        self.put(id, &random.bytes(len));
    }

    /// A fault, and after it what a reader must not come to where the fault
    /// leaves room for more.
    pub fn put_fault(&mut self, random: &mut Random, fault: Fault) {
        match fault {
            Fault::Cut(len) => {
                let start = [random.pick(&[1, 7, 8]), 0, 0, 0];
                self.0.extend(&start[..len]);
            }
            Fault::EndLength(len, value) => {
                self.put_with_len(END, len, &random.bytes(value));
            }
            Fault::AfterEnd(len) => {
                self.put(END, &[]);
                // Zero bytes would be one more end pair.
                let zeros = random.one_in(2);
                let more = if zeros {
                    vec![0; len]
                } else {
                    random.bytes(len)
                };
                self.0.extend(more);
            }
            Fault::PastEnd(id, more) => self.put_past_end(random, id, more),
            Fault::Size(id, len) => {
                self.put(id, &random.bytes(len));
                if random.one_in(2) {
                    self.put_sound(random, TIMESTAMP);
                    self.put(END, &[]);
                }
            }
            Fault::SizePastEnd(id, len) => {
                self.put_with_len(id, len, &random.bytes(len - 1));
            }
        }
    }

    /// A pair of a size that its id allows, with fewer bytes of value.
    fn put_past_end(&mut self, random: &mut Random, id: u16, more: usize) {
        let (value_len, len) = if let Some(len) = only_size(id) {
            (3, len)
        } else {
            let value_len = 2 * random.below(4);
            let odd = if is_name(id) { more % 2 } else { 0 };
            (value_len, value_len + more + odd)
        };
        self.put_with_len(id, len, &random.bytes(value_len));
    }
}

/// A list of any pairs, sound or faulty.
pub fn drawn_list(random: &mut Random) -> Vec<u8> {
    let ids: Vec<u16> = (0..random.below(7)).map(|_| random.pick(&IDS)).collect();
    let mut list = List::sound(random, &ids);
    if random.one_in(3) {
        let fault = random.pick(&faults());
        list.put_fault(random, fault);
        list.bytes()
    } else {
        list.ended()
    }
}

/// Lists of any length: check 1 is for messages.
pub fn long_list(random: &mut Random) -> Vec<u8> {
    let mut list = List::default();
    if random.one_in(2) {
        for _ in 0..random.pick(&[2, 3]) {
            let len = random.pick(&[0xFFFE, 0xFFFF, 0x8000]);
            list.put(random.pick(&[8, 11, 1]), &vec![5; len]);
        }
    } else {
        for _ in 0..random.pick(&[5_000, 16_383, 20_000]) {
            list.put(random.pick(&[1, 2, 8, 9]), &[]);
        }
    }
    list.put_sound(random, TIMESTAMP);
    if random.one_in(4) {
        list.bytes()
    } else {
        list.ended()
    }
}
