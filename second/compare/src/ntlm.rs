//! What the kinds of NTLM message share: how their parts stand in a message,
//! and the messages at the boundaries that every kind has.

use std::array;
use std::ops::Range;

use crate::names::{name_of_width, Set, EDGES, UNIT_EDGES};
use crate::random::Random;
use crate::wire::{
    cut_or_changed, offsets, set_type, Head, FIELD_LENGTHS, FLAG_SETS, LONG_LINES, OEM, SIGNATURE,
    UNICODE,
};

/// Adds the messages of one boundary.
pub type Step = fn(&mut Random, &mut Vec<Vec<u8>>);

/// What tells a kind of message, of `N` fields, from the other kinds.
pub struct Kind<const N: usize> {
    /// The type at 8.
    pub number: u32,
    pub flags_at: usize,
    /// Where the heads stand, in field order.
    pub heads_at: [usize; N],
    /// What the fixed part has beside signature, type, heads and flags.
    pub others_at: Range<usize>,
    /// The length of the fixed part.
    pub fixed: usize,
    /// The bits with which every field counts.
    pub counting: u32,
    /// A message as boxes send it, with these flags.
    pub usual: fn(&mut Random, u32) -> Message<N>,

    /// The flags of the messages that are cut off, or changed byte by byte.
    pub cut_flags: [u32; 2],
    /// Where the changes byte by byte end.
    pub changed: usize,
    /// The flags of the messages of another type.
    pub type_flags: u32,
    /// Other types that are as small as its own.
    pub other_types: &'static [u32],
    /// What is added to each of [`FLAG_SETS`].
    pub added_flags: &'static [u32],
    /// A field, and an offset that is refused only where the field counts. The
    /// first is for messages with bit 0, 4, 8 and so on of the flags turned, the
    /// second for bit 1, 5, 9.
    pub misplaced: [Option<(usize, u32)>; 4],
    /// The messages in which a field of a usual one has this head.
    pub with_head: fn(&mut Random, &Message<N>, usize, Head) -> Vec<Message<N>>,
    /// The boundaries that this kind alone has.
    pub own: &'static [Step],
}

/// The parts of a message. Nothing ties one to another.
#[derive(Clone)]
pub struct Message<const N: usize> {
    kind: &'static Kind<N>,
    pub flags: u32,
    pub heads: [Head; N],
    /// What stands at [`Kind::others_at`].
    others: Vec<u8>,
    /// Everything after the fixed part.
    pub rest: Vec<u8>,
}

impl<const N: usize> Message<N> {
    pub fn bytes(&self) -> Vec<u8> {
        let mut message = vec![0; self.kind.fixed];
        let mut put = |at: usize, part: &[u8]| message[at..at + part.len()].copy_from_slice(part);
        put(0, &SIGNATURE);
        put(8, &self.kind.number.to_le_bytes());
        put(self.kind.flags_at, &self.flags.to_le_bytes());
        for (at, head) in self.kind.heads_at.into_iter().zip(self.heads) {
            put(at, &head.bytes());
        }
        put(self.kind.others_at.start, &self.others);
        message.extend(&self.rest);
        message
    }

    pub const fn len(&self) -> usize {
        self.kind.fixed + self.rest.len()
    }

    /// Takes every field out; its bytes stay.
    pub fn clear_heads(&mut self) {
        self.heads = [Head::default(); N];
    }

    /// Gives some heads any MaxLen, mostly none.
    pub fn stir_max_lens(&mut self, random: &mut Random) {
        if !random.one_in(3) {
            return;
        }
        for head in &mut self.heads {
            if random.one_in(2) {
                let any = u16::from_le_bytes(random.array());
                head.max_len = random.pick(&[0, 5, head.len ^ 0x100, any]);
            }
        }
    }

    /// Makes check 6 fail at a field.
    pub fn pass_end(&mut self, random: &mut Random, field: usize) {
        let total = u32::try_from(self.len()).expect("a length");
        let head = &mut self.heads[field];
        head.offset = total - u32::from(head.len) + random.pick(&[1, 2, 8, 4_000_000_000]);
    }
}

impl<const N: usize> Kind<N> {
    /// No field at all, in a message of `len` bytes.
    pub fn empty(&'static self, random: &mut Random, flags: u32, len: usize) -> Message<N> {
        Message {
            kind: self,
            flags,
            heads: [Head::default(); N],
            others: random.bytes(self.others_at.len()),
            rest: random.bytes(len - self.fixed),
        }
    }

    /// The fields' contents one after the other from `start` on, in field order.
    pub fn of(
        &'static self,
        random: &mut Random,
        flags: u32,
        start: usize,
        contents: [&[u8]; N],
    ) -> Message<N> {
        self.ordered(
            random,
            flags,
            start,
            contents,
            array::from_fn(|field| field),
        )
    }

    /// The fields' contents one after the other from `start` on, in `order`.
    pub fn ordered(
        &'static self,
        random: &mut Random,
        flags: u32,
        start: usize,
        contents: [&[u8]; N],
        order: [usize; N],
    ) -> Message<N> {
        let mut message = self.empty(random, flags, start);
        for field in order {
            message.heads[field] = Head::new(contents[field].len(), message.len());
            message.rest.extend(contents[field]);
        }
        message
    }

    /// Messages at every boundary.
    pub fn boundaries(&self, random: &mut Random) -> Vec<Vec<u8>> {
        let mut messages = Vec::new();
        self.cuts_and_changes(random, &mut messages);
        self.types(random, &mut messages);
        self.flag_bits(random, &mut messages);
        self.heads(random, &mut messages);
        for step in self.own {
            step(random, &mut messages);
        }
        messages
    }

    fn cuts_and_changes(&self, random: &mut Random, messages: &mut Vec<Vec<u8>>) {
        for flags in self.cut_flags {
            let message = (self.usual)(random, flags).bytes();
            messages.extend(cut_or_changed(random, &message, self.changed));
        }
    }

    /// Types beside its own: small ones, some that have its number for a byte,
    /// and the largest.
    fn types(&self, random: &mut Random, messages: &mut Vec<Vec<u8>>) {
        let own = self.number;
        let large = [own | 0x100, own << 16, own << 24, u32::MAX];
        for &number in self.other_types.iter().chain(&large) {
            let mut message = (self.usual)(random, self.type_flags).bytes();
            // Longer than the fixed part of any kind.
            message.resize(message.len().max(100), 0);
            set_type(&mut message, number);
            messages.push(message);
        }
    }

    /// Each bit turned in each set of flags, with fields that would be refused
    /// if they counted in every other one.
    fn flag_bits(&self, random: &mut Random, messages: &mut Vec<Vec<u8>>) {
        let sets = FLAG_SETS
            .iter()
            .flat_map(|set| self.added_flags.iter().map(move |added| set | added));
        for flags in sets {
            messages.push((self.usual)(random, flags).bytes());
            for bit in 0..u32::BITS {
                let mut message = (self.usual)(random, flags ^ 1 << bit);
                if let Some((field, offset)) = self.misplaced[bit as usize % 4] {
                    message.heads[field].offset = offset;
                }
                messages.push(message.bytes());
            }
        }
    }

    /// Each field at every boundary, alone or among the others.
    fn heads(&self, random: &mut Random, messages: &mut Vec<Vec<u8>>) {
        let lengths = (0..N).flat_map(|field| FIELD_LENGTHS.map(|len| (field, len)));
        for (field, len) in lengths {
            let flags = random.pick(&[UNICODE, OEM, UNICODE | OEM]) | self.counting;
            let usual = (self.usual)(random, flags);
            for offset in offsets(len, usual.len()) {
                let head = Head {
                    len,
                    max_len: len,
                    offset,
                };
                let with_head = (self.with_head)(random, &usual, field, head);
                messages.extend(with_head.iter().map(Message::bytes));
            }
        }
    }

    /// A MaxLen unlike the length in every set of fields, then in each field alone
    /// at every boundary, also where the field is empty and where it doesn't count.
    pub fn max_lens(&self, random: &mut Random, messages: &mut Vec<Vec<u8>>) {
        for set in 0..1_usize << N {
            let mut message = (self.usual)(random, UNICODE | self.counting);
            for (field, head) in message.heads.iter_mut().enumerate() {
                if set >> field & 1 == 1 {
                    head.max_len = !head.len;
                }
            }
            messages.push(message.bytes());
        }
        let each = (0..N).flat_map(|field| [true, false].map(|empty| (field, empty)));
        for (field, empty) in each {
            for counting in [self.counting, 0] {
                let mut message = (self.usual)(random, UNICODE | counting);
                if empty {
                    message.heads[field].len = 0;
                }
                for max_len in max_lens(message.heads[field].len) {
                    message.heads[field].max_len = max_len;
                    messages.push(message.bytes());
                }
            }
        }
    }

    /// The names over the same bytes from `start` on, each of these lengths,
    /// plain or escaped throughout.
    pub fn names_over_each_other(
        &'static self,
        random: &mut Random,
        messages: &mut Vec<Vec<u8>>,
        counting: u32,
        start: usize,
        names: &[usize],
        lengths: &[usize],
    ) {
        for (set, unit) in [(OEM, 0xFF), (UNICODE, 0xFF), (OEM, b'x'), (UNICODE, b'x')] {
            for &len in lengths {
                let mut message = self.empty(random, set | counting, start);
                message.rest.resize(start - self.fixed + len, unit);
                for &name in names {
                    message.heads[name] = Head::new(len, start);
                }
                messages.push(message.bytes());
            }
        }
    }
}

/// A field's own length, one byte of it unlike, one less and one more, and others.
fn max_lens(len: u16) -> [u16; 9] {
    [
        len,
        len ^ 1,
        len ^ 0x100,
        len ^ 0x8000,
        len.wrapping_sub(1),
        len.wrapping_add(1),
        0,
        5,
        0xFFFF,
    ]
}

/// Every byte, as a name.
pub fn all_bytes() -> Vec<u8> {
    (0..=u8::MAX).collect()
}

/// Every low byte with a high byte of 0 and of 1, as a name.
pub fn low_units() -> Vec<u8> {
    (0..0x200_u16).flat_map(u16::to_le_bytes).collect()
}

/// A name of one unit for each unit at an edge, with the bit of its set.
pub fn unit_names() -> impl Iterator<Item = (u32, Vec<u8>)> {
    let bytes = EDGES.map(|byte| (OEM, vec![byte]));
    let units = UNIT_EDGES.map(|unit| (UNICODE, unit.to_le_bytes().to_vec()));
    bytes.into_iter().chain(units)
}

/// Gives `put` names that make a line of each of [`LONG_LINES`] beside `words`,
/// with the bit of their set.
pub fn long_names(
    random: &mut Random,
    words: &str,
    mut put: impl FnMut(&mut Random, u32, Vec<u8>),
) {
    for line in LONG_LINES {
        for (flag, set, escapes) in [(OEM, Set::Oem, 5_000), (UNICODE, Set::Unicode, 8_200)] {
            let name = name_of_width(random, set, line - words.len(), escapes);
            put(random, flag, name);
        }
    }
}

#[cfg(test)]
mod tests {
    use std::collections::BTreeSet;

    use reader::{Program, LINE_LIMIT};

    use crate::random::Random;
    use crate::tally::{each_refusal, Refusals};
    use crate::{authenticate, challenge, negotiate};

    /// What the messages of a type get: the first word of a line, and of a
    /// refusal the line up to its place.
    fn answers(messages: &[Vec<u8>], number: u32) -> BTreeSet<String> {
        let line = |line: String| match line.split_once(" at=") {
            Some((refused, _)) if line.starts_with("refused") => refused.to_owned(),
            _ => line[..4].to_owned(),
        };
        lines(messages, number).into_iter().map(line).collect()
    }

    /// The lines of the messages of a type, without their 0A.
    fn lines(messages: &[Vec<u8>], number: u32) -> Vec<String> {
        let mut room = Box::new([0; LINE_LIMIT]);
        let of_type =
            |message: &&Vec<u8>| message.get(8..12) == Some(number.to_le_bytes().as_slice());
        let mut line = |message| {
            let line = Program::Ntlm.line(message, &mut room).trim_ascii_end();
            line.escape_ascii().to_string()
        };
        let messages = messages.iter().filter(of_type);
        messages.map(|message| line(message)).collect()
    }

    /// What a message of any type can be refused by, but for check 4, which the
    /// type decides.
    const OF_EVERY_KIND: [Refusals; 5] = [(1, &[0]), (2, &[0]), (3, &[0]), (5, &[0]), (33, &[0])];

    /// A line that starts with this word, the refusals of every kind, and these.
    fn expected(word: &str, own: &[Refusals]) -> BTreeSet<String> {
        let refused = each_refusal(&OF_EVERY_KIND).chain(each_refusal(own));
        let refused = refused.map(|(number, field)| format!("refused {number} field={field}"));
        refused.chain([word.to_string()]).collect()
    }

    const OF_AUTHENTICATE: [Refusals; 4] = [
        (6, &[1, 2, 3, 4, 5, 6]),
        (7, &[1, 2, 3, 4, 5, 6]),
        (8, &[3, 4, 5]),
        (9, &[3, 4, 5]),
    ];
    const OF_CHALLENGE: [Refusals; 7] = [
        (6, &[1, 2]),
        (7, &[1, 2]),
        (8, &[1]),
        (10, &[2]),
        (11, &[2]),
        (12, &[2]),
        (13, &[2]),
    ];
    const OF_NEGOTIATE: [Refusals; 2] = [(6, &[1, 2]), (7, &[1, 2])];

    #[test]
    fn the_boundaries_of_each_kind_reach_every_answer_of_its_own() {
        for seed in [0, 1, 5] {
            let random = &mut Random::new(seed);
            let messages = authenticate::KIND.boundaries(random);
            assert_eq!(answers(&messages, 3), expected("auth", &OF_AUTHENTICATE));
            let messages = challenge::KIND.boundaries(random);
            assert_eq!(answers(&messages, 2), expected("chal", &OF_CHALLENGE));
            let messages = negotiate::KIND.boundaries(random);
            assert_eq!(answers(&messages, 1), expected("nego", &OF_NEGOTIATE));
        }
    }

    #[test]
    fn faulty_pairs_stand_at_every_kind_of_place() {
        let messages = challenge::KIND.boundaries(&mut Random::new(5));
        let lines = lines(&messages, 2);
        for number in 10..=13 {
            let start = format!("refused {number} field=2 at=");
            let places = lines.iter().filter_map(|line| line.strip_prefix(&start));
            let places: Vec<usize> = places.map(|at| at.parse().expect("a place")).collect();
            let has = |wanted: fn(usize) -> bool| places.iter().any(|&place| wanted(place));
            assert!(has(|place| place % 2 == 1) && has(|place| place % 2 == 0));
            assert!(has(|place| place == 48) || number == 11);
            assert!(has(|place| place == 49) && has(|place| place == 256));
            assert!(has(|place| (257..4_000).contains(&place)));
            assert!(has(|place| place > 65_000));
            assert!(places.iter().all(|place| (48..=65_535).contains(place)));
        }
    }

    #[test]
    fn drawn_messages_are_sound_or_damaged() {
        type Drawn = fn(&mut Random) -> Vec<u8>;
        let kinds: [(Drawn, u32, [&str; 3]); 3] = [
            (
                authenticate::drawn,
                3,
                ["auth", "refused 6 field=4", "refused 9 field=3"],
            ),
            (
                challenge::drawn,
                2,
                ["chal", "refused 6 field=2", "refused 13 field=2"],
            ),
            (
                negotiate::drawn,
                1,
                ["nego", "refused 6 field=1", "refused 7 field=2"],
            ),
        ];
        for (drawn, number, some) in kinds {
            let random = &mut Random::new(1);
            let messages: Vec<_> = (0..2_000).map(|_| drawn(random)).collect();
            let found = answers(&messages, number);
            for answer in some {
                assert!(found.contains(answer), "{answer}");
            }
        }
    }
}
