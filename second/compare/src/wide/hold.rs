//! Makes a call of the library and of the second reader on equal memory, and
//! holds the answers and the whole memory against each other.

use std::mem::take;

use super::call::{place, refusal, Call};
use super::lender::{Before, Lender};
use super::memory::{same, Bits, Sides};
use super::night::{entries, lay_out, MOST_ENTRIES, WORDS};
use super::second::second;
use super::tally::Tally;
use crate::hex::Hex;
use crate::random::Random;

/// The library: a call, the bytes and the numbers that are lent for it.
pub trait Library: Fn(&Call<'_>, &mut [u8], &mut [u64]) -> u64 {}

impl<F: Fn(&Call<'_>, &mut [u8], &mut [u64]) -> u64> Library for F {}

/// More bytes than any call writes: a line of three names over the same bytes,
/// each escaped.
pub const LONGEST: usize = 800_000;

/// More numbers than any call gives, with some to spare. The entries of a night lie
/// in them.
pub const MOST_NUMBERS: usize = (MOST_ENTRIES + 2) * WORDS;

/// What the second reader is lent.
struct Memory {
    bytes: Vec<u8>,
    numbers: [u64; MOST_NUMBERS],
}

impl Memory {
    fn new() -> Self {
        Self {
            bytes: vec![0; LONGEST],
            numbers: [0; MOST_NUMBERS],
        }
    }

    fn fill(&mut self, lent: Lent, (bytes, numbers): (&[u8], &[u64])) {
        self.bytes[..lent.room].copy_from_slice(&bytes[..lent.room]);
        self.numbers[..lent.numbers].copy_from_slice(&numbers[..lent.numbers]);
    }

    fn call(&mut self, call: &Call<'_>, lent: Lent) -> u64 {
        let out = &mut self.bytes[..lent.room];
        second(call, out, &mut self.numbers[..lent.numbers])
    }

    fn lent(&self, lent: Lent) -> (&[u8], &[u64]) {
        (&self.bytes[..lent.room], &self.numbers[..lent.numbers])
    }
}

/// How much is lent for a call's outputs.
#[derive(Clone, Copy, Debug, PartialEq, Eq)]
pub struct Lent {
    /// Bytes.
    pub room: usize,
    /// Numbers.
    pub numbers: usize,
}

/// A call that the two did not answer alike, or that changed what it must keep.
#[derive(Clone, Debug)]
pub struct Difference {
    /// How many bytes the call was given.
    pub size: usize,
    /// The call and both answers in one line, without any bytes.
    pub brief: String,
    /// The call, its inputs in hex, and both answers.
    pub text: String,
}

/// How many differences are kept with their text; all are counted.
const KEPT: usize = 500;

/// Holds calls of the library against the second reader.
pub struct Holder<L> {
    library: L,
    before: Before,
    ours: Lender,
    second: Memory,
    /// Which page what is lent to the library lies against.
    pub sides: Sides,
    pub tally: Tally,
    pub differences: Vec<Difference>,
    /// How many calls differed, also those without a text.
    pub different: usize,
}

impl<L: Library> Holder<L> {
    pub fn new(library: L, random: &mut Random) -> Self {
        Self {
            library,
            before: Before::new(random),
            ours: Lender::new(),
            second: Memory::new(),
            sides: Sides::Drawn(random.clone()),
            tally: Tally::default(),
            differences: Vec::new(),
            different: 0,
        }
    }

    /// Other bytes and numbers in what is lent from now on, and other sides where
    /// they are drawn.
    pub fn stir(&mut self, random: &mut Random) {
        self.before.stir(random);
        if let Sides::Drawn(sides) = &mut self.sides {
            *sides = Random::new(random.bits());
        }
    }

    /// The length of what a call writes with all the room that there is, or
    /// nothing where it refuses.
    pub fn measure(&mut self, call: &Call<'_>) -> Option<usize> {
        let lent = Lent {
            room: LONGEST,
            numbers: MOST_NUMBERS,
        };
        let answer = self.second.call(call, lent);
        refusal(answer)
            .is_none()
            .then(|| usize::try_from(answer).expect("a length"))
    }

    /// Makes the call on both sides and notes every difference.
    pub fn hold(&mut self, call: &Call<'_>, lent: Lent) {
        let (sides, ours) = self.call(call, lent);
        self.second.fill(lent, self.before.lent());
        let second = self.second.call(call, lent);
        self.tally.add(call, second);
        if let (Call::CheckMessages { .. }, None) = (call, refusal(second)) {
            let listed = entries(&self.second.numbers[..lent.numbers]);
            self.tally.add_entries(&listed);
        }
        let (bytes, numbers) = match refusal(ours) {
            Some(_) => (0, 0),
            None => (call.written(ours), call.numbers()),
        };
        let what = if let Some(strayed) = self.strayed(call, lent, sides) {
            strayed
        } else if !self.kept(lent, sides, bytes, numbers) {
            "CHANGED MORE THAN IT WRITES"
        } else if ours != second || !alike(self.ours.lent(lent, sides), self.second.lent(lent)) {
            "DIFFERENT"
        } else {
            return;
        };
        self.differ(call, lent, sides, what, [ours, second]);
    }

    /// Makes a call of the library.
    fn call(&mut self, call: &Call<'_>, lent: Lent) -> (Bits, u64) {
        // What a night's entries are given stands in the memory that is lent.
        if let Call::CheckMessages { places, .. } = call {
            lay_out(places, &mut self.before.numbers);
        }
        let sides = self.sides.next();
        let Self { ours, before, .. } = self;
        let answer = ours.call(&self.library, call, lent, sides, before);
        (sides, answer)
    }

    /// What the library changed that is none of its output.
    fn strayed(&self, call: &Call<'_>, lent: Lent, sides: Bits) -> Option<&'static str> {
        if !self.ours.kept_guards(lent, sides, &self.before) {
            Some("WROTE BESIDE ITS OUTPUT")
        } else if !self.ours.kept_inputs(call, sides, &self.before) {
            Some("INPUT CHANGED")
        } else {
            None
        }
    }

    /// Whether the library changed no more than so many bytes and numbers.
    fn kept(&self, lent: Lent, sides: Bits, bytes: usize, numbers: usize) -> bool {
        let (before, before_numbers) = self.before.lent();
        let (after, after_numbers) = self.ours.lent(lent, sides);
        let (bytes, numbers) = (bytes.min(lent.room), numbers.min(lent.numbers));
        same(&after[bytes..], &before[bytes..lent.room])
            && same(
                &after_numbers[numbers..],
                &before_numbers[numbers..lent.numbers],
            )
    }

    fn differ(
        &mut self,
        call: &Call<'_>,
        lent: Lent,
        sides: Bits,
        what: &str,
        [ours, second]: [u64; 2],
    ) {
        let text = || {
            format!(
                "{what}: {call}\n    lent: {} bytes, {} numbers\n    proved: {}\n    second: {}",
                lent.room,
                lent.numbers,
                shown(call, ours, self.ours.lent(lent, sides)),
                shown(call, second, self.second.lent(lent)),
            )
        };
        let text = (self.different < KEPT).then(text);
        let [ours, second] = [ours, second].map(in_words);
        let brief = format!("{what}: {}: proved {ours}, second {second}", call.name());
        self.note(call.size(), brief, text);
    }

    /// What was found since the last time: how the second reader answered, the
    /// differences that have a text, and how many there are.
    pub fn take(&mut self) -> (Tally, Vec<Difference>, usize) {
        (
            take(&mut self.tally),
            take(&mut self.differences),
            take(&mut self.different),
        )
    }

    /// Counts a difference, and keeps its text.
    fn note(&mut self, size: usize, brief: String, text: Option<String>) {
        self.different += 1;
        let difference = text.map(|text| Difference { size, brief, text });
        self.differences.extend(difference);
    }

    /// Notes what the library changed beside its output, without the second reader.
    fn note_strayed(&mut self, call: &Call<'_>, lent: Lent, sides: Bits) {
        if let Some(strayed) = self.strayed(call, lent, sides) {
            let text = (self.different < KEPT).then(|| format!("{strayed}: {call}"));
            let brief = format!("{strayed}: {}", call.name());
            self.note(call.size(), brief, text);
        }
    }

    /// Makes two calls of the library that only secrets tell apart. The answers
    /// and all numbers must be the same, and so must all bytes but those that
    /// `hidden` gives of what the first one wrote.
    pub fn hold_alike(
        &mut self,
        one: &Call<'_>,
        two: &Call<'_>,
        lent: Lent,
        hidden: impl Fn(&[u8]) -> Vec<usize>,
    ) {
        let (sides, first) = self.call(one, lent);
        self.second.fill(lent, self.ours.lent(lent, sides));
        self.note_strayed(one, lent, sides);
        let (sides, other) = self.call(two, lent);
        self.note_strayed(two, lent, sides);
        self.tally.add_alike(one);
        let written = match refusal(first) {
            Some(_) => 0,
            None => one.written(first).min(lent.room),
        };
        let (bytes, numbers) = self.ours.lent(lent, sides);
        for at in hidden(&self.second.bytes[..written]) {
            self.second.bytes[at] = bytes[at];
        }
        if !one.alike(first, other) || !alike((bytes, numbers), self.second.lent(lent)) {
            let text = format!(
                "SECRETS TELL: {one}\n    and: {two}\n    lent: {} bytes, {} numbers\n    \
                 first: {}\n    other: {}",
                lent.room,
                lent.numbers,
                shown(one, first, self.second.lent(lent)),
                shown(two, other, (bytes, numbers)),
            );
            let brief = format!("SECRETS TELL: {}", one.name());
            self.note(one.size(), brief, (self.different < KEPT).then_some(text));
        }
    }
}

/// Whether the lent memory of two calls is the same.
fn alike(one: (&[u8], &[u64]), two: (&[u8], &[u64])) -> bool {
    same(one.0, two.0) && same(one.1, two.1)
}

fn in_words(answer: u64) -> String {
    match refusal(answer) {
        Some((number, field)) => format!("refused {number} field={field} at={}", place(answer)),
        None => format!("{answer}"),
    }
}

/// An answer and the lent memory after it.
fn shown(call: &Call<'_>, answer: u64, (bytes, numbers): (&[u8], &[u64])) -> String {
    let answer = in_words(answer);
    let numbers = &numbers[..numbers.len().min(call.numbers() + 1)];
    format!("{answer}, numbers {numbers:X?}, bytes {}", Hex(bytes))
}
