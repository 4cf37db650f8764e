//! What each byte of a message is, and whether a page may show it.
//!
//! Of a message that the proved program took, and the second reader too, a byte is shown
//! where a part is known to have it, and no secret, MIC or server challenge has it.
//! Of any other no byte of the payload is shown: where a message is damaged, nobody knows
//! whose bytes they are.

use std::ops::Range;

use reader::{
    Authenticate, AvId, Challenge, Negotiate, NegotiateFlags, NlAuth, Refusal, TargetInfo,
};

use super::shape::{number, FieldShape, Kind, Role, What};
use crate::form;

const SIGNATURE: &[u8; 8] = b"NTLMSSP\0";
const TYPE: Range<usize> = 8..12;

/// The bits of NL_AUTH's flags that have a meaning.
const STRING_BITS: u32 = 0x1F;

/// Where Version and MIC of an AUTHENTICATE stand.
const VERSION_LEN: usize = 8;
const MIC: Range<usize> = 72..88;

/// A stretch of a message, as far as the message reaches.
#[derive(Clone, Debug)]
pub struct Part {
    pub what: What,
    pub range: Range<usize>,
    masked: bool,
}

/// The head of a field, as it stands in the message.
#[derive(Debug)]
pub struct Head {
    pub field: &'static FieldShape,
    pub len: u32,
    pub max_len: u32,
    pub offset: u32,
    /// Whether the field counts.
    pub counts: bool,
}

/// A message, laid out.
pub struct Layout<'a> {
    pub kind: Kind,
    pub message: &'a [u8],
    /// What the second reader refuses it by.
    pub refusal: Option<Refusal>,
    /// Whether both programs took it: only then anything of its payload is shown.
    pub taken: bool,
    pub heads: Vec<Head>,
    /// Those in front lie over those behind.
    pub parts: Vec<Part>,
    bytes: Vec<Byte>,
}

/// What a byte of a message is.
#[derive(Clone, Copy, Debug, PartialEq, Eq)]
pub struct Byte {
    pub what: What,
    /// Whether more than one part has it.
    pub shared: bool,
    /// Whether it may be shown.
    pub shown: bool,
    /// Whether the check that failed is about it.
    pub failed: bool,
}

impl Head {
    fn read(message: &[u8], kind: Kind, field: &'static FieldShape) -> Option<Self> {
        let at = field.head;
        let flags = kind.shape().flags;
        Some(Self {
            field,
            len: number(message, at..at + 2)?,
            max_len: number(message, at + 2..at + 4)?,
            offset: number(message, at + 4..at + 8)?,
            counts: kind.counts(field.number, number(message, flags..flags + 4)),
        })
    }

    /// Where the field's bytes stand, if it has any; they may pass the message's end.
    pub fn range(&self) -> Option<Range<usize>> {
        let start = usize::try_from(self.offset).ok()?;
        let end = start.saturating_add(usize::try_from(self.len).ok()?);
        (self.counts && end > start).then_some(start..end)
    }

    /// The place of the head itself.
    pub fn place(&self) -> Range<usize> {
        self.field.head..self.field.head + 8
    }
}

impl<'a> Layout<'a> {
    /// A message as the kind that it begins as, an NTLM message where it is of none.
    /// `taken` says whether the proved program took it.
    pub fn of(message: &'a [u8], taken: bool) -> Self {
        match form::Kind::of(message) {
            form::Kind::NlAuth => Self::nl_auth(message, taken),
            _ => Self::ntlm(message, taken),
        }
    }

    fn ntlm(message: &'a [u8], taken: bool) -> Self {
        let kind = Kind::of_ntlm(message);
        let refusal = match kind {
            Kind::Negotiate => Negotiate::read(message).err(),
            Kind::Challenge => Challenge::read(message).err(),
            _ => Authenticate::read(message).err(),
        };
        let mut layout = Self::bare(message, kind, refusal, taken);
        if layout.has_fixed_part() {
            layout.add_heads();
        }
        layout.add_beginning();
        layout.finish()
    }

    fn nl_auth(message: &'a [u8], taken: bool) -> Self {
        let refusal = NlAuth::read(message).err();
        let mut layout = Self::bare(message, Kind::NlAuth, refusal, taken);
        let flags = number(message, 4..8).unwrap_or(0);
        layout.add(What::Type, 0..4, false);
        layout.add(
            What::Flags,
            4..8,
            !layout.taken && flags & !STRING_BITS != 0,
        );
        layout.add_strings();
        layout.finish()
    }

    fn bare(message: &'a [u8], kind: Kind, refusal: Option<Refusal>, taken: bool) -> Self {
        Self {
            kind,
            message,
            refusal,
            taken: taken && refusal.is_none(),
            heads: Vec::new(),
            parts: Vec::new(),
            bytes: Vec::new(),
        }
    }

    /// Whether the heads and the flags are where the kind has them.
    fn has_fixed_part(&self) -> bool {
        self.message.len() >= self.kind.shape().fixed
            && self.message.starts_with(SIGNATURE)
            && is_type(self.message)
    }

    fn add(&mut self, what: What, range: Range<usize>, masked: bool) {
        let end = range.end.min(self.message.len());
        let start = range.start.min(end);
        if start < end {
            let range = start..end;
            self.parts.push(Part {
                what,
                range,
                masked,
            });
        }
    }

    /// Signature and type: the bytes that are as they should be.
    fn add_beginning(&mut self) {
        let alike = self.message.iter().zip(SIGNATURE);
        let alike = alike.take_while(|(byte, right)| byte == right).count();
        self.add(What::Signature, 0..alike, false);
        self.add(What::Signature, alike..SIGNATURE.len(), true);
        self.add(What::Type, TYPE, !is_type(self.message));
    }

    /// The flags, and what else stands between the heads.
    fn add_fixed(&mut self) {
        for (what, range) in self.kind.shape().parts {
            match what {
                What::Flags => self.add(*what, range.clone(), false),
                What::Reserved => self.add(*what, range.clone(), !self.taken),
                What::ServerChallenge => self.add(*what, range.clone(), true),
                _ => {}
            }
        }
    }

    /// Fields first, secrets before names; then what has a place of its own.
    fn add_heads(&mut self) {
        let fields = self.kind.shape().fields.iter();
        let read = |field| Head::read(self.message, self.kind, field);
        let heads: Vec<Head> = fields.filter_map(read).collect();
        for role in [Role::Secret, Role::Name, Role::Pairs] {
            for head in heads.iter().filter(|head| head.field.role == role) {
                self.add_field(head);
            }
        }
        let starts = heads.iter().filter_map(Head::range);
        let lowest = starts.map(|range| range.start).min();
        self.add_after_fixed(lowest.unwrap_or(self.message.len()));
        for head in &heads {
            self.add(What::Head(head.field.number), head.place(), false);
        }
        self.heads = heads;
        self.add_fixed();
    }

    fn add_field(&mut self, head: &Head) {
        let Some(range) = head.range() else {
            return;
        };
        let what = What::Field(head.field.number);
        match head.field.role {
            Role::Name => self.add(what, range, !self.taken),
            Role::Pairs if self.taken => self.add_pairs(range),
            Role::Secret | Role::Pairs => self.add(what, range, true),
        }
    }

    /// Version and MIC, where the payload begins behind them. Of a refused message they
    /// are a guess.
    fn add_after_fixed(&mut self, lowest: usize) {
        let shape = self.kind.shape();
        let version = shape.fixed..shape.fixed + VERSION_LEN;
        let flags = number(self.message, shape.flags..shape.flags + 4).unwrap_or(0);
        if flags & NegotiateFlags::VERSION != 0 && lowest >= version.end {
            self.add(What::Version, version, !self.taken);
        }
        if self.kind == Kind::Authenticate && lowest >= MIC.end && self.message.len() >= MIC.end {
            self.add(What::Mic, MIC, true);
        }
    }

    /// The pairs of a message that was taken, each its head and its value. A value is
    /// shown where its id is known to hold a name, flags or a time.
    fn add_pairs(&mut self, list: Range<usize>) {
        let end = list.end.min(self.message.len());
        let start = list.start.min(end);
        let mut walk = TargetInfo(&self.message[start..end]).walk();
        let mut at = start;
        while let Ok(Some(pair)) = walk.ask() {
            let value = start + pair.place;
            self.add(What::Pair(pair.id.0), value - 4..value, false);
            at = value + pair.value.len();
            self.add(What::Pair(pair.id.0), value..at, !is_shown_pair(pair.id.0));
        }
        let is_end = self.message.get(at..at + 4) == Some(&[0; 4]);
        self.add(What::Pair(0), at..end.min(at + 4), !is_end);
        self.add(What::Field(2), at + 4..end, true);
    }

    /// The strings of a request up to its end, or to the one that fails, which goes to
    /// the message's end.
    fn add_strings(&mut self) {
        let flags = number(self.message, 4..8).unwrap_or(0);
        let request = number(self.message, 0..4) == Some(0);
        let mut end = self.kind.shape().fixed;
        for string in (1..=5).filter(|string| request && flags >> (string - 1) & 1 == 1) {
            let Some(next) = NlAuth::string_place(self.message, string + 1) else {
                return self.add(What::Field(string), end..self.message.len(), true);
            };
            self.add(What::Field(string), end..next, !self.taken);
            end = next;
        }
    }

    /// Works out each byte. What may be shown is what a part has, and no masked one.
    fn finish(mut self) -> Self {
        let none = Byte {
            what: What::Left,
            shared: false,
            shown: false,
            failed: false,
        };
        let mut bytes = vec![none; self.message.len()];
        let mut had = vec![false; bytes.len()];
        for part in self.parts.iter().rev() {
            for (byte, had) in bytes[part.range.clone()]
                .iter_mut()
                .zip(&mut had[part.range.clone()])
            {
                byte.shared = *had;
                byte.shown = !part.masked && (byte.shown || !*had);
                byte.what = part.what;
                *had = true;
            }
        }
        for range in self.failed() {
            let end = range.end.min(bytes.len());
            let failed = &mut bytes[range.start.min(end)..end];
            failed.iter_mut().for_each(|byte| byte.failed = true);
        }
        self.bytes = bytes;
        self
    }

    /// Each byte of the message.
    pub fn bytes(&self) -> &[Byte] {
        &self.bytes
    }

    /// Whether every byte of a stretch is there and may be shown.
    pub fn is_shown(&self, range: Range<usize>) -> bool {
        let bytes = self.bytes.get(range);
        bytes.is_some_and(|bytes| bytes.iter().all(|byte| byte.shown))
    }

    /// What the check that failed is about: the field's head, and bytes; empty where there
    /// is none.
    pub fn failed(&self) -> [Range<usize>; 2] {
        let Some(refusal) = self.refusal else {
            return [0..0, 0..0];
        };
        let shape = self.kind.shape();
        let of_field = |head: &&Head| head.field.number == refusal.field;
        let head = self.heads.iter().find(of_field);
        let bytes = match (refusal.number(), head) {
            (3, _) => 0..8,
            (4, _) if self.kind == Kind::NlAuth => 0..4,
            (4, _) => 8..12,
            (5 | 14, _) => shape.flags..shape.flags + 4,
            (6..=9, Some(head)) => head.range().unwrap_or_default(),
            (10..=13, Some(head)) => {
                let end = head.range().unwrap_or_default().end;
                refusal.place..end.min(refusal.place + 4)
            }
            (15 | 50..=53, _) => self.string_on(refusal.field),
            (16, _) => self.string_on(6),
            (17, _) => shape.fixed..self.message.len(),
            _ => 0..0,
        };
        [head.map_or(0..0, Head::place), bytes]
    }

    /// From where a string begins to the message's end.
    fn string_on(&self, string: u8) -> Range<usize> {
        let place = NlAuth::string_place(self.message, string);
        place.map_or(0..0, |place| place..self.message.len())
    }
}

/// Whether the value of a pair is one that people read: names, flags and the time.
fn is_shown_pair(id: u16) -> bool {
    AvId(id) != AvId::SINGLE_HOST && AvId(id) != AvId::CHANNEL_BINDINGS && (1..=9).contains(&id)
}

/// Whether the type is one that there is.
fn is_type(message: &[u8]) -> bool {
    matches!(number(message, TYPE), Some(1..=3))
}
