//! Header lines, held against a plain stand-in for the library's two calls: it
//! agrees with the reader, and with one fault planted it doesn't.

use super::super::call::{refused, Call};
use super::super::hold::Library;
use super::super::tally::Tally;
use super::super::{second, Run};
use crate::headers::CHANGES;
use crate::random::Random;

/// What may be wrong with the stand-in, and the list of all that may.
macro_rules! faults {
    ($($name:ident)*) => {
        #[derive(Clone, Copy, Debug, PartialEq, Eq)]
        enum Fault {
            None,
            $($name,)*
        }
        const FAULTS: &[Fault] = &[$(Fault::$name,)*];
    };
}

faults! {
    UnusedBitsIgnored
    PaddingOptional
    PaddingAlone
    PaddingInside
    TabAsSpace
    SpaceOptional
    OneSpaceAlone
    LeadingSpaceTaken
    WordCaseSensitive
    WordByItsStart
    BytesAfterPassedOver
    BlanksAfterPassedOver
    LineEndPassedOver
    UrlAlphabetRead
    OtherCharactersPassedOver
    EmptyRefused
    LengthBeforeCharacters
    LengthUnchecked
    RoomBeforeLength
    RoomByWholeGroups
    RoomBeforeCharacters
    ExportUrlAlphabet
    ExportWithoutPadding
    ExportInLowerCase
    ExportWithoutSpace
    ExportLengthUnchecked
    ExportRoomBeforeLength
    ExportRoomWithoutTheWord
}

use Fault as F;

const DIGITS: &[u8; 64] = b"ABCDEFGHIJKLMNOPQRSTUVWXYZabcdefghijklmnopqrstuvwxyz0123456789+/";

struct StandIn(Fault);

impl StandIn {
    fn is(&self, fault: Fault) -> bool {
        self.0 == fault
    }

    fn value(&self, digit: u8) -> Option<u32> {
        let digit = match digit {
            b'-' if self.is(F::UrlAlphabetRead) => b'+',
            b'_' if self.is(F::UrlAlphabetRead) => b'/',
            digit => digit,
        };
        let at = DIGITS.iter().position(|&other| other == digit)?;
        u32::try_from(at).ok()
    }

    fn after_word<'a>(&self, text: &'a [u8]) -> Option<&'a [u8]> {
        let text = match text {
            [b' ', rest @ ..] if self.is(F::LeadingSpaceTaken) => rest,
            text => text,
        };
        let (word, rest) = text.split_at_checked(4)?;
        let same = match self.0 {
            F::WordCaseSensitive => word == b"NTLM",
            _ => word.eq_ignore_ascii_case(b"NTLM"),
        };
        let rest = match rest {
            [b'X', rest @ ..] if self.is(F::WordByItsStart) => rest,
            rest => rest,
        };
        let is_space = |byte: u8| byte == b' ' || byte == b'\t' && self.is(F::TabAsSpace);
        let mut spaces = rest.iter().take_while(|&&byte| is_space(byte)).count();
        if self.is(F::OneSpaceAlone) {
            spaces = spaces.min(1);
        }
        let enough = spaces > 0 || self.is(F::SpaceOptional);
        (same && enough).then(|| &rest[spaces..])
    }

    /// The text without what a fault passes over.
    fn kept(&self, text: &[u8]) -> Vec<u8> {
        let mut text = text.to_vec();
        let is_digit = |byte: &u8| *byte == b'=' || DIGITS.contains(byte);
        match self.0 {
            F::BytesAfterPassedOver => {
                let whole = text.len() - text.len() % 4;
                text.truncate(whole);
            }
            F::BlanksAfterPassedOver => {
                while text.last() == Some(&b' ') {
                    text.pop();
                }
            }
            F::LineEndPassedOver => {
                while matches!(text.last(), Some(b'\r' | b'\n')) {
                    text.pop();
                }
            }
            F::OtherCharactersPassedOver => text.retain(is_digit),
            F::PaddingOptional => {
                while !text.len().is_multiple_of(4) && text.len() % 4 != 1 {
                    text.push(b'=');
                }
            }
            _ => {}
        }
        text
    }

    fn decoded(&self, text: &[u8]) -> Option<Vec<u8>> {
        if !text.len().is_multiple_of(4) || text.is_empty() && self.is(F::EmptyRefused) {
            return None;
        }
        let mut message = Vec::new();
        let groups = text.len() / 4;
        for (at, group) in text.chunks(4).enumerate() {
            let last = at + 1 == groups || self.is(F::PaddingInside);
            let digits = match group {
                [b'=', ..] if last && self.is(F::PaddingAlone) => 1,
                [.., b'=', b'='] if last => 2,
                [.., b'='] if last => 3,
                _ => 4,
            };
            if digits == 1 {
                continue;
            }
            let mut bits = 0;
            for &digit in &group[..digits] {
                bits = bits << 6 | self.value(digit)?;
            }
            bits <<= 6 * (4 - digits);
            let [_, bytes @ ..] = bits.to_be_bytes();
            let (kept, left_over) = bytes.split_at(digits - 1);
            if left_over.iter().any(|&byte| byte != 0) && !self.is(F::UnusedBitsIgnored) {
                return None;
            }
            message.extend(kept);
        }
        Some(message)
    }

    fn import(&self, text: &[u8], out: &mut [u8]) -> u64 {
        let Some(text) = self.after_word(text) else {
            return refused(57, 0);
        };
        if self.is(F::LengthBeforeCharacters) && text.len() / 4 * 3 > 65_540 {
            return refused(1, 0);
        }
        if self.is(F::RoomBeforeCharacters) && out.len() < (text.len() / 4 * 3).saturating_sub(2) {
            return refused(33, 0);
        }
        let Some(message) = self.decoded(&self.kept(text)) else {
            return refused(58, 0);
        };
        let needed = match self.0 {
            F::RoomByWholeGroups => text.len() / 4 * 3,
            _ => message.len(),
        };
        let too_long = message.len() > 65_535 && !self.is(F::LengthUnchecked);
        if too_long && (out.len() >= needed || !self.is(F::RoomBeforeLength)) {
            return refused(1, 0);
        }
        if out.len() < needed {
            return refused(33, 0);
        }
        out[..message.len()].copy_from_slice(&message);
        message.len() as u64
    }

    fn export(&self, message: &[u8], out: &mut [u8]) -> u64 {
        let mut text = crate::headers::text(message);
        match self.0 {
            F::ExportUrlAlphabet => {
                for byte in &mut text {
                    *byte = match *byte {
                        b'+' => b'-',
                        b'/' => b'_',
                        byte => byte,
                    };
                }
            }
            F::ExportWithoutPadding => text.retain(|&byte| byte != b'='),
            F::ExportInLowerCase => text[..4].make_ascii_lowercase(),
            F::ExportWithoutSpace if message.is_empty() => text.truncate(4),
            _ => {}
        }
        let needed = match self.0 {
            F::ExportRoomWithoutTheWord => text.len() - 5,
            _ => text.len(),
        };
        let too_long = message.len() > 65_535 && !self.is(F::ExportLengthUnchecked);
        if too_long && (out.len() >= needed || !self.is(F::ExportRoomBeforeLength)) {
            return refused(1, 0);
        }
        if out.len() < needed {
            return refused(33, 0);
        }
        let len = text.len().min(out.len());
        out[..len].copy_from_slice(&text[..len]);
        text.len() as u64
    }
}

/// The library with the stand-in for these calls.
fn stand_in(fault: Fault) -> impl Fn(&Call<'_>, &mut [u8], &mut [u64]) -> u64 {
    move |call, out, numbers| match *call {
        Call::ExportHeader { message } => StandIn(fault).export(message, out),
        Call::ImportHeader { text } => StandIn(fault).import(text, out),
        _ => second(call, out, numbers),
    }
}

/// The calls on these messages with every change, up to the first that finds a
/// difference: its text, and how the reader answered.
fn held(library: impl Library, messages: &[Vec<u8>]) -> (Option<String>, Tally) {
    let mut run = Run::new(library, 31);
    for message in messages {
        // Of a long text, only what follows it.
        let some = if message.len() > 1_000 {
            &CHANGES[13..16]
        } else {
            &CHANGES[..]
        };
        run.headers(message, some);
        if run.holder.different > 0 {
            break;
        }
    }
    let found = run.holder.differences.into_iter().next();
    (found.map(|difference| difference.text), run.holder.tally)
}

/// Short messages of every length, each often enough that every way to make a change
/// is met, and the longest with some that are longer.
fn messages() -> Vec<Vec<u8>> {
    let mut random = Random::new(12);
    let mut messages = Vec::new();
    for _ in 0..20 {
        messages.extend((0..9).map(|len| random.bytes(len)));
        // Digits 62 and 63.
        messages.push(vec![0xFB, 0xFF, 0xBF, 0xFF]);
    }
    messages.extend([65_535, 65_536].map(|len| random.bytes(len)));
    messages
}

#[test]
fn the_stand_in_agrees_and_every_refusal_is_reached() {
    let (found, tally) = held(stand_in(F::None), &messages());
    assert_eq!(found, None);
    for missing in tally.not_reached() {
        let ours = missing.starts_with("import_") || missing.starts_with("export_");
        assert!(!ours, "{missing}");
    }
}

#[test]
fn each_fault_in_a_header_line_is_found() {
    let messages = messages();
    for &fault in FAULTS {
        let (found, _) = held(stand_in(fault), &messages);
        let text = found.unwrap_or_else(|| panic!("{fault:?} is not found"));
        let told = ["DIFFERENT: import_header ", "DIFFERENT: export_header "]
            .iter()
            .any(|start| text.starts_with(start));
        assert!(told, "{fault:?}: {text}");
    }
}

/// What is decoded before the whole text is judged is written too early.
#[test]
fn a_message_that_is_written_before_it_is_judged_is_found() {
    let early = |call: &Call<'_>, out: &mut [u8], numbers: &mut [u64]| {
        let answer = second(call, out, numbers);
        if let (Call::ImportHeader { .. }, true) = (call, answer == refused(58, 0)) {
            out.iter_mut().take(3).for_each(|byte| *byte = !*byte);
        }
        answer
    };
    let (found, _) = held(early, &messages());
    let text = found.expect("a difference");
    let start = "CHANGED MORE THAN IT WRITES: import_header ";
    assert!(text.starts_with(start), "{text}");
}
