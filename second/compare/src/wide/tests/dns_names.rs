//! Names C, D and E, held against a plain stand-in for the library's calls: it
//! agrees with the reader, and with one fault planted it doesn't.

use super::super::call::{refused, Call};
use super::super::hold::Library;
use super::super::tally::Tally;
use super::super::{second, Run};
use crate::nl_auth::{boundaries, drawn};
use crate::random::Random;

/// What may be wrong with the stand-in, and the list of all that may.
macro_rules! faults {
    ($list:ident: $($name:ident)*, $other:ident: $($more:ident)*) => {
        #[derive(Clone, Copy, Debug, PartialEq, Eq)]
        enum Fault {
            None,
            $($name,)*
            $($more,)*
        }
        const $list: &[Fault] = &[$(Fault::$name,)*];
        const $other: &[Fault] = &[$(Fault::$more,)*];
    };
}

faults! {
    IN_READING:
    PlaceFromTheMessage
    PlaceAtTheRunTaken
    ForwardTaken
    RunByTheJump
    RunByTheString
    RunByTheLastLabel
    SixteenRefused
    SeventeenTaken
    JumpsOfTheMessage
    JumpsNotTold
    OneJumpTold
    SixBitsAndSixBits
    LowByteFirst
    LowByteAlone
    TopBits01AsLabel
    TopBits10AsJump
    LabelOf64
    LabelOf63Refused
    LongestIs254
    LongestIs256
    LengthOfTheLastRun
    LengthWithoutTheEnd
    LengthBefore15
    CutJumpIs51
    CutJumpIs52
    SeventeenthBefore51
    TopBitsAtTheEndAre15
    ZeroByteAtTheEndIs15
    NextAfterThePlace
    NextAfterTheLastJump
    OwnBytesWithoutTheEnd
    PlacesOfTheBuffer
    FieldOfTheFirst
    BytesLeftTaken
    PlainStrings
    FullStopPlain
    CommaBetween
    StopAtTheEnd
    LabelEndsAtItsZero
    LowerCaseEscape
    WhichByItsLowByte
    WhichFromZero
    RoomBeforeReading
    RoomForTheLongestName,
    IN_WRITING:
    EmptyLabelWritten
    StopAtTheStartTaken
    StopAtTheEndTaken
    TwoStopsTaken
    LabelOf64Written
    LabelOf63NotWritten
    TextOf254Written
    TextOf253Refused
    LengthBeforeLabels
    LabelsBeforeZeros
    StringByString
    SizeBeforeLength
    SizeWithoutLengths
    EmptyTextOmitted
    EmptyTextTwoZeros
    ClearBitsLookedAt
    LabelsInB
    TextWrittenPlain
}

use Fault as F;

/// What a name is read as: labels, jumps and the next string's place.
struct Name {
    labels: Vec<Vec<u8>>,
    jumps: usize,
    next: usize,
}

/// A string that was read: place, own length, jumps, text.
type Read = (usize, usize, usize, String);

impl Fault {
    fn is(self, fault: Self) -> bool {
        self == fault
    }

    /// The place that a jump's two bytes are.
    fn place(self, high: u8, low: u8) -> usize {
        let (high, low) = (usize::from(high % 64), usize::from(low));
        match self {
            F::SixBitsAndSixBits => 64 * high + low % 64,
            F::LowByteFirst => 256 * low + high,
            F::LowByteAlone => low,
            F::PlaceFromTheMessage => (256 * high + low).wrapping_sub(8),
            _ => 256 * high + low,
        }
    }

    /// A name, `before` being the jumps of the strings before it.
    fn name(self, buffer: &[u8], start: usize, before: usize) -> Result<Name, u8> {
        let longest = match self {
            F::LongestIs254 => 254,
            F::LongestIs256 | F::LengthWithoutTheEnd => 256,
            _ => 255,
        };
        let most = match self {
            F::SixteenRefused => 15,
            F::SeventeenTaken => 17,
            F::JumpsOfTheMessage => 16_usize.saturating_sub(before),
            _ => 16,
        };
        let (mut at, mut run, mut last_label, mut coded) = (start, start, start, 1);
        let mut next = None;
        let mut labels = Vec::new();
        let mut jumps = 0;
        loop {
            let byte = *buffer.get(at).ok_or(15)?;
            let len = match byte {
                64..=127 if self.is(F::TopBits01AsLabel) => usize::from(byte % 64),
                _ => usize::from(byte),
            };
            let label = len < 64 && !(len == 63 && self.is(F::LabelOf63Refused))
                || len == 64 && self.is(F::LabelOf64);
            let jump = byte >= 192 || byte >= 128 && self.is(F::TopBits10AsJump);
            if byte == 0 {
                if self.is(F::ZeroByteAtTheEndIs15) && jumps > 0 && at + 1 == buffer.len() {
                    return Err(15);
                }
                break;
            } else if label {
                let own = buffer.get(at + 1..at + 1 + len);
                let long = coded + len + 1 > longest;
                if long && (own.is_some() || self.is(F::LengthBefore15)) {
                    return Err(53);
                }
                labels.push(own.ok_or(15)?.to_vec());
                coded += len + 1;
                last_label = at;
                at += len + 1;
            } else if jump {
                let short = match self {
                    F::CutJumpIs51 => 51,
                    F::CutJumpIs52 if jumps >= most => 52,
                    _ => 15,
                };
                let place = self.place(byte, *buffer.get(at + 1).ok_or(short)?);
                let limit = match self {
                    F::RunByTheJump => at,
                    F::RunByTheString => start,
                    F::RunByTheLastLabel if at > run => last_label,
                    F::PlaceAtTheRunTaken => run + 1,
                    F::ForwardTaken => usize::MAX,
                    _ => run,
                };
                if jumps >= most && self.is(F::SeventeenthBefore51) {
                    return Err(52);
                }
                if place >= limit {
                    return Err(51);
                }
                if jumps >= most {
                    return Err(52);
                }
                if next.is_none() || self.is(F::NextAfterTheLastJump) {
                    next = Some(at + 2);
                }
                if self.is(F::LengthOfTheLastRun) {
                    coded = 1;
                }
                jumps += 1;
                (at, run) = (place, place);
            } else if self.is(F::TopBitsAtTheEndAre15) && at + 1 == buffer.len() {
                return Err(15);
            } else {
                return Err(50);
            }
        }
        let next = match self {
            F::NextAfterThePlace => at + 1,
            _ => next.unwrap_or(at + 1),
        };
        Ok(Name {
            labels,
            jumps,
            next,
        })
    }

    /// A byte as the line has it.
    fn byte(self, byte: u8, plain_stop: bool) -> String {
        match byte {
            b'.' if !plain_stop => "\\x2E".to_owned(),
            b'\\' => "\\x5C".to_owned(),
            0x21..=0x7E => char::from(byte).to_string(),
            _ if self.is(F::LowerCaseEscape) => format!("\\x{byte:02x}"),
            _ => format!("\\x{byte:02X}"),
        }
    }

    fn text(self, labels: &[Vec<u8>]) -> String {
        let label = |label: &Vec<u8>| -> String {
            let shown = label.iter();
            let shown = shown.take_while(|&&byte| byte != 0 || !self.is(F::LabelEndsAtItsZero));
            shown
                .map(|&byte| self.byte(byte, self.is(F::FullStopPlain)))
                .collect()
        };
        let shown: Vec<String> = labels.iter().map(label).collect();
        let between = if self.is(F::CommaBetween) { "," } else { "." };
        let end = if self.is(F::StopAtTheEnd) { "." } else { "" };
        shown.join(between) + end
    }

    /// The strings of a request, from its first 8 bytes on, or the refusal. Bits
    /// that are clear have none.
    fn strings(self, flags: u8, buffer: &[u8]) -> Result<[Read; 5], (u8, u8)> {
        let mut strings: [Read; 5] = Default::default();
        let mut at = 0;
        let mut before = 0;
        let first = (0..5).find(|bit| flags >> bit & 1 == 1);
        for bit in (0..5_u8).filter(|bit| flags >> bit & 1 == 1) {
            let field = match first {
                Some(first) if self.is(F::FieldOfTheFirst) => first + 1,
                _ => bit + 1,
            };
            let place = at + if self.is(F::PlacesOfTheBuffer) { 0 } else { 8 };
            let string = &mut strings[usize::from(bit)];
            if bit < 2 || self.is(F::PlainStrings) {
                let left = buffer.get(at..).unwrap_or_default();
                let zero = left.iter().position(|&byte| byte == 0);
                let len = zero.ok_or((15, field))?;
                let bytes = left[..len].iter();
                let text = bytes.map(|&byte| self.byte(byte, true)).collect();
                *string = (place, len, 0, text);
                at += len + 1;
                continue;
            }
            let name = self
                .name(buffer, at, before)
                .map_err(|number| (number, field))?;
            let jumps = match self {
                F::JumpsNotTold => 0,
                F::OneJumpTold => name.jumps.min(1),
                _ => name.jumps,
            };
            let own = match self {
                F::OwnBytesWithoutTheEnd => name.next.saturating_sub(at + 1),
                _ => name.next.saturating_sub(at),
            };
            *string = (place, own, jumps, self.text(&name.labels));
            at = name.next;
            before += name.jumps;
        }
        if at < buffer.len() && !self.is(F::BytesLeftTaken) {
            return Err((16, 0));
        }
        Ok(strings)
    }

    /// The strings of a message that is a request with some bit set; none where
    /// the reader's answer will do.
    fn read(self, message: &[u8]) -> Option<Result<[Read; 5], u64>> {
        let (fixed, buffer) = message.split_first_chunk::<8>()?;
        let flags = fixed[4] & 0x1F;
        let request = fixed[..4] == [0; 4] && flags != 0 && message.len() < 0x1_0000;
        let strings = request.then(|| self.strings(flags, buffer))?;
        Some(strings.map_err(|(number, field)| refused(number, field)))
    }

    /// `read_nl_auth` and `nl_auth_name`.
    fn reading(self, call: &Call<'_>, out: &mut [u8], numbers: &mut [u64]) -> Option<u64> {
        match *call {
            Call::ReadNlAuth { message } if numbers.len() >= 15 => match self.read(message)? {
                Err(refusal) => Some(refusal),
                Ok(strings) => {
                    (numbers[0], numbers[1]) = (0, u64::from(message[4] & 0x1F));
                    for (at, (place, len, jumps, _)) in strings.iter().enumerate() {
                        numbers[2 + 2 * at] = *place as u64;
                        numbers[3 + 2 * at] = *len as u64;
                        if at >= 2 {
                            numbers[10 + at] = *jumps as u64;
                        }
                    }
                    Some(0)
                }
            },
            Call::NlAuthName { message, which } => {
                let which = match self {
                    F::WhichByItsLowByte => which & 0xFF,
                    F::WhichFromZero => which.wrapping_add(1),
                    _ => which,
                };
                let strings = match self.read(message)? {
                    Err(_) if self.is(F::RoomBeforeReading) && out.is_empty() => {
                        return Some(refused(33, 0));
                    }
                    Err(refusal) => return Some(refusal),
                    Ok(strings) => strings,
                };
                let string = strings.get((which as usize).wrapping_sub(1));
                let text = string.map_or("", |(_, _, _, text)| text).as_bytes();
                let needed = match self {
                    F::RoomForTheLongestName if which > 2 => 1003,
                    _ => text.len(),
                };
                if out.len() < needed {
                    return Some(refused(33, 0));
                }
                out[..text.len()].copy_from_slice(text);
                Some(text.len() as u64)
            }
            _ => None,
        }
    }

    /// The labels of a text; none where one is empty or over 63 bytes.
    fn labels(self, text: &[u8]) -> Option<Vec<&[u8]>> {
        if text.is_empty() {
            return Some(Vec::new());
        }
        let mut labels: Vec<&[u8]> = text.split(|&byte| byte == b'.').collect();
        let last = labels.len() - 1;
        let longest = match self {
            F::LabelOf64Written => 64,
            F::LabelOf63NotWritten => 62,
            _ => 63,
        };
        let sound = |(at, label): (usize, &&[u8])| match (label.len(), self) {
            (0, F::EmptyLabelWritten) => true,
            (0, F::StopAtTheStartTaken) => at == 0,
            (0, F::StopAtTheEndTaken) => at == last,
            (0, F::TwoStopsTaken) => at != 0 && at != last,
            (len, _) => (1..=longest).contains(&len),
        };
        if !labels.iter().enumerate().all(sound) {
            return None;
        }
        if !self.is(F::EmptyLabelWritten) {
            labels.retain(|label| !label.is_empty());
        }
        Some(labels)
    }

    /// The coded bytes of a text, whether its labels are sound or not.
    fn coded(self, text: &[u8]) -> Vec<u8> {
        let mut bytes = Vec::new();
        for label in self.labels(text).unwrap_or_default() {
            bytes.push(label.len().to_le_bytes()[0]);
            bytes.extend(label);
        }
        match self {
            F::EmptyTextOmitted if text.is_empty() => {}
            F::EmptyTextTwoZeros if text.is_empty() => bytes.extend([0, 0]),
            _ => bytes.push(0),
        }
        bytes
    }

    fn is_long(self, text: &[u8]) -> bool {
        let most = match self {
            F::TextOf254Written => 254,
            F::TextOf253Refused => 252,
            _ => 253,
        };
        text.len() > most
    }

    /// The bytes of a request, or its refusal.
    fn request(self, flags: u32, strings: &[&[u8]; 5], room: usize) -> Result<Vec<u8>, (u8, u8)> {
        let flags = flags & 0x1F;
        if flags == 0 {
            return Err((14, 0));
        }
        let looked_at = (1..=5_u8).zip(strings).filter(|(number, _)| {
            let there = flags >> (number - 1) & 1 == 1;
            there || *number > 2 && self.is(F::ClearBitsLookedAt)
        });
        let looked_at: Vec<(u8, &[u8])> = looked_at.map(|(number, text)| (number, *text)).collect();
        let first_name = if self.is(F::LabelsInB) { 2 } else { 3 };
        let names = looked_at.iter().filter(|(number, _)| *number >= first_name);
        let names: Vec<(u8, &[u8])> = names.copied().collect();
        let first = |strings: &[(u8, &[u8])], wrong: &dyn Fn(&[u8]) -> bool| {
            let found = strings.iter().find(|(_, text)| wrong(text));
            found.map(|(number, _)| *number)
        };
        let refusal = |number: u8, field: Option<u8>| field.map(|field| (number, field));
        let zeros = refusal(34, first(&looked_at, &|text| text.contains(&0)));
        let labels = refusal(50, first(&names, &|text| self.labels(text).is_none()));
        let long = refusal(53, first(&names, &|text| self.is_long(text)));
        let mut message = [&[0; 4][..], &flags.to_le_bytes()].concat();
        let mut size = 8;
        for (number, text) in (1..=5_u8).zip(strings) {
            if flags >> (number - 1) & 1 == 0 {
                continue;
            }
            let plain = [text, &[0][..]].concat();
            let bytes = if number < first_name || self.is(F::TextWrittenPlain) {
                plain.clone()
            } else {
                self.coded(text)
            };
            size += if self.is(F::SizeWithoutLengths) {
                plain.len()
            } else {
                bytes.len()
            };
            message.extend(bytes);
        }
        let size = (size > 65_535).then_some((30, 0));
        let room = (room < message.len()).then_some((33, 0));
        let order = match self {
            F::LengthBeforeLabels => [zeros, long, labels, size, room],
            F::LabelsBeforeZeros => [labels, zeros, long, size, room],
            F::SizeBeforeLength => [zeros, labels, size, long, room],
            F::StringByString => {
                let both = labels.into_iter().chain(long);
                [
                    zeros,
                    both.min_by_key(|(_, field)| *field),
                    None,
                    size,
                    room,
                ]
            }
            _ => [zeros, labels, long, size, room],
        };
        match order.into_iter().flatten().next() {
            Some(refusal) => Err(refusal),
            None => Ok(message),
        }
    }
}

/// The library with the stand-in for these calls.
fn stand_in(fault: Fault) -> impl Fn(&Call<'_>, &mut [u8], &mut [u64]) -> u64 {
    move |call, out, numbers| {
        if let Call::WriteNlAuthRequest { flags, strings } = call {
            return match fault.request(*flags, strings, out.len()) {
                Ok(message) => {
                    out[..message.len()].copy_from_slice(&message);
                    message.len() as u64
                }
                Err((number, field)) => refused(number, field),
            };
        }
        fault
            .reading(call, out, numbers)
            .unwrap_or_else(|| second(call, out, numbers))
    }
}

/// The calls up to the first that finds a difference: its text, and how the
/// reader answered.
fn held<L: Library>(
    library: L,
    times: usize,
    mut calls: impl FnMut(&mut Run<L>, usize),
) -> (Option<String>, Tally) {
    let mut run = Run::new(library, 11);
    for time in 0..times {
        calls(&mut run, time);
        if run.holder.different > 0 {
            break;
        }
    }
    let found = run.holder.differences.into_iter().next();
    (found.map(|difference| difference.text), run.holder.tally)
}

fn held_in_reading(fault: Fault, messages: &[Vec<u8>]) -> (Option<String>, Tally) {
    held(stand_in(fault), messages.len(), |run, at| {
        let message = &messages[at];
        run.hold_arrays(&Call::ReadNlAuth { message });
        run.names(message);
    })
}

/// How many requests are written.
const WRITTEN: usize = 20_000;

fn held_in_writing(fault: Fault) -> (Option<String>, Tally) {
    held(stand_in(fault), WRITTEN, |run, _| run.nl_auth_request())
}

/// The messages at the boundaries, but for the longest.
fn messages() -> Vec<Vec<u8>> {
    let mut messages = boundaries(&mut Random::new(3));
    messages.retain(|message| message.len() < 1_000);
    messages
}

#[test]
fn the_stand_in_agrees_and_every_refusal_is_reached() {
    let mut messages = messages();
    let random = &mut Random::new(4);
    messages.extend((0..2_000).map(|_| drawn(random)));
    messages.push(vec![0; 65_536]);
    let (found, tally) = held_in_reading(F::None, &messages);
    assert_eq!(found, None);
    for missing in tally.not_reached() {
        assert!(!missing.starts_with("read_nl_auth "), "{missing}");
        assert!(!missing.starts_with("nl_auth_name "), "{missing}");
    }
    let (found, tally) = held_in_writing(F::None);
    assert_eq!(found, None);
    for missing in tally.not_reached() {
        assert!(!missing.starts_with("write_nl_auth_request "), "{missing}");
    }
}

#[test]
fn each_fault_in_reading_is_found() {
    let messages = messages();
    for &fault in IN_READING {
        let (found, _) = held_in_reading(fault, &messages);
        let text = found.unwrap_or_else(|| panic!("{fault:?} is not found"));
        assert!(text.starts_with("DIFFERENT: "), "{fault:?}: {text}");
    }
}

#[test]
fn each_fault_in_writing_is_found() {
    for &fault in IN_WRITING {
        let (found, _) = held_in_writing(fault);
        let text = found.unwrap_or_else(|| panic!("{fault:?} is not found"));
        let start = "DIFFERENT: write_nl_auth_request flags=";
        assert!(text.starts_with(start), "{fault:?}: {text}");
    }
}
