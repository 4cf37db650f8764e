//! Reading NL_AUTH.

use crate::dns_name::{DnsName, Ended};
use crate::flags::NlAuthFlags;
use crate::refusal::{Reason, Refusal};
use crate::wire::{check_length, number_at};

/// The MessageType of an NL_AUTH message.
#[derive(Clone, Copy, Debug, PartialEq, Eq)]
#[repr(u32)]
pub enum NlAuthType {
    /// A negotiate request.
    Request = 0,
    /// A negotiate response.
    Response = 1,
}

/// A string of an NL_AUTH request. One under a clear bit, and each one of a
/// response, is empty at place 0.
#[derive(Clone, Copy, Debug, Default, PartialEq, Eq)]
pub struct NlAuthString<'a> {
    /// Where the string begins, from the start of the message.
    pub place: usize,
    /// The string's own bytes: of A and B those before the zero byte, of C, D
    /// and E all "to where the next starts".
    pub bytes: &'a [u8],
    /// How many jumps its name takes: none in A and B.
    pub jumps: usize,
}

impl<'a> NlAuthString<'a> {
    /// A or B, "up to and without its first zero byte", and the place of the
    /// buffer where the next string starts.
    fn plain(buffer: &'a [u8], start: usize) -> Result<(Self, usize), Reason> {
        let left = buffer.get(start..).unwrap_or_default();
        let zero = left.iter().position(|&byte| byte == 0);
        let bytes = zero
            .and_then(|zero| left.get(..zero))
            .ok_or(Reason::StringNotEnded)?;
        let next = start.saturating_add(bytes.len()).saturating_add(1);
        let string = Self {
            place: NlAuth::FIXED.saturating_add(start),
            bytes,
            jumps: 0,
        };
        Ok((string, next))
    }

    /// C, D or E. "A string's own bytes run to where the next starts."
    fn dns(buffer: &'a [u8], start: usize) -> Result<(Self, usize), Reason> {
        let Ended { jumps, next } = DnsName { buffer, start }.read()?;
        let string = Self {
            place: NlAuth::FIXED.saturating_add(start),
            bytes: buffer.get(start..next).unwrap_or_default(),
            jumps,
        };
        Ok((string, next))
    }
}

/// An NL_AUTH message that every check holds for.
#[derive(Clone, Copy, Debug, PartialEq, Eq)]
pub struct NlAuth<'a> {
    /// The MessageType.
    pub message_type: NlAuthType,
    /// Bits A to E, none in a response: "a response's flags are ignored".
    pub flags: NlAuthFlags,
    /// The strings of bits A to E.
    pub strings: [NlAuthString<'a>; 5],
    /// What the names jump in.
    buffer: &'a [u8],
}

/// What a string is.
pub(crate) enum Text<'a> {
    /// A or B.
    Plain(&'a [u8]),
    /// C, D or E.
    Name(DnsName<'a>),
}

impl<'a> NlAuth<'a> {
    /// "Type at 0, flags at 4, buffer from 8."
    pub(crate) const FIXED: usize = 8;

    /// Reads `message` by checks 1, 2 and 4, then for a request 14, for each
    /// string 15 and 50 to 53, and 16, or 17 for a response.
    pub fn read(message: &'a [u8]) -> Result<Self, Refusal> {
        check_length(message)?;
        let (fixed, buffer) = message
            .split_first_chunk::<{ NlAuth::FIXED }>()
            .ok_or(Reason::MessageTooShort.of_message())?;
        match number_at::<0, { NlAuth::FIXED }>(fixed) {
            0 => Self::read_request(
                NlAuthFlags::new(number_at::<4, { NlAuth::FIXED }>(fixed)),
                buffer,
            ),
            1 => Self::read_response(buffer),
            _ => Err(Reason::MessageType.of_message()),
        }
    }

    /// "A request holds one string for each set bit, A first." Refuses "string by
    /// string and before 16".
    fn read_request(flags: NlAuthFlags, buffer: &'a [u8]) -> Result<Self, Refusal> {
        if flags.is_empty() {
            return Err(Reason::NoStrings.of_message());
        }
        let (strings, at) = Self::read_strings(flags, buffer, u8::MAX)?;
        if at < buffer.len() {
            return Err(Reason::BytesAfterStrings.of_message());
        }
        Ok(Self {
            message_type: NlAuthType::Request,
            flags,
            strings,
            buffer,
        })
    }

    /// The strings with numbers below `before`, and the place of the buffer after the
    /// last of them.
    fn read_strings(
        flags: NlAuthFlags,
        buffer: &'a [u8],
        before: u8,
    ) -> Result<([NlAuthString<'a>; 5], usize), Refusal> {
        let mut strings = [NlAuthString::default(); 5];
        let mut at = 0;
        for (string, (bit, number)) in strings.iter_mut().zip(NlAuthFlags::STRINGS) {
            if !flags.has(bit) || number >= before {
                continue;
            }
            let read = if bit & NlAuthFlags::DNS_NAMES == 0 {
                NlAuthString::plain(buffer, at)
            } else {
                NlAuthString::dns(buffer, at)
            };
            (*string, at) = read.map_err(|reason| reason.of_field(number))?;
        }
        Ok((strings, at))
    }

    /// Where the string of a number ("A = 1") begins in a request, or would begin, from
    /// the start of the message; that of 6 is where the strings end. None where the
    /// message has no fixed part or a string before it is refused.
    pub fn string_place(message: &'a [u8], number: u8) -> Option<usize> {
        let (fixed, buffer) = message.split_first_chunk::<{ NlAuth::FIXED }>()?;
        let flags = NlAuthFlags::new(number_at::<4, { NlAuth::FIXED }>(fixed));
        let (_, at) = Self::read_strings(flags, buffer, number).ok()?;
        Some(Self::FIXED.saturating_add(at))
    }

    /// The strings that are there, each with its number.
    pub(crate) fn texts(&self) -> impl Iterator<Item = (u8, Text<'a>)> + '_ {
        let strings = NlAuthFlags::STRINGS.into_iter().zip(&self.strings);
        let there = strings.filter(|((bit, _), _)| self.flags.has(*bit));
        there.map(|((bit, number), string)| {
            let text = if bit & NlAuthFlags::DNS_NAMES == 0 {
                Text::Plain(string.bytes)
            } else {
                Text::Name(DnsName {
                    buffer: self.buffer,
                    start: string.place.saturating_sub(Self::FIXED),
                })
            };
            (number, text)
        })
    }

    /// "A response's flags are ignored and its buffer is one zero byte."
    fn read_response(buffer: &'a [u8]) -> Result<Self, Refusal> {
        if buffer != [0] {
            return Err(Reason::ResponseBuffer.of_message());
        }
        Ok(Self {
            message_type: NlAuthType::Response,
            flags: NlAuthFlags::default(),
            strings: [NlAuthString::default(); 5],
            buffer,
        })
    }
}
