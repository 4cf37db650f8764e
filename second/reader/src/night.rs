//! A night's messages in one call: document 02, request 8/12.

use crate::authenticate::Authenticate;
use crate::challenge::Challenge;
use crate::negotiate::Negotiate;
use crate::refusal::{Reason, Refusal};
use crate::wire::check_length;

/// "A lent list of places, each a start, a length and room for its answer. Each
/// also has a mark."
#[derive(Clone, Copy, Debug, Default, PartialEq, Eq)]
pub struct Entry {
    /// Where its message begins in the buffer.
    pub start: u64,
    /// How many bytes its message has.
    pub length: u64,
    /// "One of NEGOTIATE, CHALLENGE and AUTHENTICATE": the message "is read as
    /// that kind".
    pub mark: u32,
    /// The number "that a single call on those bytes gives", 0 if taken.
    pub number: u32,
    /// The refusal's field, 0 if taken.
    pub field: u32,
    /// The refusal's pair place, from the start of the entry's own message; 0 if
    /// taken.
    pub place: u32,
}

impl Entry {
    /// Read as NEGOTIATE.
    pub const NEGOTIATE: u32 = Negotiate::TYPE;
    /// Read as CHALLENGE.
    pub const CHALLENGE: u32 = Challenge::TYPE;
    /// Read as AUTHENTICATE.
    pub const AUTHENTICATE: u32 = Authenticate::TYPE;

    /// An entry without its answer.
    pub const fn new(start: u64, length: u64, mark: u32) -> Self {
        Self {
            start,
            length,
            mark,
            number: 0,
            field: 0,
            place: 0,
        }
    }

    /// Its message, where "start plus length" doesn't pass the buffer's end. The
    /// sum doesn't wrap.
    fn message_in<'a>(&self, buffer: &'a [u8]) -> Option<&'a [u8]> {
        let end = self.start.checked_add(self.length)?;
        buffer.get(usize::try_from(self.start).ok()?..usize::try_from(end).ok()?)
    }

    /// 54 "before all others", then the single call's refusals. No kind has the
    /// type of another mark: 4.
    fn read(&self, buffer: &[u8]) -> Result<(), Refusal> {
        let message = self
            .message_in(buffer)
            .ok_or(Reason::PlaceOutside.of_message())?;
        match self.mark {
            Self::NEGOTIATE => Negotiate::read(message).map(drop),
            Self::CHALLENGE => Challenge::read(message).map(drop),
            Self::AUTHENTICATE => Authenticate::read(message).map(drop),
            _ => Err(Reason::MessageType.of_message()),
        }
    }

    /// Puts the answer in its room; "no other part of the entry changes".
    fn put(&mut self, answer: Result<(), Refusal>) {
        let (number, field, place) = match answer {
            Ok(()) => (0, 0, 0),
            Err(refusal) => (refusal.number(), refusal.field, refusal.place),
        };
        self.number = u32::from(number);
        self.field = u32::from(field);
        // A place lies inside a buffer of 65,535 bytes.
        self.place = u32::try_from(place).unwrap_or(u32::MAX);
    }
}

/// Reads the message of each entry as its mark says, and puts the answer there.
/// "Refusals: 1 for the buffer, changing no entry."
pub fn check_messages(buffer: &[u8], entries: &mut [Entry]) -> Result<(), Refusal> {
    check_length(buffer)?;
    for entry in entries {
        entry.put(entry.read(buffer));
    }
    Ok(())
}
