//! A night's messages in one call.

use core::fmt;

use crate::refusal::Reason;
use crate::{raw, Refusal};

/// As which kind a message is read, whatever its own type is.
#[derive(Clone, Copy, Debug, PartialEq, Eq, Hash)]
#[repr(u32)]
pub enum Mark {
    /// Read as NEGOTIATE.
    Negotiate = 1,
    /// Read as CHALLENGE.
    Challenge = 2,
    /// Read as AUTHENTICATE.
    Authenticate = 3,
}

/// What is known of an entry's message.
#[derive(Clone, Copy, Debug, PartialEq, Eq, Hash)]
#[must_use = "a message that is refused, or was never read, is told by this alone"]
pub enum Verdict {
    /// No call has read it.
    NotRead,
    /// It is taken.
    Taken,
    /// What a single call on these bytes refuses by, or 54 where they pass the
    /// buffer's end.
    Refused(Refusal),
}

impl Verdict {
    /// Whether the message was read and is taken.
    #[must_use = "a message that is refused, or was never read, is told by this alone"]
    pub const fn is_taken(self) -> bool {
        matches!(self, Self::Taken)
    }
}

/// Stands for the number of an entry that was not read: no refusal has it.
const NOT_READ: u32 = u32::MAX;

/// A message of a night's buffer, and what is known of it.
#[derive(Clone, Copy, PartialEq, Eq, Hash)]
#[repr(transparent)]
pub struct Entry(raw::Entry);

impl Entry {
    /// The message of `length` bytes from `start` on, not yet read.
    pub const fn new(start: u64, length: u64, mark: Mark) -> Self {
        Self(raw::Entry {
            start,
            length,
            mark: mark as u32,
            number: NOT_READ,
            field: 0,
            place: 0,
        })
    }

    /// Where the message begins in the buffer.
    pub const fn start(&self) -> u64 {
        self.0.start
    }

    /// How many bytes it has.
    pub const fn length(&self) -> u64 {
        self.0.length
    }

    /// As which kind it is read.
    pub const fn mark(&self) -> Mark {
        match self.0.mark {
            1 => Mark::Negotiate,
            2 => Mark::Challenge,
            _ => Mark::Authenticate,
        }
    }

    /// The answer that [`check_messages`] put here.
    pub const fn answer(&self) -> Verdict {
        match self.0.number {
            NOT_READ => Verdict::NotRead,
            0 => Verdict::Taken,
            number => Verdict::Refused(Refusal {
                reason: Reason::of(number as u8),
                field: self.0.field as u8,
                place: self.0.place as usize,
            }),
        }
    }
}

impl fmt::Debug for Entry {
    fn fmt(&self, f: &mut fmt::Formatter<'_>) -> fmt::Result {
        f.debug_struct("Entry")
            .field("start", &self.start())
            .field("length", &self.length())
            .field("mark", &self.mark())
            .field("answer", &self.answer())
            .finish()
    }
}

/// Reads the message of each entry by its mark, and puts the answer there; nothing
/// else of an entry changes. A buffer over 65,535 bytes is refused 1, and then no
/// entry changes: one that an earlier call has read still says what that call found.
pub fn check_messages(buffer: &[u8], entries: &mut [Entry]) -> Result<(), Refusal> {
    Refusal::check(raw::check_listed(buffer, entries)).map(|_| ())
}
