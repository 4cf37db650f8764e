//! Which kind of message the NTLM program takes its input for.

use crate::challenge::Challenge;
use crate::negotiate::Negotiate;
use crate::wire::number_at;

/// The kinds of NTLM message.
#[derive(Clone, Copy, Debug, PartialEq, Eq)]
pub(crate) enum Kind {
    Negotiate,
    Challenge,
    Authenticate,
}

impl Kind {
    /// The kind that `message` is read as: "as CHALLENGE where 12 bytes are there
    /// and the type is 2, else as AUTHENTICATE", and since request 1/12 as
    /// NEGOTIATE where the type is 1.
    pub(crate) fn of(message: &[u8]) -> Self {
        match message.first_chunk::<12>().map(number_at::<8, 12>) {
            Some(Negotiate::TYPE) => Self::Negotiate,
            Some(Challenge::TYPE) => Self::Challenge,
            _ => Self::Authenticate,
        }
    }
}
