//! What a program prints for its input.

use crate::explain::explain;
use crate::line::{nl_auth_line, ntlm_line, write_line};
use crate::refusal::Refusal;

/// "A program whose line doesn't fit 65,536 bytes prints" the line of 33. The
/// line's 0A is one of these bytes.
pub const LINE_LIMIT: usize = 65_536;

/// The three programs.
#[derive(Clone, Copy, Debug, PartialEq, Eq)]
pub enum Program {
    /// Reads NEGOTIATE, CHALLENGE or AUTHENTICATE.
    Ntlm,
    /// Reads NL_AUTH.
    NlAuth,
    /// Reads what [`Program::Ntlm`] reads, and prints its checks, one to a line.
    Explain,
}

impl Program {
    /// What is printed for `message`, in the room lent for it.
    pub fn line<'a>(self, message: &[u8], room: &'a mut [u8; LINE_LIMIT]) -> &'a [u8] {
        let len = self.write_line(message, room).unwrap_or_default();
        room.get(..len).unwrap_or_default()
    }

    /// Writes what is printed for `message` to the start of `out`, which may have
    /// any length, and gives its length: the message's line or its checks, or the
    /// line of 33 where they have no room. Refuses by 33 where that has none
    /// either.
    pub fn write_line(self, message: &[u8], out: &mut [u8]) -> Result<usize, Refusal> {
        let written = match self {
            Self::Ntlm => ntlm_line(message, out),
            Self::NlAuth => nl_auth_line(message, out),
            Self::Explain => explain(message, out),
        };
        written.or_else(|no_room| write_line(&no_room, out))
    }
}
