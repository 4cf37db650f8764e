//! Log lines, each with its 0A, and the checks of a message. A refused message has
//! them too; the only refusal is 33, where there is no room.

use crate::{raw, written, Refusal};

macro_rules! lines {
    ($($(#[$doc:meta])* $name:ident;)*) => {$(
        $(#[$doc])*
        pub fn $name<'a>(message: &[u8], out: &'a mut [u8]) -> Result<&'a [u8], Refusal> {
            written(raw::$name(message, out), out)
        }
    )*};
}

lines! {
    /// The line of a message read as AUTHENTICATE.
    authenticate_line;
    /// The line of a message read as CHALLENGE.
    challenge_line;
    /// The line of a message read as NEGOTIATE.
    negotiate_line;
    /// The line of a message read as NL_AUTH.
    nl_auth_line;
    /// The line of a message read as NEGOTIATE where 12 bytes are there and the
    /// type is 1, as CHALLENGE where it is 2, else as AUTHENTICATE.
    ntlm_line;
    /// What the NTLM program prints: the line, or that of 33 where it has no
    /// room.
    ntlm_program_line;
    /// What the NL_AUTH program prints: the line, or that of 33 where it has no
    /// room.
    nl_auth_program_line;
    /// The checks of a message, read as [`ntlm_line`] does, one to a line: held,
    /// failed with the figures to look at, or not reached. [`EXPLAIN_ROOM`] bytes
    /// suffice for any message.
    ///
    /// [`EXPLAIN_ROOM`]: crate::EXPLAIN_ROOM
    explain;
}
