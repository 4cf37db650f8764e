//! Why a message is refused: document 02, request 4/12.

use crate::authenticate::Authenticate;
use crate::challenge::Challenge;
use crate::kind::Kind;
use crate::line::{put_decimal, write_line, Line};
use crate::negotiate::Negotiate;
use crate::output::Sink;
use crate::refusal::{Reason, Refusal};
use crate::wire::{Head, MAX_MESSAGE};

/// Writes the checks of `message` to the start of `out`, one to a line, and gives
/// the length of all: each held, failed with its figures, or not reached, for the
/// type that the NTLM program reads the message as. "Refusals: 33 only", and
/// `out` is then unchanged.
pub fn explain(message: &[u8], out: &mut [u8]) -> Result<usize, Refusal> {
    write_line(&Explained::of(message), out)
}

/// "1 to 7 for all, then 8, 9 for AUTHENTICATE and 8, 11, 12, 10, 13 for
/// CHALLENGE."
const fn checks(kind: Kind) -> &'static [Reason] {
    use Reason::*;
    match kind {
        Kind::Negotiate => &[
            MessageTooLong,
            MessageTooShort,
            Signature,
            MessageType,
            NoCharacterSet,
            FieldPastEnd,
            FieldInFixedPart,
        ],
        Kind::Challenge => &[
            MessageTooLong,
            MessageTooShort,
            Signature,
            MessageType,
            NoCharacterSet,
            FieldPastEnd,
            FieldInFixedPart,
            OddName,
            PairCutOff,
            EndPair,
            PairPastEnd,
            PairSize,
        ],
        Kind::Authenticate => &[
            MessageTooLong,
            MessageTooShort,
            Signature,
            MessageType,
            NoCharacterSet,
            FieldPastEnd,
            FieldInFixedPart,
            OddName,
            NameOnSecret,
        ],
    }
}

/// The checks of a message, and the one that failed.
struct Explained {
    checks: &'static [Reason],
    failed: Option<Failed>,
}

/// What the failed line tells.
struct Failed {
    /// What the reader returns: number, field and place.
    refusal: Refusal,
    /// The field's own head; zeros for field 0.
    head: Head,
    /// "Message at most 65536."
    message: usize,
    /// "For 10 to 13" the pair's id and its length number.
    pair: Option<[u16; 2]>,
}

impl Explained {
    fn of(message: &[u8]) -> Self {
        let kind = Kind::of(message);
        let refusal = match kind {
            Kind::Negotiate => Negotiate::read(message).err(),
            Kind::Challenge => Challenge::read(message).err(),
            Kind::Authenticate => Authenticate::read(message).err(),
        };
        Self {
            checks: checks(kind),
            failed: refusal.map(|refusal| Failed::of(message, kind, refusal)),
        }
    }
}

impl Failed {
    fn of(message: &[u8], kind: Kind, refusal: Refusal) -> Self {
        let field = refusal.field;
        let head = match kind {
            Kind::Negotiate => Negotiate::head(message, field),
            Kind::Challenge => Challenge::head(message, field),
            Kind::Authenticate => Authenticate::head(message, field),
        };
        Self {
            refusal,
            head: head.unwrap_or_default(),
            message: message.len().min(MAX_MESSAGE + 1),
            pair: pair(message, refusal),
        }
    }
}

/// "Size being its length number, id and size 0 for 11", also where some bytes
/// stand there.
fn pair(message: &[u8], refusal: Refusal) -> Option<[u16; 2]> {
    match refusal.reason {
        Reason::PairPastEnd | Reason::EndPair | Reason::PairSize => {
            let rest = message.get(refusal.place..)?;
            let [id_low, id_high, len_low, len_high] = *rest.first_chunk()?;
            Some([[id_low, id_high], [len_low, len_high]].map(u16::from_le_bytes))
        }
        Reason::PairCutOff => Some([0; 2]),
        _ => None,
    }
}

/// More than any print has: a CHALLENGE of over 65,535 bytes has 279.
const PRINT_LIMIT: usize = 320;

impl Line for Explained {
    fn length_limit(&self) -> usize {
        PRINT_LIMIT
    }

    fn put<S: Sink>(&self, sink: &mut S) {
        let mut failed = false;
        for &check in self.checks {
            sink.put(b"check ");
            put_decimal(sink, usize::from(check as u8));
            match &self.failed {
                Some(at) if at.refusal.reason == check => {
                    failed = true;
                    at.put(sink);
                }
                _ if failed => sink.put(b" not reached\n"),
                _ => sink.put(b" held\n"),
            }
        }
    }
}

impl Failed {
    /// ` failed field=D offset=D length=D message=D`, "for 10 to 13 also
    /// ` at=D id=D size=D` of the pair".
    fn put<S: Sink>(&self, sink: &mut S) {
        sink.put(b" failed field=");
        put_decimal(sink, usize::from(self.refusal.field));
        sink.put(b" offset=");
        put_decimal(sink, self.head.offset as usize);
        sink.put(b" length=");
        put_decimal(sink, usize::from(self.head.len));
        sink.put(b" message=");
        put_decimal(sink, self.message);
        if let Some([id, size]) = self.pair {
            sink.put(b" at=");
            put_decimal(sink, self.refusal.place);
            sink.put(b" id=");
            put_decimal(sink, usize::from(id));
            sink.put(b" size=");
            put_decimal(sink, usize::from(size));
        }
        sink.put(b"\n");
    }
}
