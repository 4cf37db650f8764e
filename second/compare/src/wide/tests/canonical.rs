//! The canonical form, held against a plain stand-in for the library's call: it
//! agrees with the reader, and with one fault planted it doesn't.

use reader::{write_authenticate, Authenticate, AuthenticateParts, Refusal};

use super::super::call::{refused, Call};
use super::super::hold::Library;
use super::super::tally::Tally;
use super::super::{second, Run};
use crate::authenticate::KIND;
use crate::random::Random;
use crate::wire::{KEY_EXCH, UNICODE};

/// What may be wrong with the stand-in, and the list of all that may.
macro_rules! faults {
    ($($name:ident)*) => {
        #[derive(Clone, Copy, Debug, PartialEq, Eq)]
        enum Fault {
            None,
            $($name,)*
        }
        const FAULTS: &[Fault] = &[$(Fault::$name,)*];
    };
}

faults! {
    VersionKept
    MicWhereNoneIsThere
    MicForgotten
    UncountedKeyKept
    MessageKeptWhereItHasRoom
    WrongKeyLeftOut
    KeyCut
    MaxLenKept
    OtherFlagsCleared
    FieldsExchanged
    NameCutAt32
    RoomBeforeSize
    SizeBeforeKey
    NothingWritten
}

use Fault as F;

fn number_at(message: &[u8], at: usize, len: usize) -> usize {
    let bytes = message[at..at + len].iter().rev();
    bytes.fold(0, |number, &byte| number << 8 | usize::from(byte))
}

/// A field by its head, whatever the flags say.
fn by_head(message: &[u8], head: usize) -> &[u8] {
    let (len, at) = (number_at(message, head, 2), number_at(message, head + 4, 4));
    message.get(at..at + len).unwrap_or_default()
}

fn parts<'a>(message: &'a [u8], fault: Fault) -> Result<AuthenticateParts<'a>, Refusal> {
    let read = Authenticate::read(message)?;
    let mut parts = AuthenticateParts {
        flags: read.flags,
        version: [0; 8],
        mic: read.mic_bytes(),
        lm: read.lm.bytes,
        nt: read.nt.bytes,
        domain: read.domain.bytes,
        user: read.user.bytes,
        workstation: read.workstation.bytes,
        key: read.key.bytes,
    };
    match fault {
        F::VersionKept if message.len() >= 72 => parts.version.copy_from_slice(&message[64..72]),
        F::MicWhereNoneIsThere if message.len() >= 88 => {
            parts.mic.copy_from_slice(&message[72..88]);
        }
        F::MicForgotten => parts.mic = [0; 16],
        F::UncountedKeyKept => parts.key = by_head(message, 52),
        F::WrongKeyLeftOut if parts.key.len() != 16 => parts.key = &[],
        F::KeyCut => parts.key = &parts.key[..parts.key.len().min(16)],
        F::OtherFlagsCleared => parts.flags.0 &= 0x6280_3037,
        F::FieldsExchanged => (parts.lm, parts.nt) = (parts.nt, parts.lm),
        F::NameCutAt32 => parts.user = &parts.user[..parts.user.len().min(32)],
        _ => {}
    }
    Ok(parts)
}

fn answer(message: &[u8], fault: Fault, out: &mut [u8]) -> Result<usize, Refusal> {
    let parts = parts(message, fault)?;
    let fields = [
        parts.lm,
        parts.nt,
        parts.domain,
        parts.user,
        parts.workstation,
        parts.key,
    ];
    let total = fields.iter().map(|field| field.len()).sum::<usize>() + 88;
    let no_room = reader::Reason::NoRoom.of_message();
    let too_long = reader::Reason::WrittenTooLong.of_message();
    match fault {
        F::MessageKeptWhereItHasRoom if message.len() == total => {
            let room = out.get_mut(..total).ok_or(no_room)?;
            room.copy_from_slice(message);
            return Ok(total);
        }
        F::RoomBeforeSize if out.len() < total => {
            // The key is looked at before both.
            let lengths = AuthenticateParts {
                lm: &[],
                nt: &[],
                ..parts
            };
            write_authenticate(&lengths, &mut vec![0; 70_000])?;
            return Err(no_room);
        }
        F::SizeBeforeKey if total > 65_535 => return Err(too_long),
        F::NothingWritten => {
            let mut other = out.to_vec();
            return write_authenticate(&parts, &mut other);
        }
        _ => {}
    }
    let len = write_authenticate(&parts, out)?;
    if fault == F::MaxLenKept {
        out[14..16].copy_from_slice(&message[14..16]);
    }
    Ok(len)
}

/// The library with the stand-in for this call.
fn stand_in(fault: Fault) -> impl Fn(&Call<'_>, &mut [u8], &mut [u64]) -> u64 {
    move |call, out, numbers| {
        let Call::CanonicalAuthenticate { message } = *call else {
            return second(call, out, numbers);
        };
        match answer(message, fault, out) {
            Ok(len) => len as u64,
            Err(refusal) => refused(refusal.number(), refusal.field),
        }
    }
}

/// The call on these messages, up to the first that finds a difference: its text,
/// and how the reader answered.
fn held(library: impl Library, messages: &[Vec<u8>]) -> (Option<String>, Tally) {
    let mut run = Run::new(library, 23);
    for message in messages {
        run.canonical(message);
        if run.holder.different > 0 {
            break;
        }
    }
    let found = run.holder.differences.into_iter().next();
    (found.map(|difference| difference.text), run.holder.tally)
}

/// What stands at the boundaries; a wrong key beside secrets that are too long
/// where each is written by itself; a long user name, and VERSION.
fn messages() -> Vec<Vec<u8>> {
    let mut random = Random::new(8);
    let mut messages = KIND.boundaries(&mut random);
    let name = [b'n'; 40];
    let nothing: &[u8] = &[];
    let contents = [nothing, nothing, nothing, &name, nothing, nothing];
    messages.push(
        KIND.of(&mut random, UNICODE | 0x200_0000, 88, contents)
            .bytes(),
    );
    let mut both = KIND.empty(&mut random, UNICODE | KEY_EXCH, 40_000);
    for field in [0, 1, 5] {
        both.heads[field] = crate::wire::Head::new(39_000, 90);
    }
    messages.push(both.bytes());
    messages
}

#[test]
fn the_stand_in_agrees_and_the_boundaries_reach_every_refusal() {
    let (found, tally) = held(stand_in(F::None), &messages());
    assert_eq!(found, None);
    for missing in tally.not_reached() {
        assert!(!missing.starts_with("canonical_authenticate "), "{missing}");
    }
}

#[test]
fn each_fault_in_the_canonical_form_is_found() {
    let messages = messages();
    for &fault in FAULTS {
        let (found, _) = held(stand_in(fault), &messages);
        let text = found.unwrap_or_else(|| panic!("{fault:?} is not found"));
        let start = "DIFFERENT: canonical_authenticate ";
        assert!(text.starts_with(start), "{fault:?}: {text}");
    }
}
