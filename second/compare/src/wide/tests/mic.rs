//! The MIC, held against a plain stand-in for the library's two calls: it agrees
//! with the reader, and with one fault planted it doesn't.

use reader::{hmac_md5, Authenticate, Challenge, Negotiate, Reason, Refusal, SignIn};

use super::super::call::{refused, refused_at, Call};
use super::super::hold::Library;
use super::super::tally::Tally;
use super::super::{second, Run};
use crate::random::Random;
use crate::{authenticate, challenge, negotiate};

/// What may be wrong with the stand-in, and the list of all that may.
macro_rules! faults {
    ($($name:ident)*) => {
        #[derive(Clone, Copy, Debug, PartialEq, Eq)]
        enum Fault {
            None,
            $($name,)*
        }
        const FAULTS: &[Fault] = &[$(Fault::$name,)*];
    };
}

faults! {
    OwnBytesHashed
    OwnBytesLeftOut
    ChallengeFirst
    NegotiateLeftOut
    ChallengeLeftOut
    BytesAfterThePayloadLeftOut
    FirstFifteenCompared
    LastFifteenCompared
    AlwaysYes
    AlwaysNo
    ZerosAreNoMic
    AnyKeyTaken
    KeyCut
    KeyAfterTheReading
    NoMicTaken
    NoMicBeforeTheChallenge
    NegotiateUnread
    ChallengeBeforeNegotiate
    PlaceForgotten
    RoomAfterTheReading
}

use Fault as F;

struct Given<'a> {
    key: &'a [u8],
    messages: SignIn<'a>,
    fault: Fault,
}

impl Given<'_> {
    fn is(&self, fault: Fault) -> bool {
        self.fault == fault
    }

    /// Key and messages are looked at one after the other.
    fn check(&self) -> Result<(), Refusal> {
        let wrong_key = self.key.len() != 16 && !self.is(F::AnyKeyTaken);
        let cut = self.is(F::KeyCut) && self.key.len() > 16;
        let no_key = if wrong_key && !cut {
            Err(Reason::SessionKey.of_message())
        } else {
            Ok(())
        };
        let read = Authenticate::read(self.messages.authenticate);
        let mic = match read {
            Ok(read) if self.is(F::ZerosAreNoMic) => read.mic.filter(|mic| *mic != [0; 16]),
            Ok(read) => read.mic,
            Err(_) => None,
        };
        let no_mic = if mic.is_none() && read.is_ok() && !self.is(F::NoMicTaken) {
            Err(Reason::NoMic.of_message())
        } else {
            Ok(())
        };
        let mut checks = vec![
            no_key,
            Negotiate::read(self.messages.negotiate).map(|_| ()),
            Challenge::read(self.messages.challenge).map(|_| ()),
            read.map(|_| ()),
            no_mic,
        ];
        match self.fault {
            F::KeyAfterTheReading => checks[..4].rotate_left(1),
            F::NoMicBeforeTheChallenge => checks[2..].rotate_right(1),
            F::NegotiateUnread => checks[1] = Ok(()),
            F::ChallengeBeforeNegotiate => checks.swap(1, 2),
            _ => {}
        }
        checks.into_iter().collect()
    }

    fn mic(&self) -> [u8; 16] {
        let SignIn {
            negotiate,
            challenge,
            authenticate,
        } = self.messages;
        let mut last = authenticate.to_vec();
        match self.fault {
            F::OwnBytesHashed => {}
            F::OwnBytesLeftOut => drop(last.drain(72..88)),
            F::BytesAfterThePayloadLeftOut => {
                last[72..88].fill(0);
                let fields = Authenticate::read(authenticate).expect("taken").fields();
                let ends = fields.iter().map(|field| field.place + field.bytes.len());
                last.truncate(ends.max().unwrap_or_default().max(88));
            }
            _ if last.len() >= 88 => last[72..88].fill(0),
            _ => {}
        }
        let text = match self.fault {
            F::ChallengeFirst => [challenge, negotiate, &last],
            F::NegotiateLeftOut => [&[], challenge, &last],
            F::ChallengeLeftOut => [negotiate, &[], &last],
            _ => [negotiate, challenge, &last],
        };
        let key = match self.fault {
            F::KeyCut => &self.key[..16],
            _ => self.key,
        };
        hmac_md5(key, text)
    }

    fn answer(&self, out: Option<&mut [u8]>) -> u64 {
        let short = out.as_ref().is_some_and(|out| out.len() < 16);
        if short && !self.is(F::RoomAfterTheReading) {
            return refused(33, 0);
        }
        if let Err(refusal) = self.check() {
            let place = match self.fault {
                F::PlaceForgotten => 0,
                _ => refusal.place,
            };
            return refused_at(refusal.number(), refusal.field, place);
        }
        let mic = self.mic();
        match out {
            Some(_) if short => refused(33, 0),
            Some(out) => {
                out[..16].copy_from_slice(&mic);
                0
            }
            None => u64::from(self.says(&mic)),
        }
    }

    fn says(&self, mic: &[u8; 16]) -> bool {
        let sent = self.messages.authenticate.get(72..88).unwrap_or_default();
        match self.fault {
            F::FirstFifteenCompared => mic[..15] == sent[..15],
            F::LastFifteenCompared => mic[1..] == sent[1..],
            F::AlwaysYes => true,
            F::AlwaysNo => false,
            _ => mic == sent,
        }
    }
}

/// The library with the stand-in for these calls.
fn stand_in(fault: Fault) -> impl Fn(&Call<'_>, &mut [u8], &mut [u64]) -> u64 {
    move |call, out, numbers| {
        let given = |key, messages| Given {
            key,
            messages,
            fault,
        };
        match *call {
            Call::Mic { key, messages } => given(key, messages).answer(Some(out)),
            Call::CheckMic { key, messages } => given(key, messages).answer(None),
            _ => second(call, out, numbers),
        }
    }
}

/// The calls on these messages, up to the first that finds a difference: its
/// text, and how the reader answered.
fn held(library: impl Library, messages: &[Vec<u8>]) -> (Option<String>, Tally) {
    let mut run = Run::new(library, 17);
    for message in messages {
        run.mics(message);
        if run.holder.different > 0 {
            break;
        }
    }
    let found = run.holder.differences.into_iter().next();
    (found.map(|difference| difference.text), run.holder.tally)
}

/// A sound message with a MIC of zeros and bytes after its payload, one with none,
/// and what stands at the boundaries of each kind.
fn messages() -> Vec<Vec<u8>> {
    let mut random = Random::new(6);
    let mut zeros = authenticate::KIND.empty(&mut random, 1, 100).bytes();
    zeros[72..88].fill(0);
    let short = authenticate::KIND.empty(&mut random, 1, 80).bytes();
    let mut messages = vec![zeros, short];
    messages.extend(challenge::KIND.boundaries(&mut random));
    messages.extend(negotiate::KIND.boundaries(&mut random));
    messages.extend(authenticate::KIND.boundaries(&mut random));
    messages
}

#[test]
fn the_stand_in_agrees_and_the_boundaries_reach_every_refusal() {
    let (found, tally) = held(stand_in(F::None), &messages());
    assert_eq!(found, None);
    for missing in tally.not_reached() {
        let ours = missing.starts_with("mic ") || missing.starts_with("check_mic ");
        assert!(!ours, "{missing}");
    }
}

#[test]
fn each_fault_in_the_mic_is_found() {
    let messages = messages();
    for &fault in FAULTS {
        let (found, _) = held(stand_in(fault), &messages);
        let text = found.unwrap_or_else(|| panic!("{fault:?} is not found"));
        let told = ["DIFFERENT: mic ", "DIFFERENT: check_mic "]
            .iter()
            .any(|start| text.starts_with(start));
        assert!(told, "{fault:?}: {text}");
    }
}

#[test]
fn a_refusal_by_a_secret_is_found_without_the_reader() {
    let leaks = |call: &Call<'_>, out: &mut [u8], numbers: &mut [u64]| match *call {
        Call::CheckMic { key, .. } if key.first().is_some_and(|&byte| byte > 0x80) => {
            refused(56, 0)
        }
        _ => second(call, out, numbers),
    };
    let mut run = Run::new(leaks, 17);
    let sound = &messages()[0];
    for _ in 0..40 {
        run.mics(sound);
    }
    let told = |text: &str| text.starts_with("SECRETS TELL: check_mic ");
    let differences = &run.holder.differences;
    assert!(differences.iter().any(|found| told(&found.text)));
}

#[test]
fn a_byte_after_the_mic_is_found() {
    let (found, _) = held(
        |call: &Call<'_>, out: &mut [u8], numbers: &mut [u64]| {
            let answer = second(call, out, numbers);
            if let (Call::Mic { .. }, 0, Some(byte)) = (call, answer, out.get_mut(16)) {
                *byte = !*byte;
            }
            answer
        },
        &messages(),
    );
    let text = found.expect("a difference");
    assert!(
        text.starts_with("CHANGED MORE THAN IT WRITES: mic "),
        "{text}"
    );
}
