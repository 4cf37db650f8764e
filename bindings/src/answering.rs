//! Answering a CHALLENGE.

use core::fmt;

use crate::hidden::Hidden;
use crate::{place_mic, raw, written, Mic, Parts, Refusal};

/// What the box demands of a challenge.
#[derive(Clone, Copy, Debug, PartialEq, Eq, Hash)]
pub struct Settings {
    /// 128-bit demanded
    pub demand_128: bool,
    /// NTLMv2 is used
    pub ntlmv2: bool,
    /// Integrity wanted
    pub integrity: bool,
    /// Confidentiality wanted
    pub confidentiality: bool,
}

impl Default for Settings {
    fn default() -> Self {
        Self {
            demand_128: true,
            ntlmv2: true,
            integrity: false,
            confidentiality: false,
        }
    }
}

impl Settings {
    fn bits(self) -> u32 {
        let settings = [
            (self.demand_128, raw::DEMAND_128),
            (self.ntlmv2, raw::NTLMV2),
            (self.integrity, raw::INTEGRITY),
            (self.confidentiality, raw::CONFIDENTIALITY),
        ];
        let set = settings.iter().filter(|(wanted, _)| *wanted);
        set.fold(0, |bits, (_, bit)| bits | bit)
    }
}

/// The decision to answer a challenge.
#[derive(Clone, Copy, Debug, PartialEq, Eq, Hash)]
pub struct Decision {
    /// The challenge's flags.
    pub flags: u32,
    /// The challenge's timestamp, where it has one. It is the response's Time only
    /// where the settings have NTLMv2; else that is the clock.
    pub timestamp: Option<u64>,
}

impl Decision {
    /// The Time that the response is worked out over: the timestamp where one is there
    /// and the settings have NTLMv2, else the clock.
    pub const fn time(self, settings: Settings, clock: u64) -> u64 {
        match self.timestamp {
            Some(timestamp) if settings.ntlmv2 => timestamp,
            _ => clock,
        }
    }
}

/// Decides on a challenge: reading, 20, 21.
pub fn decide(settings: Settings, challenge: &[u8]) -> Result<Decision, Refusal> {
    let mut numbers = [0; raw::DECISION_NUMBERS];
    Refusal::check(raw::decide(settings.bits(), challenge, &mut numbers))?;
    let [flags, there, timestamp] = numbers;
    Ok(Decision {
        flags: flags as u32,
        timestamp: (there != 0).then_some(timestamp),
    })
}

/// Copies the domain to send: `own`, or where that is empty and UNICODE is set,
/// the challenge's first pair 2.
pub fn domain_to_send<'a>(
    own: &[u8],
    challenge: &[u8],
    out: &'a mut [u8],
) -> Result<&'a [u8], Refusal> {
    written(raw::domain_to_send(own, challenge, out), out)
}

/// Writes the pair list that goes back in the answer: the challenge's pairs
/// without its 9 and 10, the bits of the flags pair that a timestamp and a name
/// marked unverified ask for, then `bindings` as pair 10 and the name as pair 9.
/// An empty name is no name. Where the challenge has no pair list, the end pair
/// alone is written.
pub fn write_response_pairs<'a>(
    out: &'a mut [u8],
    challenge: &[u8],
    target_name: &[u8],
    unverified: bool,
    bindings: &[u8; 16],
) -> Result<&'a [u8], Refusal> {
    let mark = u32::from(unverified);
    let answer = raw::write_response_pairs(out, challenge, target_name, mark, bindings);
    written(answer, out)
}

/// The answer to a challenge. `{:?}` shows the message's length alone.
#[derive(PartialEq, Eq)]
pub struct Answer<'a> {
    /// The AUTHENTICATE message.
    pub message: &'a mut [u8],
    /// The server's timestamp, or the clock.
    pub time: u64,
    /// Whether a MIC is due: then [`Answer::place_mic`] before it is sent.
    pub mic_due: bool,
}

impl fmt::Debug for Answer<'_> {
    fn fmt(&self, f: &mut fmt::Formatter<'_>) -> fmt::Result {
        f.debug_struct("Answer")
            .field("message", &Hidden::of(self.message))
            .field("time", &self.time)
            .field("mic_due", &self.mic_due)
            .finish()
    }
}

impl<'a> Answer<'a> {
    /// Puts a MIC at its place in the message, as [`place_mic`] does.
    pub fn place_mic(&mut self, mic: &Mic) -> Result<(), Refusal> {
        place_mic(self.message, mic)
    }

    fn of(
        answer: u64,
        numbers: [u64; raw::RESPONSE_NUMBERS],
        out: &'a mut [u8],
    ) -> Result<Self, Refusal> {
        let len = Refusal::check(answer)? as usize;
        let [time, mic_due] = numbers;
        Ok(Self {
            message: out.get_mut(..len).unwrap_or_default(),
            time,
            mic_due: mic_due != 0,
        })
    }
}

/// Writes the AUTHENTICATE message that answers a challenge.
pub fn respond<'a>(
    out: &'a mut [u8],
    challenge: &[u8],
    settings: Settings,
    clock: u64,
    parts: &Parts<'_>,
) -> Result<Answer<'a>, Refusal> {
    let mut numbers = [0; raw::RESPONSE_NUMBERS];
    let bits = settings.bits();
    let answer = raw::respond(out, challenge, bits, clock, parts, &mut numbers);
    Answer::of(answer, numbers, out)
}

macro_rules! thin_calls {
    ($($(#[$doc:meta])* $name:ident;)*) => {$(
        $(#[$doc])*
        pub fn $name<'a>(
            out: &'a mut [u8],
            challenge: &[u8],
            clock: u64,
            parts: &Parts<'_>,
        ) -> Result<Answer<'a>, Refusal> {
            let mut numbers = [0; raw::RESPONSE_NUMBERS];
            let answer = raw::$name(out, challenge, clock, parts, &mut numbers);
            Answer::of(answer, numbers, out)
        }
    )*};
}

/// Answers with the default settings, for the bench, which says whether 128-bit
/// is demanded.
pub fn respond_for_bench<'a>(
    out: &'a mut [u8],
    challenge: &[u8],
    clock: u64,
    demand_128: bool,
    parts: &Parts<'_>,
) -> Result<Answer<'a>, Refusal> {
    let mut numbers = [0; raw::RESPONSE_NUMBERS];
    let demand_128 = u32::from(demand_128);
    let answer = raw::respond_for_bench(out, challenge, clock, demand_128, parts, &mut numbers);
    Answer::of(answer, numbers, out)
}

thin_calls! {
    /// Answers with the default settings, but without the demand for 128-bit,
    /// for old servers.
    respond_to_old_server;
    /// Answers with the default settings, for the relay.
    respond_for_relay;
}
