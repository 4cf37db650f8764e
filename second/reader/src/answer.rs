//! Answering a challenge: document 01, "Answering a challenge (004)".

use crate::challenge::Challenge;
use crate::flags::{CharacterSet, NegotiateFlags};
use crate::refusal::{Reason, Refusal};
use crate::write_authenticate::{write_authenticate, AuthenticateParts};

/// What the box demands of a challenge. "Settings and their defaults: 128-bit
/// demanded no, NTLMv2 yes, integrity no, confidentiality no." Request 7/12 on
/// the first: "The default becomes yes."
#[derive(Clone, Copy, Debug, PartialEq, Eq)]
pub struct Policy {
    /// 128-bit demanded
    pub require_128: bool,
    /// NTLMv2 is used
    pub ntlmv2: bool,
    /// Integrity wanted
    pub integrity: bool,
    /// Confidentiality wanted
    pub confidentiality: bool,
}

impl Default for Policy {
    fn default() -> Self {
        Self {
            require_128: true,
            ntlmv2: true,
            integrity: false,
            confidentiality: false,
        }
    }
}

/// Whom the box signs in as: "Version, user and workstation are the setting's.
/// The domain is the setting's" where it is not empty.
#[derive(Clone, Copy, Debug, Default)]
pub struct Account<'a> {
    /// Version
    pub version: [u8; 8],
    /// DomainName
    pub domain: &'a [u8],
    /// UserName
    pub user: &'a [u8],
    /// Workstation
    pub workstation: &'a [u8],
}

/// The settings of a box.
#[derive(Clone, Copy, Debug, Default)]
pub struct Settings<'a> {
    /// What it demands.
    pub policy: Policy,
    /// Whom it signs in as.
    pub account: Account<'a>,
}

impl<'a> Account<'a> {
    /// This account with the default policy, but for what it says of 128-bit.
    fn requiring_128(&self, require_128: bool) -> Settings<'a> {
        Settings {
            policy: Policy {
                require_128,
                ..Policy::default()
            },
            account: *self,
        }
    }

    /// This account with the default policy.
    fn by_default(&self) -> Settings<'a> {
        Settings {
            policy: Policy::default(),
            account: *self,
        }
    }
}

/// What the caller has worked out from the password.
#[derive(Clone, Copy, Debug, Default)]
pub struct Secrets<'a> {
    /// LmChallengeResponse
    pub lm: &'a [u8],
    /// NtChallengeResponse
    pub nt: &'a [u8],
    /// EncryptedRandomSessionKey
    pub key: &'a [u8],
    /// MIC
    pub mic: [u8; 16],
}

impl<'a> AuthenticateParts<'a> {
    /// The parts as they are given.
    pub const fn new(flags: NegotiateFlags, account: &Account<'a>, secrets: &Secrets<'a>) -> Self {
        Self {
            flags,
            version: account.version,
            mic: secrets.mic,
            lm: secrets.lm,
            nt: secrets.nt,
            domain: account.domain,
            user: account.user,
            workstation: account.workstation,
            key: secrets.key,
        }
    }
}

/// "The answer is the length written, Time and whether a MIC is due."
#[derive(Clone, Copy, Debug, PartialEq, Eq)]
pub struct Answer {
    /// The length of the message written.
    pub len: usize,
    /// Time, as a number.
    pub time: u64,
    /// Whether a MIC is due.
    pub mic_due: bool,
}

/// The domain to send, "a part of whichever of the two it came from".
#[derive(Clone, Copy, Debug, PartialEq, Eq)]
pub enum Domain<'a> {
    /// The setting's domain, which may be empty.
    Settings(&'a [u8]),
    /// The value of the challenge's first pair 2, which may be empty.
    Challenge(&'a [u8]),
}

impl<'a> Domain<'a> {
    /// The bytes to send.
    pub const fn bytes(self) -> &'a [u8] {
        match self {
            Self::Settings(bytes) | Self::Challenge(bytes) => bytes,
        }
    }
}

/// Answers `challenge` with an AUTHENTICATE message at the start of `out`.
/// Refuses by the reading, 20, 21, then the writing, with `out` unchanged.
pub fn answer(
    challenge: &[u8],
    settings: &Settings<'_>,
    clock: u64,
    secrets: &Secrets<'_>,
    out: &mut [u8],
) -> Result<Answer, Refusal> {
    let challenge = settings.policy.decide(challenge)?;

    // "With NTLMv2 and a timestamp pair, Time is that value and the LM
    // response written is 24 zero bytes; otherwise Time is the box's clock and
    // the LM response is the caller's."
    let timestamp = challenge.pairs.timestamp;
    let (time, lm) = match timestamp {
        Some(time) if settings.policy.ntlmv2 => (time, [0; 24].as_slice()),
        _ => (clock, secrets.lm),
    };
    // "A MIC is due exactly when a timestamp pair is there; if not due,
    // sixteen zeros are written for it."
    let mic_due = timestamp.is_some();
    let account = &settings.account;
    let parts = AuthenticateParts {
        mic: if mic_due { secrets.mic } else { [0; 16] },
        lm,
        domain: choose_domain(account.domain, Some(&challenge)).bytes(),
        // "Otherwise the key given is passed over and field 6 is empty."
        key: if challenge.flags.key_is_answered() {
            secrets.key
        } else {
            &[]
        },
        ..AuthenticateParts::new(challenge.flags, account, secrets)
    };
    let len = write_authenticate(&parts, out)?;
    Ok(Answer { len, time, mic_due })
}

impl Policy {
    /// The decision on a challenge: "reading, 20, 21"; otherwise the challenge
    /// that may be answered.
    pub fn decide<'a>(&self, challenge: &'a [u8]) -> Result<Challenge<'a>, Refusal> {
        let challenge = Challenge::read(challenge)?;
        self.check(&challenge)?;
        Ok(challenge)
    }

    /// Checks 20 and 21.
    fn check(&self, challenge: &Challenge<'_>) -> Result<(), Refusal> {
        if self.require_128 && !challenge.flags.bits_128() {
            return Err(Reason::No128Bit.of_message());
        }
        let names_wanted = self.ntlmv2 && (self.integrity || self.confidentiality);
        let both_there = challenge.pairs.computer.is_some() && challenge.pairs.domain.is_some();
        if names_wanted && !both_there {
            return Err(Reason::NoServerNames.of_message());
        }
        Ok(())
    }
}

/// The domain to send in answer to `challenge`, "a refused challenge having no
/// pair 2". It goes by the reading alone: checks 20 and 21 play no part.
pub fn domain_to_send<'a>(setting: &'a [u8], challenge: &'a [u8]) -> Domain<'a> {
    if !setting.is_empty() {
        return Domain::Settings(setting);
    }
    choose_domain(setting, Challenge::read(challenge).as_ref().ok())
}

/// "The domain is the setting's; if that is empty and UNICODE is set, it's the
/// challenge's first pair 2; if there is none, the empty part of the settings."
fn choose_domain<'a>(setting: &'a [u8], challenge: Option<&Challenge<'a>>) -> Domain<'a> {
    let pair = challenge
        .filter(|challenge| setting.is_empty() && challenge.set == CharacterSet::Unicode)
        .and_then(|challenge| challenge.pairs.domain);
    match pair {
        Some(pair) => Domain::Challenge(pair.value),
        None => Domain::Settings(setting),
    }
}

/// "Three thin calls use the defaults": for the bench, where since request 7/12
/// "the bench call takes yes or no from its caller".
pub fn answer_for_bench(
    challenge: &[u8],
    account: &Account<'_>,
    clock: u64,
    require_128: bool,
    secrets: &Secrets<'_>,
    out: &mut [u8],
) -> Result<Answer, Refusal> {
    let settings = account.requiring_128(require_128);
    answer(challenge, &settings, clock, secrets, out)
}

/// For old servers: "the old-server call now says no itself".
pub fn answer_for_old_servers(
    challenge: &[u8],
    account: &Account<'_>,
    clock: u64,
    secrets: &Secrets<'_>,
    out: &mut [u8],
) -> Result<Answer, Refusal> {
    let settings = account.requiring_128(false);
    answer(challenge, &settings, clock, secrets, out)
}

/// For the relay: "the relay call takes the new default".
pub fn answer_for_relay(
    challenge: &[u8],
    account: &Account<'_>,
    clock: u64,
    secrets: &Secrets<'_>,
    out: &mut [u8],
) -> Result<Answer, Refusal> {
    answer(challenge, &account.by_default(), clock, secrets, out)
}
