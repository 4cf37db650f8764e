//! The calls of `include/dialtable.h`, each with what it is given.

use std::fmt::{self, Write};

use reader::{Account, Secrets, SignIn};

use super::night::{Place, WORDS};
use crate::hex::Hex;

/// What an AUTHENTICATE message is written from, beside its flags.
#[derive(Clone, Copy, Debug)]
pub struct Parts<'a> {
    pub version: &'a [u8; 8],
    pub mic: &'a [u8; 16],
    pub lm: &'a [u8],
    pub nt: &'a [u8],
    pub domain: &'a [u8],
    pub user: &'a [u8],
    pub workstation: &'a [u8],
    pub key: &'a [u8],
}

/// The calls that give a line, or the lines of a message's checks.
#[derive(Clone, Copy, Debug, PartialEq, Eq)]
pub enum Line {
    Authenticate,
    Challenge,
    Negotiate,
    NlAuth,
    Ntlm,
    NtlmProgram,
    NlAuthProgram,
    Explain,
}

impl Line {
    pub const ALL: [Self; 8] = [
        Self::Authenticate,
        Self::Challenge,
        Self::Negotiate,
        Self::NlAuth,
        Self::Ntlm,
        Self::NtlmProgram,
        Self::NlAuthProgram,
        Self::Explain,
    ];

    const fn index(self) -> usize {
        match self {
            Self::Authenticate => const { place_of("authenticate_line") },
            Self::Challenge => const { place_of("challenge_line") },
            Self::Negotiate => const { place_of("negotiate_line") },
            Self::NlAuth => const { place_of("nl_auth_line") },
            Self::Ntlm => const { place_of("ntlm_line") },
            Self::NtlmProgram => const { place_of("ntlm_program_line") },
            Self::NlAuthProgram => const { place_of("nl_auth_program_line") },
            Self::Explain => const { place_of("explain") },
        }
    }
}

/// The calls that answer a challenge without the caller's settings.
#[derive(Clone, Copy, Debug, PartialEq, Eq)]
pub enum Thin {
    ForBench { demand_128: u32 },
    ToOldServer,
    ForRelay,
}

/// The calls that answer a challenge: the full one, and a thin one.
#[derive(Clone, Copy, Debug, PartialEq, Eq)]
pub enum Respond {
    With { settings: u32 },
    Thin(Thin),
}

impl Respond {
    /// Every thin call, the bench's without and with a demand.
    pub fn thin(demand_128: u32) -> [Self; 4] {
        let bench = |demand_128| Thin::ForBench { demand_128 };
        [
            bench(0),
            bench(demand_128),
            Thin::ToOldServer,
            Thin::ForRelay,
        ]
        .map(Self::Thin)
    }

    const fn index(self) -> usize {
        match self {
            Self::With { .. } => const { place_of("respond") },
            Self::Thin(Thin::ForBench { .. }) => const { place_of("respond_for_bench") },
            Self::Thin(Thin::ToOldServer) => const { place_of("respond_to_old_server") },
            Self::Thin(Thin::ForRelay) => const { place_of("respond_for_relay") },
        }
    }
}

/// A call and its inputs. Its outputs are lent beside it: bytes (a line, a
/// message, a MIC or a server challenge) and numbers.
#[derive(Clone, Copy, Debug)]
pub enum Call<'a> {
    ReadAuthenticate {
        message: &'a [u8],
    },
    ReadChallenge {
        message: &'a [u8],
    },
    ReadTimestamp {
        message: &'a [u8],
    },
    ReadServerNames {
        message: &'a [u8],
    },
    ReadNegotiate {
        message: &'a [u8],
    },
    ReadNlAuth {
        message: &'a [u8],
    },
    NlAuthName {
        message: &'a [u8],
        which: u32,
    },
    FieldBytes {
        message: &'a [u8],
        offset: u32,
        len: u16,
    },
    CheckPairs {
        list: &'a [u8],
    },
    CountPairs {
        list: &'a [u8],
    },
    FindPair {
        list: &'a [u8],
        id: u16,
    },
    NextPair {
        list: &'a [u8],
        at: usize,
    },
    Line {
        line: Line,
        message: &'a [u8],
    },
    CheckMessages {
        buffer: &'a [u8],
        places: &'a [Place],
    },
    WriteAuthenticate {
        flags: u32,
        parts: Parts<'a>,
    },
    WriteNegotiate {
        flags: u32,
        version: &'a [u8; 8],
        domain: &'a [u8],
        workstation: &'a [u8],
    },
    WriteNlAuthRequest {
        flags: u32,
        strings: [&'a [u8]; 5],
    },
    WriteNlAuthResponse,
    WriteResponsePairs {
        challenge: &'a [u8],
        target_name: &'a [u8],
        unverified: u32,
        bindings: &'a [u8; 16],
    },
    Decide {
        settings: u32,
        challenge: &'a [u8],
    },
    DomainToSend {
        own: &'a [u8],
        challenge: &'a [u8],
    },
    Respond {
        how: Respond,
        challenge: &'a [u8],
        clock: u64,
        parts: Parts<'a>,
    },
    CanonicalAuthenticate {
        message: &'a [u8],
    },
    ExportHeader {
        message: &'a [u8],
    },
    ImportHeader {
        text: &'a [u8],
    },
    Mic {
        key: &'a [u8],
        messages: SignIn<'a>,
    },
    CheckMic {
        key: &'a [u8],
        messages: SignIn<'a>,
    },
}

/// The names of the calls, without `dialtable_`, by [`Call::index`].
pub const NAMES: [&str; 37] = [
    "read_authenticate",
    "read_challenge",
    "read_timestamp",
    "read_server_names",
    "read_negotiate",
    "read_nl_auth",
    "nl_auth_name",
    "field_bytes",
    "check_pairs",
    "count_pairs",
    "find_pair",
    "next_pair",
    "authenticate_line",
    "challenge_line",
    "negotiate_line",
    "nl_auth_line",
    "ntlm_line",
    "ntlm_program_line",
    "nl_auth_program_line",
    "explain",
    "check_messages",
    "write_authenticate",
    "write_negotiate",
    "write_nl_auth_request",
    "write_nl_auth_response",
    "write_response_pairs",
    "decide",
    "domain_to_send",
    "respond",
    "respond_for_bench",
    "respond_to_old_server",
    "respond_for_relay",
    "canonical_authenticate",
    "export_header",
    "import_header",
    "mic",
    "check_mic",
];

/// Where a name stands among [`NAMES`]. One that isn't there doesn't compile.
const fn place_of(name: &str) -> usize {
    let mut at = 0;
    while !same(NAMES[at].as_bytes(), name.as_bytes()) {
        at += 1;
    }
    at
}

/// Whether two names are the same, worked out while compiling.
const fn same(one: &[u8], two: &[u8]) -> bool {
    match (one, two) {
        ([], []) => true,
        ([a, one @ ..], [b, two @ ..]) => *a == *b && same(one, two),
        _ => false,
    }
}

impl Call<'_> {
    /// Which of [`NAMES`] it is.
    pub const fn index(&self) -> usize {
        match self {
            Self::ReadAuthenticate { .. } => const { place_of("read_authenticate") },
            Self::ReadChallenge { .. } => const { place_of("read_challenge") },
            Self::ReadTimestamp { .. } => const { place_of("read_timestamp") },
            Self::ReadServerNames { .. } => const { place_of("read_server_names") },
            Self::ReadNegotiate { .. } => const { place_of("read_negotiate") },
            Self::ReadNlAuth { .. } => const { place_of("read_nl_auth") },
            Self::NlAuthName { .. } => const { place_of("nl_auth_name") },
            Self::FieldBytes { .. } => const { place_of("field_bytes") },
            Self::CheckPairs { .. } => const { place_of("check_pairs") },
            Self::CountPairs { .. } => const { place_of("count_pairs") },
            Self::FindPair { .. } => const { place_of("find_pair") },
            Self::NextPair { .. } => const { place_of("next_pair") },
            Self::Line { line, .. } => line.index(),
            Self::CheckMessages { .. } => const { place_of("check_messages") },
            Self::WriteAuthenticate { .. } => const { place_of("write_authenticate") },
            Self::WriteNegotiate { .. } => const { place_of("write_negotiate") },
            Self::WriteNlAuthRequest { .. } => const { place_of("write_nl_auth_request") },
            Self::WriteNlAuthResponse => const { place_of("write_nl_auth_response") },
            Self::WriteResponsePairs { .. } => const { place_of("write_response_pairs") },
            Self::Decide { .. } => const { place_of("decide") },
            Self::DomainToSend { .. } => const { place_of("domain_to_send") },
            Self::Respond { how, .. } => how.index(),
            Self::CanonicalAuthenticate { .. } => const { place_of("canonical_authenticate") },
            Self::ExportHeader { .. } => const { place_of("export_header") },
            Self::ImportHeader { .. } => const { place_of("import_header") },
            Self::Mic { .. } => const { place_of("mic") },
            Self::CheckMic { .. } => const { place_of("check_mic") },
        }
    }

    pub const fn name(&self) -> &'static str {
        NAMES[self.index()]
    }

    /// How many numbers it gives.
    pub const fn numbers(&self) -> usize {
        match self {
            Self::ReadAuthenticate { .. } => 20,
            Self::ReadChallenge { .. } | Self::ReadNegotiate { .. } => 7,
            Self::ReadTimestamp { .. } | Self::ReadServerNames { .. } => 2,
            Self::ReadNlAuth { .. } => 15,
            Self::CountPairs { .. } => 1,
            Self::FindPair { .. } | Self::Decide { .. } => 3,
            Self::NextPair { .. } => 5,
            Self::Respond { .. } => 2,
            // Its entries lie in them.
            Self::CheckMessages { places, .. } => WORDS * places.len(),
            _ => 0,
        }
    }

    /// The bytes that a reading gives beside its numbers: MIC or server
    /// challenge; and those of a MIC that is worked out.
    pub const fn array(&self) -> Option<usize> {
        match self {
            Self::ReadAuthenticate { .. } | Self::Mic { .. } => Some(16),
            Self::ReadChallenge { .. } => Some(8),
            _ => None,
        }
    }

    /// How many bytes of its output a call that gave `answer`, and did not
    /// refuse, has written.
    pub fn written(&self, answer: u64) -> usize {
        self.array()
            .unwrap_or(usize::try_from(answer).unwrap_or(usize::MAX))
    }

    /// Whether two answers to it, given other secrets, must be the same. Whether a
    /// MIC is right depends on secrets; that it is refused does not.
    pub fn alike(&self, one: u64, two: u64) -> bool {
        let answered = |answer| refusal(answer).is_none();
        let free = matches!(self, Self::CheckMic { .. });
        one == two || free && answered(one) && answered(two)
    }

    /// The other inputs.
    fn settings(&self) -> String {
        match self {
            Self::NlAuthName { which, .. } => format!(" which={which}"),
            Self::FieldBytes { offset, len, .. } => format!(" offset={offset} len={len}"),
            Self::FindPair { id, .. } => format!(" id={id}"),
            Self::NextPair { at, .. } => format!(" at={at}"),
            Self::CheckMessages { places, .. } => {
                let shown = places.iter().map(|place| {
                    let Place {
                        start,
                        length,
                        mark,
                    } = place;
                    format!(" {start}+{length}:{mark:X}")
                });
                shown.collect()
            }
            Self::WriteAuthenticate { flags, .. }
            | Self::WriteNegotiate { flags, .. }
            | Self::WriteNlAuthRequest { flags, .. } => format!(" flags={flags:08X}"),
            Self::WriteResponsePairs { unverified, .. } => format!(" unverified={unverified:X}"),
            Self::Decide { settings, .. } => format!(" settings={settings:X}"),
            Self::Respond { how, clock, .. } => match how {
                Respond::With { settings } => format!(" settings={settings:X} clock={clock:016X}"),
                Respond::Thin(Thin::ForBench { demand_128 }) => {
                    format!(" clock={clock:016X} demand_128={demand_128:X}")
                }
                _ => format!(" clock={clock:016X}"),
            },
            _ => String::new(),
        }
    }
}

impl<'a> Parts<'a> {
    pub const fn account(&self) -> Account<'a> {
        Account {
            version: *self.version,
            domain: self.domain,
            user: self.user,
            workstation: self.workstation,
        }
    }

    pub const fn secrets(&self) -> Secrets<'a> {
        Secrets {
            lm: self.lm,
            nt: self.nt,
            key: self.key,
            mic: *self.mic,
        }
    }

    /// These parts with other secrets: LM response, NT response and key.
    pub const fn with_secrets(self, secrets: &'a [Vec<u8>; 3], mic: &'a [u8; 16]) -> Self {
        let [lm, nt, key] = secrets;
        Self {
            lm: lm.as_slice(),
            nt: nt.as_slice(),
            key: key.as_slice(),
            mic,
            ..self
        }
    }
}

/// The inputs, whole and in hex.
impl fmt::Display for Call<'_> {
    fn fmt(&self, f: &mut fmt::Formatter<'_>) -> fmt::Result {
        write!(f, "{}{}", self.name(), self.settings())?;
        for (name, bytes) in self.inputs() {
            f.write_char(' ')?;
            write!(f, "{name}={}", Hex(bytes))?;
        }
        Ok(())
    }
}

/// The farthest place that an answer has room for, in bits 16 to 62. What lies
/// farther is shown as this one.
pub const FARTHEST: u64 = (1 << 47) - 1;

/// The answer of a refusal with place 0: the highest bit, the number in bits 8 to
/// 15 and the field in bits 0 to 7.
pub const fn refused(number: u8, field: u8) -> u64 {
    refused_at(number, field, 0)
}

/// The answer of a refusal with its place.
pub const fn refused_at(number: u8, field: u8, place: usize) -> u64 {
    let place = if (place as u64) < FARTHEST {
        place as u64
    } else {
        FARTHEST
    };
    1 << 63 | place << 16 | (number as u64) << 8 | field as u64
}

/// The place of a refusal.
pub const fn place(answer: u64) -> u64 {
    answer >> 16 & FARTHEST
}

/// The number and the field of a refusal.
pub const fn refusal(answer: u64) -> Option<(u8, u8)> {
    let [field, number, ..] = answer.to_le_bytes();
    if answer >> 63 == 1 {
        Some((number, field))
    } else {
        None
    }
}
