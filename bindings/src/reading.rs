//! Reading messages.

use core::fmt;

use crate::hidden::Hidden;
use crate::{raw, Mic, Refusal};

/// Where a field stands in its message, and its MaxLen. One that is empty or
/// doesn't count has length 0 at offset 0.
#[derive(Clone, Copy, Debug, Default, PartialEq, Eq, Hash)]
pub struct Field {
    /// From the start of the message.
    pub offset: u32,
    /// How many bytes.
    pub len: u16,
    /// MaxLen as the field's head has it, also of an empty field; 0 of one that
    /// doesn't count. Nothing is decided by it.
    pub max_len: u16,
}

impl Field {
    /// The library's numbers for a field are inside a message of 65,535 bytes.
    const fn of(offset: u64, len: u64, max_len: u64) -> Self {
        Self {
            offset: offset as u32,
            len: len as u16,
            max_len: max_len as u16,
        }
    }

    /// Whether the field has no bytes.
    pub const fn is_empty(self) -> bool {
        self.len == 0
    }

    /// The field's own bytes in the message that it was read from; none of a
    /// message that it doesn't fit.
    pub fn bytes(self, message: &[u8]) -> &[u8] {
        let start = self.offset as usize;
        let end = start.saturating_add(usize::from(self.len));
        message.get(start..end).unwrap_or_default()
    }

    /// Copies the field's own bytes to the start of `out`. A nonempty field
    /// that ends past this message, so that it is no field of it, is refused 6.
    pub fn copy<'a>(self, message: &[u8], out: &'a mut [u8]) -> Result<&'a [u8], Refusal> {
        crate::written(raw::field_bytes(message, self.offset, self.len, out), out)
    }
}

/// An AUTHENTICATE message: where its fields stand, and its MIC, which [`Mic`] keeps
/// out of `{:?}`.
#[derive(Clone, Copy, Debug, Default, PartialEq, Eq)]
pub struct Authenticate {
    /// NegotiateFlags
    pub flags: u32,
    /// The MIC, where it is present.
    pub mic: Option<Mic>,
    /// LmChallengeResponse
    pub lm: Field,
    /// NtChallengeResponse
    pub nt: Field,
    /// DomainName
    pub domain: Field,
    /// UserName
    pub user: Field,
    /// Workstation
    pub workstation: Field,
    /// EncryptedRandomSessionKey, empty without KEY_EXCH.
    pub key: Field,
}

/// Reads an AUTHENTICATE message.
pub fn read_authenticate(message: &[u8]) -> Result<Authenticate, Refusal> {
    let mut numbers = [0; raw::AUTHENTICATE_NUMBERS];
    let mut mic = [0; 16];
    Refusal::check(raw::read_authenticate(message, &mut numbers, &mut mic))?;
    let [flags, mic_present, fields @ ..] = numbers;
    let [lm_offset, lm_len, nt_offset, nt_len, domain_offset, domain_len, names @ ..] = fields;
    let [user_offset, user_len, workstation_offset, workstation_len, key_offset, key_len, max_lens @ ..] =
        names;
    let [lm_max, nt_max, domain_max, user_max, workstation_max, key_max] = max_lens;
    Ok(Authenticate {
        flags: flags as u32,
        mic: (mic_present != 0).then_some(Mic(mic)),
        lm: Field::of(lm_offset, lm_len, lm_max),
        nt: Field::of(nt_offset, nt_len, nt_max),
        domain: Field::of(domain_offset, domain_len, domain_max),
        user: Field::of(user_offset, user_len, user_max),
        workstation: Field::of(workstation_offset, workstation_len, workstation_max),
        key: Field::of(key_offset, key_len, key_max),
    })
}

/// A CHALLENGE message. `{:?}` shows the length of the server's challenge alone.
#[derive(Clone, Copy, Default, PartialEq, Eq)]
pub struct Challenge {
    /// NegotiateFlags
    pub flags: u32,
    /// ServerChallenge
    pub server_challenge: [u8; 8],
    /// TargetName, empty without REQUEST_TARGET.
    pub target_name: Field,
    /// TargetInfo, empty without TARGET_INFO. Its bytes are a pair list.
    pub target_info: Field,
}

impl fmt::Debug for Challenge {
    fn fmt(&self, f: &mut fmt::Formatter<'_>) -> fmt::Result {
        f.debug_struct("Challenge")
            .field("flags", &self.flags)
            .field("server_challenge", &Hidden::of(&self.server_challenge))
            .field("target_name", &self.target_name)
            .field("target_info", &self.target_info)
            .finish()
    }
}

/// Reads a CHALLENGE message.
pub fn read_challenge(message: &[u8]) -> Result<Challenge, Refusal> {
    let mut numbers = [0; raw::CHALLENGE_NUMBERS];
    let mut server_challenge = [0; 8];
    let answer = raw::read_challenge(message, &mut numbers, &mut server_challenge);
    Refusal::check(answer)?;
    let [flags, name_offset, name_len, info_offset, info_len, name_max, info_max] = numbers;
    Ok(Challenge {
        flags: flags as u32,
        server_challenge,
        target_name: Field::of(name_offset, name_len, name_max),
        target_info: Field::of(info_offset, info_len, info_max),
    })
}

/// The first timestamp pair of a CHALLENGE, where it has one.
pub fn read_timestamp(message: &[u8]) -> Result<Option<u64>, Refusal> {
    let mut numbers = [0; raw::TIMESTAMP_NUMBERS];
    Refusal::check(raw::read_timestamp(message, &mut numbers))?;
    let [there, time] = numbers;
    Ok((there != 0).then_some(time))
}

/// Which of the server's NetBIOS names a CHALLENGE has.
#[derive(Clone, Copy, Debug, Default, PartialEq, Eq, Hash)]
pub struct ServerNames {
    /// Pair 1 is there.
    pub nb_computer: bool,
    /// Pair 2 is there.
    pub nb_domain: bool,
}

/// Whether a CHALLENGE has pairs 1 and 2.
pub fn read_server_names(message: &[u8]) -> Result<ServerNames, Refusal> {
    let mut numbers = [0; raw::SERVER_NAMES_NUMBERS];
    Refusal::check(raw::read_server_names(message, &mut numbers))?;
    let [nb_computer, nb_domain] = numbers;
    Ok(ServerNames {
        nb_computer: nb_computer != 0,
        nb_domain: nb_domain != 0,
    })
}

/// A NEGOTIATE message. Its names are bytes, also where UNICODE is set.
#[derive(Clone, Copy, Debug, Default, PartialEq, Eq)]
pub struct Negotiate {
    /// NegotiateFlags
    pub flags: u32,
    /// DomainName, empty without OEM_DOMAIN_SUPPLIED.
    pub domain: Field,
    /// Workstation, empty without OEM_WORKSTATION_SUPPLIED.
    pub workstation: Field,
}

/// Reads a NEGOTIATE message.
pub fn read_negotiate(message: &[u8]) -> Result<Negotiate, Refusal> {
    let mut numbers = [0; raw::NEGOTIATE_NUMBERS];
    Refusal::check(raw::read_negotiate(message, &mut numbers))?;
    let [flags, domain_offset, domain_len, workstation_offset, workstation_len, max_lens @ ..] =
        numbers;
    let [domain_max, workstation_max] = max_lens;
    Ok(Negotiate {
        flags: flags as u32,
        domain: Field::of(domain_offset, domain_len, domain_max),
        workstation: Field::of(workstation_offset, workstation_len, workstation_max),
    })
}

/// A string of an NL_AUTH request. A and B are bytes; C, D and E are names of
/// RFC 1035, whose text [`crate::nl_auth_name`] gives.
#[derive(Clone, Copy, Debug, Default, PartialEq, Eq, Hash)]
pub struct NlAuthString {
    /// From the start of the message.
    pub offset: u32,
    /// How many bytes of its own: those of a name run to where the next string
    /// starts, and hold its zero byte or its first jump.
    pub len: u16,
    /// How many jumps the name takes: 0 to 16, and 0 for A and B.
    pub jumps: u8,
}

impl NlAuthString {
    /// The library's numbers for a string are inside a message of 65,535 bytes.
    const fn of(offset: u64, len: u64, jumps: u64) -> Self {
        Self {
            offset: offset as u32,
            len: len as u16,
            jumps: jumps as u8,
        }
    }

    /// The string's own bytes in the message that it was read from; none of a
    /// message that it doesn't fit.
    pub fn bytes(self, message: &[u8]) -> &[u8] {
        self.field().bytes(message)
    }

    /// Copies the string's own bytes; see [`Field::copy`].
    pub fn copy<'a>(self, message: &[u8], out: &'a mut [u8]) -> Result<&'a [u8], Refusal> {
        self.field().copy(message, out)
    }

    const fn field(self) -> Field {
        Field {
            offset: self.offset,
            len: self.len,
            max_len: 0,
        }
    }
}

/// An NL_AUTH message.
#[derive(Clone, Copy, Debug, PartialEq, Eq)]
pub enum NlAuth {
    /// A negotiate request.
    Request {
        /// Bits A to E.
        flags: u32,
        /// The strings of bits A to E, none under a clear bit.
        strings: [Option<NlAuthString>; 5],
    },
    /// A negotiate response.
    Response,
}

/// Reads an NL_AUTH message.
pub fn read_nl_auth(message: &[u8]) -> Result<NlAuth, Refusal> {
    let mut numbers = [0; raw::NL_AUTH_NUMBERS];
    Refusal::check(raw::read_nl_auth(message, &mut numbers))?;
    let [message_type, flags, strings @ ..] = numbers;
    if message_type != 0 {
        return Ok(NlAuth::Response);
    }
    let [a_offset, a_len, b_offset, b_len, names @ ..] = strings;
    let [c_offset, c_len, d_offset, d_len, e_offset, e_len, c_jumps, d_jumps, e_jumps] = names;
    let under = |bit: u32, offset, len, jumps| {
        (flags >> bit & 1 == 1).then(|| NlAuthString::of(offset, len, jumps))
    };
    Ok(NlAuth::Request {
        flags: flags as u32,
        strings: [
            under(0, a_offset, a_len, 0),
            under(1, b_offset, b_len, 0),
            under(2, c_offset, c_len, c_jumps),
            under(3, d_offset, d_len, d_jumps),
            under(4, e_offset, e_len, e_jumps),
        ],
    })
}

/// The text of one string of an NL_AUTH message, as its line shows it, at the
/// start of `out`: the labels of a name joined with full stops. `which` is the
/// string's number, A = 1 to E = 5; one that isn't there, and any other number,
/// has an empty text.
pub fn nl_auth_name<'a>(
    message: &[u8],
    which: u32,
    out: &'a mut [u8],
) -> Result<&'a [u8], Refusal> {
    crate::written(raw::nl_auth_name(message, which, out), out)
}
