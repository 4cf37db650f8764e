//! The calls of `include/dialtable.h` as they are: slices and numbers in, one
//! number out. A refusal is a number too, and an array that is too short is
//! refused 33. Everything `unsafe` stands here.
//!
//! Each call is sound for the same reason: a slice is memory of its length
//! that is lent until the call ends, a `&mut` one overlaps no other, and the
//! library touches only what it is lent.

use core::borrow::Borrow;
use core::fmt;

use crate::hidden::Hidden;

/// How many numbers [`read_authenticate`] gives.
pub const AUTHENTICATE_NUMBERS: usize = 20;
/// How many numbers [`read_challenge`] gives.
pub const CHALLENGE_NUMBERS: usize = 7;
/// How many numbers [`read_timestamp`] gives.
pub const TIMESTAMP_NUMBERS: usize = 2;
/// How many numbers [`read_server_names`] gives.
pub const SERVER_NAMES_NUMBERS: usize = 2;
/// How many numbers [`read_negotiate`] gives.
pub const NEGOTIATE_NUMBERS: usize = 7;
/// How many numbers [`read_nl_auth`] gives.
pub const NL_AUTH_NUMBERS: usize = 15;
/// How many numbers [`count_pairs`] gives.
pub const COUNT_NUMBERS: usize = 1;
/// How many numbers [`find_pair`] gives.
pub const FOUND_NUMBERS: usize = 3;
/// How many numbers [`next_pair`] gives.
pub const NEXT_NUMBERS: usize = 5;
/// How many numbers [`decide`] gives.
pub const DECISION_NUMBERS: usize = 3;
/// How many numbers [`respond`] and its three thin calls give.
pub const RESPONSE_NUMBERS: usize = 2;

/// Room that suffices for every print of [`explain`].
pub const EXPLAIN_ROOM: usize = 322;

/// The setting "128-bit demanded".
pub const DEMAND_128: u32 = 1;
/// The setting "NTLMv2".
pub const NTLMV2: u32 = 2;
/// The setting "integrity wanted".
pub const INTEGRITY: u32 = 4;
/// The setting "confidentiality wanted".
pub const CONFIDENTIALITY: u32 = 8;

/// What an AUTHENTICATE message is written from, beside its flags. `{:?}` shows lengths
/// alone. The calls of this module also take Version and MIC lent where they stand, as
/// `&[u8; 8]` and `&[u8; 16]`.
#[derive(Clone, Copy)]
pub struct Parts<'a, V = [u8; 8], M = [u8; 16]> {
    /// Version, written where the flags have VERSION.
    pub version: V,
    /// MIC
    pub mic: M,
    /// LmChallengeResponse
    pub lm: &'a [u8],
    /// NtChallengeResponse
    pub nt: &'a [u8],
    /// DomainName
    pub domain: &'a [u8],
    /// UserName
    pub user: &'a [u8],
    /// Workstation
    pub workstation: &'a [u8],
    /// EncryptedRandomSessionKey
    pub key: &'a [u8],
}

/// A message of a night's buffer and room for its answer, laid out as the header
/// has it.
#[derive(Clone, Copy, Debug, Default, PartialEq, Eq, Hash)]
#[repr(C)]
pub struct Entry {
    /// Where the message begins in the buffer.
    pub start: u64,
    /// How many bytes it has.
    pub length: u64,
    /// As which kind it is read: 1 NEGOTIATE, 2 CHALLENGE, 3 AUTHENTICATE.
    pub mark: u32,
    /// The refusal's number, 0 for a message that is taken.
    pub number: u32,
    /// The refusal's field.
    pub field: u32,
    /// The refusal's place, from the start of the message.
    pub place: u32,
}

/// The three messages of a sign-in. `{:?}` shows lengths alone.
#[derive(Clone, Copy, Default)]
pub struct SignIn<'a> {
    /// NEGOTIATE
    pub negotiate: &'a [u8],
    /// CHALLENGE
    pub challenge: &'a [u8],
    /// AUTHENTICATE
    pub authenticate: &'a [u8],
}

impl Default for Parts<'_> {
    fn default() -> Self {
        Self {
            version: [0; 8],
            mic: [0; 16],
            lm: &[],
            nt: &[],
            domain: &[],
            user: &[],
            workstation: &[],
            key: &[],
        }
    }
}

impl<V: Borrow<[u8; 8]>, M: Borrow<[u8; 16]>> Parts<'_, V, M> {
    fn version(&self) -> &[u8; 8] {
        self.version.borrow()
    }

    fn mic(&self) -> &[u8; 16] {
        self.mic.borrow()
    }
}

impl<V: Borrow<[u8; 8]>, M: Borrow<[u8; 16]>> fmt::Debug for Parts<'_, V, M> {
    fn fmt(&self, f: &mut fmt::Formatter<'_>) -> fmt::Result {
        f.debug_struct("Parts")
            .field("version", &Hidden::of(self.version()))
            .field("mic", &Hidden::of(self.mic()))
            .field("lm", &Hidden::of(self.lm))
            .field("nt", &Hidden::of(self.nt))
            .field("domain", &Hidden::of(self.domain))
            .field("user", &Hidden::of(self.user))
            .field("workstation", &Hidden::of(self.workstation))
            .field("key", &Hidden::of(self.key))
            .finish()
    }
}

impl fmt::Debug for SignIn<'_> {
    fn fmt(&self, f: &mut fmt::Formatter<'_>) -> fmt::Result {
        f.debug_struct("SignIn")
            .field("negotiate", &Hidden::of(self.negotiate))
            .field("challenge", &Hidden::of(self.challenge))
            .field("authenticate", &Hidden::of(self.authenticate))
            .finish()
    }
}

/// The declarations of the header, in its order and layout.
#[rustfmt::skip]
mod c {
    extern "C" {
        pub fn dialtable_read_authenticate(msg: *const u8, msg_len: usize, numbers: *mut u64, numbers_len: usize,
                                           mic: *mut u8, mic_len: usize) -> u64;
        pub fn dialtable_read_challenge(msg: *const u8, msg_len: usize, numbers: *mut u64, numbers_len: usize,
                                        server_challenge: *mut u8, server_challenge_len: usize) -> u64;
        pub fn dialtable_read_timestamp(msg: *const u8, msg_len: usize, numbers: *mut u64, numbers_len: usize) -> u64;
        pub fn dialtable_read_server_names(msg: *const u8, msg_len: usize, numbers: *mut u64,
                                           numbers_len: usize) -> u64;
        pub fn dialtable_read_negotiate(msg: *const u8, msg_len: usize, numbers: *mut u64, numbers_len: usize) -> u64;
        pub fn dialtable_read_nl_auth(msg: *const u8, msg_len: usize, numbers: *mut u64, numbers_len: usize) -> u64;
        pub fn dialtable_nl_auth_name(msg: *const u8, msg_len: usize, which: u32, out: *mut u8, out_len: usize) -> u64;
        pub fn dialtable_field_bytes(msg: *const u8, msg_len: usize, offset: u32, len: u16, out: *mut u8,
                                     out_len: usize) -> u64;

        pub fn dialtable_check_pairs(list: *const u8, list_len: usize) -> u64;
        pub fn dialtable_count_pairs(list: *const u8, list_len: usize, numbers: *mut u64, numbers_len: usize) -> u64;
        pub fn dialtable_find_pair(list: *const u8, list_len: usize, id: u16, numbers: *mut u64,
                                   numbers_len: usize) -> u64;
        pub fn dialtable_next_pair(list: *const u8, list_len: usize, at: usize, numbers: *mut u64,
                                   numbers_len: usize) -> u64;

        pub fn dialtable_authenticate_line(msg: *const u8, msg_len: usize, out: *mut u8, out_len: usize) -> u64;
        pub fn dialtable_challenge_line(msg: *const u8, msg_len: usize, out: *mut u8, out_len: usize) -> u64;
        pub fn dialtable_negotiate_line(msg: *const u8, msg_len: usize, out: *mut u8, out_len: usize) -> u64;
        pub fn dialtable_nl_auth_line(msg: *const u8, msg_len: usize, out: *mut u8, out_len: usize) -> u64;
        pub fn dialtable_ntlm_line(msg: *const u8, msg_len: usize, out: *mut u8, out_len: usize) -> u64;
        pub fn dialtable_ntlm_program_line(msg: *const u8, msg_len: usize, out: *mut u8, out_len: usize) -> u64;
        pub fn dialtable_nl_auth_program_line(msg: *const u8, msg_len: usize, out: *mut u8, out_len: usize) -> u64;

        pub fn dialtable_explain(msg: *const u8, msg_len: usize, out: *mut u8, out_len: usize) -> u64;

        pub fn dialtable_check_messages(buffer: *const u8, buffer_len: usize, entries: *mut super::Entry,
                                        entries_len: usize) -> u64;

        pub fn dialtable_write_authenticate(out: *mut u8, out_len: usize, flags: u32, version: *const u8,
                                            mic: *const u8, lm: *const u8, lm_len: usize, nt: *const u8,
                                            nt_len: usize, domain: *const u8, domain_len: usize, user: *const u8,
                                            user_len: usize, workstation: *const u8, workstation_len: usize,
                                            key: *const u8, key_len: usize) -> u64;
        pub fn dialtable_write_negotiate(out: *mut u8, out_len: usize, flags: u32, version: *const u8,
                                         domain: *const u8, domain_len: usize, workstation: *const u8,
                                         workstation_len: usize) -> u64;
        pub fn dialtable_write_nl_auth_request(out: *mut u8, out_len: usize, flags: u32, a: *const u8, a_len: usize,
                                               b: *const u8, b_len: usize, c: *const u8, c_len: usize,
                                               d: *const u8, d_len: usize, e: *const u8, e_len: usize) -> u64;
        pub fn dialtable_write_nl_auth_response(out: *mut u8, out_len: usize) -> u64;
        pub fn dialtable_write_response_pairs(out: *mut u8, out_len: usize, challenge: *const u8,
                                              challenge_len: usize, target_name: *const u8,
                                              target_name_len: usize, unverified: u32,
                                              bindings: *const u8) -> u64;

        pub fn dialtable_decide(settings: u32, challenge: *const u8, challenge_len: usize, numbers: *mut u64,
                                numbers_len: usize) -> u64;
        pub fn dialtable_domain_to_send(own: *const u8, own_len: usize, challenge: *const u8, challenge_len: usize,
                                        out: *mut u8, out_len: usize) -> u64;
        pub fn dialtable_respond(out: *mut u8, out_len: usize, challenge: *const u8, challenge_len: usize,
                                 settings: u32, clock: u64, version: *const u8, mic: *const u8, lm: *const u8,
                                 lm_len: usize, nt: *const u8, nt_len: usize, domain: *const u8, domain_len: usize,
                                 user: *const u8, user_len: usize, workstation: *const u8, workstation_len: usize,
                                 key: *const u8, key_len: usize, numbers: *mut u64, numbers_len: usize) -> u64;
    }

    /// What the thin calls for old servers and for the relay have in common.
    pub type ThinRespond = unsafe extern "C" fn(
        out: *mut u8, out_len: usize, challenge: *const u8, challenge_len: usize, clock: u64, version: *const u8,
        mic: *const u8, lm: *const u8, lm_len: usize, nt: *const u8, nt_len: usize, domain: *const u8,
        domain_len: usize, user: *const u8, user_len: usize, workstation: *const u8, workstation_len: usize,
        key: *const u8, key_len: usize, numbers: *mut u64, numbers_len: usize) -> u64;

    extern "C" {
        pub fn dialtable_respond_for_bench(out: *mut u8, out_len: usize, challenge: *const u8, challenge_len: usize,
                                           clock: u64, demand_128: u32, version: *const u8, mic: *const u8,
                                           lm: *const u8, lm_len: usize, nt: *const u8, nt_len: usize,
                                           domain: *const u8, domain_len: usize, user: *const u8,
                                           user_len: usize, workstation: *const u8, workstation_len: usize,
                                           key: *const u8, key_len: usize, numbers: *mut u64,
                                           numbers_len: usize) -> u64;
        pub fn dialtable_respond_to_old_server(out: *mut u8, out_len: usize, challenge: *const u8,
                                               challenge_len: usize, clock: u64, version: *const u8, mic: *const u8,
                                               lm: *const u8, lm_len: usize, nt: *const u8, nt_len: usize,
                                               domain: *const u8, domain_len: usize, user: *const u8,
                                               user_len: usize, workstation: *const u8, workstation_len: usize,
                                               key: *const u8, key_len: usize, numbers: *mut u64,
                                               numbers_len: usize) -> u64;
        pub fn dialtable_respond_for_relay(out: *mut u8, out_len: usize, challenge: *const u8, challenge_len: usize,
                                           clock: u64, version: *const u8, mic: *const u8, lm: *const u8,
                                           lm_len: usize, nt: *const u8, nt_len: usize, domain: *const u8,
                                           domain_len: usize, user: *const u8, user_len: usize,
                                           workstation: *const u8, workstation_len: usize, key: *const u8,
                                           key_len: usize, numbers: *mut u64, numbers_len: usize) -> u64;

        pub fn dialtable_canonical_authenticate(out: *mut u8, out_len: usize, msg: *const u8,
                                                msg_len: usize) -> u64;

        pub fn dialtable_export_header(out: *mut u8, out_len: usize, msg: *const u8, msg_len: usize) -> u64;
        pub fn dialtable_import_header(out: *mut u8, out_len: usize, text: *const u8, text_len: usize) -> u64;

        pub fn dialtable_mic(key: *const u8, key_len: usize, negotiate: *const u8, negotiate_len: usize,
                             challenge: *const u8, challenge_len: usize, authenticate: *const u8,
                             authenticate_len: usize, mic: *mut u8, mic_len: usize) -> u64;
        pub fn dialtable_check_mic(key: *const u8, key_len: usize, negotiate: *const u8, negotiate_len: usize,
                                   challenge: *const u8, challenge_len: usize, authenticate: *const u8,
                                   authenticate_len: usize) -> u64;
    }
}

/// Reads an AUTHENTICATE message: its numbers, and 16 bytes of `mic`.
#[must_use = "a refusal is told by this alone"]
pub fn read_authenticate(message: &[u8], numbers: &mut [u64], mic: &mut [u8]) -> u64 {
    unsafe {
        c::dialtable_read_authenticate(
            message.as_ptr(),
            message.len(),
            numbers.as_mut_ptr(),
            numbers.len(),
            mic.as_mut_ptr(),
            mic.len(),
        )
    }
}

/// Reads a CHALLENGE message: its numbers, and 8 bytes of `server_challenge`.
#[must_use = "a refusal is told by this alone"]
pub fn read_challenge(message: &[u8], numbers: &mut [u64], server_challenge: &mut [u8]) -> u64 {
    unsafe {
        c::dialtable_read_challenge(
            message.as_ptr(),
            message.len(),
            numbers.as_mut_ptr(),
            numbers.len(),
            server_challenge.as_mut_ptr(),
            server_challenge.len(),
        )
    }
}

/// Calls that take one slice and give numbers.
macro_rules! numbers_calls {
    ($($(#[$doc:meta])* $name:ident => $c:ident;)*) => {$(
        $(#[$doc])*
        #[must_use = "a refusal is told by this alone"]
        pub fn $name(bytes: &[u8], numbers: &mut [u64]) -> u64 {
            unsafe { c::$c(bytes.as_ptr(), bytes.len(), numbers.as_mut_ptr(), numbers.len()) }
        }
    )*};
}

numbers_calls! {
    /// The first timestamp pair of a CHALLENGE.
    read_timestamp => dialtable_read_timestamp;
    /// Whether a CHALLENGE has pairs 1 and 2.
    read_server_names => dialtable_read_server_names;
    /// Reads a NEGOTIATE message.
    read_negotiate => dialtable_read_negotiate;
    /// Reads an NL_AUTH message.
    read_nl_auth => dialtable_read_nl_auth;
    /// How many pairs a list holds.
    count_pairs => dialtable_count_pairs;
}

/// Calls that take a message and write into an output.
macro_rules! line_calls {
    ($($(#[$doc:meta])* $name:ident => $c:ident;)*) => {$(
        $(#[$doc])*
        #[must_use = "a refusal is told by this alone"]
        pub fn $name(message: &[u8], out: &mut [u8]) -> u64 {
            unsafe { c::$c(message.as_ptr(), message.len(), out.as_mut_ptr(), out.len()) }
        }
    )*};
}

line_calls! {
    /// The line of a message read as AUTHENTICATE.
    authenticate_line => dialtable_authenticate_line;
    /// The line of a message read as CHALLENGE.
    challenge_line => dialtable_challenge_line;
    /// The line of a message read as NEGOTIATE.
    negotiate_line => dialtable_negotiate_line;
    /// The line of a message read as NL_AUTH.
    nl_auth_line => dialtable_nl_auth_line;
    /// The line of a message read as the NTLM program does.
    ntlm_line => dialtable_ntlm_line;
    /// What the NTLM program prints.
    ntlm_program_line => dialtable_ntlm_program_line;
    /// What the NL_AUTH program prints.
    nl_auth_program_line => dialtable_nl_auth_program_line;
    /// The checks of a message read as the NTLM program does.
    explain => dialtable_explain;
}

/// Reads the message of each entry by its mark, and puts the answer there.
#[must_use = "a refusal is told by this alone"]
pub fn check_messages(buffer: &[u8], entries: &mut [Entry]) -> u64 {
    unsafe {
        c::dialtable_check_messages(
            buffer.as_ptr(),
            buffer.len(),
            entries.as_mut_ptr(),
            entries.len(),
        )
    }
}

/// The same on entries that tell whether they were read.
pub(crate) fn check_listed(buffer: &[u8], entries: &mut [crate::Entry]) -> u64 {
    // Such an entry is laid out as the one that it holds.
    let first: *mut Entry = entries.as_mut_ptr().cast();
    unsafe { c::dialtable_check_messages(buffer.as_ptr(), buffer.len(), first, entries.len()) }
}

/// The text of one string of an NL_AUTH message, as its line shows it.
#[must_use = "a refusal is told by this alone"]
pub fn nl_auth_name(message: &[u8], which: u32, out: &mut [u8]) -> u64 {
    unsafe {
        c::dialtable_nl_auth_name(
            message.as_ptr(),
            message.len(),
            which,
            out.as_mut_ptr(),
            out.len(),
        )
    }
}

/// Copies a field's own bytes; a nonempty field that ends past the message is
/// refused 6.
#[must_use = "a refusal is told by this alone"]
pub fn field_bytes(message: &[u8], offset: u32, len: u16, out: &mut [u8]) -> u64 {
    unsafe {
        c::dialtable_field_bytes(
            message.as_ptr(),
            message.len(),
            offset,
            len,
            out.as_mut_ptr(),
            out.len(),
        )
    }
}

/// Checks 10 to 13 over a whole list.
#[must_use = "a refusal is told by this alone"]
pub fn check_pairs(list: &[u8]) -> u64 {
    unsafe { c::dialtable_check_pairs(list.as_ptr(), list.len()) }
}

/// The first pair with this id.
#[must_use = "a refusal is told by this alone"]
pub fn find_pair(list: &[u8], id: u16, numbers: &mut [u64]) -> u64 {
    unsafe {
        c::dialtable_find_pair(
            list.as_ptr(),
            list.len(),
            id,
            numbers.as_mut_ptr(),
            numbers.len(),
        )
    }
}

/// The pair at a place, and where to ask next.
#[must_use = "a refusal is told by this alone"]
pub fn next_pair(list: &[u8], at: usize, numbers: &mut [u64]) -> u64 {
    unsafe {
        c::dialtable_next_pair(
            list.as_ptr(),
            list.len(),
            at,
            numbers.as_mut_ptr(),
            numbers.len(),
        )
    }
}

/// Writes an AUTHENTICATE message.
#[must_use = "a refusal is told by this alone"]
pub fn write_authenticate(
    out: &mut [u8],
    flags: u32,
    parts: &Parts<'_, impl Borrow<[u8; 8]>, impl Borrow<[u8; 16]>>,
) -> u64 {
    unsafe {
        c::dialtable_write_authenticate(
            out.as_mut_ptr(),
            out.len(),
            flags,
            parts.version().as_ptr(),
            parts.mic().as_ptr(),
            parts.lm.as_ptr(),
            parts.lm.len(),
            parts.nt.as_ptr(),
            parts.nt.len(),
            parts.domain.as_ptr(),
            parts.domain.len(),
            parts.user.as_ptr(),
            parts.user.len(),
            parts.workstation.as_ptr(),
            parts.workstation.len(),
            parts.key.as_ptr(),
            parts.key.len(),
        )
    }
}

/// Writes a NEGOTIATE message.
#[must_use = "a refusal is told by this alone"]
pub fn write_negotiate(
    out: &mut [u8],
    flags: u32,
    version: &[u8; 8],
    domain: &[u8],
    workstation: &[u8],
) -> u64 {
    unsafe {
        c::dialtable_write_negotiate(
            out.as_mut_ptr(),
            out.len(),
            flags,
            version.as_ptr(),
            domain.as_ptr(),
            domain.len(),
            workstation.as_ptr(),
            workstation.len(),
        )
    }
}

/// Writes an NL_AUTH request with the strings of bits A to E.
#[must_use = "a refusal is told by this alone"]
pub fn write_nl_auth_request(out: &mut [u8], flags: u32, strings: &[&[u8]; 5]) -> u64 {
    let [a, b, c, d, e] = strings;
    unsafe {
        c::dialtable_write_nl_auth_request(
            out.as_mut_ptr(),
            out.len(),
            flags,
            a.as_ptr(),
            a.len(),
            b.as_ptr(),
            b.len(),
            c.as_ptr(),
            c.len(),
            d.as_ptr(),
            d.len(),
            e.as_ptr(),
            e.len(),
        )
    }
}

/// Writes an NL_AUTH response.
#[must_use = "a refusal is told by this alone"]
pub fn write_nl_auth_response(out: &mut [u8]) -> u64 {
    unsafe { c::dialtable_write_nl_auth_response(out.as_mut_ptr(), out.len()) }
}

/// Writes the pair list that goes back in the answer to a challenge; the name is
/// marked unverified by anything but 0.
#[must_use = "a refusal is told by this alone"]
pub fn write_response_pairs(
    out: &mut [u8],
    challenge: &[u8],
    target_name: &[u8],
    unverified: u32,
    bindings: &[u8; 16],
) -> u64 {
    unsafe {
        c::dialtable_write_response_pairs(
            out.as_mut_ptr(),
            out.len(),
            challenge.as_ptr(),
            challenge.len(),
            target_name.as_ptr(),
            target_name.len(),
            unverified,
            bindings.as_ptr(),
        )
    }
}

/// The decision on a challenge.
#[must_use = "a refusal is told by this alone"]
pub fn decide(settings: u32, challenge: &[u8], numbers: &mut [u64]) -> u64 {
    unsafe {
        c::dialtable_decide(
            settings,
            challenge.as_ptr(),
            challenge.len(),
            numbers.as_mut_ptr(),
            numbers.len(),
        )
    }
}

/// Copies the domain to send.
#[must_use = "a refusal is told by this alone"]
pub fn domain_to_send(own: &[u8], challenge: &[u8], out: &mut [u8]) -> u64 {
    unsafe {
        c::dialtable_domain_to_send(
            own.as_ptr(),
            own.len(),
            challenge.as_ptr(),
            challenge.len(),
            out.as_mut_ptr(),
            out.len(),
        )
    }
}

/// Writes the AUTHENTICATE message that answers a challenge.
#[must_use = "a refusal is told by this alone"]
pub fn respond(
    out: &mut [u8],
    challenge: &[u8],
    settings: u32,
    clock: u64,
    parts: &Parts<'_, impl Borrow<[u8; 8]>, impl Borrow<[u8; 16]>>,
    numbers: &mut [u64],
) -> u64 {
    unsafe {
        c::dialtable_respond(
            out.as_mut_ptr(),
            out.len(),
            challenge.as_ptr(),
            challenge.len(),
            settings,
            clock,
            parts.version().as_ptr(),
            parts.mic().as_ptr(),
            parts.lm.as_ptr(),
            parts.lm.len(),
            parts.nt.as_ptr(),
            parts.nt.len(),
            parts.domain.as_ptr(),
            parts.domain.len(),
            parts.user.as_ptr(),
            parts.user.len(),
            parts.workstation.as_ptr(),
            parts.workstation.len(),
            parts.key.as_ptr(),
            parts.key.len(),
            numbers.as_mut_ptr(),
            numbers.len(),
        )
    }
}

/// [`respond`] with the default settings, for the bench; but 128-bit is demanded
/// only where `demand_128` is not 0.
#[must_use = "a refusal is told by this alone"]
pub fn respond_for_bench(
    out: &mut [u8],
    challenge: &[u8],
    clock: u64,
    demand_128: u32,
    parts: &Parts<'_, impl Borrow<[u8; 8]>, impl Borrow<[u8; 16]>>,
    numbers: &mut [u64],
) -> u64 {
    unsafe {
        c::dialtable_respond_for_bench(
            out.as_mut_ptr(),
            out.len(),
            challenge.as_ptr(),
            challenge.len(),
            clock,
            demand_128,
            parts.version().as_ptr(),
            parts.mic().as_ptr(),
            parts.lm.as_ptr(),
            parts.lm.len(),
            parts.nt.as_ptr(),
            parts.nt.len(),
            parts.domain.as_ptr(),
            parts.domain.len(),
            parts.user.as_ptr(),
            parts.user.len(),
            parts.workstation.as_ptr(),
            parts.workstation.len(),
            parts.key.as_ptr(),
            parts.key.len(),
            numbers.as_mut_ptr(),
            numbers.len(),
        )
    }
}

/// [`respond`] with the default settings, for old servers; but 128-bit is not
/// demanded.
#[must_use = "a refusal is told by this alone"]
pub fn respond_to_old_server(
    out: &mut [u8],
    challenge: &[u8],
    clock: u64,
    parts: &Parts<'_, impl Borrow<[u8; 8]>, impl Borrow<[u8; 16]>>,
    numbers: &mut [u64],
) -> u64 {
    let call = c::dialtable_respond_to_old_server;
    thin_respond(call, out, challenge, clock, parts, numbers)
}

/// [`respond`] with the default settings, for the relay.
#[must_use = "a refusal is told by this alone"]
pub fn respond_for_relay(
    out: &mut [u8],
    challenge: &[u8],
    clock: u64,
    parts: &Parts<'_, impl Borrow<[u8; 8]>, impl Borrow<[u8; 16]>>,
    numbers: &mut [u64],
) -> u64 {
    let call = c::dialtable_respond_for_relay;
    thin_respond(call, out, challenge, clock, parts, numbers)
}

fn thin_respond(
    call: c::ThinRespond,
    out: &mut [u8],
    challenge: &[u8],
    clock: u64,
    parts: &Parts<'_, impl Borrow<[u8; 8]>, impl Borrow<[u8; 16]>>,
    numbers: &mut [u64],
) -> u64 {
    unsafe {
        call(
            out.as_mut_ptr(),
            out.len(),
            challenge.as_ptr(),
            challenge.len(),
            clock,
            parts.version().as_ptr(),
            parts.mic().as_ptr(),
            parts.lm.as_ptr(),
            parts.lm.len(),
            parts.nt.as_ptr(),
            parts.nt.len(),
            parts.domain.as_ptr(),
            parts.domain.len(),
            parts.user.as_ptr(),
            parts.user.len(),
            parts.workstation.as_ptr(),
            parts.workstation.len(),
            parts.key.as_ptr(),
            parts.key.len(),
            numbers.as_mut_ptr(),
            numbers.len(),
        )
    }
}

/// Writes an AUTHENTICATE message in its canonical form.
#[must_use = "a refusal is told by this alone"]
pub fn canonical_authenticate(out: &mut [u8], message: &[u8]) -> u64 {
    unsafe {
        c::dialtable_canonical_authenticate(
            out.as_mut_ptr(),
            out.len(),
            message.as_ptr(),
            message.len(),
        )
    }
}

/// Writes a message as the text of an HTTP header line.
#[must_use = "a refusal is told by this alone"]
pub fn export_header(out: &mut [u8], message: &[u8]) -> u64 {
    unsafe {
        c::dialtable_export_header(out.as_mut_ptr(), out.len(), message.as_ptr(), message.len())
    }
}

/// Writes the message that the text of an HTTP header line carries.
#[must_use = "a refusal is told by this alone"]
pub fn import_header(out: &mut [u8], text: &[u8]) -> u64 {
    unsafe { c::dialtable_import_header(out.as_mut_ptr(), out.len(), text.as_ptr(), text.len()) }
}

/// Works out the MIC of a sign-in: 16 bytes of `out`.
#[must_use = "a refusal is told by this alone"]
pub fn mic(key: &[u8], messages: &SignIn<'_>, out: &mut [u8]) -> u64 {
    unsafe {
        c::dialtable_mic(
            key.as_ptr(),
            key.len(),
            messages.negotiate.as_ptr(),
            messages.negotiate.len(),
            messages.challenge.as_ptr(),
            messages.challenge.len(),
            messages.authenticate.as_ptr(),
            messages.authenticate.len(),
            out.as_mut_ptr(),
            out.len(),
        )
    }
}

/// Whether the AUTHENTICATE's MIC is the one that is worked out: 1 or 0.
#[must_use = "a refusal is told by this alone"]
pub fn check_mic(key: &[u8], messages: &SignIn<'_>) -> u64 {
    unsafe {
        c::dialtable_check_mic(
            key.as_ptr(),
            key.len(),
            messages.negotiate.as_ptr(),
            messages.negotiate.len(),
            messages.challenge.as_ptr(),
            messages.challenge.len(),
            messages.authenticate.as_ptr(),
            messages.authenticate.len(),
        )
    }
}
