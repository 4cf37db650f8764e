//! NTLM and NL_AUTH messages by the rules of document 01, with those of
//! document 02 that have landed: reading NEGOTIATE, CHALLENGE, AUTHENTICATE,
//! NL_AUTH and TargetInfo, the log line of each message, why one is refused,
//! answering a challenge, writing NEGOTIATE, AUTHENTICATE, NL_AUTH and the pair
//! list of an answer, a night's messages in one call, an AUTHENTICATE's canonical
//! form, the MIC of a sign-in's three messages, and messages in HTTP header lines.
//!
//! Reading borrows from the message and allocates nothing. Every call ends
//! for any input, takes time linear in what it is lent, and does not panic.
//! A refused call leaves the caller's output as it was.

#![forbid(unsafe_code)]
#![warn(missing_docs)]
#![warn(
    clippy::indexing_slicing,
    clippy::unwrap_used,
    clippy::expect_used,
    clippy::panic
)]

mod answer;
mod authenticate;
mod base64;
mod canonical;
mod challenge;
mod dns_name;
mod explain;
mod flags;
mod hmac_md5;
mod http_header;
mod kind;
mod layout;
mod line;
mod md5;
mod mic;
mod negotiate;
mod night;
mod nl_auth;
mod nl_auth_name;
mod output;
mod program;
mod refusal;
mod response_pairs;
mod target_info;
mod wire;
mod write_authenticate;
mod write_negotiate;
mod write_nl_auth;

pub use answer::{
    answer, answer_for_bench, answer_for_old_servers, answer_for_relay, domain_to_send, Account,
    Answer, Domain, Policy, Secrets, Settings,
};
pub use authenticate::Authenticate;
pub use canonical::canonical_authenticate;
pub use challenge::Challenge;
pub use explain::explain;
pub use flags::{CharacterSet, NegotiateFlags, NlAuthFlags};
pub use hmac_md5::hmac_md5;
pub use http_header::{export_header, import_header};
pub use line::{authenticate_line, challenge_line, negotiate_line, nl_auth_line, ntlm_line};
pub use md5::md5;
pub use mic::{check_mic, mic, SignIn};
pub use negotiate::Negotiate;
pub use night::{check_messages, Entry};
pub use nl_auth::{NlAuth, NlAuthString, NlAuthType};
pub use nl_auth_name::nl_auth_name;
pub use program::{Program, LINE_LIMIT};
pub use refusal::{Reason, Refusal};
pub use response_pairs::{write_response_pairs, ResponsePairs};
pub use target_info::{AvId, AvPair, Summary, TargetInfo, Walk};
pub use wire::{field_bytes, Field, MAX_MESSAGE};
pub use write_authenticate::{write_authenticate, AuthenticateParts};
pub use write_negotiate::{write_negotiate, NegotiateParts};
pub use write_nl_auth::{write_nl_auth_request, write_nl_auth_response};
