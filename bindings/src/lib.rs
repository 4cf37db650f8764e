//! NTLM and NL_AUTH messages, read and written by the proved library behind
//! `include/dialtable.h`: slices in, records out, refusals as errors.
//!
//! No call panics, allocates or keeps anything. What is written stands at the
//! start of the caller's output and is handed back as that part of it; a
//! refused call leaves the output as it was. `{:?}` of what holds a message, a
//! response, a key or a MIC shows how many bytes they are, and none of them.
//!
//! ```
//! let message = std::fs::read("../crates/ntlm_line/stdin")?;
//! let mut room = [0; 256];
//! let line = dialtable::authenticate_line(&message, &mut room)?;
//! assert!(line.starts_with(b"auth flags=00000201 set=U domain= user=box7 "));
//! # Ok::<_, Box<dyn std::error::Error>>(())
//! ```

#![no_std]
#![warn(missing_docs)]
#![warn(
    clippy::indexing_slicing,
    clippy::unwrap_used,
    clippy::expect_used,
    clippy::panic
)]

// The library's lengths have 64 bits in every build, and are handed over here
// as `usize`.
#[cfg(not(target_pointer_width = "64"))]
compile_error!("the bindings are for targets whose usize has 64 bits");

mod answering;
mod constants;
mod headers;
mod hidden;
mod lines;
mod night;
mod pairs;
pub mod raw;
mod reading;
mod refusal;
mod signing;
mod writing;

pub use answering::{
    decide, domain_to_send, respond, respond_for_bench, respond_for_relay, respond_to_old_server,
    write_response_pairs, Answer, Decision, Settings,
};
pub use constants::*;
pub use headers::{export_header, import_header};
pub use lines::{
    authenticate_line, challenge_line, explain, negotiate_line, nl_auth_line, nl_auth_program_line,
    ntlm_line, ntlm_program_line,
};
pub use night::{check_messages, Entry, Mark, Verdict};
pub use pairs::{check_pairs, count_pairs, find_pair, Pair, Walk};
pub use raw::{Parts, SignIn, EXPLAIN_ROOM};
pub use reading::{
    nl_auth_name, read_authenticate, read_challenge, read_negotiate, read_nl_auth,
    read_server_names, read_timestamp, Authenticate, Challenge, Field, Negotiate, NlAuth,
    NlAuthString, ServerNames,
};
pub use refusal::{Reason, Refusal};
pub use signing::{check_mic, mic, place_mic, Mic, MicCheck};
pub use writing::{
    canonical_authenticate, write_authenticate, write_negotiate, write_nl_auth_request,
    write_nl_auth_response,
};

/// The part of `out` that a call has written, by its answer.
fn written(answer: u64, out: &[u8]) -> Result<&[u8], Refusal> {
    let len = Refusal::check(answer)? as usize;
    Ok(out.get(..len).unwrap_or_default())
}
