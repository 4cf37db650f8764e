//! The MIC of three messages: document 02, request 10/12, with source document
//! 004 behind it.

use crate::authenticate::Authenticate;
use crate::challenge::Challenge;
use crate::hmac_md5::hmac_md5;
use crate::negotiate::Negotiate;
use crate::refusal::{Reason, Refusal};

/// The three messages of a sign-in.
#[derive(Clone, Copy, Debug, Default)]
pub struct SignIn<'a> {
    /// NEGOTIATE
    pub negotiate: &'a [u8],
    /// CHALLENGE
    pub challenge: &'a [u8],
    /// AUTHENTICATE
    pub authenticate: &'a [u8],
}

/// "From a 16-byte session key and three messages, NEGOTIATE, CHALLENGE and
/// AUTHENTICATE in that order, work out HMAC-MD5 with the sixteen MIC bytes taken
/// as zero." Refuses by 55, "then each message's reading refusals in the order
/// given, then 56".
pub fn mic(key: &[u8], messages: &SignIn<'_>) -> Result<[u8; 16], Refusal> {
    let (worked_out, _) = worked_out_and_sent(key, messages)?;
    Ok(worked_out)
}

/// "Another says yes exactly when they equal those in the message."
pub fn check_mic(key: &[u8], messages: &SignIn<'_>) -> Result<bool, Refusal> {
    let (worked_out, sent) = worked_out_and_sent(key, messages)?;
    Ok(worked_out == sent)
}

fn worked_out_and_sent(key: &[u8], messages: &SignIn<'_>) -> Result<([u8; 16], [u8; 16]), Refusal> {
    let SignIn {
        negotiate,
        challenge,
        authenticate,
    } = *messages;
    if key.len() != 16 {
        return Err(Reason::SessionKey.of_message());
    }
    Negotiate::read(negotiate)?;
    Challenge::read(challenge)?;
    let no_mic = Reason::NoMic.of_message();
    let sent = Authenticate::read(authenticate)?.mic.ok_or(no_mic)?;
    // A MIC that is there lies inside the message.
    let (before, rest) = authenticate.split_at_checked(72).ok_or(no_mic)?;
    let (_, after) = rest.split_at_checked(16).ok_or(no_mic)?;
    let text = [negotiate, challenge, before, &[0; 16], after];
    Ok((hmac_md5(key, text), sent))
}
