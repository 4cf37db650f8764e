//! The MIC of a sign-in: HMAC-MD5 over its three messages, with the exported
//! session key. What these calls give depends on secrets: let no log have it.

use core::fmt;

use crate::hidden::Hidden;
use crate::{raw, read_authenticate, Reason, Refusal, SignIn, MIC_AT, MIC_LEN};

/// The sixteen bytes of a MIC. `{:?}` shows none of them. Whether a message's MIC is
/// right is for [`check_mic`] to say.
#[derive(Clone, Copy, PartialEq, Eq)]
pub struct Mic(pub [u8; MIC_LEN]);

impl fmt::Debug for Mic {
    fn fmt(&self, f: &mut fmt::Formatter<'_>) -> fmt::Result {
        f.debug_tuple("Mic").field(&Hidden::of(&self.0)).finish()
    }
}

/// Works out the MIC, with the sixteen bytes that stand for it in the
/// AUTHENTICATE taken as zero.
pub fn mic(key: &[u8], messages: &SignIn<'_>) -> Result<Mic, Refusal> {
    let mut mic = [0; MIC_LEN];
    Refusal::check(raw::mic(key, messages, &mut mic))?;
    Ok(Mic(mic))
}

/// Puts a MIC at its place in an AUTHENTICATE. Refuses as reading the message does,
/// then 56 where it has no place for a MIC, and changes no byte then.
///
/// ```
/// # use dialtable::{place_mic, Mic, Reason};
/// let mut message = std::fs::read("../crates/ntlm_line/stdin")?;
/// place_mic(&mut message, &Mic([7; 16]))?;
/// assert_eq!(message[dialtable::MIC_AT..][..16], [7; 16]);
/// let refused = place_mic(&mut message[..80], &Mic([9; 16])).unwrap_err();
/// assert_eq!(refused.reason, Reason::PastEnd);
/// # Ok::<_, Box<dyn std::error::Error>>(())
/// ```
pub fn place_mic(authenticate: &mut [u8], mic: &Mic) -> Result<(), Refusal> {
    let there = read_authenticate(authenticate)?.mic.is_some();
    match authenticate.get_mut(MIC_AT..MIC_AT + MIC_LEN) {
        Some(place) if there => {
            place.copy_from_slice(&mic.0);
            Ok(())
        }
        _ => Err(Refusal {
            reason: Reason::NoMic,
            field: 0,
            place: 0,
        }),
    }
}

/// What a check of a MIC found. Go on only where it is `Right`.
///
/// It is no bool, and one that is dropped warns:
///
/// ```compile_fail
/// #![deny(unused_must_use)]
/// dialtable::check_mic(&[0; 16], &dialtable::SignIn::default());
/// ```
/// ```compile_fail,E0308
/// if dialtable::check_mic(&[0; 16], &dialtable::SignIn::default()) {}
/// ```
/// ```
/// #![deny(unused_must_use)]
/// if dialtable::check_mic(&[0; 16], &dialtable::SignIn::default()).is_right() {
///     panic!("no messages at all");
/// }
/// ```
#[derive(Clone, Copy, Debug, PartialEq, Eq, Hash)]
#[must_use = "a MIC that isn't right is told by this alone"]
pub enum MicCheck {
    /// The AUTHENTICATE's MIC is the one that is worked out.
    Right,
    /// It has another, also the zeros of an AUTHENTICATE for which none was due.
    Wrong,
    /// It has none (refusal 56).
    Absent,
    /// The key or a message is refused, so that nothing was worked out.
    Refused(Refusal),
}

impl MicCheck {
    /// Whether the MIC was checked and is right: 'no' for all else.
    #[must_use = "a MIC that isn't right is told by this alone"]
    pub const fn is_right(self) -> bool {
        matches!(self, Self::Right)
    }
}

/// Checks whether the AUTHENTICATE's MIC is the one that is worked out.
pub fn check_mic(key: &[u8], messages: &SignIn<'_>) -> MicCheck {
    match Refusal::check(raw::check_mic(key, messages)) {
        Ok(1) => MicCheck::Right,
        Ok(_) => MicCheck::Wrong,
        Err(refusal) if refusal.reason == Reason::NoMic => MicCheck::Absent,
        Err(refusal) => MicCheck::Refused(refusal),
    }
}
