//! The byte inputs of a call, each by its name.

use reader::SignIn;

use super::call::{Call, Parts};

/// The most byte inputs that a call has.
pub const MOST_INPUTS: usize = 9;

impl<'a> Call<'a> {
    /// The byte inputs by name.
    pub fn inputs(&self) -> Vec<(&'static str, &'a [u8])> {
        let mut inputs = Vec::new();
        let mut call = *self;
        call.each_input(&mut |name, bytes| inputs.push((name, *bytes)));
        inputs
    }

    /// How many bytes it is given.
    pub fn size(&self) -> usize {
        self.inputs().iter().map(|(_, bytes)| bytes.len()).sum()
    }

    /// The same call on what `lend` gives for each byte input: as many bytes.
    pub fn with_inputs<'b>(&self, mut lend: impl FnMut(&'b [u8]) -> &'b [u8]) -> Call<'b>
    where
        'a: 'b,
    {
        let mut call: Call<'b> = *self;
        call.each_input(&mut |_, bytes| *bytes = lend(bytes));
        call
    }

    /// Goes through the byte inputs, in the order of the header.
    pub fn each_input(&mut self, visit: &mut impl FnMut(&'static str, &mut &'a [u8])) {
        match self {
            Self::ReadAuthenticate { message }
            | Self::ReadChallenge { message }
            | Self::ReadTimestamp { message }
            | Self::ReadServerNames { message }
            | Self::ReadNegotiate { message }
            | Self::ReadNlAuth { message }
            | Self::NlAuthName { message, .. }
            | Self::FieldBytes { message, .. }
            | Self::Line { message, .. }
            | Self::CanonicalAuthenticate { message }
            | Self::ExportHeader { message } => visit("message", message),
            Self::ImportHeader { text } => visit("text", text),
            Self::CheckPairs { list }
            | Self::CountPairs { list }
            | Self::FindPair { list, .. }
            | Self::NextPair { list, .. } => visit("list", list),
            Self::CheckMessages { buffer, .. } => visit("buffer", buffer),
            Self::Decide { challenge, .. } => visit("challenge", challenge),
            Self::Mic { key, messages } | Self::CheckMic { key, messages } => {
                visit("key", key);
                each_message(messages, visit);
            }
            _ => self.each_written(visit),
        }
    }

    /// The inputs of the calls that write from more than one message.
    fn each_written(&mut self, visit: &mut impl FnMut(&'static str, &mut &'a [u8])) {
        match self {
            Self::WriteAuthenticate { parts, .. } => each_part(parts, visit),
            Self::WriteNegotiate {
                version,
                domain,
                workstation,
                ..
            } => {
                array("version", version, visit);
                visit("domain", domain);
                visit("workstation", workstation);
            }
            Self::WriteNlAuthRequest { strings, .. } => {
                for (name, string) in ["a", "b", "c", "d", "e"].into_iter().zip(strings) {
                    visit(name, string);
                }
            }
            Self::WriteResponsePairs {
                challenge,
                target_name,
                bindings,
                ..
            } => {
                visit("challenge", challenge);
                visit("target_name", target_name);
                array("bindings", bindings, visit);
            }
            Self::DomainToSend { own, challenge } => {
                visit("own", own);
                visit("challenge", challenge);
            }
            Self::Respond {
                challenge, parts, ..
            } => {
                visit("challenge", challenge);
                each_part(parts, visit);
            }
            // The rest stands in `each_input`, or has none.
            _ => {}
        }
    }
}

fn each_message<'a>(
    messages: &mut SignIn<'a>,
    visit: &mut impl FnMut(&'static str, &mut &'a [u8]),
) {
    visit("negotiate", &mut messages.negotiate);
    visit("challenge", &mut messages.challenge);
    visit("authenticate", &mut messages.authenticate);
}

fn each_part<'a>(parts: &mut Parts<'a>, visit: &mut impl FnMut(&'static str, &mut &'a [u8])) {
    array("version", &mut parts.version, visit);
    array("mic", &mut parts.mic, visit);
    visit("lm", &mut parts.lm);
    visit("nt", &mut parts.nt);
    visit("domain", &mut parts.domain);
    visit("user", &mut parts.user);
    visit("workstation", &mut parts.workstation);
    visit("key", &mut parts.key);
}

/// An input whose length the header says.
fn array<'a, const N: usize>(
    name: &'static str,
    array: &mut &'a [u8; N],
    visit: &mut impl FnMut(&'static str, &mut &'a [u8]),
) {
    let mut bytes = array.as_slice();
    visit(name, &mut bytes);
    *array = bytes.try_into().expect("as many bytes");
}
