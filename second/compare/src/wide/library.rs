//! The proved library's answer to each call, linked in.

#![allow(unsafe_code)]

use dialtable::raw;
use reader::SignIn;

use super::call::{Call, Line, Parts, Respond, Thin};
use super::night::WORDS;

/// Makes a call of the library.
pub fn library(call: &Call<'_>, out: &mut [u8], numbers: &mut [u64]) -> u64 {
    match *call {
        Call::ReadAuthenticate { message } => raw::read_authenticate(message, numbers, out),
        Call::ReadChallenge { message } => raw::read_challenge(message, numbers, out),
        Call::ReadTimestamp { message } => raw::read_timestamp(message, numbers),
        Call::ReadServerNames { message } => raw::read_server_names(message, numbers),
        Call::ReadNegotiate { message } => raw::read_negotiate(message, numbers),
        Call::ReadNlAuth { message } => raw::read_nl_auth(message, numbers),
        Call::NlAuthName { message, which } => raw::nl_auth_name(message, which, out),
        Call::FieldBytes {
            message,
            offset,
            len,
        } => raw::field_bytes(message, offset, len, out),
        Call::CheckPairs { list } => raw::check_pairs(list),
        Call::CountPairs { list } => raw::count_pairs(list, numbers),
        Call::FindPair { list, id } => raw::find_pair(list, id, numbers),
        Call::NextPair { list, at } => raw::next_pair(list, at, numbers),
        Call::Line { line, message } => match line {
            Line::Authenticate => raw::authenticate_line(message, out),
            Line::Challenge => raw::challenge_line(message, out),
            Line::Negotiate => raw::negotiate_line(message, out),
            Line::NlAuth => raw::nl_auth_line(message, out),
            Line::Ntlm => raw::ntlm_line(message, out),
            Line::NtlmProgram => raw::ntlm_program_line(message, out),
            Line::NlAuthProgram => raw::nl_auth_program_line(message, out),
            Line::Explain => raw::explain(message, out),
        },
        Call::CheckMessages { buffer, .. } => raw::check_messages(buffer, as_entries(numbers)),
        Call::WriteAuthenticate { flags, ref parts } => {
            raw::write_authenticate(out, flags, &lent(parts))
        }
        Call::WriteNegotiate {
            flags,
            version,
            domain,
            workstation,
        } => raw::write_negotiate(out, flags, version, domain, workstation),
        Call::WriteNlAuthRequest { flags, ref strings } => {
            raw::write_nl_auth_request(out, flags, strings)
        }
        Call::WriteNlAuthResponse => raw::write_nl_auth_response(out),
        Call::WriteResponsePairs {
            challenge,
            target_name,
            unverified,
            bindings,
        } => raw::write_response_pairs(out, challenge, target_name, unverified, bindings),
        Call::Decide {
            settings,
            challenge,
        } => raw::decide(settings, challenge, numbers),
        Call::DomainToSend { own, challenge } => raw::domain_to_send(own, challenge, out),
        Call::Respond {
            how,
            challenge,
            clock,
            ref parts,
        } => {
            let parts = &lent(parts);
            match how {
                Respond::With { settings } => {
                    raw::respond(out, challenge, settings, clock, parts, numbers)
                }
                Respond::Thin(Thin::ForBench { demand_128 }) => {
                    raw::respond_for_bench(out, challenge, clock, demand_128, parts, numbers)
                }
                Respond::Thin(Thin::ToOldServer) => {
                    raw::respond_to_old_server(out, challenge, clock, parts, numbers)
                }
                Respond::Thin(Thin::ForRelay) => {
                    raw::respond_for_relay(out, challenge, clock, parts, numbers)
                }
            }
        }
        Call::CanonicalAuthenticate { message } => raw::canonical_authenticate(out, message),
        Call::ExportHeader { message } => raw::export_header(out, message),
        Call::ImportHeader { text } => raw::import_header(out, text),
        Call::Mic { key, messages } => raw::mic(key, &three(&messages), out),
        Call::CheckMic { key, messages } => raw::check_mic(key, &three(&messages)),
    }
}

const fn three<'a>(messages: &SignIn<'a>) -> raw::SignIn<'a> {
    raw::SignIn {
        negotiate: messages.negotiate,
        challenge: messages.challenge,
        authenticate: messages.authenticate,
    }
}

/// The same memory as the header's entries, which lie in it as `night` says.
fn as_entries(numbers: &mut [u64]) -> &mut [raw::Entry] {
    const {
        assert!(cfg!(target_endian = "little"));
        assert!(size_of::<raw::Entry>() == WORDS * size_of::<u64>());
        assert!(align_of::<raw::Entry>() == align_of::<u64>());
    }
    // An entry is numbers alone, of the same alignment and of four times the size.
    unsafe { std::slice::from_raw_parts_mut(numbers.as_mut_ptr().cast(), numbers.len() / WORDS) }
}

const fn lent<'a>(parts: &Parts<'a>) -> raw::Parts<'a, &'a [u8; 8], &'a [u8; 16]> {
    raw::Parts {
        version: parts.version,
        mic: parts.mic,
        lm: parts.lm,
        nt: parts.nt,
        domain: parts.domain,
        user: parts.user,
        workstation: parts.workstation,
        key: parts.key,
    }
}
