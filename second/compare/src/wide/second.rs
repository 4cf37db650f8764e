//! The second reader's answer to each call, in the form of `include/dialtable.h`.

use reader::{
    answer, answer_for_bench, answer_for_old_servers, answer_for_relay, authenticate_line,
    canonical_authenticate, challenge_line, check_messages, check_mic, domain_to_send, explain,
    export_header, field_bytes, import_header, mic, negotiate_line, nl_auth_line, nl_auth_name,
    ntlm_line, write_authenticate, write_negotiate, write_nl_auth_request, write_nl_auth_response,
    write_response_pairs, Answer, Authenticate, AuthenticateParts, AvId, Challenge, Field,
    Negotiate, NegotiateFlags, NegotiateParts, NlAuth, NlAuthFlags, Policy, Program, Reason,
    Refusal, ResponsePairs, Settings, TargetInfo,
};

use super::call::{refused_at, Call, Line, Parts, Respond, Thin};
use super::night::{entries, put_entries};

/// Makes a call: `out` and `numbers` are what is lent for its outputs.
pub fn second(call: &Call<'_>, out: &mut [u8], numbers: &mut [u64]) -> u64 {
    match call_of(call, out, numbers) {
        Ok(answer) => answer as u64,
        Err(refusal) => refused_at(refusal.number(), refusal.field, refusal.place),
    }
}

/// A call that gives all it has in arrays answers 0.
fn call_of(call: &Call<'_>, out: &mut [u8], numbers: &mut [u64]) -> Result<usize, Refusal> {
    // "An array .. that is too short is refused 33, before anything is read."
    if numbers.len() < call.numbers() || call.array().is_some_and(|len| out.len() < len) {
        return Err(Reason::NoRoom.of_message());
    }
    match *call {
        Call::ReadAuthenticate { message } => read_authenticate(message, out, numbers),
        Call::ReadChallenge { message } => read_challenge(message, out, numbers),
        Call::ReadTimestamp { message } => read_timestamp(message, numbers),
        Call::ReadServerNames { message } => read_server_names(message, numbers),
        Call::ReadNegotiate { message } => read_negotiate(message, numbers),
        Call::ReadNlAuth { message } => read_nl_auth(message, numbers),
        Call::NlAuthName { message, which } => nl_auth_name(message, which, out),
        Call::FieldBytes {
            message,
            offset,
            len,
        } => copy(field_bytes(message, offset, len)?, out),
        Call::CheckPairs { list } => TargetInfo(list).count().map(|_| 0),
        Call::CountPairs { list } => count_pairs(list, numbers),
        Call::FindPair { list, id } => find_pair(list, id, numbers),
        Call::NextPair { list, at } => next_pair(list, at, numbers),
        Call::Line { line, message } => put_line(line, message, out),
        Call::CheckMessages { buffer, .. } => check_night(buffer, numbers),
        Call::WriteAuthenticate { flags, parts } => {
            let flags = NegotiateFlags(flags);
            let parts = AuthenticateParts::new(flags, &parts.account(), &parts.secrets());
            write_authenticate(&parts, out)
        }
        Call::WriteNegotiate {
            flags,
            version,
            domain,
            workstation,
        } => {
            let parts = NegotiateParts {
                flags: NegotiateFlags(flags),
                version: *version,
                domain,
                workstation,
            };
            write_negotiate(&parts, out)
        }
        Call::WriteNlAuthRequest { flags, strings } => {
            write_nl_auth_request(NlAuthFlags::new(flags), &strings, out)
        }
        Call::WriteNlAuthResponse => write_nl_auth_response(out),
        Call::WriteResponsePairs {
            challenge,
            target_name,
            unverified,
            bindings,
        } => {
            // "0 or anything else."
            let parts = ResponsePairs {
                target_name,
                unverified: unverified != 0,
                bindings: *bindings,
            };
            write_response_pairs(challenge, &parts, out)
        }
        Call::Decide {
            settings,
            challenge,
        } => decide(settings, challenge, numbers),
        Call::DomainToSend { own, challenge } => copy(domain_to_send(own, challenge).bytes(), out),
        Call::Respond {
            how,
            challenge,
            clock,
            ref parts,
        } => {
            let Answer { len, time, mic_due } = respond(how, challenge, clock, parts, out)?;
            put(numbers, &[time, u64::from(mic_due)]);
            Ok(len)
        }
        Call::CanonicalAuthenticate { message } => canonical_authenticate(message, out),
        Call::ExportHeader { message } => export_header(message, out),
        Call::ImportHeader { text } => import_header(text, out),
        Call::Mic { key, messages } => {
            put_bytes(out, &mic(key, &messages)?);
            Ok(0)
        }
        Call::CheckMic { key, messages } => check_mic(key, &messages).map(usize::from),
    }
}

fn read_authenticate(
    message: &[u8],
    mic: &mut [u8],
    numbers: &mut [u64],
) -> Result<usize, Refusal> {
    let read = Authenticate::read(message)?;
    put_bytes(mic, &read.mic_bytes());
    let head = [u64::from(read.flags.0), u64::from(read.mic.is_some())];
    put(numbers, &head);
    put_fields(&mut numbers[2..], &read.fields());
    Ok(0)
}

fn read_challenge(
    message: &[u8],
    server_challenge: &mut [u8],
    numbers: &mut [u64],
) -> Result<usize, Refusal> {
    let read = Challenge::read(message)?;
    put_bytes(server_challenge, &read.server_challenge);
    put(numbers, &[u64::from(read.flags.0)]);
    put_fields(&mut numbers[1..], &read.fields());
    Ok(0)
}

fn read_timestamp(message: &[u8], numbers: &mut [u64]) -> Result<usize, Refusal> {
    let pairs = Challenge::read(message)?.pairs;
    put(numbers, &optional(pairs.timestamp));
    Ok(0)
}

fn read_server_names(message: &[u8], numbers: &mut [u64]) -> Result<usize, Refusal> {
    let pairs = Challenge::read(message)?.pairs;
    let there = [pairs.computer, pairs.domain].map(|pair| u64::from(pair.is_some()));
    put(numbers, &there);
    Ok(0)
}

fn read_negotiate(message: &[u8], numbers: &mut [u64]) -> Result<usize, Refusal> {
    let read = Negotiate::read(message)?;
    put(numbers, &[u64::from(read.flags.0)]);
    put_fields(&mut numbers[1..], &read.fields());
    Ok(0)
}

fn read_nl_auth(message: &[u8], numbers: &mut [u64]) -> Result<usize, Refusal> {
    let read = NlAuth::read(message)?;
    let head = [read.message_type as u64, u64::from(read.flags.bits())];
    put(numbers, &head);
    for (numbers, string) in numbers[2..12].chunks_exact_mut(2).zip(read.strings) {
        put(numbers, &[string.place as u64, string.bytes.len() as u64]);
    }
    let [_, _, c, d, e] = read.strings;
    put(&mut numbers[12..], &[c, d, e].map(|name| name.jumps as u64));
    Ok(0)
}

fn count_pairs(list: &[u8], numbers: &mut [u64]) -> Result<usize, Refusal> {
    put(numbers, &[TargetInfo(list).count()? as u64]);
    Ok(0)
}

fn find_pair(list: &[u8], id: u16, numbers: &mut [u64]) -> Result<usize, Refusal> {
    let found = TargetInfo(list).find(AvId(id))?;
    let found = found.map_or([0; 3], |pair| {
        [1, pair.place as u64, pair.value.len() as u64]
    });
    put(numbers, &found);
    Ok(0)
}

fn next_pair(list: &[u8], at: usize, numbers: &mut [u64]) -> Result<usize, Refusal> {
    let mut walk = TargetInfo(list).walk_from(at);
    let pair = walk.ask()?.map_or([0; 4], |pair| {
        let value = [pair.place, pair.value.len()].map(|number| number as u64);
        [1, u64::from(pair.id.0), value[0], value[1]]
    });
    put(numbers, &pair);
    put(&mut numbers[4..], &[walk.at() as u64]);
    Ok(0)
}

fn put_line(line: Line, message: &[u8], out: &mut [u8]) -> Result<usize, Refusal> {
    match line {
        Line::Authenticate => authenticate_line(message, out),
        Line::Challenge => challenge_line(message, out),
        Line::Negotiate => negotiate_line(message, out),
        Line::NlAuth => nl_auth_line(message, out),
        Line::Ntlm => ntlm_line(message, out),
        Line::NtlmProgram => Program::Ntlm.write_line(message, out),
        Line::NlAuthProgram => Program::NlAuth.write_line(message, out),
        Line::Explain => explain(message, out),
    }
}

fn check_night(buffer: &[u8], numbers: &mut [u64]) -> Result<usize, Refusal> {
    let mut listed = entries(numbers);
    check_messages(buffer, &mut listed)?;
    put_entries(&listed, numbers);
    Ok(0)
}

fn decide(settings: u32, challenge: &[u8], numbers: &mut [u64]) -> Result<usize, Refusal> {
    let decided = policy(settings).decide(challenge)?;
    put(numbers, &[u64::from(decided.flags.0)]);
    put(&mut numbers[1..], &optional(decided.pairs.timestamp));
    Ok(0)
}

fn respond(
    how: Respond,
    challenge: &[u8],
    clock: u64,
    parts: &Parts<'_>,
    out: &mut [u8],
) -> Result<Answer, Refusal> {
    let (account, secrets) = (&parts.account(), &parts.secrets());
    match how {
        Respond::With { settings } => {
            let settings = Settings {
                policy: policy(settings),
                account: *account,
            };
            answer(challenge, &settings, clock, secrets, out)
        }
        Respond::Thin(thin) => match thin {
            Thin::ForBench { demand_128 } => {
                answer_for_bench(challenge, account, clock, demand_128 != 0, secrets, out)
            }
            Thin::ToOldServer => answer_for_old_servers(challenge, account, clock, secrets, out),
            Thin::ForRelay => answer_for_relay(challenge, account, clock, secrets, out),
        },
    }
}

/// "Settings are a sum of these bits; other bits are ignored."
const fn policy(settings: u32) -> Policy {
    Policy {
        require_128: settings & 1 != 0,
        ntlmv2: settings & 2 != 0,
        integrity: settings & 4 != 0,
        confidentiality: settings & 8 != 0,
    }
}

fn copy(bytes: &[u8], out: &mut [u8]) -> Result<usize, Refusal> {
    if out.len() < bytes.len() {
        return Err(Reason::NoRoom.of_message());
    }
    put_bytes(out, bytes);
    Ok(bytes.len())
}

fn put_bytes(out: &mut [u8], bytes: &[u8]) {
    out[..bytes.len()].copy_from_slice(bytes);
}

fn put(numbers: &mut [u64], values: &[u64]) {
    numbers[..values.len()].copy_from_slice(values);
}

/// Each field's offset and length, then each field's MaxLen.
fn put_fields(numbers: &mut [u64], fields: &[Field<'_>]) {
    for (numbers, field) in numbers.chunks_exact_mut(2).zip(fields) {
        put(numbers, &[field.place as u64, field.bytes.len() as u64]);
    }
    let last = &mut numbers[2 * fields.len()..];
    for (number, field) in last.iter_mut().zip(fields) {
        *number = u64::from(field.max_len);
    }
}

/// Whether a number is there, and the number or 0.
fn optional(number: Option<u64>) -> [u64; 2] {
    [u64::from(number.is_some()), number.unwrap_or_default()]
}
