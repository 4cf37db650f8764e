mod canonical;
mod chunks;
mod dns_names;
mod explain;
mod headers;
mod lent;
mod max_len;
mod mic;
mod night;
mod response_pairs;

use std::io::sink;
use std::num::NonZero;

use super::call::{
    place, refusal, refused, refused_at, Call, Line, Respond, Thin, FARTHEST, NAMES,
};
use super::chunks::{Found, Plan, Until, CHUNK};
use super::hold::Library;
use super::{second, Report};

/// Drawn cases that a planted fault is tried on.
const TRIED: usize = 400;

/// Messages of the folder of messages, raw, by their names.
fn files<const N: usize>(names: [&str; N]) -> Vec<Vec<u8>> {
    let folder = concat!(env!("CARGO_MANIFEST_DIR"), "/../../messages/");
    let read = |name| std::fs::read(format!("{folder}{name}.bin")).expect("a message");
    names.map(read).to_vec()
}

fn captured() -> Vec<Vec<u8>> {
    files([
        "challenge-smbd",
        "authenticate-smbclient",
        "negotiate-names-escapes",
    ])
}

/// The messages that are always tried, so that a fault needs no luck to be found:
/// sound ones, and one for each refusal that is seldom drawn.
fn given() -> Vec<Vec<u8>> {
    let refused = files([
        "authenticate-p2-name-over-response",
        "authenticate-cut",
        "negotiate-cut",
        "challenge-list-runs-out",
        "challenge-value-past-end",
        "challenge-timestamp-short",
        "challenge-byte-after-end-pair",
    ]);
    // A list that ends one byte after a pair should have started.
    let mut cut = captured().swap_remove(0);
    cut[40] = 49;
    [captured(), refused, vec![cut]].concat()
}

/// Holds a library on the messages that are given and on drawn ones.
fn tried(library: impl Library, given: &[Vec<u8>], drawn: usize) -> Found {
    let plan = Plan {
        seed: 5,
        given,
        captured: &captured(),
        until: Until::Drawn(drawn),
        chunk: CHUNK,
        threads: NonZero::<usize>::MIN,
    };
    plan.run_alone(library, &mut sink())
}

fn report(library: impl Library) -> Found {
    tried(library, &given(), TRIED)
}

fn printed(library: impl Library) -> (usize, String) {
    let mut out = Vec::new();
    let found = report(library);
    let report = Report { seed: 5, found };
    let failed = report.print(&mut out).expect("room for the text");
    (failed, String::from_utf8(out).expect("text"))
}

#[test]
fn the_reader_agrees_with_itself_and_reaches_every_call() {
    let report = report(second);
    assert_eq!((report.failed, report.different), (0, 0));
    for missing in report.tally.not_reached() {
        assert!(!missing.ends_with(" answers"), "{missing}");
        assert!(!missing.ends_with(" secrets"), "{missing}");
    }
    let (_, out) = printed(second);
    for name in NAMES {
        assert!(out.contains(&format!("\n  {name} ")), "{name}");
    }
    assert!(out.contains(&format!("\n{} passed, ", TRIED + given().len())));
}

#[test]
fn a_difference_is_printed_whole_and_counted() {
    let message = b"\x02\0\0\0\0\0\0\0\x5C".to_vec();
    let library = |call: &Call<'_>, out: &mut [u8], numbers: &mut [u64]| match call {
        Call::ReadNlAuth { .. } => refused(16, 0),
        _ => second(call, out, numbers),
    };
    let found = tried(library, &[message], 0);
    let report = Report { seed: 5, found };
    let mut out = Vec::new();
    let failed = report.print(&mut out).expect("room for the text");
    let out = String::from_utf8(out).expect("text");
    assert!(out.starts_with("1 cases from seed 5, "));
    let told =
        "\nDIFFERENT: read_nl_auth message=02000000000000005C\n    lent: 0 bytes, 15 numbers\n    \
                proved: refused 16 field=0 at=0, numbers [";
    assert!(out.contains(told), "{out}");
    assert!(out.contains("\n    second: refused 4 field=0 at=0, numbers ["));
    let missed = out.matches("NOT REACHED: ").count();
    assert_eq!(failed, missed + 1);
    assert!(out.ends_with(&format!("\n0 passed, {failed} failed\n")));
}

/// The library with one fault: `fault` is told the call, what it answered and
/// what was lent, and may change them.
fn planted(
    fault: impl Fn(&Call<'_>, u64, &mut [u8], &mut [u64]) -> u64,
) -> impl Fn(&Call<'_>, &mut [u8], &mut [u64]) -> u64 {
    move |call, out, numbers| {
        let answer = second(call, out, numbers);
        fault(call, answer, out, numbers)
    }
}

/// Runs a faulty library: the fault must be found, and told by `what` and the
/// name of its call.
fn found(what: &str, name: &str, library: impl Library) {
    let report = report(library);
    assert!(report.failed > 0);
    let start = format!("{what}: {name} ");
    let mut texts = report.differences();
    assert!(texts.any(|(_, text)| text.starts_with(&start)), "{start}");
}

#[test]
fn a_room_that_is_one_byte_too_strict_is_found() {
    found("DIFFERENT", "ntlm_line", |call, out, numbers| match call {
        Call::Line {
            line: Line::Ntlm, ..
        } => {
            let less = out.len().saturating_sub(1);
            second(call, &mut out[..less], numbers)
        }
        _ => second(call, out, numbers),
    });
}

#[test]
fn a_byte_changed_by_a_refusal_is_found() {
    found(
        "CHANGED MORE THAN IT WRITES",
        "respond",
        planted(|call, answer, out, _| {
            if let (Call::Respond { .. }, Some((20, _)), Some(byte)) =
                (call, refusal(answer), out.first_mut())
            {
                *byte = !*byte;
            }
            answer
        }),
    );
}

#[test]
fn a_byte_after_the_answer_is_found() {
    found(
        "CHANGED MORE THAN IT WRITES",
        "write_authenticate",
        planted(|call, answer, out, _| {
            if let Call::WriteAuthenticate { .. } = call {
                if let Some(byte) = usize::try_from(answer).ok().and_then(|at| out.get_mut(at)) {
                    *byte = !*byte;
                }
            }
            answer
        }),
    );
}

#[test]
fn a_number_after_the_answer_is_found() {
    found(
        "CHANGED MORE THAN IT WRITES",
        "find_pair",
        planted(|call, answer, _, numbers| {
            if let (Call::FindPair { .. }, Some(number)) = (call, numbers.get_mut(3)) {
                *number = 0;
            }
            answer
        }),
    );
}

#[test]
fn another_field_of_a_refusal_is_found() {
    found(
        "DIFFERENT",
        "read_authenticate",
        planted(|call, answer, _, _| match (call, refusal(answer)) {
            (Call::ReadAuthenticate { .. }, Some((6, field))) => refused(6, field % 6 + 1),
            _ => answer,
        }),
    );
}

/// A faulty library whose refusals of pairs have another place, in the calls of
/// this name: `wrong` is told the call, the number and the place.
fn misplaced(name: &'static str, wrong: impl Fn(&Call<'_>, u8, u64) -> u64) {
    found(
        "DIFFERENT",
        name,
        planted(|call, answer, _, _| match refusal(answer) {
            Some((number @ 10..=13, field)) if call.name() == name => {
                let place = wrong(call, number, place(answer));
                refused_at(number, field, place as usize)
            }
            _ => answer,
        }),
    );
}

/// Where the list of a challenge that was refused begins.
fn list_start(challenge: &[u8]) -> u64 {
    u64::from(u32::from_le_bytes(
        *challenge[44..].first_chunk().expect("a head"),
    ))
}

#[test]
fn another_place_of_a_pair_is_found() {
    for name in ["check_pairs", "count_pairs", "find_pair", "next_pair"] {
        // None, that of the value, and the first byte after an end pair.
        misplaced(name, |_, _, _| 0);
        misplaced(name, |_, number, place| match number {
            10 | 13 => place + 4,
            _ => place,
        });
        misplaced(name, |_, number, place| match number {
            12 => place + 4,
            _ => place,
        });
    }
    // Places that don't fit go round, or are none.
    for shown in [|at: usize| at as u64 & FARTHEST, |_: usize| 0] {
        misplaced("next_pair", move |call, _, place| match *call {
            Call::NextPair { at, .. } if place == FARTHEST => shown(at),
            _ => place,
        });
    }
}

#[test]
fn another_start_of_a_list_in_its_message_is_found() {
    let of = |call: &Call<'_>| match *call {
        Call::ReadChallenge { message } | Call::ReadTimestamp { message } => list_start(message),
        Call::Decide { challenge, .. }
        | Call::Respond { challenge, .. }
        | Call::WriteResponsePairs { challenge, .. } => list_start(challenge),
        _ => 0,
    };
    for name in [
        "read_challenge",
        "read_timestamp",
        "decide",
        "respond",
        "write_response_pairs",
    ] {
        // The list's place, and the start counted twice.
        misplaced(name, move |call, _, place| place - of(call));
        misplaced(name, move |call, _, place| place + of(call));
    }
}

#[test]
fn a_place_of_another_refusal_is_found() {
    found(
        "DIFFERENT",
        "read_authenticate",
        planted(|call, answer, _, _| match (call, refusal(answer)) {
            (Call::ReadAuthenticate { .. }, Some((9, field))) => refused_at(9, field, 88),
            _ => answer,
        }),
    );
}

#[test]
fn a_field_that_does_not_fit_and_is_copied_as_empty_is_found() {
    found(
        "DIFFERENT",
        "field_bytes",
        planted(|call, answer, _, _| match (call, refusal(answer)) {
            (Call::FieldBytes { .. }, Some((6, 0))) => 0,
            _ => answer,
        }),
    );
}

#[test]
fn an_empty_field_that_is_refused_past_the_end_is_found() {
    found(
        "DIFFERENT",
        "field_bytes",
        planted(|call, answer, _, _| match call {
            Call::FieldBytes {
                message,
                offset,
                len: 0,
            } if *offset as usize > message.len() => refused(6, 0),
            _ => answer,
        }),
    );
}

#[test]
fn a_copy_whose_room_is_looked_at_first_is_found() {
    found(
        "DIFFERENT",
        "field_bytes",
        planted(|call, answer, out, _| match (call, refusal(answer)) {
            (Call::FieldBytes { len, .. }, Some((6, 0))) if out.len() < usize::from(*len) => {
                refused(33, 0)
            }
            _ => answer,
        }),
    );
}

#[test]
fn a_short_array_that_is_read_for_is_found() {
    found(
        "DIFFERENT",
        "read_challenge",
        |call, out, numbers| match call {
            Call::ReadChallenge { .. } if numbers.len() < 7 => {
                let answer = second(call, &mut [0; 8], &mut [0; 7]);
                if refusal(answer).is_some() {
                    answer
                } else {
                    refused(33, 0)
                }
            }
            _ => second(call, out, numbers),
        },
    );
}

#[test]
fn time_from_the_clock_is_found() {
    found(
        "DIFFERENT",
        "respond_for_relay",
        planted(|call, answer, _, numbers| {
            if let Call::Respond {
                how: Respond::Thin(Thin::ForRelay),
                clock,
                ..
            } = call
            {
                if refusal(answer).is_none() {
                    numbers[0] = *clock;
                }
            }
            answer
        }),
    );
}

/// The library with other inputs in some calls.
fn other_call(
    change: impl for<'a> Fn(Call<'a>) -> Call<'a>,
) -> impl Fn(&Call<'_>, &mut [u8], &mut [u64]) -> u64 {
    move |call, out, numbers| second(&change(*call), out, numbers)
}

#[test]
fn a_mic_that_is_not_due_is_found() {
    // Written through, whatever the challenge has.
    found(
        "DIFFERENT",
        "respond",
        planted(|call, answer, out, numbers| {
            if let Call::Respond { parts, .. } = call {
                if refusal(answer).is_none() && numbers[1] == 0 {
                    out[72..88].copy_from_slice(parts.mic);
                }
            }
            answer
        }),
    );
}

#[test]
fn settings_that_are_left_out_are_found() {
    found(
        "DIFFERENT",
        "decide",
        other_call(|call| match call {
            Call::Decide {
                settings,
                challenge,
            } => Call::Decide {
                settings: settings & !8,
                challenge,
            },
            call => call,
        }),
    );
}

/// A thin call that goes by the settings of another, or by others.
#[test]
fn a_thin_call_by_other_settings_is_found() {
    let faults: [(&str, fn(Respond) -> Respond); 6] = [
        ("respond_for_bench", |how| match how {
            Respond::Thin(Thin::ForBench { .. }) => Respond::Thin(Thin::ForBench { demand_128: 0 }),
            how => how,
        }),
        ("respond_for_bench", |how| match how {
            Respond::Thin(Thin::ForBench { .. }) => Respond::Thin(Thin::ForRelay),
            how => how,
        }),
        // Only the lowest byte of the caller's number.
        ("respond_for_bench", |how| match how {
            Respond::Thin(Thin::ForBench { demand_128 }) => Respond::Thin(Thin::ForBench {
                demand_128: demand_128 & 0xFF,
            }),
            how => how,
        }),
        ("respond_to_old_server", |how| match how {
            Respond::Thin(Thin::ToOldServer) => Respond::Thin(Thin::ForRelay),
            how => how,
        }),
        ("respond_for_relay", |how| match how {
            Respond::Thin(Thin::ForRelay) => Respond::Thin(Thin::ToOldServer),
            how => how,
        }),
        ("respond_for_relay", |how| match how {
            // Integrity wanted as well.
            Respond::Thin(Thin::ForRelay) => Respond::With { settings: 7 },
            how => how,
        }),
    ];
    for (name, change) in faults {
        found(
            "DIFFERENT",
            name,
            other_call(move |call| match call {
                Call::Respond {
                    how,
                    challenge,
                    clock,
                    parts,
                } => Call::Respond {
                    how: change(how),
                    challenge,
                    clock,
                    parts,
                },
                call => call,
            }),
        );
    }
}

#[test]
fn a_bit_that_its_name_does_not_make_is_found() {
    // The caller's flags as they are, whatever the names.
    found(
        "DIFFERENT",
        "write_negotiate",
        planted(|call, answer, out, _| {
            if let (Call::WriteNegotiate { flags, .. }, None) = (call, refusal(answer)) {
                out[12..16].copy_from_slice(&flags.to_le_bytes());
            }
            answer
        }),
    );
}

#[test]
fn a_domain_that_is_cut_to_fit_is_found() {
    found(
        "DIFFERENT",
        "write_negotiate",
        other_call(|call| match call {
            Call::WriteNegotiate {
                flags,
                version,
                domain,
                workstation,
            } => Call::WriteNegotiate {
                flags,
                version,
                domain: &domain[..domain.len().min(15)],
                workstation,
            },
            call => call,
        }),
    );
}

#[test]
fn a_domain_that_counts_without_its_bit_is_found() {
    let counts = |call: &Call<'_>, out: &mut [u8], numbers: &mut [u64]| match *call {
        Call::ReadNegotiate { message } if message.len() > 13 => {
            let mut message = message.to_vec();
            message[13] |= 0x10;
            let message = &message;
            second(&Call::ReadNegotiate { message }, out, numbers)
        }
        _ => second(call, out, numbers),
    };
    found("DIFFERENT", "read_negotiate", counts);
}

#[test]
fn a_type_that_chooses_another_reader_is_found() {
    // As before request 1/12.
    let old = |call: &Call<'_>, out: &mut [u8], numbers: &mut [u64]| match *call {
        Call::Line {
            line: Line::Ntlm,
            message,
        } if message.get(8) == Some(&1) => {
            let line = Line::Authenticate;
            second(&Call::Line { line, message }, out, numbers)
        }
        _ => second(call, out, numbers),
    };
    found("DIFFERENT", "ntlm_line", old);
}

#[test]
fn a_line_that_shows_a_secret_is_found_without_the_reader() {
    let leaks = planted(|call, answer, out, _| {
        if let Call::Line {
            line: Line::Authenticate,
            message,
        } = call
        {
            if let (None, Some(last), Some(byte)) =
                (refusal(answer), message.last(), out.last_mut())
            {
                *byte = *last;
            }
        }
        answer
    });
    found("SECRETS TELL", "authenticate_line", leaks);
}

#[test]
fn a_refusal_by_a_secret_is_found_without_the_reader() {
    let leaks = planted(|call, answer, _, _| match call {
        Call::Respond { parts, .. } if parts.key.first().is_some_and(|&byte| byte > 0x80) => {
            refused(32, 6)
        }
        _ => answer,
    });
    found("SECRETS TELL", "respond", leaks);
}

#[test]
fn a_byte_read_past_the_message_is_found() {
    let past = |call: &Call<'_>, out: &mut [u8], numbers: &mut [u64]| match *call {
        // The message as if it were longer by what follows it in memory.
        Call::Line {
            line: Line::Challenge,
            message,
        } if message.len() == 47 => {
            let longer = [message, &[0]].concat();
            let call = Call::Line {
                line: Line::Challenge,
                message: &longer,
            };
            second(&call, out, numbers)
        }
        _ => second(call, out, numbers),
    };
    let short = captured()[0][..47].to_vec();
    assert_eq!(tried(past, &[short], 0).failed, 1);
}
