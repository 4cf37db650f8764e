//! The settled readings of document 01, by their numbers.

mod common;

use common::*;
use reader::{
    answer, authenticate_line, challenge_line, domain_to_send, nl_auth_line, ntlm_line,
    write_authenticate, write_nl_auth_request, Account, Authenticate, AuthenticateParts, AvId,
    Challenge, Domain, NegotiateFlags, NlAuth, NlAuthFlags, Policy, Program, Secrets, Settings,
    TargetInfo, LINE_LIMIT, MAX_MESSAGE,
};

const ANY: u32 = 0xFFFF_FFFF;

fn account(domain: &'static [u8]) -> Account<'static> {
    Account {
        version: [0; 8],
        domain,
        user: b"u\0",
        workstation: b"",
    }
}

fn settings() -> Settings<'static> {
    Settings {
        policy: Policy {
            require_128: false,
            ..Policy::default()
        },
        account: account(b""),
    }
}

/// The message that answers `challenge`.
fn answered(challenge: &[u8], settings: &Settings<'_>, secrets: &Secrets<'_>) -> Vec<u8> {
    let mut out = vec![0; MAX_MESSAGE];
    let answer = answer(challenge, settings, 1, secrets, &mut out).unwrap();
    out.truncate(answer.len);
    out
}

#[test]
fn point_1_a_field_that_does_not_count() {
    // A key head that every check would refuse, and that would deny the MIC.
    for (len, offset) in [(16, ANY), (16, 0), (16, 70), (20, 80)] {
        let message = Auth(p1()).field(KEY, len, offset).0;
        let read = Authenticate::read(&message).unwrap();
        assert_eq!((read.key.place, read.key.bytes.len()), (0, 0));
        assert!(read.mic.is_some());
        let counted = Auth(message).bytes(60, &(UNICODE | KEY_EXCH).to_le_bytes());
        let answer = Authenticate::read(&counted.0);
        assert!(answer.is_err() || answer.unwrap().mic.is_none());
    }
    let mut message = challenge(UNICODE, b"", b"");
    put_head(&mut message, 12, 3, 1);
    put_head(&mut message, 40, 3, ANY);
    let read = Challenge::read(&message).unwrap();
    assert_eq!((read.target_name.place, read.target_info.place), (0, 0));
    assert!(read.target_name.is_empty() && read.target_info.is_empty());
}

#[test]
fn point_2_unicode_decides() {
    let both = UNICODE | OEM;
    let message = Auth::new(both, 100).field(USER, 3, 88).0;
    assert_eq!(refused(Authenticate::read(&message)), (8, 4));
    let message = Auth::new(both, 90).field(USER, 2, 88).0;
    assert!(line(ntlm_line, &message).contains(" set=U domain= user=\\u0000 "));
    let parts = AuthenticateParts {
        flags: NegotiateFlags(both),
        user: b"x",
        ..Default::default()
    };
    assert_eq!(refused(write_authenticate(&parts, &mut [0; 100])), (31, 4));
    let message = challenge(both | TARGET_INFO, b"", &list(&[(2, b"D\0")]));
    assert_eq!(domain_to_send(b"", &message), Domain::Challenge(b"D\0"));
}

#[test]
fn point_3_oem_alone_and_target_info() {
    let message = Auth::new(OEM, 100).field(USER, 3, 89).0;
    let read = Authenticate::read(&message).unwrap();
    assert_eq!((read.user.place, read.user.bytes.len()), (89, 3));
    let parts = AuthenticateParts {
        flags: NegotiateFlags(OEM),
        domain: b"a",
        user: b"bcd",
        ..Default::default()
    };
    assert_eq!(write_authenticate(&parts, &mut [0; 100]), Ok(92));
    let flags = OEM | REQUEST_TARGET;
    assert!(Challenge::read(&challenge(flags, b"abc", b"")).is_ok());
    // TargetInfo of odd length at an odd offset, with UNICODE.
    let mut message = challenge(UNICODE | TARGET_INFO, b"", b"");
    message.push(0);
    message.extend(list(&[(8, b"x")]));
    put_head(&mut message, 40, 9, 57);
    let read = Challenge::read(&message).unwrap();
    assert_eq!((read.target_info.place, read.pairs.pairs), (57, 1));
}

#[test]
fn point_4_fields_that_share_bytes() {
    let mut message = challenge(UNICODE | REQUEST_TARGET | TARGET_INFO, b"", &[0; 4]);
    put_head(&mut message, 12, 4, 56);
    assert!(Challenge::read(&message).is_ok());
    let message = Auth::new(UNICODE, 88).field(USER, 24, 64).0;
    assert_eq!(Authenticate::read(&message).unwrap().mic, None);
    // Secrets with secrets, and names with names.
    let message = Auth::new(UNICODE | KEY_EXCH, 104)
        .field(LM, 8, 88)
        .field(NT, 8, 90)
        .field(KEY, 7, 89)
        .field(DOMAIN, 4, 98)
        .field(USER, 4, 98)
        .field(WORK, 6, 98)
        .0;
    assert!(Authenticate::read(&message).is_ok());
}

#[test]
fn point_5_check_6_does_not_wrap() {
    assert_eq!(refused(Authenticate::read(&p1_with(NT, 2, ANY))), (6, 2));
    assert!(Authenticate::read(&p1_with(NT, 24, 96)).is_ok());
    assert_eq!(refused(Authenticate::read(&p1_with(NT, 25, 96))), (6, 2));
}

#[test]
fn point_6_ids_without_a_size_rule() {
    let bytes = list(&[(8, b"abc"), (0xFFFF, b"z"), (11, b"")]);
    let info = TargetInfo(&bytes);
    assert_eq!(info.count(), Ok(3));
    assert_eq!(info.find(AvId::SINGLE_HOST).unwrap().unwrap().value, b"abc");
    assert_eq!(info.find(AvId(0xFFFF)).unwrap().unwrap().value, b"z");
    assert_eq!(info.answer_at(2).unwrap().unwrap().id, AvId(11));
}

#[test]
fn point_7_searches_that_find_nothing() {
    let bytes = list(&[(8, b"abc")]);
    assert_eq!(TargetInfo(&bytes).find(AvId::END), Ok(None));
    for id in [0, 1, 2, 7, 99] {
        assert_eq!(TargetInfo(b"").find(AvId(id)), Ok(None));
    }
    assert_eq!(TargetInfo(b"").count(), Ok(0));
    assert_eq!(TargetInfo(b"").timestamp(), Ok(None));
    assert_eq!(TargetInfo(b"").answer_at(0), Ok(None));
    assert_eq!(TargetInfo(b"").answer_at(5), Ok(None));
}

#[test]
fn point_8_sizes() {
    for id in [1, 2, 3, 4, 5, 9] {
        assert_eq!(TargetInfo(&list(&[(id, b"")])).count(), Ok(1));
    }
    for (id, size) in [(6, 4), (7, 8), (10, 16)] {
        for len in [0, size - 1, size, size + 1] {
            let bytes = list(&[(id, &vec![0; len])]);
            assert_eq!(TargetInfo(&bytes).count().is_ok(), len == size);
        }
    }
}

#[test]
fn point_9_a_challenge_checks_its_list() {
    let flags = UNICODE | TARGET_INFO;
    let without_end = pair(2, b"D\0");
    let message = challenge(flags, b"", &without_end);
    assert_eq!(refused(Challenge::read(&message)), (11, 2));
    let two_faults = [pair(7, b"short"), vec![1, 0, 9, 0]].concat();
    let message = challenge(flags, b"", &two_faults);
    assert_eq!(refused(Challenge::read(&message)), (13, 2));
}

#[test]
fn point_10_a_pair_place_counts_from_the_list() {
    let bytes = list(&[(2, b"D\0"), (1, b"")]);
    let message = challenge(UNICODE | TARGET_INFO, b"", &bytes);
    let read = Challenge::read(&message).unwrap();
    assert_eq!(read.target_info.place, 56);
    assert_eq!(read.pairs.domain.unwrap().place, 4);
    assert_eq!(read.pairs.computer.unwrap().place, 10);
}

#[test]
fn point_11_a_list_over_65535_bytes() {
    let long = vec![0; 0xFFFF];
    let bytes = list(&[(8, &long), (200, &long), (7, &[1, 0, 0, 0, 0, 0, 0, 0])]);
    assert!(bytes.len() > MAX_MESSAGE);
    assert_eq!(TargetInfo(&bytes).count(), Ok(3));
    assert_eq!(TargetInfo(&bytes).timestamp(), Ok(Some(1)));
}

#[test]
fn point_12_nl_auth_checks_in_order() {
    assert_eq!(refused(NlAuth::read(&nl(2, 0, b"x"))), (4, 0));
    assert_eq!(refused(NlAuth::read(&nl(0x0100_0000, 1, b"x\0"))), (4, 0));
    assert_eq!(refused(NlAuth::read(&nl(0, 0, b"x"))), (14, 0));
    assert_eq!(refused(NlAuth::read(&nl(0, 3, b"x\0y"))), (15, 2));
    assert_eq!(refused(NlAuth::read(&nl(0, 3, b"x\0y\0z"))), (16, 0));
    assert_eq!(refused(NlAuth::read(&nl(1, 0, b"x"))), (17, 0));
}

#[test]
fn point_13_places_of_strings() {
    let message = nl(0, 0x15, b"\0\x01c\0\0");
    let read = NlAuth::read(&message).unwrap();
    let places = read.strings.map(|string| string.place);
    assert_eq!(places, [8, 0, 9, 0, 12]);
    let response = nl(1, 0x1F, b"\0");
    let read = NlAuth::read(&response).unwrap();
    for string in read.strings {
        assert_eq!((string.place, string.bytes.len()), (0, 0));
    }
}

#[test]
fn point_14_other_bits_and_clear_bits_in_writing() {
    let none = NlAuthFlags::new(0x20);
    let mut out = [0xEE; 30];
    let answer = write_nl_auth_request(none, &[b"x"; 5], &mut out);
    assert_eq!(refused(answer), (14, 0));
    assert_eq!(out, [0xEE; 30]);
    let vast = vec![0; 70_000];
    let strings: [&[u8]; 5] = [&vast, b"ok", b"\0", b"\0", &vast];
    let flags = NlAuthFlags::new(0xFFFF_FFE2);
    assert_eq!(write_nl_auth_request(flags, &strings, &mut out), Ok(11));
    assert_eq!(out[..11], nl(0, 2, b"ok\0"));
}

#[test]
fn point_15_a_key_passed_over_has_any_length() {
    let vast = vec![0; 70_000];
    let secrets = Secrets {
        key: &vast,
        ..Default::default()
    };
    for flags in [UNICODE, UNICODE | SIGN | SEAL, UNICODE | KEY_EXCH] {
        let message = answered(&challenge(flags, b"", b""), &settings(), &secrets);
        assert!(Authenticate::read(&message).unwrap().key.is_empty());
    }
    let message = challenge(UNICODE | KEY_EXCH | SEAL, b"", b"");
    let answer = answer(&message, &settings(), 1, &secrets, &mut [0; 200]);
    assert_eq!(refused(answer), (32, 6));
}

#[test]
fn point_16_the_mic_goes_by_the_timestamp_alone() {
    let message = challenge(UNICODE | TARGET_INFO, b"", &list(&[(7, &[5; 8])]));
    let secrets = Secrets {
        lm: b"lm",
        mic: [9; 16],
        ..Default::default()
    };
    for ntlmv2 in [false, true] {
        let mut settings = settings();
        settings.policy.ntlmv2 = ntlmv2;
        let mut out = [0; 200];
        let answer = answer(&message, &settings, 1, &secrets, &mut out).unwrap();
        assert!(answer.mic_due);
        let time = if ntlmv2 { 0x0505_0505_0505_0505 } else { 1 };
        assert_eq!(answer.time, time);
        let read = Authenticate::read(&out[..answer.len]).unwrap();
        assert_eq!(read.mic, Some([9; 16]));
        let lm: &[u8] = if ntlmv2 { &[0; 24] } else { b"lm" };
        assert_eq!(read.lm.bytes, lm);
    }
}

#[test]
fn point_17_what_is_written_is_measured() {
    let vast = vec![1; 70_000];
    let secrets = Secrets {
        lm: &vast,
        ..Default::default()
    };
    let timed = challenge(UNICODE | TARGET_INFO, b"", &list(&[(7, &[5; 8])]));
    let mut out = [0; 88 + 2 + 24];
    let answer_timed = answer(&timed, &settings(), 1, &secrets, &mut out).unwrap();
    assert_eq!(answer_timed.len, out.len());
    let untimed = challenge(UNICODE, b"", b"");
    let answer_untimed = answer(&untimed, &settings(), 1, &secrets, &mut out);
    assert_eq!(refused(answer_untimed), (30, 0));
    let none = Secrets::default();
    let answer_short = answer(&timed, &settings(), 1, &none, &mut out[..113]);
    assert_eq!(refused(answer_short), (33, 0));
}

#[test]
fn point_18_an_empty_pair_is_there() {
    let mut settings = settings();
    settings.policy.integrity = true;
    settings.policy.require_128 = true;
    let flags = UNICODE | TARGET_INFO | BITS_128;
    let message = challenge(flags, b"", &list(&[(1, b""), (2, b"")]));
    answered(&message, &settings, &Secrets::default());
    // A fault of the list comes before 20 and 21.
    let message = challenge(UNICODE | TARGET_INFO, b"", &[1, 0, 0, 0]);
    let answer = answer(&message, &settings, 1, &Secrets::default(), &mut []);
    assert_eq!(refused(answer), (11, 2));
}

#[test]
fn point_19_the_domain_goes_by_the_reading_alone() {
    // 128-bit is not in the flags and pair 1 is not there.
    let message = challenge(UNICODE | TARGET_INFO, b"", &list(&[(2, b"D\0")]));
    assert_eq!(domain_to_send(b"", &message), Domain::Challenge(b"D\0"));
    let info = list(&[(2, b""), (2, b"D\0")]);
    let message = challenge(UNICODE | TARGET_INFO, b"", &info);
    let domain = domain_to_send(b"", &message);
    assert_eq!(domain, Domain::Challenge(b""));
    assert_eq!(domain.bytes().as_ptr(), message[60..].as_ptr());
}

#[test]
fn point_20_output_exactly_as_long() {
    let parts = AuthenticateParts {
        flags: NegotiateFlags(OEM),
        user: b"box7",
        ..Default::default()
    };
    let mut out = [0xEE; 95];
    assert_eq!(write_authenticate(&parts, &mut out[..92]), Ok(92));
    assert_eq!(out[92..], [0xEE; 3]);
    assert_eq!(write_authenticate(&parts, &mut out), Ok(92));
    assert_eq!(out[92..], [0xEE; 3]);
    assert_eq!(refused(write_authenticate(&parts, &mut out[..91])), (33, 0));
}

#[test]
fn point_21_the_limits_of_a_program() {
    let mut room = Box::new([0; LINE_LIMIT]);
    let words = line(nl_auth_line, &nl(0, 1, b"\0")).len();
    let string = vec![b'x'; LINE_LIMIT - words];
    let message = nl(0, 1, &[&string[..], b"\0"].concat());
    let printed = Program::NlAuth.line(&message, &mut room);
    assert_eq!(printed.len(), LINE_LIMIT);
    assert_eq!(printed.last(), Some(&b'\n'));
    let message = nl(0, 1, &[&string[..], b"x\0"].concat());
    assert_eq!(
        Program::NlAuth.line(&message, &mut room),
        b"refused 33 field=0 at=0\n"
    );
    let message = vec![0; MAX_MESSAGE + 1];
    for program in [Program::Ntlm, Program::NlAuth] {
        assert_eq!(
            program.line(&message, &mut room),
            b"refused 1 field=0 at=0\n"
        );
    }
}

#[test]
fn point_22_the_time_word() {
    let info = list(&[(7, &[1, 2, 3, 4, 5, 6, 7, 0xF8]), (7, &[0; 8])]);
    let message = challenge(OEM | TARGET_INFO, b"", &info);
    assert_eq!(
        line(challenge_line, &message),
        "chal flags=00800002 set=O target= pairs=2 time=F807060504030201 max=00\n"
    );
}

#[test]
fn point_23_escapes_by_character_set() {
    let name = [0x20, 0x00, 0xE9, 0x00];
    for (flags, word) in [
        (UNICODE, " user=\\u0020\\u00E9 "),
        (OEM, " user=\\x20\\x00\\xE9\\x00 "),
    ] {
        let message = Auth::new(flags, 92).field(USER, 4, 88).bytes(88, &name).0;
        assert!(line(authenticate_line, &message).contains(word));
    }
    assert_eq!(
        line(nl_auth_line, &nl(0, 8, b"\x03\xC3\xA9\x7F\0")),
        "nl type=0 flags=00000008 d=\\xC3\\xA9\\x7F\n"
    );
}
