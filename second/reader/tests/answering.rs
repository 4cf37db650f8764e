//! Document 01, "Answering a challenge (004)".

mod common;

use common::*;
use reader::{
    answer, answer_for_bench, answer_for_old_servers, answer_for_relay, domain_to_send, Account,
    Answer, Authenticate, Domain, Policy, Refusal, Secrets, Settings,
};

const CLOCK: u64 = 0x0123_4567_89AB_CDEF;
const TIME: u64 = 0x01DD_750F_3F7F_2C5C;
const VERSION_BYTES: [u8; 8] = [10, 0, 0x61, 0x4A, 0, 0, 0, 15];

fn secrets() -> Secrets<'static> {
    Secrets {
        lm: &[0x11; 20],
        nt: &[0x22; 40],
        key: &[0x66; 16],
        mic: [0xC3; 16],
    }
}

/// The defaults but for 128-bit, which few of the challenges here have.
fn settings() -> Settings<'static> {
    Settings {
        policy: Policy {
            require_128: false,
            ..Policy::default()
        },
        account: Account {
            version: VERSION_BYTES,
            domain: b"",
            user: b"u\0",
            workstation: b"W\0",
        },
    }
}

fn with_time() -> Vec<u8> {
    list(&[
        (1, &utf16("SRV")),
        (2, &utf16("DOM")),
        (2, &utf16("OTHER")),
        (7, &TIME.to_le_bytes()),
    ])
}

fn without_time() -> Vec<u8> {
    list(&[(1, &utf16("SRV")), (2, &utf16("DOM"))])
}

/// Answers into too much room; the answer and the message written.
fn answered(
    challenge: &[u8],
    settings: &Settings<'_>,
    secrets: &Secrets<'_>,
) -> Result<(Answer, Vec<u8>), Refusal> {
    let mut out = vec![0xEE; 1 << 17];
    let answer = answer(challenge, settings, CLOCK, secrets, &mut out);
    let len = answer.map_or(0, |answer| answer.len);
    assert!(out[len..].iter().all(|&byte| byte == 0xEE));
    out.truncate(len);
    Ok((answer?, out))
}

#[test]
fn the_defaults() {
    assert_eq!(
        Policy::default(),
        Policy {
            require_128: true,
            ntlmv2: true,
            integrity: false,
            confidentiality: false,
        }
    );
}

#[test]
fn with_a_timestamp_every_byte() {
    let flags = UNICODE | TARGET_INFO | KEY_EXCH | SIGN | VERSION;
    let challenge = challenge(flags, b"", &with_time());
    let (answer, message) = answered(&challenge, &settings(), &secrets()).unwrap();
    let mut expected = Auth::new(flags, 88)
        .field(DOMAIN, 6, 88)
        .field(USER, 2, 94)
        .field(WORK, 2, 96)
        .field(LM, 24, 98)
        .field(NT, 40, 122)
        .field(KEY, 16, 162)
        .bytes(64, &VERSION_BYTES)
        .bytes(72, &[0xC3; 16])
        .0;
    expected.extend(b"D\0O\0M\0u\0W\0");
    expected.extend([0; 24]);
    expected.extend([0x22; 40]);
    expected.extend([0x66; 16]);
    assert_eq!(message, expected);
    assert_eq!(
        answer,
        Answer {
            len: 178,
            time: TIME,
            mic_due: true,
        }
    );
}

#[test]
fn without_a_timestamp() {
    let flags = UNICODE | TARGET_INFO;
    let challenge = challenge(flags, b"", &without_time());
    let (answer, message) = answered(&challenge, &settings(), &secrets()).unwrap();
    assert_eq!((answer.time, answer.mic_due), (CLOCK, false));
    let read = Authenticate::read(&message).unwrap();
    assert_eq!(read.mic, Some([0; 16]));
    assert_eq!(read.lm.bytes, [0x11; 20]);
    assert_eq!(read.flags.0, flags);
}

#[test]
fn without_ntlmv2_the_mic_is_due_all_the_same() {
    let challenge = challenge(UNICODE | TARGET_INFO, b"", &with_time());
    let mut settings = settings();
    settings.policy.ntlmv2 = false;
    let (answer, message) = answered(&challenge, &settings, &secrets()).unwrap();
    assert_eq!((answer.time, answer.mic_due), (CLOCK, true));
    let read = Authenticate::read(&message).unwrap();
    assert_eq!(read.mic, Some([0xC3; 16]));
    assert_eq!(read.lm.bytes, [0x11; 20]);
}

#[test]
fn a_timestamp_counts_with_target_info_only() {
    let challenge = challenge(UNICODE, b"", &with_time());
    let (answer, _) = answered(&challenge, &settings(), &secrets()).unwrap();
    assert_eq!((answer.time, answer.mic_due), (CLOCK, false));
}

#[test]
fn the_key_goes_by_key_exch_and_sign_or_seal() {
    let cases = [
        (0, false),
        (SIGN, false),
        (SEAL, false),
        (SIGN | SEAL, false),
        (KEY_EXCH, false),
        (KEY_EXCH | SIGN, true),
        (KEY_EXCH | SEAL, true),
        (KEY_EXCH | SIGN | SEAL, true),
    ];
    for (flags, is_written) in cases {
        let challenge = challenge(OEM | flags, b"", b"");
        let (_, message) = answered(&challenge, &settings(), &secrets()).unwrap();
        let key = Authenticate::read(&message).unwrap().key.bytes;
        assert_eq!(key, if is_written { &[0x66; 16][..] } else { b"" });

        let odd_key = Secrets {
            key: b"12345",
            ..secrets()
        };
        let answer = answered(&challenge, &settings(), &odd_key);
        if is_written {
            assert_eq!(refused(answer), (32, 6));
        } else {
            assert!(answer.is_ok());
        }
    }
}

#[test]
fn refusal_20_128_bit_demanded() {
    let mut settings = settings();
    settings.policy.require_128 = true;
    let weak = challenge(UNICODE, b"", b"");
    assert_eq!(refused(answered(&weak, &settings, &secrets())), (20, 0));
    let strong = challenge(UNICODE | BITS_128, b"", b"");
    assert!(answered(&strong, &settings, &secrets()).is_ok());
}

#[test]
fn refusal_21_names_wanted() {
    let lists: [(&Pairs<'_>, bool); 6] = [
        (&[], false),
        (&[(1, b"S\0")], false),
        (&[(2, b"D\0")], false),
        (&[(3, b""), (4, b"")], false),
        (&[(1, b"S\0"), (2, b"D\0")], true),
        (&[(2, b""), (1, b"")], true),
    ];
    for (pairs, both_there) in lists {
        let challenge = challenge(UNICODE | TARGET_INFO, b"", &list(pairs));
        for bits in 0..8 {
            let mut settings = settings();
            settings.policy.ntlmv2 = bits & 1 != 0;
            settings.policy.integrity = bits & 2 != 0;
            settings.policy.confidentiality = bits & 4 != 0;
            let wanted = matches!(bits, 3 | 5 | 7);
            let answer = answered(&challenge, &settings, &secrets());
            if wanted && !both_there {
                assert_eq!(refused(answer), (21, 0));
            } else {
                assert!(answer.is_ok());
            }
        }
    }
}

#[test]
fn the_order_is_reading_20_21_writing() {
    let mut settings = settings();
    settings.policy = Policy {
        require_128: true,
        ntlmv2: true,
        integrity: true,
        confidentiality: false,
    };
    settings.account.user = b"odd";
    let refused = |challenge: &[u8]| refused(answered(challenge, &settings, &secrets()));
    let flags = UNICODE | TARGET_INFO;
    assert_eq!(refused(&challenge(flags, b"", &[0; 5])), (12, 2));
    assert_eq!(refused(&challenge(flags, b"", &list(&[]))), (20, 0));
    let flags = flags | BITS_128;
    assert_eq!(refused(&challenge(flags, b"", &list(&[]))), (21, 0));
    assert_eq!(refused(&challenge(flags, b"", &without_time())), (31, 4));
}

#[test]
fn every_refusal_of_the_writing_passes_through() {
    let challenge = challenge(UNICODE, b"", b"");
    let vast = vec![0; 70_000];
    let too_long = Secrets {
        nt: &vast,
        ..secrets()
    };
    let answer_30 = answered(&challenge, &settings(), &too_long);
    assert_eq!(refused(answer_30), (30, 0));

    let (whole, _) = answered(&challenge, &settings(), &secrets()).unwrap();
    for room in 0..whole.len {
        let mut out = vec![0xEE; room];
        let answer = answer(&challenge, &settings(), CLOCK, &secrets(), &mut out);
        assert_eq!(refused(answer), (33, 0));
        assert!(out.iter().all(|&byte| byte == 0xEE));
    }
    let mut out = vec![0xEE; whole.len];
    let exact = answer(&challenge, &settings(), CLOCK, &secrets(), &mut out);
    assert_eq!(exact, Ok(whole));
}

#[test]
fn the_domain_to_send() {
    let unicode = challenge(UNICODE | TARGET_INFO, b"", &with_time());
    let oem = challenge(OEM | TARGET_INFO, b"", &with_time());
    let no_pair = challenge(UNICODE | TARGET_INFO, b"", &list(&[(1, b"S\0")]));
    let refused = &unicode[..unicode.len() - 1];
    let dom = utf16("DOM");
    for (setting, challenge, expected) in [
        (&b"A\0"[..], &unicode[..], Domain::Settings(b"A\0")),
        (b"", &unicode, Domain::Challenge(&dom)),
        (b"", &oem, Domain::Settings(b"")),
        (b"", &no_pair, Domain::Settings(b"")),
        (b"", refused, Domain::Settings(b"")),
        (b"A\0", refused, Domain::Settings(b"A\0")),
    ] {
        assert_eq!(domain_to_send(setting, challenge), expected);
    }
}

#[test]
fn the_domain_is_a_part_of_what_it_came_from() {
    let message = challenge(UNICODE | TARGET_INFO, b"", &with_time());
    let from_challenge = domain_to_send(b"", &message).bytes();
    // 56 for the start of the list, 10 for pair 1, 4 for the head of pair 2.
    assert_eq!(from_challenge.as_ptr(), message[70..].as_ptr());
    let setting = b"DOM".to_vec();
    let from_settings = domain_to_send(&setting, &message).bytes();
    assert_eq!(from_settings.as_ptr(), setting.as_ptr());
    let empty = domain_to_send(&setting[1..1], &message[..60]).bytes();
    assert_eq!(empty.as_ptr(), setting[1..].as_ptr());
}

#[test]
fn the_domain_sent_is_the_domain_to_send() {
    for flags in [UNICODE | TARGET_INFO, OEM | TARGET_INFO, UNICODE] {
        for setting in [&b""[..], b"A\0"] {
            let challenge = challenge(flags, b"", &with_time());
            let mut settings = settings();
            settings.account.domain = setting;
            let (_, message) = answered(&challenge, &settings, &secrets()).unwrap();
            assert_eq!(
                Authenticate::read(&message).unwrap().domain.bytes,
                domain_to_send(setting, &challenge).bytes()
            );
        }
    }
}

/// Request 7/12: the bench says whether 128-bit is demanded, of old servers it
/// isn't, and the relay goes by the defaults.
#[test]
fn the_three_calls_and_128_bit() {
    let weak = settings();
    let (account, secrets) = (&weak.account, &secrets());
    let strong = Settings {
        policy: Policy::default(),
        ..weak
    };
    for message in &[
        challenge(UNICODE | TARGET_INFO, b"", &with_time()),
        challenge(UNICODE | TARGET_INFO | BITS_128, b"", &with_time()),
        challenge(UNICODE | TARGET_INFO, b"", &list(&[])),
        challenge(OEM | KEY_EXCH | SEAL, b"", b""),
        challenge(OEM | KEY_EXCH | SEAL | BITS_128, b"", b""),
        b"not a challenge".to_vec(),
    ] {
        let same = |answer: Result<Answer, Refusal>, out: &[u8], settings: &Settings<'_>| {
            let written = &out[..answer.map_or(0, |answer| answer.len)];
            let expected = answered(message, settings, secrets);
            assert_eq!(answer.map(|answer| (answer, written.to_vec())), expected);
        };
        let out = &mut [0xEE; 1 << 10];
        for (require_128, settings) in [(true, &strong), (false, &weak)] {
            let answer = answer_for_bench(message, account, CLOCK, require_128, secrets, out);
            same(answer, out, settings);
        }
        let answer = answer_for_old_servers(message, account, CLOCK, secrets, out);
        same(answer, out, &weak);
        let answer = answer_for_relay(message, account, CLOCK, secrets, out);
        same(answer, out, &strong);
    }
}

#[test]
fn a_challenge_without_128_bit_is_refused_unless_told_otherwise() {
    let account = settings().account;
    let secrets = secrets();
    let weak = challenge(UNICODE | TARGET_INFO, b"", &with_time());
    let mut out = [0xEE; 300];
    let relay = answer_for_relay(&weak, &account, CLOCK, &secrets, &mut out);
    assert_eq!(refused(relay), (20, 0));
    let bench = answer_for_bench(&weak, &account, CLOCK, true, &secrets, &mut out);
    assert_eq!(refused(bench), (20, 0));
    assert_eq!(out, [0xEE; 300]);
    assert!(answer_for_bench(&weak, &account, CLOCK, false, &secrets, &mut out).is_ok());
    assert!(answer_for_old_servers(&weak, &account, CLOCK, &secrets, &mut out).is_ok());
}

#[test]
fn a_decision_is_the_reading_then_20_then_21() {
    let policy = |require_128, integrity| Policy {
        require_128,
        integrity,
        ..Policy::default()
    };
    let info = list(&[(7, &TIME.to_le_bytes())]);
    let message = challenge(UNICODE | TARGET_INFO, b"", &info);
    let decided = policy(false, false).decide(&message).expect("no refusal");
    assert_eq!(decided.flags.0, UNICODE | TARGET_INFO);
    assert_eq!(decided.pairs.timestamp, Some(TIME));
    assert_eq!(refused(policy(true, true).decide(&message)), (20, 0));
    assert_eq!(refused(policy(false, true).decide(&message)), (21, 0));
    assert_eq!(refused(policy(true, true).decide(&message[..47])), (2, 0));
}
