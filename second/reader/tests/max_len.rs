//! Document 02, request 9/12: MaxLen in the record of a field, and the last word of
//! a line. "MaxLen changes nothing but this word and the record's MaxLen, which is 0
//! where the field doesn't count."

mod common;

use common::*;
use reader::{
    answer, authenticate_line, challenge_line, check_messages, domain_to_send, explain,
    negotiate_line, ntlm_line, write_response_pairs, Authenticate, Challenge, Entry, Field,
    Negotiate, Policy, ResponsePairs, Secrets, Settings,
};

const CHALLENGE_HEADS: [usize; 2] = [12, 40];
const NAMES: u32 = OEM | OEM_DOMAIN | OEM_WORK;
const TARGETS: u32 = UNICODE | REQUEST_TARGET | TARGET_INFO;

fn set_max(message: &mut [u8], head: usize, max_len: u16) {
    put(message, head + 2, &max_len.to_le_bytes());
}

fn auth() -> Vec<u8> {
    Auth::new(UNICODE | KEY_EXCH, 150)
        .field(LM, 4, 100)
        .field(NT, 24, 104)
        .field(DOMAIN, 2, 88)
        .field(USER, 4, 90)
        .field(WORK, 2, 94)
        .field(KEY, 16, 130)
        .0
}

fn chal() -> Vec<u8> {
    challenge(TARGETS, &utf16("SRV"), &list(&[(7, &[9; 8])]))
}

fn nego() -> Vec<u8> {
    negotiate(NAMES, b"DOM", b"BOX")
}

/// The MaxLen of each field's record.
fn records(message: &[u8]) -> Vec<u16> {
    let of = |fields: &[Field<'_>]| fields.iter().map(|field| field.max_len).collect();
    match message[8] {
        1 => of(&Negotiate::read(message).expect("taken").fields()),
        2 => of(&Challenge::read(message).expect("taken").fields()),
        _ => of(&Authenticate::read(message).expect("taken").fields()),
    }
}

/// The digits of the line's last word.
fn digits(message: &[u8]) -> String {
    let line = line(ntlm_line, message);
    let (_, word) = line.trim_end().rsplit_once(' ').expect("words");
    word.strip_prefix("max=").expect("the word").to_owned()
}

/// A message of each kind, its heads, and the flags bytes with which no field
/// counts by a flag: where they stand, and the bits.
type Kinds = [(Vec<u8>, &'static [usize], &'static [(usize, u8)]); 3];

fn kinds() -> Kinds {
    [
        (nego(), &[16, 24], &[(13, 0x30)]),
        (chal(), &CHALLENGE_HEADS, &[(20, 4), (22, 0x80)]),
        (auth(), &HEADS, &[(63, 0x40)]),
    ]
}

#[test]
fn a_digit_for_each_field_in_field_order() {
    for (message, heads, _) in kinds() {
        let own: Vec<u16> = heads
            .iter()
            .map(|&head| u16::from_le_bytes([message[head], message[head + 1]]))
            .collect();
        assert_eq!(records(&message), own);
        // Every set of fields.
        for set in 0..1_u32 << heads.len() {
            let mut message = message.clone();
            let mut expected = (own.clone(), String::new());
            for (at, &head) in heads.iter().enumerate() {
                let unlike = set >> at & 1 == 1;
                if unlike {
                    set_max(&mut message, head, own[at] ^ 0x100);
                    expected.0[at] ^= 0x100;
                }
                expected.1.push(if unlike { '1' } else { '0' });
            }
            assert_eq!((records(&message), digits(&message)), expected);
        }
    }
}

#[test]
fn one_byte_unlike_is_unlike() {
    for (message, heads, _) in kinds() {
        for (at, &head) in heads.iter().enumerate() {
            let len = u16::from_le_bytes([message[head], message[head + 1]]);
            for max_len in [len - 1, len + 1, len ^ 0x8000, 0, 0xFFFF] {
                let mut other = message.clone();
                set_max(&mut other, head, max_len);
                assert_eq!(records(&other)[at], max_len);
                assert_eq!(&digits(&other)[at..=at], "1");
            }
        }
    }
}

#[test]
fn an_empty_field_that_counts_goes_by_its_head() {
    // "MaxLen 5 with Len 0 is 1 and 5, place and Len stay 0."
    let message = Auth::new(OEM | KEY_EXCH, 88).0;
    assert_eq!(digits(&message), "000000");
    for (at, head) in HEADS.into_iter().enumerate() {
        let mut other = message.clone();
        put_head(&mut other, head, 0, 0xFFFF_FFFF);
        set_max(&mut other, head, 5);
        let field = Authenticate::read(&other).expect("taken").fields()[at];
        let expected = Field {
            max_len: 5,
            ..Field::default()
        };
        assert_eq!(field, expected);
        let mut word = *b"000000";
        word[at] = b'1';
        assert_eq!(digits(&other).as_bytes(), word);
    }
    for (empty, heads) in [
        (negotiate(NAMES, b"", b""), [16, 24]),
        (challenge(TARGETS, b"", b""), CHALLENGE_HEADS),
    ] {
        for (head, (record, word)) in heads.into_iter().zip([([5, 0], "10"), ([0, 5], "01")]) {
            let mut other = empty.clone();
            set_max(&mut other, head, 5);
            assert_eq!(records(&other), record);
            assert_eq!(digits(&other), word);
        }
    }
}

#[test]
fn a_field_that_does_not_count_has_0_and_0() {
    for (message, heads, flags) in kinds() {
        let mut other = message;
        for &(at, bits) in flags {
            other[at] &= !bits;
        }
        for &head in heads {
            set_max(&mut other, head, 0x1234);
        }
        let counting = |field: usize| heads.len() == 6 && field != 5;
        let (record, word): (Vec<u16>, String) = (0..heads.len())
            .map(|field| match counting(field) {
                true => (0x1234, '1'),
                false => (0, '0'),
            })
            .unzip();
        assert_eq!((records(&other), digits(&other)), (record, word));
    }
}

#[test]
fn the_word_stands_last_after_the_time() {
    let mut message = chal();
    set_max(&mut message, 40, 7);
    let time = "0909090909090909";
    let expected = format!("chal flags=00800005 set=U target=SRV pairs=1 time={time} max=01\n");
    assert_eq!(line(challenge_line, &message), expected);
    let message = challenge(TARGETS, b"", b"");
    let expected = "chal flags=00800005 set=U target= pairs=0 max=00\n";
    assert_eq!(line(challenge_line, &message), expected);
    let mut message = p1();
    assert!(line(authenticate_line, &message).ends_with(" kind=v1 max=000000\n"));
    set_max(&mut message, 20, 25);
    assert!(line(authenticate_line, &message).ends_with(" kind=v1 max=010000\n"));
    assert!(line(negotiate_line, &nego()).ends_with(" work=BOX max=00\n"));
    // "`nl` and `refused` lines have no such word."
    assert_eq!(line(ntlm_line, b"short"), "refused 2 field=0 at=0\n");
    let request = nl(0, 1, b"LINE\0");
    let expected = "nl type=0 flags=00000001 a=LINE\n";
    assert_eq!(line(reader::nl_auth_line, &request), expected);
}

/// A message with another MaxLen in every head.
fn stirred(message: &[u8], heads: &[usize]) -> Vec<u8> {
    let mut other = message.to_vec();
    for &head in heads {
        other[head + 2] ^= 0x5A;
        other[head + 3] ^= 0xA5;
    }
    other
}

/// The whole answer of a reading, but for MaxLen.
fn but_records(message: &[u8]) -> String {
    let bare = |field: Field<'_>| format!("{} {:?}", field.place, field.bytes);
    match message[8] {
        1 => {
            let read = Negotiate::read(message);
            format!(
                "{:?}",
                read.map(|read| (read.flags, read.fields().map(bare)))
            )
        }
        2 => {
            let answer = |read: Challenge<'_>| {
                let others = (
                    read.flags,
                    read.set,
                    read.server_challenge,
                    read.fields().map(bare),
                );
                format!("{others:?} {:?}", read.pairs)
            };
            format!("{:?}", Challenge::read(message).map(answer))
        }
        _ => {
            let answer =
                |read: Authenticate<'_>| (read.flags, read.set, read.mic, read.fields().map(bare));
            format!("{:?}", Authenticate::read(message).map(answer))
        }
    }
}

/// The line without its last word.
fn but_last(line: &str) -> &str {
    line.rsplit_once(" max=").map_or(line, |(line, _)| line)
}

#[test]
fn max_len_changes_nothing_but_the_word_and_the_record() {
    for (message, heads, _) in kinds() {
        // Sound, and refused by each check from 6 on that the kind has.
        let mut messages = vec![message.clone()];
        for &head in heads {
            for offset in [3, 89, 102, 0xFFFF_FFFF_u32] {
                let mut other = message.clone();
                put(&mut other, head + 4, &offset.to_le_bytes());
                messages.push(other);
            }
        }
        for message in messages {
            let other = stirred(&message, heads);
            assert_eq!(but_records(&message), but_records(&other));
            let lines = [&message, &other].map(|message| line(ntlm_line, message));
            assert_eq!(but_last(&lines[0]), but_last(&lines[1]));
            assert_eq!(line(explain, &message), line(explain, &other));
            let answers = [&message, &other].map(|message| {
                let entry = |mark| Entry::new(0, message.len() as u64, mark);
                let mut entries = [1, 2, 3].map(entry);
                let answer = check_messages(message, &mut entries);
                (answer, entries)
            });
            assert_eq!(answers[0], answers[1]);
        }
    }
}

#[test]
fn what_is_done_with_a_challenge_does_not_see_it() {
    let message = chal();
    let other = stirred(&message, &CHALLENGE_HEADS);
    let settings = Settings {
        policy: Policy {
            require_128: false,
            ..Policy::default()
        },
        ..Settings::default()
    };
    let done = [&message, &other].map(|message| {
        let (mut sent, mut pairs) = ([0; 300], [0; 300]);
        let answer = answer(message, &settings, 3, &Secrets::default(), &mut sent);
        let back = write_response_pairs(message, &ResponsePairs::default(), &mut pairs);
        let decided = settings.policy.decide(message).map(|read| read.pairs);
        let domain = domain_to_send(b"", message);
        (answer, sent, back, pairs, decided.is_ok(), domain)
    });
    assert!(done[0].0.is_ok() && done[0].2.is_ok());
    assert_eq!(done[0], done[1]);
}
