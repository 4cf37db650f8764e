//! Every reading refusal, the order of the checks, and the boundaries.

mod common;

use common::*;
use reader::{
    field_bytes, Authenticate, AvId, Challenge, Negotiate, NlAuth, NlAuthType, TargetInfo,
    MAX_MESSAGE,
};

const MOST: u32 = 0xFFFF_FFFF;

#[test]
fn refusal_1_over_65535_bytes() {
    let mut message = Auth::new(UNICODE, MAX_MESSAGE).0;
    assert!(Authenticate::read(&message).is_ok());
    message.push(0);
    assert_eq!(refused(Authenticate::read(&message)), (1, 0));

    let mut message = challenge(UNICODE, b"", b"");
    message.resize(MAX_MESSAGE, 0);
    assert!(Challenge::read(&message).is_ok());
    message.push(0);
    assert_eq!(refused(Challenge::read(&message)), (1, 0));

    let mut message = negotiate(OEM, b"", b"");
    message.resize(MAX_MESSAGE, 0);
    assert!(Negotiate::read(&message).is_ok());
    message.push(0);
    assert_eq!(refused(Negotiate::read(&message)), (1, 0));

    let mut message = nl(0, 1, &vec![b'x'; MAX_MESSAGE - 9]);
    message.push(0);
    assert_eq!(message.len(), MAX_MESSAGE);
    let read = NlAuth::read(&message).unwrap();
    assert_eq!(read.strings[0].bytes.len(), MAX_MESSAGE - 9);
    message.push(0);
    assert_eq!(refused(NlAuth::read(&message)), (1, 0));
}

#[test]
fn refusal_2_shorter_than_the_fixed_part() {
    let auth = Auth::new(UNICODE, 64).0;
    let chal = challenge(UNICODE, b"", b"");
    let nego = negotiate(UNICODE, b"", b"");
    let response = nl(1, 0, &[0]);
    for len in 0..64 {
        assert_eq!(refused(Authenticate::read(&auth[..len])), (2, 0));
    }
    for len in 0..48 {
        assert_eq!(refused(Challenge::read(&chal[..len])), (2, 0));
    }
    for len in 0..32 {
        assert_eq!(refused(Negotiate::read(&nego[..len])), (2, 0));
    }
    for len in 0..8 {
        assert_eq!(refused(NlAuth::read(&response[..len])), (2, 0));
    }
    assert!(Authenticate::read(&auth).is_ok());
    assert!(Challenge::read(&chal[..48]).is_ok());
    assert!(Negotiate::read(&nego[..32]).is_ok());
    assert_eq!(refused(NlAuth::read(&response[..8])), (17, 0));
}

#[test]
fn refusal_3_each_byte_of_the_signature() {
    for at in 0..8 {
        let mut auth = p1();
        auth[at] ^= 0x20;
        assert_eq!(refused(Authenticate::read(&auth)), (3, 0));
        let mut chal = challenge(UNICODE, b"", b"");
        chal[at] ^= 0x01;
        assert_eq!(refused(Challenge::read(&chal)), (3, 0));
        let mut nego = negotiate(UNICODE, b"", b"");
        nego[at] ^= 0x80;
        assert_eq!(refused(Negotiate::read(&nego)), (3, 0));
    }
}

#[test]
fn refusal_4_each_byte_of_the_type() {
    for at in 8..12 {
        let mut auth = p1();
        auth[at] ^= 0x80;
        assert_eq!(refused(Authenticate::read(&auth)), (4, 0));
        let mut chal = challenge(UNICODE, b"", b"");
        chal[at] ^= 0x80;
        assert_eq!(refused(Challenge::read(&chal)), (4, 0));
        let mut nego = negotiate(UNICODE, b"", b"");
        nego[at] ^= 0x80;
        assert_eq!(refused(Negotiate::read(&nego)), (4, 0));
    }
    assert_eq!(refused(Challenge::read(&p1())), (4, 0));
    assert_eq!(refused(Negotiate::read(&p1())), (4, 0));
    for message_type in [2, 3, 0x0100, 0x0001_0000, 0x0100_0000, MOST] {
        assert_eq!(refused(NlAuth::read(&nl(message_type, 1, b"x\0"))), (4, 0));
    }
}

#[test]
fn refusal_5_no_character_set() {
    let message = Auth::new(!(UNICODE | OEM), 64).0;
    assert_eq!(refused(Authenticate::read(&message)), (5, 0));
    let message = challenge(!(UNICODE | OEM), b"", b"");
    assert_eq!(refused(Challenge::read(&message)), (5, 0));
    let message = negotiate(!(UNICODE | OEM), b"", b"");
    assert_eq!(refused(Negotiate::read(&message)), (5, 0));
}

#[test]
fn refusal_6_each_field_exactly_at_the_end_and_one_past() {
    for number in 1..=6 {
        let at_end = Auth::new(UNICODE | KEY_EXCH, 100).field(number, 4, 96).0;
        let read = Authenticate::read(&at_end).unwrap();
        for (at, field) in read.fields().iter().enumerate() {
            let expected = if at + 1 == number { (96, 4) } else { (0, 0) };
            assert_eq!((field.place, field.bytes.len()), expected);
        }
        // One past the end, and sums that wrap in 32 bits.
        for (len, offset) in [
            (5, 96),
            (4, 97),
            (1, 100),
            (1, MOST),
            (2, MOST),
            (0xFFFF, MOST),
            (0xFFFF, 0xFFFF_0001),
            (37, 64),
        ] {
            let message = Auth::new(UNICODE | KEY_EXCH, 100)
                .field(number, len, offset)
                .0;
            assert_eq!(refused(Authenticate::read(&message)), (6, number as u8));
        }
    }
}

#[test]
fn refusal_6_in_a_challenge() {
    let flags = OEM | REQUEST_TARGET | TARGET_INFO;
    let message = challenge(flags, b"abc", &[0; 4]);
    assert!(Challenge::read(&message).is_ok());
    let short = &message[..message.len() - 1];
    assert_eq!(refused(Challenge::read(short)), (6, 2));
    assert_eq!(refused(Challenge::read(&message[..58])), (6, 1));
    for (head, field) in [(12, 1), (40, 2)] {
        let mut message = message.clone();
        put_head(&mut message, head, 2, MOST);
        assert_eq!(refused(Challenge::read(&message)), (6, field));
    }
}

/// A NEGOTIATE of 50 bytes in which both names count.
const BOTH: u32 = UNICODE | OEM_DOMAIN | OEM_WORK;

fn negotiate_with(head: usize, len: u16, offset: u32) -> Vec<u8> {
    let mut message = negotiate(BOTH, b"", b"");
    message.resize(50, 0);
    put_head(&mut message, head, len, offset);
    message
}

#[test]
fn refusal_6_in_a_negotiate() {
    for (head, field) in NEGOTIATE_HEADS {
        let at_end = negotiate_with(head, 4, 46);
        let read = Negotiate::read(&at_end).unwrap();
        let places = [read.domain, read.workstation].map(|name| (name.place, name.bytes.len()));
        let mut expected = [(0, 0); 2];
        expected[usize::from(field) - 1] = (46, 4);
        assert_eq!(places, expected);
        for (len, offset) in [
            (5, 46),
            (4, 47),
            (1, 50),
            (1, MOST),
            (2, MOST),
            (0xFFFF, MOST),
            (0xFFFF, 0xFFFF_0001),
            (19, 32),
        ] {
            let message = negotiate_with(head, len, offset);
            assert_eq!(refused(Negotiate::read(&message)), (6, field));
        }
    }
}

#[test]
fn refusal_7_in_a_negotiate() {
    for (head, field) in NEGOTIATE_HEADS {
        for offset in [0, 2, 30, 31] {
            let message = negotiate_with(head, 2, offset);
            assert_eq!(refused(Negotiate::read(&message)), (7, field));
        }
        // The Version is no part of the house's fixed part.
        for offset in [32, 33, 39, 40] {
            assert!(Negotiate::read(&negotiate_with(head, 3, offset)).is_ok());
        }
    }
}

#[test]
fn a_negotiate_goes_by_number_then_by_field() {
    // Each message has the fault of its number and of every later number.
    let mut all = negotiate_with(16, 4, 31);
    put(&mut all, 0, b"ntlmssp\0\x03");
    put(&mut all, 12, &(BOTH & !UNICODE).to_le_bytes());
    put_head(&mut all, 24, 4, 47);
    assert_eq!(refused(Negotiate::read(&all[..31])), (2, 0));
    assert_eq!(refused(Negotiate::read(&all)), (3, 0));
    put(&mut all, 0, b"NTLMSSP\0");
    assert_eq!(refused(Negotiate::read(&all)), (4, 0));
    put(&mut all, 8, &[1]);
    assert_eq!(refused(Negotiate::read(&all)), (5, 0));
    put(&mut all, 12, &[1]);
    assert_eq!(refused(Negotiate::read(&all)), (6, 2));
    put_head(&mut all, 16, 20, 31);
    assert_eq!(refused(Negotiate::read(&all)), (6, 1));
    put_head(&mut all, 16, 4, 31);
    put_head(&mut all, 24, 4, 30);
    assert_eq!(refused(Negotiate::read(&all)), (7, 1));
    put_head(&mut all, 16, 4, 32);
    assert_eq!(refused(Negotiate::read(&all)), (7, 2));
    put_head(&mut all, 24, 4, 32);
    assert!(Negotiate::read(&all).is_ok());
}

#[test]
fn a_negotiate_reads_as_its_names() {
    let message = negotiate(BOTH, b"CLIGRP", b"BOX7");
    let read = Negotiate::read(&message).unwrap();
    assert_eq!(read.flags.0, BOTH);
    assert_eq!((read.domain.place, read.domain.bytes), (40, &b"CLIGRP"[..]));
    let workstation = (read.workstation.place, read.workstation.bytes);
    assert_eq!(workstation, (46, &b"BOX7"[..]));
}

#[test]
fn a_negotiate_has_no_check_8_and_no_check_9() {
    // Names of odd length at odd offsets, on the same bytes, with each set.
    for set in [UNICODE, OEM, UNICODE | OEM] {
        let mut message = negotiate(set | OEM_DOMAIN | OEM_WORK, b"abcdefg", b"");
        put_head(&mut message, 16, 3, 41);
        put_head(&mut message, 24, 5, 41);
        let read = Negotiate::read(&message).unwrap();
        assert_eq!((read.domain.place, read.domain.bytes), (41, &b"bcd"[..]));
        assert_eq!(read.workstation.bytes, b"bcdef");
    }
}

#[test]
fn a_negotiate_name_counts_with_its_bit_only() {
    for (bit, domain, workstation) in [
        (0, &b""[..], &b""[..]),
        (OEM_DOMAIN, b"DOM", b""),
        (OEM_WORK, b"", b"BOX"),
        (OEM_DOMAIN | OEM_WORK, b"DOM", b"BOX"),
    ] {
        let message = negotiate(!(OEM_DOMAIN | OEM_WORK) | bit, b"DOM", b"BOX");
        let read = Negotiate::read(&message).unwrap();
        assert_eq!(read.domain.bytes, domain);
        assert_eq!(read.workstation.bytes, workstation);
        assert_eq!(read.domain.place, if domain.is_empty() { 0 } else { 40 });
    }
    // Heads that every check would refuse, of names that don't count, and
    // offsets of empty ones.
    for (head, bit) in [(16, OEM_WORK), (24, OEM_DOMAIN)] {
        for (len, offset) in [(4, MOST), (0xFFFF, 0), (1, 31)] {
            let mut message = negotiate(OEM | bit, b"", b"");
            put_head(&mut message, head, len, offset);
            assert!(Negotiate::read(&message).is_ok());
        }
        let read = negotiate_with(head, 0, MOST);
        let read = Negotiate::read(&read).unwrap();
        assert_eq!((read.domain.place, read.workstation.place), (0, 0));
    }
}

#[test]
fn refusal_7_each_field() {
    for number in 1..=6 {
        for offset in [0, 2, 62, 63] {
            let message = Auth::new(UNICODE | KEY_EXCH, 100)
                .field(number, 2, offset)
                .0;
            assert_eq!(refused(Authenticate::read(&message)), (7, number as u8));
        }
        let message = Auth::new(UNICODE | KEY_EXCH, 100).field(number, 2, 64).0;
        assert!(Authenticate::read(&message).is_ok());
    }
    let flags = OEM | REQUEST_TARGET | TARGET_INFO;
    for (head, field) in [(12, 1), (40, 2)] {
        let mut message = challenge(flags, b"", b"");
        put_head(&mut message, head, 4, 47);
        assert_eq!(refused(Challenge::read(&message)), (7, field));
        put_head(&mut message, head, 4, 48);
        assert!(Challenge::read(&message).is_ok());
    }
}

#[test]
fn refusal_8_names_only() {
    for number in 1..=6 {
        let is_name = (3..=5).contains(&number);
        for (len, offset) in [(2, 89), (3, 88), (3, 89)] {
            let message = Auth::new(UNICODE | KEY_EXCH, 100)
                .field(number, len, offset)
                .0;
            let answer = Authenticate::read(&message);
            if is_name {
                assert_eq!(refused(answer), (8, number as u8));
            } else {
                assert!(answer.is_ok());
            }
        }
    }
    let flags = UNICODE | REQUEST_TARGET | TARGET_INFO;
    assert_eq!(
        refused(Challenge::read(&challenge(flags, b"abc", &[0; 4]))),
        (8, 1)
    );
    let mut message = challenge(flags, b"abcd", b"");
    put_head(&mut message, 12, 2, 57);
    assert_eq!(refused(Challenge::read(&message)), (8, 1));
}

#[test]
fn refusal_9_each_name_and_secret() {
    for name in [DOMAIN, USER, WORK] {
        for secret in [LM, NT, KEY] {
            // The name holds bytes 92 to 95.
            let cases = [
                (90, 2, true),
                (90, 3, false),
                (92, 4, false),
                (93, 1, false),
                (95, 1, false),
                (88, 12, false),
                (96, 4, true),
            ];
            for (offset, len, taken) in cases {
                let message = Auth::new(UNICODE | KEY_EXCH, 100)
                    .field(name, 4, 92)
                    .field(secret, len, offset)
                    .0;
                let answer = Authenticate::read(&message);
                if taken {
                    assert!(answer.is_ok());
                } else {
                    assert_eq!(refused(answer), (9, name as u8));
                }
            }
        }
    }
}

#[test]
fn refusal_9_gives_the_first_name() {
    let message = Auth::new(UNICODE, 100)
        .field(LM, 10, 90)
        .field(USER, 4, 96)
        .field(WORK, 4, 92)
        .0;
    assert_eq!(refused(Authenticate::read(&message)), (9, 4));
}

#[test]
fn checks_go_by_number() {
    // Each message has the fault of its number and of every later number.
    let all = Auth::new(0, 100)
        .bytes(0, b"ntlmssp\0\x04")
        .field(LM, 9, 95)
        .field(NT, 4, 60)
        .field(DOMAIN, 3, 89)
        .field(USER, 4, 60)
        .0;
    assert_eq!(refused(Authenticate::read(&all[..63])), (2, 0));
    assert_eq!(refused(Authenticate::read(&all)), (3, 0));
    let all = Auth(all).bytes(0, b"NTLMSSP\0");
    assert_eq!(refused(Authenticate::read(&all.0)), (4, 0));
    let all = all.bytes(8, &[3]);
    assert_eq!(refused(Authenticate::read(&all.0)), (5, 0));
    let all = all.bytes(60, &[1]);
    assert_eq!(refused(Authenticate::read(&all.0)), (6, 1));
    let all = all.field(LM, 8, 90);
    assert_eq!(refused(Authenticate::read(&all.0)), (7, 2));
    let all = all.field(NT, 4, 64);
    assert_eq!(refused(Authenticate::read(&all.0)), (7, 4));
    let all = all.field(USER, 4, 64);
    assert_eq!(refused(Authenticate::read(&all.0)), (8, 3));
    let all = all.field(DOMAIN, 2, 88);
    assert_eq!(refused(Authenticate::read(&all.0)), (9, 4));
    let all = all.field(USER, 4, 68);
    assert!(Authenticate::read(&all.0).is_ok());
}

#[test]
fn a_challenge_checks_its_fields_before_its_pairs() {
    let flags = UNICODE | REQUEST_TARGET | TARGET_INFO;
    let mut message = challenge(flags, &[0; 3], &[1, 2, 3]);
    assert_eq!(refused(Challenge::read(&message)), (8, 1));
    put_head(&mut message, 40, 3, 40);
    assert_eq!(refused(Challenge::read(&message)), (7, 2));
    put_head(&mut message, 12, 9, 56);
    assert_eq!(refused(Challenge::read(&message)), (6, 1));
}

#[test]
fn refusals_10_to_13_in_a_challenge() {
    let flags = UNICODE | TARGET_INFO;
    let cases: [(&[u8], u8); 4] = [
        (&[1, 0, 6, 0, 0x41, 0], 10),
        (&[0, 0, 0], 11),
        (&[0, 0, 0, 0, 0], 12),
        (&[6, 0, 2, 0, 0, 0, 0, 0, 0, 0], 13),
    ];
    for (info, number) in cases {
        let message = challenge(flags, b"", info);
        assert_eq!(refused(Challenge::read(&message)), (number, 2));
    }
}

#[test]
fn a_challenge_reads_as_its_fields() {
    let target = utf16("SRV");
    let time = 0x01DD_750F_3F7F_2C5C_u64.to_le_bytes();
    let info = list(&[(2, &utf16("DOM")), (1, &utf16("SRV")), (7, &time)]);
    let flags = UNICODE | REQUEST_TARGET | TARGET_INFO;
    let message = challenge(flags, &target, &info);
    let read = Challenge::read(&message).unwrap();
    assert_eq!(read.flags.0, flags);
    assert_eq!(read.server_challenge, [1, 2, 3, 4, 5, 6, 7, 8]);
    assert_eq!(
        (read.target_name.place, read.target_name.bytes),
        (56, &target[..])
    );
    assert_eq!(
        (read.target_info.place, read.target_info.bytes),
        (62, &info[..])
    );
    assert_eq!(read.pairs.pairs, 3);
    assert_eq!(read.pairs.timestamp, Some(0x01DD_750F_3F7F_2C5C));
    assert_eq!(read.pairs.domain.unwrap().value, utf16("DOM"));
    assert_eq!(read.pairs.computer.unwrap().value, utf16("SRV"));
}

/// What MaxLen changes is in max_len.rs.
#[test]
fn ignored_bytes_change_nothing() {
    let flags = UNICODE | REQUEST_TARGET | TARGET_INFO;
    let message = challenge(flags, &utf16("SRV"), &list(&[(8, b"x")]));
    let read = Challenge::read(&message).unwrap();
    let mut other = message.clone();
    for at in (32..40).chain(48..56) {
        other[at] ^= 0x5A;
    }
    assert_eq!(Challenge::read(&other), Ok(read));

    let message = negotiate(BOTH, b"DOM", b"BOX");
    let read = Negotiate::read(&message).unwrap();
    let mut other = message.clone();
    for byte in &mut other[32..40] {
        *byte ^= 0x5A;
    }
    assert_eq!(Negotiate::read(&other), Ok(read));

    let message = p1();
    let read = Authenticate::read(&message).unwrap();
    let mut other = message.clone();
    for byte in &mut other[64..72] {
        *byte = 0x5A;
    }
    assert_eq!(Authenticate::read(&other), Ok(read));
}

#[test]
fn the_mic_goes_by_the_lowest_field() {
    let mic = [0xC3; 16];
    let with = |message: Auth| Authenticate::read(&message.bytes(72, &mic).0).unwrap().mic;
    assert_eq!(with(Auth::new(OEM, 88)), Some(mic));
    assert_eq!(Authenticate::read(&Auth::new(OEM, 87).0).unwrap().mic, None);
    assert_eq!(with(Auth::new(OEM, 100).field(NT, 1, 88)), Some(mic));
    assert_eq!(with(Auth::new(OEM, 100).field(NT, 1, 87)), None);
    let two = Auth::new(OEM, 100).field(NT, 1, 99).field(WORK, 1, 87);
    assert_eq!(with(two), None);
    let absent = Auth::new(OEM, 100).field(NT, 1, 64).bytes(72, &mic).0;
    assert_eq!(Authenticate::read(&absent).unwrap().mic_bytes(), [0; 16]);
}

#[test]
fn refusals_14_to_17_in_nl_auth() {
    assert_eq!(refused(NlAuth::read(&nl(0, 0, b"x\0"))), (14, 0));
    assert_eq!(refused(NlAuth::read(&nl(0, 0xFFFF_FFE0, b"x\0"))), (14, 0));
    let bits = [0x1, 0x2, 0x4, 0x8, 0x10];
    for (bit, number) in bits.into_iter().zip(1..) {
        assert_eq!(refused(NlAuth::read(&nl(0, bit, b""))), (15, number));
        // A string and a name alike.
        assert_eq!(refused(NlAuth::read(&nl(0, bit, b"\x01x"))), (15, number));
        assert_eq!(refused(NlAuth::read(&nl(0, bit, b"\x01x\0y"))), (16, 0));
        assert_eq!(refused(NlAuth::read(&nl(0, bit, b"\x01x\0\0"))), (16, 0));
        assert!(NlAuth::read(&nl(0, bit, b"\x01x\0")).is_ok());
    }
    assert_eq!(
        refused(NlAuth::read(&nl(0, 0x15, b"a\0\x01c\0\x01e"))),
        (15, 5)
    );
    assert_eq!(refused(NlAuth::read(&nl(0, 0x1F, b"a\0b\0\x01c"))), (15, 3));
    for buffer in [b"".as_slice(), b"\x01", b"\0\0", b"x\0"] {
        assert_eq!(refused(NlAuth::read(&nl(1, 1, buffer))), (17, 0));
    }
    assert!(NlAuth::read(&nl(1, MOST, b"\0")).is_ok());
}

#[test]
fn an_nl_auth_request_reads_as_its_strings() {
    let message = nl(0, 0x1B, b"DOM\0BOX7\0\x04host\x07example\0\0");
    let read = NlAuth::read(&message).unwrap();
    assert_eq!(read.message_type, NlAuthType::Request);
    assert_eq!(read.flags.bits(), 0x1B);
    let strings = read.strings.map(|string| (string.place, string.bytes));
    let expected: [(usize, &[u8]); 5] = [
        (8, b"DOM"),
        (12, b"BOX7"),
        (0, b""),
        (17, b"\x04host\x07example\0"),
        (31, b"\0"),
    ];
    assert_eq!(strings, expected);
}

#[test]
fn sizes_by_id() {
    for id in 0..=20u16 {
        for len in 0..=20usize {
            let allowed = match id {
                0 => continue,
                1..=5 | 9 => len % 2 == 0,
                6 => len == 4,
                7 => len == 8,
                10 => len == 16,
                _ => true,
            };
            let bytes = list(&[(id, &vec![0x41; len])]);
            let answer = TargetInfo(&bytes).count();
            if allowed {
                assert_eq!(answer, Ok(1));
            } else {
                assert_eq!(refused(answer), (13, 2));
            }
        }
    }
}

#[test]
fn order_at_one_pair_and_among_pairs() {
    let count = |bytes: &[u8]| refused(TargetInfo(bytes).count()).0;
    // One pair: 10 before 13; 12 before 10 for the end pair.
    assert_eq!(count(&[6, 0, 9, 0, 0, 0]), 10);
    assert_eq!(count(&[0, 0, 9, 0]), 12);
    assert_eq!(count(&[0, 0, 1, 0, 0, 0, 0, 0, 0]), 12);
    // Among pairs the earliest: 13, then a pair that would be 10 or 11.
    assert_eq!(count(&[6, 0, 1, 0, 0, 1, 0, 9, 0]), 13);
    assert_eq!(count(&[6, 0, 1, 0, 0, 1]), 13);
    assert_eq!(count(&[8, 0, 1, 0, 0, 1]), 11);
    // The value may end exactly at the list's end; then the end pair lacks.
    assert_eq!(count(&[8, 0, 1, 0, 0]), 11);
    assert_eq!(count(&[8, 0, 2, 0, 0]), 10);
    // The longest value.
    let bytes = list(&[(8, &[0; 0xFFFF])]);
    assert_eq!(TargetInfo(&bytes).count(), Ok(1));
    assert_eq!(count(&bytes[..bytes.len() - 1]), 11);
    assert_eq!(count(&bytes[..4 + 0xFFFE]), 10);
}

#[test]
fn a_search_takes_the_first_and_checks_the_rest() {
    let bytes = list(&[(2, b"AB"), (1, b"CD"), (2, b"EF"), (99, b"")]);
    let info = TargetInfo(&bytes);
    let found = info.find(AvId::NB_DOMAIN_NAME).unwrap().unwrap();
    assert_eq!((found.place, found.value), (4, &b"AB"[..]));
    let found = info.find(AvId(99)).unwrap().unwrap();
    assert_eq!((found.place, found.value), (22, &b""[..]));
    assert_eq!(info.find(AvId(3)), Ok(None));
    // The fault stands after the pair that is wanted.
    let cut = TargetInfo(&bytes[..bytes.len() - 1]);
    for id in [1, 2, 3] {
        assert_eq!(refused(cut.find(AvId(id))), (11, 2));
    }
    assert_eq!(refused(cut.timestamp()), (11, 2));
}

#[test]
fn a_walk_gives_the_pairs_then_the_same_answer() {
    let bytes = list(&[(2, b"AB"), (200, b"x")]);
    let walked = |bytes: &[u8], number: Option<u8>| {
        let mut walk = TargetInfo(bytes).walk();
        let pair = walk.ask().unwrap().unwrap();
        assert_eq!((pair.id, pair.place, pair.value), (AvId(2), 4, &b"AB"[..]));
        let pair = walk.ask().unwrap().unwrap();
        assert_eq!(
            (pair.id, pair.place, pair.value),
            (AvId(200), 10, &b"x"[..])
        );
        for _ in 0..3 {
            match number {
                None => assert_eq!(walk.ask(), Ok(None)),
                Some(number) => assert_eq!(refused(walk.ask()), (number, 2)),
            }
        }
        let mut walk = TargetInfo(bytes).walk();
        for k in 0..8 {
            assert_eq!(TargetInfo(bytes).answer_at(k), walk.ask());
        }
        assert_eq!(TargetInfo(bytes).answer_at(usize::MAX), walk.ask());
    };
    walked(&bytes, None);
    walked(&bytes[..bytes.len() - 1], Some(11));
    let mut more = bytes.clone();
    more.push(0);
    walked(&more, Some(12));
}

#[test]
fn the_timestamp_is_little_endian() {
    let bytes = list(&[(7, &[1, 2, 3, 4, 5, 6, 7, 8]), (7, &[9; 8])]);
    let expected = Some(0x0807_0605_0403_0201);
    assert_eq!(TargetInfo(&bytes).timestamp(), Ok(expected));
    assert_eq!(TargetInfo(&list(&[])).timestamp(), Ok(None));
}

#[test]
fn a_field_has_its_own_bytes_or_ends_past_the_message() {
    let message = b"0123456789";
    assert_eq!(field_bytes(message, 2, 3), Ok(&b"234"[..]));
    assert_eq!(field_bytes(message, 0, 10), Ok(&message[..]));
    assert_eq!(field_bytes(message, 9, 1), Ok(&b"9"[..]));
    for offset in [0, 5, 10, 11, MOST] {
        assert_eq!(field_bytes(message, offset, 0), Ok(&b""[..]));
    }
    for (offset, len) in [(0, 11), (9, 2), (10, 1), (11, 1), (MOST, 2), (MOST, 0xFFFF)] {
        let refusal = field_bytes(message, offset, len).expect_err("it does not fit");
        assert_eq!((refusal.number(), refusal.field), (6, 0));
    }
    assert_eq!(field_bytes(b"", 0, 0), Ok(&b""[..]));
}

#[test]
fn a_walk_can_start_at_any_place() {
    let bytes = list(&[(1, b"ab"), (8, b"x")]);
    let info = TargetInfo(&bytes);
    let mut walk = info.walk_from(6);
    let pair = walk.ask().expect("no fault").expect("a pair");
    assert_eq!((pair.id, pair.place, pair.value), (AvId(8), 10, &b"x"[..]));
    // At the end it stays where it is.
    for _ in 0..2 {
        assert_eq!(walk.at(), 11);
        assert_eq!(walk.ask(), Ok(None));
    }
    for at in [12, 15, 16, usize::MAX] {
        assert_eq!(refused(info.walk_from(at).ask()), (11, 2));
        assert_eq!(TargetInfo(&[]).walk_from(at).ask(), Ok(None));
    }
}
