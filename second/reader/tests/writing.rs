//! Writing NEGOTIATE, AUTHENTICATE and NL_AUTH: layout, refusals and their order.

mod common;

use common::*;
use reader::{
    nl_auth_name, write_authenticate, write_negotiate, write_nl_auth_request,
    write_nl_auth_response, Authenticate, AuthenticateParts, Negotiate, NegotiateFlags,
    NegotiateParts, NlAuth, NlAuthFlags, NlAuthType, MAX_MESSAGE,
};

fn parts(flags: u32) -> AuthenticateParts<'static> {
    AuthenticateParts {
        flags: NegotiateFlags(flags),
        version: [10, 0, 0x61, 0x4A, 0, 0, 0, 15],
        mic: [0xC3; 16],
        lm: &[0x11; 24],
        nt: &[0x22; 30],
        domain: b"D\0",
        user: b"u\0s\0",
        workstation: b"W\0X\0Y\0",
        key: &[0x66; 16],
    }
}

/// Writes into too much room, and sees that only the message changes.
fn written(parts: &AuthenticateParts<'_>) -> Vec<u8> {
    let mut out = vec![0xEE; 1 << 17];
    let len = write_authenticate(parts, &mut out).expect("written");
    assert!(out[len..].iter().all(|&byte| byte == 0xEE));
    out.truncate(len);
    out
}

fn refused_unchanged(parts: &AuthenticateParts<'_>, room: usize) -> (u8, u8) {
    let mut out = vec![0xEE; room];
    let answer = refused(write_authenticate(parts, &mut out));
    assert!(out.iter().all(|&byte| byte == 0xEE));
    answer
}

#[test]
fn every_byte_of_an_authenticate() {
    let flags = UNICODE | KEY_EXCH | VERSION;
    let mut expected = Auth::new(flags, 88)
        .field(DOMAIN, 2, 88)
        .field(USER, 4, 90)
        .field(WORK, 6, 94)
        .field(LM, 24, 100)
        .field(NT, 30, 124)
        .field(KEY, 16, 154)
        .bytes(64, &[10, 0, 0x61, 0x4A, 0, 0, 0, 15])
        .bytes(72, &[0xC3; 16])
        .0;
    expected.extend(b"D\0u\0s\0W\0X\0Y\0");
    expected.extend([0x11; 24]);
    expected.extend([0x22; 30]);
    expected.extend([0x66; 16]);
    assert_eq!(written(&parts(flags)), expected);
}

#[test]
fn empty_fields_stand_where_they_would() {
    let empty = AuthenticateParts {
        flags: NegotiateFlags(OEM),
        ..Default::default()
    };
    let mut expected = Auth::new(OEM, 88);
    for number in 1..=6 {
        expected = expected.field(number, 0, 88);
    }
    assert_eq!(written(&empty), expected.0);

    let some = AuthenticateParts {
        user: b"abc",
        nt: b"12345",
        ..empty
    };
    let mut expected = Auth::new(OEM, 88)
        .field(DOMAIN, 0, 88)
        .field(USER, 3, 88)
        .field(WORK, 0, 91)
        .field(LM, 0, 91)
        .field(NT, 5, 91)
        .field(KEY, 0, 96)
        .0;
    expected.extend(b"abc12345");
    assert_eq!(written(&some), expected);
}

#[test]
fn version_is_written_with_its_flag_only() {
    let message = written(&parts(UNICODE | KEY_EXCH));
    assert_eq!(message[64..72], [0; 8]);
}

#[test]
fn what_is_written_reads_back() {
    for flags in [UNICODE | KEY_EXCH, OEM | KEY_EXCH | VERSION] {
        let parts = parts(flags);
        let message = written(&parts);
        let read = Authenticate::read(&message).unwrap();
        assert_eq!(read.flags.0, flags);
        assert_eq!(read.mic, Some(parts.mic));
        assert_eq!(read.lm.bytes, parts.lm);
        assert_eq!(read.nt.bytes, parts.nt);
        assert_eq!(read.domain.bytes, parts.domain);
        assert_eq!(read.user.bytes, parts.user);
        assert_eq!(read.workstation.bytes, parts.workstation);
        assert_eq!(read.key.bytes, parts.key);
    }
}

#[test]
fn refusal_31_each_name() {
    let parts = parts(UNICODE | KEY_EXCH);
    let domain = AuthenticateParts {
        domain: b"x",
        ..parts
    };
    let user = AuthenticateParts {
        user: b"x",
        ..parts
    };
    let work = AuthenticateParts {
        workstation: b"xyz",
        ..parts
    };
    assert_eq!(refused_unchanged(&domain, 500), (31, 3));
    assert_eq!(refused_unchanged(&user, 500), (31, 4));
    assert_eq!(refused_unchanged(&work, 500), (31, 5));
    let two = AuthenticateParts { user: b"x", ..work };
    assert_eq!(refused_unchanged(&two, 500), (31, 4));
}

#[test]
fn refusal_32_the_key() {
    for len in [1, 15, 17, 32, 70_000] {
        let key = vec![0; len];
        let parts = AuthenticateParts {
            key: &key,
            ..parts(UNICODE | KEY_EXCH)
        };
        assert_eq!(refused_unchanged(&parts, 500), (32, 6));
    }
    assert_eq!(refused_unchanged(&parts(UNICODE), 500), (32, 6));
    let none = AuthenticateParts {
        key: b"",
        ..parts(UNICODE)
    };
    written(&none);
    let none = AuthenticateParts {
        key: b"",
        ..parts(UNICODE | KEY_EXCH)
    };
    written(&none);
    // Without SIGN and SEAL the writer still writes the key it is given.
    assert!(written(&parts(UNICODE | KEY_EXCH)).ends_with(&[0x66; 16]));
}

#[test]
fn refusal_30_over_65535_bytes() {
    let most = vec![7; MAX_MESSAGE - 88];
    let fits = AuthenticateParts {
        flags: NegotiateFlags(OEM),
        nt: &most,
        ..Default::default()
    };
    assert_eq!(written(&fits).len(), MAX_MESSAGE);
    let passes = AuthenticateParts { user: b"x", ..fits };
    assert_eq!(refused_unchanged(&passes, 0), (30, 0));
    let vast = vec![0; 1 << 20];
    for number in 1..=5 {
        let mut passes = AuthenticateParts {
            flags: NegotiateFlags(UNICODE),
            ..Default::default()
        };
        let fields = [
            &mut passes.lm,
            &mut passes.nt,
            &mut passes.domain,
            &mut passes.user,
            &mut passes.workstation,
        ];
        for (at, field) in fields.into_iter().enumerate() {
            if at + 1 == number {
                *field = &vast;
            }
        }
        assert_eq!(refused_unchanged(&passes, 1 << 21), (30, 0));
    }
}

#[test]
fn refusal_33_no_room() {
    let parts = parts(UNICODE | KEY_EXCH);
    let message = written(&parts);
    for room in 0..message.len() {
        assert_eq!(refused_unchanged(&parts, room), (33, 0));
    }
    let mut out = vec![0xEE; message.len()];
    assert_eq!(write_authenticate(&parts, &mut out), Ok(message.len()));
    assert_eq!(out, message);
}

#[test]
fn authenticate_is_refused_by_5_31_32_30_33() {
    let vast = vec![0; 70_000];
    let all = AuthenticateParts {
        flags: NegotiateFlags(0),
        workstation: b"x",
        key: b"x",
        nt: &vast,
        ..Default::default()
    };
    assert_eq!(refused_unchanged(&all, 0), (5, 0));
    let all = AuthenticateParts {
        flags: NegotiateFlags(UNICODE),
        ..all
    };
    assert_eq!(refused_unchanged(&all, 0), (31, 5));
    let all = AuthenticateParts {
        workstation: b"",
        ..all
    };
    assert_eq!(refused_unchanged(&all, 0), (32, 6));
    let all = AuthenticateParts { key: b"", ..all };
    assert_eq!(refused_unchanged(&all, 0), (30, 0));
    let all = AuthenticateParts { nt: b"", ..all };
    assert_eq!(refused_unchanged(&all, 0), (33, 0));
}

const OPENING_VERSION: [u8; 8] = [6, 1, 0xB1, 0x1D, 0, 0, 0, 15];

fn opening<'a>(flags: u32, domain: &'a [u8], workstation: &'a [u8]) -> NegotiateParts<'a> {
    NegotiateParts {
        flags: NegotiateFlags(flags),
        version: OPENING_VERSION,
        domain,
        workstation,
    }
}

/// Writes a NEGOTIATE into this room, and sees that only the message changes.
fn opened(parts: &NegotiateParts<'_>, room: usize) -> Result<Vec<u8>, (u8, u8)> {
    let mut out = vec![0xEE; room];
    let answer = write_negotiate(parts, &mut out);
    let len = *answer.as_ref().unwrap_or(&0);
    assert!(out[len..].iter().all(|&byte| byte == 0xEE));
    out.truncate(len);
    answer
        .map(|_| out)
        .map_err(|refusal| (refusal.number(), refusal.field))
}

#[test]
fn every_byte_of_a_negotiate() {
    let flags = UNICODE | VERSION | OEM_DOMAIN | OEM_WORK;
    let mut expected = negotiate(flags, b"CLIGRP", b"BOX7!");
    put(&mut expected, 32, &OPENING_VERSION);
    let parts = opening(UNICODE | VERSION, b"CLIGRP", b"BOX7!");
    assert_eq!(opened(&parts, 100), Ok(expected));
    // No Version without its flag.
    let expected = negotiate(OEM | OEM_DOMAIN | OEM_WORK, b"D", b"W");
    assert_eq!(opened(&opening(OEM, b"D", b"W"), 100), Ok(expected));
}

#[test]
fn a_negotiates_names_make_their_bits() {
    let both = OEM_DOMAIN | OEM_WORK;
    let others = !both & !VERSION;
    for caller in [
        others,
        others | both,
        others | OEM_DOMAIN,
        others | OEM_WORK,
    ] {
        for (domain, workstation, bits) in [
            (&b""[..], &b""[..], 0),
            (b"DOM", b"", OEM_DOMAIN),
            (b"", b"BOX", OEM_WORK),
            (b"DOM", b"BOX", both),
        ] {
            // An empty name stands where it would.
            let expected = negotiate(others | bits, domain, workstation);
            let parts = opening(caller, domain, workstation);
            assert_eq!(opened(&parts, 100), Ok(expected));
        }
    }
}

#[test]
fn a_negotiate_reads_back() {
    let names: [&[u8]; 4] = [b"", b"D", b"\0\xFF\\", b"LONGER.NAME"];
    for flags in [UNICODE, OEM, UNICODE | OEM_DOMAIN, !0] {
        for domain in names {
            for workstation in names {
                let message = opened(&opening(flags, domain, workstation), 100).unwrap();
                let read = Negotiate::read(&message).unwrap();
                assert_eq!(read.domain.bytes, domain);
                assert_eq!(read.workstation.bytes, workstation);
                let both = OEM_DOMAIN | OEM_WORK;
                assert_eq!(read.flags.0 & !both, flags & !both);
                assert_eq!(read.flags.domain_counts(), !domain.is_empty());
                assert_eq!(read.flags.workstation_counts(), !workstation.is_empty());
            }
        }
    }
}

#[test]
fn a_negotiate_is_refused_by_5_30_33() {
    let vast = vec![0; 70_000];
    for (domain, workstation) in [(&vast[..], &b"x"[..]), (b"x", &vast), (&vast, &vast)] {
        let none = opening(!(UNICODE | OEM), domain, workstation);
        assert_eq!(opened(&none, 0), Err((5, 0)));
        assert_eq!(opened(&opening(OEM, domain, workstation), 0), Err((30, 0)));
        assert_eq!(
            opened(&opening(OEM, domain, workstation), 1 << 18),
            Err((30, 0))
        );
    }
    let parts = opening(UNICODE, b"CLIGRP", b"BOX");
    for room in 0..49 {
        assert_eq!(opened(&parts, room), Err((33, 0)));
    }
    assert_eq!(opened(&parts, 49).map(|message| message.len()), Ok(49));
    assert_eq!(opened(&opening(0, b"", b""), 0), Err((5, 0)));
}

#[test]
fn the_longest_negotiate() {
    let fits = vec![b'x'; MAX_MESSAGE - 40];
    for parts in [opening(OEM, &fits, b""), opening(OEM, b"", &fits)] {
        let message = opened(&parts, 1 << 17).unwrap();
        assert_eq!(message.len(), MAX_MESSAGE);
        assert!(Negotiate::read(&message).is_ok());
        assert_eq!(opened(&parts, MAX_MESSAGE - 1), Err((33, 0)));
        assert_eq!(opened(&parts, MAX_MESSAGE), Ok(message));
    }
    assert_eq!(opened(&opening(OEM, &fits, b"y"), 1 << 17), Err((30, 0)));
    assert_eq!(opened(&opening(OEM, b"y", &fits), 1 << 17), Err((30, 0)));
}

fn request(flags: u32, strings: &[&[u8]; 5], room: usize) -> Result<Vec<u8>, (u8, u8)> {
    let mut out = vec![0xEE; room];
    match write_nl_auth_request(NlAuthFlags::new(flags), strings, &mut out) {
        Ok(len) => {
            assert!(out[len..].iter().all(|&byte| byte == 0xEE));
            out.truncate(len);
            Ok(out)
        }
        Err(refusal) => {
            assert!(out.iter().all(|&byte| byte == 0xEE));
            Err((refusal.number(), refusal.field))
        }
    }
}

const NAMES: [&[u8]; 5] = [b"DOM", b"BOX7", b"", b"box7.example", b"box"];

#[test]
fn every_byte_of_an_nl_auth_request() {
    let expected = nl(0, 0x1F, b"DOM\0BOX7\0\0\x04box7\x07example\0\x03box\0");
    assert_eq!(request(0x1F, &NAMES, 100), Ok(expected));
    let expected = nl(0, 0x0A, b"BOX7\0\x04box7\x07example\0");
    assert_eq!(request(0xFFFF_FFEA, &NAMES, 100), Ok(expected));
}

#[test]
fn an_nl_auth_request_reads_back() {
    for flags in 1..32 {
        let message = request(flags, &NAMES, 100).unwrap();
        let read = NlAuth::read(&message).unwrap();
        assert_eq!(read.message_type, NlAuthType::Request);
        assert_eq!(read.flags.bits(), flags);
        for (which, text) in (1..).zip(NAMES) {
            let there = flags & 1 << (which - 1) != 0;
            let mut out = [0; 100];
            let len = nl_auth_name(&message, which, &mut out).unwrap();
            assert_eq!(&out[..len], if there { text } else { b"" });
        }
    }
}

#[test]
fn an_nl_auth_request_is_refused_by_14_34_30_33() {
    let vast = vec![b'x'; 70_000];
    let all: [&[u8]; 5] = [&vast, b"a\0", b"", b"\0", b""];
    assert_eq!(request(0, &all, 0), Err((14, 0)));
    assert_eq!(request(0x0B, &all, 0), Err((34, 2)));
    assert_eq!(request(0x09, &all, 0), Err((34, 4)));
    assert_eq!(request(0x01, &all, 0), Err((30, 0)));
    assert_eq!(request(0x04, &all, 0), Err((33, 0)));
    for (bit, number) in [1, 2, 4, 8, 16].into_iter().zip(1..) {
        assert_eq!(request(bit, &[b"\0"; 5], 100), Err((34, number)));
    }
}

#[test]
fn the_longest_nl_auth_request() {
    let fits = vec![b'x'; MAX_MESSAGE - 9];
    let strings: [&[u8]; 5] = [&fits, b"", b"", b"", b""];
    let message = request(1, &strings, 1 << 17).unwrap();
    assert_eq!(message.len(), MAX_MESSAGE);
    assert!(NlAuth::read(&message).is_ok());
    assert_eq!(request(3, &strings, 1 << 17), Err((30, 0)));
    assert_eq!(request(1, &strings, MAX_MESSAGE - 1), Err((33, 0)));
    assert_eq!(request(1, &strings, MAX_MESSAGE), Ok(message));
}

#[test]
fn an_nl_auth_response() {
    let expected = [1, 0, 0, 0, 0, 0, 0, 0, 0];
    for room in 0..9 {
        let mut out = vec![0xEE; room];
        assert_eq!(refused(write_nl_auth_response(&mut out)), (33, 0));
        assert!(out.iter().all(|&byte| byte == 0xEE));
    }
    let mut out = [0xEE; 11];
    assert_eq!(write_nl_auth_response(&mut out), Ok(9));
    assert_eq!(out[..9], expected);
    assert_eq!(out[9..], [0xEE; 2]);
    let read = NlAuth::read(&expected).unwrap();
    assert_eq!(read.message_type, NlAuthType::Response);
}
