//! Document 01, "The log line": each form, the escapes and the room.

mod common;

use common::*;
use reader::{
    authenticate_line, challenge_line, negotiate_line, nl_auth_line, ntlm_line, Program,
    LINE_LIMIT, MAX_MESSAGE,
};

#[test]
fn every_word_of_an_auth_line() {
    let message = Auth::new(UNICODE | KEY_EXCH | 0x0A0B_0C00, 200)
        .field(DOMAIN, 6, 88)
        .bytes(88, &utf16("DOM"))
        .field(USER, 4, 94)
        .bytes(94, &utf16("me"))
        .field(WORK, 2, 98)
        .bytes(98, &utf16("W"))
        .field(LM, 24, 100)
        .field(NT, 60, 124)
        .field(KEY, 16, 184)
        .0;
    assert_eq!(
        line(authenticate_line, &message),
        "auth flags=4A0B0C01 set=U domain=DOM user=me work=W lm=24 nt=60 key=16 mic=1 kind=v2 max=000000\n"
    );
}

#[test]
fn kind_goes_by_the_nt_response_length() {
    for (len, kind) in [
        (0, "none"),
        (1, "odd"),
        (23, "odd"),
        (24, "v1"),
        (25, "odd"),
        (43, "odd"),
        (44, "v2"),
        (45, "v2"),
        (65_000, "v2"),
    ] {
        let message = Auth::new(OEM, MAX_MESSAGE).field(NT, len, 88).0;
        assert_eq!(
            line(ntlm_line, &message),
            format!(
                "auth flags=00000002 set=O domain= user= work= lm=0 nt={len} key=0 mic=1 kind={kind} max=000000\n"
            )
        );
    }
}

#[test]
fn every_word_of_a_chal_line() {
    let time = 0x01DD_750F_3F7F_2C5C_u64.to_le_bytes();
    let info = list(&[(2, &utf16("D")), (99, b"x"), (7, &time), (7, &[0; 8])]);
    let flags = UNICODE | REQUEST_TARGET | TARGET_INFO;
    assert_eq!(
        line(challenge_line, &challenge(flags, &utf16("SRV"), &info)),
        "chal flags=00800005 set=U target=SRV pairs=4 time=01DD750F3F7F2C5C max=00\n"
    );
    assert_eq!(
        line(challenge_line, &challenge(flags, b"", &list(&[]))),
        "chal flags=00800005 set=U target= pairs=0 max=00\n"
    );
    assert_eq!(
        line(
            challenge_line,
            &challenge(OEM | REQUEST_TARGET, b"S V", &info)
        ),
        "chal flags=00000006 set=O target=S\\x20V pairs=0 max=00\n"
    );
    let zero = list(&[(7, &[0; 8])]);
    assert_eq!(
        line(challenge_line, &challenge(OEM | TARGET_INFO, b"", &zero)),
        "chal flags=00800002 set=O target= pairs=1 time=0000000000000000 max=00\n"
    );
}

#[test]
fn every_word_of_a_nego_line() {
    let both = OEM_DOMAIN | OEM_WORK;
    for call in [negotiate_line, ntlm_line] {
        assert_eq!(
            line(call, &negotiate(OEM | both, b"CLIGRP", b"BOX 7")),
            "nego flags=00003002 domain=CLIGRP work=BOX\\x207 max=00\n"
        );
        // Bytes also where UNICODE is set, of odd length too.
        assert_eq!(
            line(call, &negotiate(UNICODE | both, b"D\0\\", b"\xE9!~\x7F")),
            "nego flags=00003001 domain=D\\x00\\x5C work=\\xE9!~\\x7F max=00\n"
        );
        assert_eq!(
            line(call, &negotiate(!both, b"DOM", b"BOX")),
            "nego flags=FFFFCFFF domain= work= max=00\n"
        );
        assert_eq!(
            line(call, &negotiate(both, b"DOM", b"BOX")),
            "refused 5 field=0 at=0\n"
        );
        let cut = negotiate(OEM | both, b"DOM", b"BOX");
        assert_eq!(line(call, &cut[..45]), "refused 6 field=2 at=0\n");
        assert_eq!(line(call, &cut[..31]), "refused 2 field=0 at=0\n");
    }
}

#[test]
fn every_word_of_an_nl_line() {
    assert_eq!(
        line(
            nl_auth_line,
            &nl(0, 0x1F, b"A.\0\0\x01c\x01d\0\x02\\.\0\x01\xE9\0")
        ),
        "nl type=0 flags=0000001F a=A. b= c=c.d d=\\x5C\\x2E e=\\xE9\n"
    );
    assert_eq!(
        line(nl_auth_line, &nl(0, 0xFFFF_FFF4, b"\x01c\0\x01e\0")),
        "nl type=0 flags=00000014 c=c e=e\n"
    );
    assert_eq!(
        line(nl_auth_line, &nl(1, 0xFFFF_FFFF, b"\0")),
        "nl type=1 flags=00000000\n"
    );
}

#[test]
fn every_byte_in_a_name() {
    for byte in 0..=255u8 {
        let message = Auth::new(OEM, 89).field(USER, 1, 88).bytes(88, &[byte]).0;
        let expected = if (0x21..=0x7E).contains(&byte) && byte != 0x5C {
            char::from(byte).to_string()
        } else {
            format!("\\x{byte:02X}")
        };
        assert!(line(ntlm_line, &message).contains(&format!(" user={expected} work=")));
        for set in [OEM, UNICODE] {
            let flags = set | OEM_DOMAIN | OEM_WORK;
            assert_eq!(
                line(ntlm_line, &negotiate(flags, &[byte], &[byte, byte])),
                format!(
                    "nego flags={flags:08X} domain={expected} work={expected}{expected} max=00\n"
                )
            );
        }
    }
}

#[test]
fn every_unit_in_a_name() {
    let units: Vec<u16> = (0..=u16::MAX).collect();
    for some in units.chunks(0x1000) {
        let name: Vec<u8> = some.iter().flat_map(|unit| unit.to_le_bytes()).collect();
        let message = Auth::new(UNICODE, 88 + name.len())
            .field(USER, name.len() as u16, 88)
            .bytes(88, &name)
            .0;
        let expected: String = some
            .iter()
            .map(|&unit| {
                if (0x21..=0x7E).contains(&unit) && unit != 0x5C {
                    char::from(unit as u8).to_string()
                } else {
                    format!("\\u{unit:04X}")
                }
            })
            .collect();
        assert!(line(ntlm_line, &message).contains(&format!(" user={expected} work=")));
    }
}

#[test]
fn refused_lines() {
    assert_eq!(line(ntlm_line, b""), "refused 2 field=0 at=0\n");
    assert_eq!(line(nl_auth_line, b""), "refused 2 field=0 at=0\n");
    assert_eq!(
        line(ntlm_line, &p1_with(USER, 8, 113)),
        "refused 6 field=4 at=0\n"
    );
    let message = challenge(UNICODE | TARGET_INFO, b"", &[0; 3]);
    assert_eq!(line(ntlm_line, &message), "refused 11 field=2 at=56\n");
    assert_eq!(
        line(nl_auth_line, &nl(0, 0x10, b"\x02x")),
        "refused 15 field=5 at=0\n"
    );
    assert_eq!(
        line(nl_auth_line, &nl(0, 0x08, b"x\0")),
        "refused 50 field=4 at=0\n"
    );
}

#[test]
fn the_ntlm_program_chooses_by_the_type() {
    // Refused as CHALLENGE, whatever the signature.
    let start = b"????????\x02\0\0\0";
    assert_eq!(line(ntlm_line, start), "refused 2 field=0 at=0\n");
    let mut message = start.to_vec();
    message.resize(48, 0);
    assert_eq!(line(ntlm_line, &message), "refused 3 field=0 at=0\n");
    // 48 bytes suffice for a CHALLENGE only.
    let message = challenge(OEM, b"", b"");
    assert_eq!(
        line(ntlm_line, &message[..48]),
        "chal flags=00000002 set=O target= pairs=0 max=00\n"
    );
    // 32 suffice for a NEGOTIATE only, and 12 to be read as one.
    let nego = negotiate(OEM, b"", b"");
    assert_eq!(
        line(ntlm_line, &nego[..32]),
        "nego flags=00000002 domain= work= max=00\n"
    );
    let mut unsigned = nego.clone();
    unsigned[0] = b'?';
    assert_eq!(line(ntlm_line, &unsigned), "refused 3 field=0 at=0\n");
    assert_eq!(line(ntlm_line, &unsigned[..12]), "refused 2 field=0 at=0\n");
    // Any other type goes to the AUTHENTICATE reader.
    for start in [&message, &nego] {
        for at in 9..12 {
            let mut message = start.clone();
            message[at] = 1;
            message.resize(64, 0);
            assert_eq!(line(ntlm_line, &message), "refused 4 field=0 at=0\n");
            assert_eq!(line(ntlm_line, &message[..63]), "refused 2 field=0 at=0\n");
        }
        assert_eq!(line(ntlm_line, &start[..11]), "refused 2 field=0 at=0\n");
    }
}

#[test]
fn a_line_with_no_room_is_33_and_changes_nothing() {
    let time = list(&[(7, &[3; 8])]);
    let chal = challenge(UNICODE | REQUEST_TARGET | TARGET_INFO, &utf16("a b"), &time);
    let nego = negotiate(UNICODE | OEM_DOMAIN | OEM_WORK, b"a b", b"c");
    let calls: [(LineCall, Vec<u8>); 7] = [
        (ntlm_line, p1()),
        (ntlm_line, p1_with(USER, 8, 64)),
        (ntlm_line, b"short".to_vec()),
        (challenge_line, chal),
        (negotiate_line, nego.clone()),
        (negotiate_line, nego[..41].to_vec()),
        (nl_auth_line, nl(0, 3, b"A\\\0B\0")),
    ];
    for (call, message) in calls {
        let expected = line(call, &message);
        for room in 0..expected.len() {
            let mut out = vec![0xEE; room];
            assert_eq!(refused(call(&message, &mut out)), (33, 0));
            assert!(out.iter().all(|&byte| byte == 0xEE));
        }
        for more in [0, 1, 50, 1000] {
            let mut out = vec![0xEE; expected.len() + more];
            assert_eq!(call(&message, &mut out), Ok(expected.len()));
            let (written, rest) = out.split_at(expected.len());
            assert_eq!(written, expected.as_bytes());
            assert!(rest.iter().all(|&byte| byte == 0xEE));
        }
    }
}

/// An AUTHENTICATE message whose line has `len` bytes.
fn message_with_line_of(len: usize) -> Vec<u8> {
    let words = line(ntlm_line, &Auth::new(OEM, 88).0).len();
    let escaped = (len - words) / 4;
    let plain = (len - words) % 4;
    let name = [vec![0; escaped], vec![b'x'; plain]].concat();
    Auth::new(OEM, 88 + name.len())
        .field(USER, name.len() as u16, 88)
        .bytes(88, &name)
        .0
}

#[test]
fn a_program_prints_lines_up_to_65536_bytes() {
    let mut room = Box::new([0; LINE_LIMIT]);
    let fits = message_with_line_of(65_536);
    let printed = Program::Ntlm.line(&fits, &mut room).to_vec();
    assert_eq!(printed.len(), 65_536);
    assert!(printed.ends_with(b" kind=none max=000000\n"));
    assert_eq!(printed, line(ntlm_line, &fits).into_bytes());

    let passes = message_with_line_of(65_537);
    assert_eq!(line(ntlm_line, &passes).len(), 65_537);
    assert_eq!(
        Program::Ntlm.line(&passes, &mut room),
        b"refused 33 field=0 at=0\n"
    );

    let passes = nl(0, 1, &[vec![7; 20_000], vec![0]].concat());
    assert_eq!(
        Program::NlAuth.line(&passes, &mut room),
        b"refused 33 field=0 at=0\n"
    );
}

#[test]
fn the_longest_line_has_its_length() {
    // Three names on the same bytes, each byte escaped.
    let name = (MAX_MESSAGE - 88) as u16;
    let message = Auth::new(OEM, MAX_MESSAGE)
        .field(DOMAIN, name, 88)
        .field(USER, name, 88)
        .field(WORK, name, 88)
        .0;
    let words = line(ntlm_line, &Auth::new(OEM, 88).0).len();
    assert_eq!(
        line(ntlm_line, &message).len(),
        words + 12 * usize::from(name)
    );
}

#[test]
fn programs_refuse_over_65535_bytes() {
    let mut room = Box::new([0; LINE_LIMIT]);
    for program in [Program::Ntlm, Program::NlAuth] {
        for start in [
            p1(),
            challenge(UNICODE, b"", b""),
            negotiate(UNICODE, b"", b""),
            Vec::new(),
        ] {
            let mut message = start;
            message.resize(MAX_MESSAGE + 1, 0);
            assert_eq!(
                program.line(&message, &mut room),
                b"refused 1 field=0 at=0\n"
            );
        }
    }
}

#[test]
fn a_program_line_in_any_room_is_the_line_or_that_of_33() {
    let message = p1();
    let whole = line(ntlm_line, &message);
    let no_room = "refused 33 field=0 at=0\n";
    let lines = [
        (whole.len(), &whole[..]),
        (whole.len() - 1, no_room),
        (24, no_room),
    ];
    for (room, expected) in lines {
        let mut out = vec![0xEE; room];
        let len = Program::Ntlm.write_line(&message, &mut out).expect("room");
        assert_eq!(&out[..len], expected.as_bytes());
        assert!(out[len..].iter().all(|&byte| byte == 0xEE));
    }
    for room in [0, 1, 23] {
        let mut out = vec![0xEE; room];
        for program in [Program::Ntlm, Program::NlAuth] {
            let answer = program.write_line(&message, &mut out);
            // NL_AUTH has a line for it that is shorter than that of 33.
            if program == Program::NlAuth && room == 23 {
                assert_eq!(answer, Ok(23));
            } else {
                assert_eq!(refused(answer), (33, 0));
                assert!(out.iter().all(|&byte| byte == 0xEE));
            }
        }
    }
}
