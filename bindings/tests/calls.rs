//! Every call, on the bench cases of document 01 and on captured messages.

use std::fs;

use dialtable::{
    authenticate_line, canonical_authenticate, challenge_line, check_messages, check_mic,
    check_pairs, count_pairs, decide, domain_to_send, explain, export_header, find_pair,
    import_header, mic, negotiate_line, nl_auth_line, nl_auth_name, nl_auth_program_line,
    ntlm_line, ntlm_program_line, raw, read_authenticate, read_challenge, read_negotiate,
    read_nl_auth, read_server_names, read_timestamp, respond, respond_for_bench, respond_for_relay,
    respond_to_old_server, write_authenticate, write_negotiate, write_nl_auth_request,
    write_nl_auth_response, write_response_pairs, Answer, Decision, Entry, Field, Mark, Mic,
    MicCheck, Negotiate, NlAuth, NlAuthString, Pair, Parts, Reason, Refusal, ServerNames, Settings,
    SignIn, Verdict, Walk, EXPLAIN_ROOM, MIC_AT,
};
use dialtable::{
    place_mic, FLAG_DOMAIN_SUPPLIED as OEM_DOMAIN, FLAG_KEY_EXCH as KEY_EXCH,
    FLAG_UNICODE as UNICODE, FLAG_VERSION as VERSION, FLAG_WORKSTATION_SUPPLIED as OEM_WORKSTATION,
};

const P1_LINE: &[u8] =
    b"auth flags=00000201 set=U domain= user=box7 work= lm=0 nt=24 key=0 mic=1 kind=v1 max=000000\n";
const P12: &[u8] = b"\0\0\0\0\x01\0\0\0LINE\0";
/// Strings A, C and D: D's name ends in a jump to C.
const NAMES: &[u8] = b"\0\0\0\0\x0D\0\0\0A.\0\x03x.y\x03com\0\x02dc\xC0\x03";
const TIME: u64 = 0x01DD_750F_3F7F_2C5C;
const CLOCK: u64 = 0x0123_4567_89AB_CDEF;

fn file(name: &str) -> Vec<u8> {
    fs::read(format!("{}/../{name}", env!("CARGO_MANIFEST_DIR"))).expect("a file of the repository")
}

fn p1() -> Vec<u8> {
    file("crates/ntlm_line/stdin")
}

fn challenge() -> Vec<u8> {
    file("messages/challenge-smbd.bin")
}

fn no_timestamp() -> Vec<u8> {
    file("messages/challenge-no-timestamp.bin")
}

fn negotiate() -> Vec<u8> {
    file("messages/negotiate-names-escapes.bin")
}

/// A refusal as number and field. Only one of a pair has a place.
fn refusal<T: std::fmt::Debug>(answer: Result<T, Refusal>) -> (u8, u8) {
    let (number, field, place) = refusal_at(answer);
    assert!(place == 0 || matches!(number, 10..=13), "{number}: {place}");
    (number, field)
}

/// A refusal as number, field and place.
fn refusal_at<T: std::fmt::Debug>(answer: Result<T, Refusal>) -> (u8, u8, usize) {
    let refusal = answer.expect_err("a refusal");
    (refusal.number(), refusal.field, refusal.place)
}

/// A field whose MaxLen is its length.
const fn field(offset: u32, len: u16) -> Field {
    Field {
        offset,
        len,
        max_len: len,
    }
}

fn parts() -> Parts<'static> {
    Parts {
        version: *b"\x0A\0\x61\x4A\0\0\0\x0F",
        mic: [0xC3; 16],
        lm: &[0x11; 24],
        nt: &[0x22; 40],
        domain: b"D\0",
        user: b"u\0s\0",
        workstation: b"",
        key: &[0x66; 16],
    }
}

#[test]
fn p1_is_read() {
    let message = p1();
    let read = read_authenticate(&message).expect("taken");
    assert_eq!(read.flags, 0x201);
    assert_eq!(read.mic, Some(Mic([0; 16])));
    assert_eq!(read.user, field(88, 8));
    assert_eq!(read.user.bytes(&message), b"b\0o\0x\x007\0");
    assert_eq!(read.nt, field(96, 24));
    assert_eq!(read.nt.bytes(&message), [0xAA; 24]);
    for empty in [read.lm, read.domain, read.workstation, read.key] {
        assert!(empty.is_empty());
        assert_eq!(empty, Field::default());
    }
}

#[test]
fn changes_to_p1_are_refused_by_number_and_field() {
    let with = |at: usize, bytes: &[u8]| {
        let mut message = p1();
        message[at..at + bytes.len()].copy_from_slice(bytes);
        read_authenticate(&message)
    };
    assert_eq!(refusal(with(40, &[113])), (6, 4));
    assert_eq!(refusal(with(40, &[112])), (9, 4));
    assert_eq!(refusal(with(40, &[62])), (7, 4));
    assert_eq!(refusal(with(36, &[7])), (8, 4));
    assert_eq!(with(40, &[64]).expect("taken").mic, None);
    assert_eq!(refusal(with(0, &[0])), (3, 0));
    assert_eq!(refusal(with(8, &[2])), (4, 0));
    assert_eq!(refusal(with(60, &[0])), (5, 0));
    assert_eq!(refusal(read_authenticate(&p1()[..63])), (2, 0));
    assert_eq!(refusal(read_authenticate(&[])), (2, 0));
    assert_eq!(refusal(read_authenticate(&vec![0; 65_536])), (1, 0));
}

#[test]
fn a_refusal_says_what_is_wrong() {
    let refused = read_authenticate(&[]).expect_err("refused");
    assert_eq!(refused.reason, Reason::TooShort);
    assert_eq!(
        refused.to_string(),
        "refused 2 field=0 at=0: shorter than its fixed part"
    );
    for number in 0..=u8::MAX {
        assert_eq!(Reason::of(number).number(), number);
    }
    let refused = check_pairs(&[1, 0, 0, 0, 7]).expect_err("refused");
    assert_eq!(
        refused.to_string(),
        "refused 11 field=2 at=4: under 4 bytes left where a pair should start"
    );
}

#[test]
fn fields_are_copied_where_there_is_room() {
    let message = p1();
    let user = read_authenticate(&message).expect("taken").user;
    let mut out = [0xEE; 10];
    assert_eq!(user.copy(&message, &mut out), Ok(&b"b\0o\0x\x007\0"[..]));
    assert_eq!(out[8..], [0xEE, 0xEE]);
    assert_eq!(refusal(user.copy(&message, &mut out[..7])), (33, 0));
    // A record of another message. It is refused before 33.
    let mut out = [0xEE; 10];
    assert_eq!(refusal(user.copy(&message[..95], &mut out)), (6, 0));
    assert_eq!(refusal(user.copy(&message[..90], &mut [])), (6, 0));
    assert_eq!(out, [0xEE; 10]);
    assert_eq!(user.bytes(&message[..90]), b"");
    let up_to_it = &message[..96];
    assert_eq!(user.copy(up_to_it, &mut out), Ok(&b"b\0o\0x\x007\0"[..]));
}

#[test]
fn a_challenge_is_read() {
    let message = challenge();
    let read = read_challenge(&message).expect("taken");
    assert_eq!(read.flags, 0x628A_8215);
    assert_eq!(read.server_challenge, *b"\x04\xDF\xF4\x36\x3C\xBB\x53\x2E");
    assert_eq!(read.target_name, field(56, 14));
    assert_eq!(read.target_info, field(70, 64));
    assert_eq!(read_timestamp(&message), Ok(Some(TIME)));
    assert_eq!(read_timestamp(&no_timestamp()), Ok(None));
    let both = ServerNames {
        nb_computer: true,
        nb_domain: true,
    };
    assert_eq!(read_server_names(&message), Ok(both));
    let cut = file("messages/challenge-list-runs-out.bin");
    assert_eq!(refusal_at(read_challenge(&cut)), (11, 2, 130));
    assert_eq!(refusal_at(read_timestamp(&cut)), (11, 2, 130));
    assert_eq!(refusal_at(read_server_names(&cut)), (11, 2, 130));
}

/// A challenge that is refused has the message's place in every call that reads it,
/// its list alone the list's.
#[test]
fn a_bad_pair_list_says_where() {
    let cases = [
        ("list-runs-out", 11, 70, 130),
        ("value-past-end", 10, 70, 106),
        ("timestamp-short", 13, 70, 118),
        ("byte-after-end-pair", 12, 63, 123),
    ];
    for (name, number, start, place) in cases {
        let message = file(&format!("messages/challenge-{name}.bin"));
        let expected = (number, 2, place);
        assert_eq!(refusal_at(read_challenge(&message)), expected);
        let decision = decide(Settings::default(), &message);
        assert_eq!(refusal_at(decision), expected);
        let mut room = [0; 300];
        let answer = respond(&mut room, &message, Settings::default(), CLOCK, &parts());
        assert_eq!(refusal_at(answer), expected);
        for demand in [false, true] {
            let answer = respond_for_bench(&mut room, &message, CLOCK, demand, &parts());
            assert_eq!(refusal_at(answer), expected);
        }
        for call in [respond_to_old_server, respond_for_relay] {
            let answer = call(&mut room, &message, CLOCK, &parts());
            assert_eq!(refusal_at(answer), expected);
        }
        let pairs = write_response_pairs(&mut room, &message, b"", false, &[0; 16]);
        assert_eq!(refusal_at(pairs), expected);
        let line = format!("refused {number} field=2 at={place}\n");
        assert_eq!(challenge_line(&message, &mut room), Ok(line.as_bytes()));
        assert_eq!(ntlm_program_line(&message, &mut room), Ok(line.as_bytes()));

        let info = u16::from_le_bytes([message[40], message[41]]);
        let list = &message[start..start + usize::from(info)];
        let expected = (number, 2, place - start);
        assert_eq!(refusal_at(check_pairs(list)), expected);
        assert_eq!(refusal_at(count_pairs(list)), expected);
        assert_eq!(refusal_at(find_pair(list, 2)), expected);
        let mut walk = Walk::new(list);
        while let Ok(Some(_)) = walk.ask() {}
        for _ in 0..2 {
            assert_eq!(refusal_at(walk.ask()), expected);
        }
    }
}

/// A place that an answer has no room for is shown as the farthest.
#[test]
fn a_place_past_the_farthest_is_shown_as_it() {
    const FARTHEST: usize = 0x7FFF_FFFF_FFFF;
    let asked = [
        (5, 5),
        (FARTHEST - 1, FARTHEST - 1),
        (FARTHEST, FARTHEST),
        (FARTHEST + 1, FARTHEST),
        (usize::MAX, FARTHEST),
    ];
    for (at, shown) in asked {
        let mut numbers = [7; raw::NEXT_NUMBERS];
        let answer = raw::next_pair(&[0; 4], at, &mut numbers);
        assert_eq!(answer, 1 << 63 | (shown as u64) << 16 | 11 << 8 | 2);
        assert_eq!(numbers, [7; raw::NEXT_NUMBERS]);
    }
}

#[test]
fn a_negotiate_is_read() {
    let message = negotiate();
    let read = read_negotiate(&message).expect("taken");
    assert_eq!(read.flags, 0xA208_B207);
    assert_eq!(read.domain, field(40, 7));
    assert_eq!(read.domain.bytes(&message), b"LINE 31");
    assert_eq!(read.workstation, field(47, 5));
    assert_eq!(read.workstation.bytes(&message), b"box\\\xFC");
    // Without their bits the names don't count.
    let mut bare = message.clone();
    bare[13] &= !0x30;
    let expected = Negotiate {
        flags: 0xA208_8207,
        ..Negotiate::default()
    };
    assert_eq!(read_negotiate(&bare), Ok(expected));
}

#[test]
fn changes_to_a_negotiate_are_refused_by_number_and_field() {
    let with = |at: usize, bytes: &[u8]| {
        let mut message = negotiate();
        message[at..at + bytes.len()].copy_from_slice(bytes);
        read_negotiate(&message)
    };
    assert_eq!(refusal(with(0, &[0])), (3, 0));
    assert_eq!(refusal(with(8, &[3])), (4, 0));
    assert_eq!(refusal(with(12, &[0])), (5, 0));
    assert_eq!(refusal(with(20, &[46])), (6, 1));
    assert_eq!(refusal(with(28, &[48])), (6, 2));
    assert_eq!(refusal(with(20, &[31])), (7, 1));
    assert_eq!(refusal(with(28, &[31])), (7, 2));
    assert!(with(28, &[32]).is_ok());
    assert_eq!(refusal(read_negotiate(&negotiate()[..31])), (2, 0));
    assert_eq!(refusal(read_negotiate(&vec![0; 65_536])), (1, 0));
}

/// A message with another MaxLen in the head at a place.
fn with_max_len(mut message: Vec<u8>, head: usize, max_len: u16) -> Vec<u8> {
    message[head + 2..head + 4].copy_from_slice(&max_len.to_le_bytes());
    message
}

#[test]
fn max_len_is_kept_and_told() {
    let mut room = [0; 200];
    let message = with_max_len(p1(), 36, 0x8005);
    let read = read_authenticate(&message).expect("taken");
    let user = Field {
        max_len: 0x8005,
        ..field(88, 8)
    };
    assert_eq!(read.user, user);
    assert_eq!(read.user.bytes(&message), b"b\0o\0x\x007\0");
    let line = authenticate_line(&message, &mut room).expect("room");
    assert!(line.ends_with(b" kind=v1 max=000100\n"));
    // An empty field that counts, and a key that doesn't.
    let message = with_max_len(with_max_len(p1(), 12, 5), 52, 5);
    let read = read_authenticate(&message).expect("taken");
    let empty = Field {
        max_len: 5,
        ..Field::default()
    };
    assert_eq!((read.lm, read.key), (empty, Field::default()));
    assert!(read.lm.is_empty());
    let line = ntlm_line(&message, &mut room).expect("room");
    assert!(line.ends_with(b" max=100000\n"));

    let message = with_max_len(challenge(), 40, 63);
    let info = read_challenge(&message).expect("taken").target_info;
    assert_eq!((info.len, info.max_len), (64, 63));
    let line = challenge_line(&message, &mut room).expect("room");
    assert!(line.ends_with(b" time=01DD750F3F7F2C5C max=01\n"));

    let message = with_max_len(negotiate(), 16, 0);
    let domain = read_negotiate(&message).expect("taken").domain;
    assert_eq!((domain.len, domain.max_len), (7, 0));
    let line = negotiate_line(&message, &mut room).expect("room");
    assert!(line.ends_with(b" max=10\n"));
}

#[test]
fn pair_lists() {
    let message = challenge();
    let list = read_challenge(&message)
        .expect("taken")
        .target_info
        .bytes(&message);
    assert_eq!(check_pairs(list), Ok(()));
    assert_eq!(count_pairs(list), Ok(5));
    let time = Pair {
        id: 7,
        place: 52,
        len: 8,
    };
    assert_eq!(find_pair(list, 7), Ok(Some(time)));
    assert_eq!(time.value(list), TIME.to_le_bytes());
    assert_eq!(find_pair(list, 9), Ok(None));
    let ids: Result<Vec<u16>, Refusal> = Walk::new(list).map(|pair| Ok(pair?.id)).collect();
    assert_eq!(ids, Ok(vec![2, 1, 4, 3, 7]));

    let lists: [(&[u8], u8); 4] = [
        (&[0, 0, 0], 11),
        (&[1, 0, 6, 0, 0x41, 0], 10),
        (&[0, 0, 0, 0, 0], 12),
        (&[6, 0, 2, 0, 0, 0, 0, 0, 0, 0], 13),
    ];
    for (list, number) in lists {
        assert_eq!(refusal_at(check_pairs(list)), (number, 2, 0));
        assert_eq!(refusal_at(count_pairs(list)), (number, 2, 0));
        assert_eq!(refusal_at(find_pair(list, 1)), (number, 2, 0));
        let mut walk = Walk::new(list);
        assert_eq!(refusal_at(walk.ask()), (number, 2, 0));
        assert_eq!(refusal_at(walk.ask()), (number, 2, 0));
        // As an iterator it gives the refusal once.
        assert_eq!(Walk::new(list).count(), 1);
    }
    for none in [&[][..], &[0; 4]] {
        assert_eq!(count_pairs(none), Ok(0));
        assert_eq!(Walk::new(none).count(), 0);
    }
}

#[test]
fn nl_auth_messages_are_read() {
    let a = NlAuthString {
        offset: 8,
        len: 4,
        jumps: 0,
    };
    let request = NlAuth::Request {
        flags: 1,
        strings: [Some(a), None, None, None, None],
    };
    assert_eq!(read_nl_auth(P12), Ok(request));
    assert_eq!(a.bytes(P12), b"LINE");
    assert_eq!(
        read_nl_auth(b"\x01\0\0\0\xFF\0\0\0\0"),
        Ok(NlAuth::Response)
    );
    assert_eq!(refusal(read_nl_auth(&P12[..12])), (15, 1));
}

#[test]
fn nl_auth_names_are_read() {
    let Ok(NlAuth::Request { flags, strings }) = read_nl_auth(NAMES) else {
        panic!("a request");
    };
    assert_eq!(flags, 0x0D);
    let own = strings.map(|string| string.map(|string| (string.bytes(NAMES), string.jumps)));
    let expected: [Option<(&[u8], u8)>; 5] = [
        Some((b"A.", 0)),
        None,
        Some((b"\x03x.y\x03com\0", 0)),
        Some((b"\x02dc\xC0\x03", 1)),
        None,
    ];
    assert_eq!(own, expected);
    let mut out = [0xEE; 20];
    let copied = strings[3].expect("D").copy(NAMES, &mut out);
    assert_eq!(copied, Ok(&b"\x02dc\xC0\x03"[..]));

    let texts = ["", "A.", "", "x\\x2Ey.com", "dc.x\\x2Ey.com", "", ""];
    for (which, text) in (0..).zip(texts) {
        let mut out = [0xEE; 20];
        assert_eq!(nl_auth_name(NAMES, which, &mut out), Ok(text.as_bytes()));
        assert!(out[text.len()..].iter().all(|&byte| byte == 0xEE));
        if let Some(less) = text.len().checked_sub(1) {
            let answer = nl_auth_name(NAMES, which, &mut out[..less]);
            assert_eq!(refusal(answer), (33, 0));
        }
    }
    let line = b"nl type=0 flags=0000000D a=A. c=x\\x2Ey.com d=dc.x\\x2Ey.com\n";
    assert_eq!(nl_auth_line(NAMES, &mut [0; 80]), Ok(&line[..]));

    // D's jump, its last byte, at its own label, at what is no label, and cut off.
    let with = |place: u8| [&NAMES[..NAMES.len() - 1], &[place]].concat();
    for (message, expected) in [
        (with(12), (51, 4)),
        (with(4), (50, 4)),
        (NAMES[..NAMES.len() - 1].to_vec(), (15, 4)),
    ] {
        assert_eq!(refusal(read_nl_auth(&message)), expected);
        assert_eq!(refusal(nl_auth_name(&message, 1, &mut [])), expected);
    }
    let reasons = [50, 51, 52, 53].map(Reason::of);
    assert_eq!(
        reasons,
        [
            Reason::WrongLabel,
            Reason::PlaceNotBefore,
            Reason::TooManyJumps,
            Reason::NameTooLong
        ]
    );
}

#[test]
fn lines() {
    let mut room = [0xEE; 200];
    assert_eq!(authenticate_line(&p1(), &mut room), Ok(P1_LINE));
    assert!(room[P1_LINE.len()..].iter().all(|&byte| byte == 0xEE));
    assert_eq!(ntlm_line(&p1(), &mut room), Ok(P1_LINE));
    assert_eq!(ntlm_program_line(&p1(), &mut room), Ok(P1_LINE));
    let chal = b"chal flags=628A8215 set=U target=PEERSRV pairs=5 time=01DD750F3F7F2C5C max=00\n";
    assert_eq!(challenge_line(&challenge(), &mut room), Ok(&chal[..]));
    assert_eq!(ntlm_line(&challenge(), &mut room), Ok(&chal[..]));
    let nego = b"nego flags=A208B207 domain=LINE\\x2031 work=box\\x5C\\xFC max=00\n";
    for line in [negotiate_line, ntlm_line, ntlm_program_line] {
        assert_eq!(line(&negotiate(), &mut room), Ok(&nego[..]));
        assert_eq!(
            line(&negotiate()[..31], &mut room),
            Ok(&b"refused 2 field=0 at=0\n"[..])
        );
    }
    let nl = b"nl type=0 flags=00000001 a=LINE\n";
    assert_eq!(nl_auth_line(P12, &mut room), Ok(&nl[..]));
    assert_eq!(nl_auth_program_line(P12, &mut room), Ok(&nl[..]));
    assert_eq!(
        nl_auth_line(&[], &mut room),
        Ok(&b"refused 2 field=0 at=0\n"[..])
    );
}

#[test]
fn a_line_with_no_room_is_refused_and_changes_nothing() {
    let mut room = [0xEE; 80];
    assert_eq!(refusal(authenticate_line(&p1(), &mut room)), (33, 0));
    assert_eq!(refusal(ntlm_program_line(&p1(), &mut room[..23])), (33, 0));
    assert_eq!(refusal(nl_auth_line(P12, &mut [])), (33, 0));
    assert_eq!(room, [0xEE; 80]);
    let shown = ntlm_program_line(&p1(), &mut room);
    assert_eq!(shown, Ok(&b"refused 33 field=0 at=0\n"[..]));
}

#[test]
fn the_checks_of_a_message() {
    let mut room = [0xEE; EXPLAIN_ROOM];
    let held = "check 1 held\ncheck 2 held\ncheck 3 held\ncheck 4 held\ncheck 5 held\n";
    let all = format!("{held}check 6 held\ncheck 7 held\ncheck 8 held\ncheck 9 held\n");
    assert_eq!(explain(&p1(), &mut room), Ok(all.as_bytes()));
    assert!(room[all.len()..].iter().all(|&byte| byte == 0xEE));
    let mut past = p1();
    past[40] = 113;
    let told = format!(
        "{held}check 6 failed field=4 offset=113 length=8 message=120\n\
         check 7 not reached\ncheck 8 not reached\ncheck 9 not reached\n"
    );
    assert_eq!(explain(&past, &mut room), Ok(told.as_bytes()));
    let bad = file("messages/challenge-timestamp-short.bin");
    let told = format!(
        "{held}check 6 held\ncheck 7 held\ncheck 8 held\ncheck 11 held\ncheck 12 held\n\
         check 10 held\n\
         check 13 failed field=2 offset=70 length=64 message=134 at=118 id=7 size=4\n"
    );
    assert_eq!(explain(&bad, &mut room), Ok(told.as_bytes()));
    let seven = format!("{held}check 6 held\ncheck 7 held\n");
    assert_eq!(explain(&negotiate(), &mut room), Ok(seven.as_bytes()));

    // The longest print that is known needs exactly 279 bytes.
    let mut long = challenge();
    long.resize(70_000, 0);
    let told = explain(&long, &mut room).expect("room");
    assert!(told.starts_with(b"check 1 failed field=0 offset=0 length=0 message=65536\n"));
    assert_eq!(told.len(), 279);
    let mut short = [0xEE; 278];
    assert_eq!(refusal(explain(&long, &mut short)), (33, 0));
    assert_eq!(refusal(explain(&long, &mut [])), (33, 0));
    assert_eq!(short, [0xEE; 278]);
}

/// P1, a NEGOTIATE and a CHALLENGE that is refused 13, one after the other.
fn night() -> Vec<u8> {
    let bad = file("messages/challenge-timestamp-short.bin");
    [p1(), negotiate(), bad].concat()
}

/// The refusal of an entry that was read.
fn told(verdict: Verdict) -> Option<(u8, u8, usize)> {
    match verdict {
        Verdict::NotRead => panic!("it was read"),
        Verdict::Taken => None,
        Verdict::Refused(refusal) => Some((refusal.number(), refusal.field, refusal.place)),
    }
}

#[test]
fn a_night_is_checked() {
    let buffer = night();
    assert_eq!(buffer.len(), 306);
    let cases = [
        (0, 120, Mark::Authenticate, None),
        (120, 52, Mark::Negotiate, None),
        (172, 134, Mark::Challenge, Some((13, 2, 118))),
        // Marks that are not the message's type, and places that overlap.
        (0, 120, Mark::Challenge, Some((4, 0, 0))),
        (0, 119, Mark::Authenticate, Some((6, 2, 0))),
        (1, 120, Mark::Authenticate, Some((3, 0, 0))),
        (0, 120, Mark::Authenticate, None),
        (306, 0, Mark::Negotiate, Some((2, 0, 0))),
        (307, 0, Mark::Negotiate, Some((54, 0, 0))),
        (306, 1, Mark::Authenticate, Some((54, 0, 0))),
        (u64::MAX, 121, Mark::Authenticate, Some((54, 0, 0))),
        (1 << 32, 120, Mark::Authenticate, Some((54, 0, 0))),
    ];
    let listed = cases.map(|(start, length, mark, _)| Entry::new(start, length, mark));
    let mut entries = listed;
    assert_eq!(check_messages(&buffer, &mut entries), Ok(()));
    for ((entry, before), (start, length, mark, expected)) in entries.iter().zip(listed).zip(cases)
    {
        assert_eq!(before.answer(), Verdict::NotRead);
        assert_eq!(told(entry.answer()), expected);
        assert_eq!(entry.answer().is_taken(), expected.is_none());
        let kept = (entry.start(), entry.length(), entry.mark());
        assert_eq!(kept, (start, length, mark));
    }
    assert_eq!(Reason::of(54), Reason::PlaceOutside);
}

#[test]
fn a_night_that_is_too_long_or_empty_changes_no_entry() {
    let mut buffer = night();
    buffer.resize(65_535, 0);
    let mut entries = [Entry::new(0, 120, Mark::Authenticate); 3];
    assert_eq!(check_messages(&buffer, &mut []), Ok(()));
    assert_eq!(check_messages(&buffer, &mut entries[..1]), Ok(()));
    buffer.push(0);
    let before = entries;
    assert_eq!(refusal(check_messages(&buffer, &mut entries)), (1, 0));
    assert_eq!(refusal(check_messages(&buffer, &mut [])), (1, 0));
    assert_eq!(entries, before);
    // Only the first was read. The others are not taken, whatever was refused.
    assert!(entries[0].answer().is_taken());
    for entry in &entries[1..] {
        assert_eq!(entry.answer(), Verdict::NotRead);
        assert!(!entry.answer().is_taken());
    }
}

#[test]
fn the_raw_call_changes_answers_alone() {
    let before = raw::Entry {
        start: 172,
        length: 134,
        mark: 2,
        number: 7,
        field: 8,
        place: 9,
    };
    let mut entries = [before; 6];
    for (entry, mark) in entries[1..].iter_mut().zip([0, 4, 0x103, u32::MAX]) {
        entry.mark = mark;
    }
    let listed = entries;
    assert_eq!(raw::check_messages(&night(), &mut entries[..5]), 0);
    // The last was not listed; the marks between are none.
    let answers = [
        (13, 2, 118),
        (4, 0, 0),
        (4, 0, 0),
        (4, 0, 0),
        (4, 0, 0),
        (7, 8, 9),
    ];
    for ((entry, before), (number, field, place)) in entries.iter().zip(listed).zip(answers) {
        let after = raw::Entry {
            number,
            field,
            place,
            ..before
        };
        assert_eq!(*entry, after);
    }
}

/// An entry's answer is the single call's on its bytes.
#[test]
fn a_night_of_a_thousand_entries() {
    let buffer = night();
    let marks = [Mark::Negotiate, Mark::Challenge, Mark::Authenticate];
    let entry = |i: u64| Entry::new(i * 7 % 300, i * 13 % 310, marks[i as usize % 3]);
    let mut entries: Vec<Entry> = (0..1_000).map(entry).collect();
    assert_eq!(check_messages(&buffer, &mut entries), Ok(()));
    for entry in &entries {
        let (start, length) = (entry.start() as usize, entry.length() as usize);
        let Some(message) = buffer.get(start..start + length) else {
            assert_eq!(told(entry.answer()), Some((54, 0, 0)));
            continue;
        };
        let single = match entry.mark() {
            Mark::Negotiate => read_negotiate(message).map(drop),
            Mark::Challenge => read_challenge(message).map(drop),
            Mark::Authenticate => read_authenticate(message).map(drop),
        };
        let single = single.map_or_else(Verdict::Refused, |()| Verdict::Taken);
        assert_eq!(entry.answer(), single);
    }
}

#[test]
fn what_is_written_reads_back() {
    let flags = UNICODE | VERSION | KEY_EXCH;
    let parts = parts();
    let mut out = [0xEE; 300];
    let message = write_authenticate(&mut out, flags, &parts).expect("room");
    assert_eq!(message.len(), 88 + 2 + 4 + 24 + 40 + 16);
    assert_eq!(message[64..72], parts.version);
    let read = read_authenticate(message).expect("taken");
    assert_eq!((read.flags, read.mic), (flags, Some(Mic(parts.mic))));
    for (field, bytes) in [
        (read.lm, parts.lm),
        (read.nt, parts.nt),
        (read.domain, parts.domain),
        (read.user, parts.user),
        (read.workstation, parts.workstation),
        (read.key, parts.key),
    ] {
        assert_eq!(field.bytes(message), bytes);
    }
    let mut exact = [0xEE; 174];
    assert!(write_authenticate(&mut exact, flags, &parts).is_ok());
    let mut short = [0xEE; 173];
    assert_eq!(
        refusal(write_authenticate(&mut short, flags, &parts)),
        (33, 0)
    );
    assert_eq!(short, [0xEE; 173]);
    assert_eq!(
        refusal(write_authenticate(&mut out, UNICODE, &parts)),
        (32, 6)
    );
    let odd = Parts {
        user: b"u",
        ..parts
    };
    assert_eq!(refusal(write_authenticate(&mut out, flags, &odd)), (31, 4));
}

#[test]
fn a_negotiate_that_is_written_reads_back() {
    let version = *b"\x0A\0\x61\x4A\0\0\0\x0F";
    let mut out = [0xEE; 100];
    let (domain, workstation) = (&b"LINE 31"[..], &b"box\\\xFC"[..]);
    // Neither bit is the caller's.
    let flags = 0xA208_8207;
    let written = write_negotiate(&mut out, flags, &version, domain, workstation);
    assert_eq!(written, Ok(&negotiate()[..]));
    assert!(out[52..].iter().all(|&byte| byte == 0xEE));
    // An empty name clears its bit, and no Version is written without its flag.
    let both = UNICODE | OEM_DOMAIN | OEM_WORKSTATION;
    let message = write_negotiate(&mut out, both, &version, b"", b"BOX").expect("room");
    assert_eq!((message.len(), &message[32..40]), (43, &[0; 8][..]));
    let read = read_negotiate(message).expect("taken");
    assert_eq!(read.flags, UNICODE | OEM_WORKSTATION);
    assert_eq!(
        (read.domain, read.domain.bytes(message)),
        (Field::default(), &b""[..])
    );
    assert_eq!(read.workstation.bytes(message), b"BOX");

    let mut short = [0xEE; 51];
    let answer = write_negotiate(&mut short, flags, &version, domain, workstation);
    assert_eq!(refusal(answer), (33, 0));
    let long = vec![b'x'; 65_496];
    let answer = write_negotiate(&mut short, UNICODE, &version, &long, b"");
    assert_eq!(refusal(answer), (30, 0));
    let answer = write_negotiate(&mut short, 0, &version, &long, b"");
    assert_eq!(refusal(answer), (5, 0));
    assert_eq!(short, [0xEE; 51]);
}

#[test]
fn nl_auth_is_written() {
    let (mut out, mut room) = ([0xEE; 40], [0; 20]);
    let strings: [&[u8]; 5] = [b"LINE", b"\0", b"", b"", b""];
    assert_eq!(write_nl_auth_request(&mut out, 0x21, &strings), Ok(P12));
    assert_eq!(
        refusal(write_nl_auth_request(&mut out, 3, &strings)),
        (34, 2)
    );
    assert_eq!(
        refusal(write_nl_auth_request(&mut out, 0x20, &strings)),
        (14, 0)
    );
    let names: [&[u8]; 5] = [b"", b"", b"", b"dc.example", b"a..b"];
    let message = write_nl_auth_request(&mut out, 0x0D, &names).expect("a request");
    assert_eq!(message, b"\0\0\0\0\x0D\0\0\0\0\0\x02dc\x07example\0");
    let text = nl_auth_name(message, 4, &mut room);
    assert_eq!(text, Ok(&b"dc.example"[..]));
    assert_eq!(
        refusal(write_nl_auth_request(&mut out, 0x1F, &names)),
        (50, 5)
    );
    let mut long = [b'x'; 254];
    for dot in [50, 100, 150, 200] {
        long[dot] = b'.';
    }
    assert_eq!(
        refusal(write_nl_auth_request(&mut out, 4, &[&long; 5])),
        (53, 3)
    );
    let response = write_nl_auth_response(&mut out);
    assert_eq!(response, Ok(&b"\x01\0\0\0\0\0\0\0\0"[..]));
    assert_eq!(refusal(write_nl_auth_response(&mut out[..8])), (33, 0));
}

#[test]
fn decisions() {
    let settings = Settings::default();
    let decision = Decision {
        flags: 0x628A_8215,
        timestamp: Some(TIME),
    };
    assert_eq!(decide(settings, &challenge()), Ok(decision));
    let mut weak = challenge();
    weak[23] &= !0x20;
    let old = Settings {
        demand_128: false,
        ..settings
    };
    assert_eq!(refusal(decide(settings, &weak)), (20, 0));
    assert!(decide(old, &weak).is_ok());
    // TargetInfo no longer counts: no names.
    let mut bare = challenge();
    bare[22] &= !0x80;
    for wanted in [
        Settings {
            integrity: true,
            ..settings
        },
        Settings {
            confidentiality: true,
            ..settings
        },
    ] {
        assert_eq!(refusal(decide(wanted, &bare)), (21, 0));
        let ntlmv1 = Settings {
            ntlmv2: false,
            ..wanted
        };
        assert!(decide(ntlmv1, &bare).is_ok());
    }
}

#[test]
fn domains_to_send() {
    let mut out = [0xEE; 20];
    let peer = b"P\0E\0E\0R\0S\0R\0V\0";
    assert_eq!(domain_to_send(b"", &challenge(), &mut out), Ok(&peer[..]));
    assert_eq!(
        domain_to_send(b"own", &challenge(), &mut out),
        Ok(&b"own"[..])
    );
    assert_eq!(domain_to_send(b"", &[], &mut out), Ok(&[][..]));
    assert_eq!(refusal(domain_to_send(b"own", &[], &mut out[..2])), (33, 0));
}

/// Pairs that go back after what came in: flags, bindings, name and the end.
fn going_back(came: &[u8], flags: &[u8], bindings: &[u8; 16], name: &[u8]) -> Vec<u8> {
    let mut list = came.strip_suffix(&[0; 4]).expect("an end pair").to_vec();
    if !flags.is_empty() {
        list.extend([6, 0, 4, 0]);
        list.extend(flags);
    }
    list.extend([10, 0, 16, 0]);
    list.extend(bindings);
    list.extend([9, 0, name.len() as u8, 0]);
    list.extend(name);
    list.extend([0; 4]);
    list
}

#[test]
fn pairs_go_back() {
    let (name, bindings) = (&b"c\0i\0"[..], &[0xB1; 16]);
    let message = challenge();
    let came = &message[70..];
    for (name, unverified, flags) in [
        (name, false, &[2, 0, 0, 0]),
        (name, true, &[6, 0, 0, 0]),
        (&[], true, &[2, 0, 0, 0]),
    ] {
        let expected = going_back(came, flags, bindings, name);
        let mut out = [0xEE; 200];
        let list = write_response_pairs(&mut out, &message, name, unverified, bindings);
        assert_eq!(list, Ok(&expected[..]));
        assert_eq!(check_pairs(&expected), Ok(()));
        assert!(out[expected.len()..].iter().all(|&byte| byte == 0xEE));
    }
    // No timestamp: no flags pair unless the name is marked.
    let message = no_timestamp();
    let came = read_challenge(&message).expect("taken").target_info;
    let expected = going_back(came.bytes(&message), &[], bindings, b"");
    let mut out = [0xEE; 200];
    let list = write_response_pairs(&mut out, &message, b"", true, bindings);
    assert_eq!(list, Ok(&expected[..]));
    // TargetInfo no longer counts.
    let mut bare = challenge();
    bare[22] &= !0x80;
    let list = write_response_pairs(&mut out, &bare, name, true, bindings);
    assert_eq!(list, Ok(&[0; 4][..]));
}

#[test]
fn pairs_that_cannot_go_back_are_refused_and_change_nothing() {
    let message = challenge();
    let bindings = &[0; 16];
    let mut out = [0xEE; 95];
    let mut write = |challenge: &[u8], name: &[u8]| {
        refusal(write_response_pairs(
            &mut out, challenge, name, false, bindings,
        ))
    };
    // 60 bytes that came, 8 of flags, 20 of bindings, 4 and the name, 4.
    assert_eq!(write(&message, b""), (33, 0));
    let long = vec![b'x'; 65_440];
    assert_eq!(write(&message, &long), (30, 0));
    assert_eq!(write(&message, &long[..65_438]), (33, 0));
    assert_eq!(write(&message, &long[1..]), (31, 2));
    assert_eq!(write(&message[..47], b"odd"), (2, 0));
    let cut = file("messages/challenge-list-runs-out.bin");
    assert_eq!(write(&cut, b"odd"), (11, 2));
    assert_eq!(out, [0xEE; 95]);
    let mut exact = [0xEE; 96];
    let list = write_response_pairs(&mut exact, &message, b"", false, bindings);
    assert_eq!(list.map(<[u8]>::len), Ok(96));
}

#[test]
fn a_challenge_is_answered() {
    let message = challenge();
    let mut room = [0; 300];
    let parts = parts();
    let Answer {
        message: sent,
        time,
        mic_due,
    } = respond(&mut room, &message, Settings::default(), CLOCK, &parts).expect("answered");
    assert_eq!((time, mic_due), (TIME, true));
    let read = read_authenticate(sent).expect("taken");
    assert_eq!((read.flags, read.mic), (0x628A_8215, Some(Mic(parts.mic))));
    assert_eq!(read.lm.bytes(sent), [0; 24]);
    assert_eq!(read.nt.bytes(sent), parts.nt);
    assert_eq!(read.key.bytes(sent), parts.key);

    let ntlmv1 = Settings {
        ntlmv2: false,
        ..Settings::default()
    };
    let mut other = [0; 300];
    let answer = respond(&mut other, &message, ntlmv1, CLOCK, &parts).expect("answered");
    assert_eq!((answer.time, answer.mic_due), (CLOCK, true));
    let read = read_authenticate(answer.message).expect("taken");
    assert_eq!(read.lm.bytes(answer.message), parts.lm);

    // No MIC is due where there is no timestamp.
    let answer = respond(
        &mut other,
        &no_timestamp(),
        Settings::default(),
        CLOCK,
        &parts,
    );
    let answer = answer.expect("answered");
    assert_eq!((answer.time, answer.mic_due), (CLOCK, false));
    let read = read_authenticate(answer.message).expect("taken");
    assert_eq!(read.mic, Some(Mic([0; 16])));
}

#[test]
fn the_thin_calls_answer_as_the_full_one() {
    let message = challenge();
    let mut room = [0; 300];
    let full = respond(&mut room, &message, Settings::default(), CLOCK, &parts());
    for call in [respond_to_old_server, respond_for_relay] {
        let mut other = [0; 300];
        assert_eq!(call(&mut other, &message, CLOCK, &parts()), full);
        assert_eq!(refusal(call(&mut other, &[], CLOCK, &parts())), (2, 0));
        assert_eq!(refusal(call(&mut [], &message, CLOCK, &parts())), (33, 0));
    }
    for demand in [false, true] {
        let mut other = [0; 300];
        let bench = respond_for_bench(&mut other, &message, CLOCK, demand, &parts());
        assert_eq!(bench, full);
        let bench = respond_for_bench(&mut other, &[], CLOCK, demand, &parts());
        assert_eq!(refusal(bench), (2, 0));
        let bench = respond_for_bench(&mut [], &message, CLOCK, demand, &parts());
        assert_eq!(refusal(bench), (33, 0));
    }
}

#[test]
fn the_thin_calls_demand_128_bit_each_in_its_way() {
    let mut weak = challenge();
    weak[23] &= !0x20;
    let old = Settings {
        demand_128: false,
        ..Settings::default()
    };
    let mut room = [0; 300];
    let full = respond(&mut room, &weak, old, CLOCK, &parts());
    assert!(full.is_ok());
    let mut out = [0; 300];
    let bench = respond_for_bench(&mut out, &weak, CLOCK, false, &parts());
    assert_eq!(bench, full);
    let old_server = respond_to_old_server(&mut out, &weak, CLOCK, &parts());
    assert_eq!(old_server, full);
    let mut out = [0xEE; 300];
    let bench = respond_for_bench(&mut out, &weak, CLOCK, true, &parts());
    assert_eq!(refusal(bench), (20, 0));
    let relay = respond_for_relay(&mut out, &weak, CLOCK, &parts());
    assert_eq!(refusal(relay), (20, 0));
    assert_eq!(out, [0xEE; 300]);
}

/// No bytes make a call panic.
#[test]
fn one_meaning_has_one_writing() {
    let message = file("messages/authenticate-smbclient.bin");
    let read = read_authenticate(&message).expect("taken");
    let mut room = [0xEE; 600];
    let tidy = canonical_authenticate(&mut room, &message)
        .expect("written")
        .to_vec();
    assert!(tidy[64..72] == [0; 8] && room[tidy.len()..] == [0xEE; 600][tidy.len()..]);
    let again = read_authenticate(&tidy).expect("taken");
    assert_eq!((again.flags, again.mic), (read.flags, read.mic));
    for (one, two) in [
        (read.lm, again.lm),
        (read.nt, again.nt),
        (read.domain, again.domain),
        (read.user, again.user),
        (read.workstation, again.workstation),
        (read.key, again.key),
    ] {
        assert_eq!(one.bytes(&message), two.bytes(&tidy));
    }
    let mut exact = vec![0; tidy.len()];
    assert_eq!(canonical_authenticate(&mut exact, &tidy), Ok(&tidy[..]));
    let short = &mut exact[1..];
    assert_eq!(refusal(canonical_authenticate(short, &tidy)), (33, 0));
    assert_eq!(short, &tidy[1..]);
    assert_eq!(
        refusal(canonical_authenticate(&mut [], &challenge())),
        (4, 0)
    );
}

#[test]
fn messages_in_header_lines() {
    let mut text = [0xEE; 400];
    let exported = export_header(&mut text, &p1()).expect("text").to_vec();
    assert_eq!(exported.len(), 5 + 160);
    assert!(exported.starts_with(b"NTLM TlRMTVNTUAADAAAA"));
    assert_eq!(text[exported.len()..], [0xEE; 400][exported.len()..]);
    let mut message = [0xEE; 120];
    assert_eq!(import_header(&mut message, &exported), Ok(&p1()[..]));
    // The lines that clients and servers sent.
    for client in ["curl", "chromium", "cntlm", "requests-ntlm"] {
        let lines = file(&format!("messages/http-{client}.txt"));
        for line in String::from_utf8(lines).expect("text").lines() {
            let (_, text) = line.split_once(": ").expect("a header line");
            let mut room = [0; 400];
            let message = import_header(&mut room, text.as_bytes()).expect("taken");
            let mut line = [0; 200];
            let shown = ntlm_line(message, &mut line).expect("room");
            assert!(!shown.starts_with(b"refused"));
            let mut again = [0; 600];
            assert_eq!(export_header(&mut again, message), Ok(text.as_bytes()));
        }
    }
    for (text, number) in [
        (&b"NTLM"[..], 57),
        (b"NTLMX Zg==", 57),
        (b" NTLM Zg==", 57),
        (b"NTLM Zg=", 58),
        (b"NTLM Zh==", 58),
        (b"NTLM Zg==\r\n", 58),
        (b"NTLM Zm9vYmFy", 33),
    ] {
        let mut room = [0xEE; 5];
        assert_eq!(refusal(import_header(&mut room, text)), (number, 0));
        assert_eq!(room, [0xEE; 5]);
    }
    assert_eq!(import_header(&mut [], b"ntlm   "), Ok(&[][..]));
    assert_eq!(refusal(export_header(&mut text, &vec![0; 65_536])), (1, 0));
    assert_eq!(refusal(export_header(&mut text[..4], &[])), (33, 0));
}

/// One of the sign-ins of tests/mic/triples.txt, by its line: key, messages, MIC.
fn sign_ins() -> Vec<[Vec<u8>; 5]> {
    let text = String::from_utf8(file("tests/mic/triples.txt")).expect("text");
    let words = ["key ", "negotiate ", "challenge ", "authenticate ", "mic "];
    let lines = |word| text.lines().filter_map(move |line| line.strip_prefix(word));
    let [key, negotiate, challenge, authenticate, mic] = words.map(|word| {
        let bytes = |line: &str| {
            let digits: Vec<u8> = line
                .chars()
                .map(|c| c.to_digit(16).expect("hex") as u8)
                .collect();
            digits
                .chunks(2)
                .map(|pair| pair[0] << 4 | pair[1])
                .collect()
        };
        lines(word).map(bytes).collect::<Vec<Vec<u8>>>()
    });
    (0..key.len())
        .map(|at| [&key, &negotiate, &challenge, &authenticate, &mic].map(|all| all[at].clone()))
        .collect()
}

#[test]
fn mics_of_real_sign_ins() {
    let sign_ins = sign_ins();
    assert_eq!(sign_ins.len(), 18);
    for [key, negotiate, challenge, authenticate, sent] in &sign_ins {
        let messages = SignIn {
            negotiate,
            challenge,
            authenticate,
        };
        let right = mic(key, &messages).expect("a MIC");
        assert_eq!(right.0.to_vec(), *sent);
        assert_eq!(check_mic(key, &messages), MicCheck::Right);
        assert!(check_mic(key, &messages).is_right());
        let mut authenticate = authenticate.clone();
        authenticate[87] ^= 1;
        let messages = SignIn {
            authenticate: &authenticate,
            ..messages
        };
        assert_eq!(check_mic(key, &messages), MicCheck::Wrong);
        assert!(!check_mic(key, &messages).is_right());
        assert_eq!(mic(key, &messages).expect("a MIC"), right);
        // The right one goes back to its place.
        place_mic(&mut authenticate, &right).expect("a place");
        let messages = SignIn {
            negotiate,
            challenge,
            authenticate: &authenticate,
        };
        assert_eq!(check_mic(key, &messages), MicCheck::Right);
    }
}

#[test]
fn a_mic_is_placed_or_refused_aloud() {
    let mic = Mic([0x5C; 16]);
    let mut message = p1();
    let mut expected = message.clone();
    expected[MIC_AT..MIC_AT + 16].fill(0x5C);
    place_mic(&mut message, &mic).expect("a place");
    assert_eq!(message, expected);
    // No place: a field begins before it ends, the message is cut, or is another kind.
    let mut no_place = p1();
    no_place[40] = 64;
    for (mut message, expected) in [
        (no_place, (56, 0)),
        (p1()[..80].to_vec(), (6, 2)),
        (p1()[..63].to_vec(), (2, 0)),
        (Vec::new(), (2, 0)),
        (challenge(), (4, 0)),
    ] {
        let before = message.clone();
        assert_eq!(refusal(place_mic(&mut message, &mic)), expected);
        assert_eq!(message, before);
    }
    let (mut room, challenge) = ([0; 300], challenge());
    let parts = parts();
    let answer = respond(&mut room, &challenge, Settings::default(), CLOCK, &parts);
    let mut answer = answer.expect("answered");
    answer.place_mic(&mic).expect("a place");
    let read = read_authenticate(answer.message).expect("taken");
    assert_eq!(read.mic, Some(mic));
}

#[test]
fn a_mic_is_refused_in_the_order_given() {
    let mut authenticate = p1();
    authenticate[40] = 64;
    let (negotiate, challenge) = (negotiate(), challenge());
    let messages = SignIn {
        negotiate: &negotiate,
        challenge: &challenge,
        authenticate: &authenticate,
    };
    let refused = |key: &[u8], messages: &SignIn<'_>| {
        let refused = mic(key, messages).expect_err("a refusal");
        let checked = match refused.number() {
            56 => MicCheck::Absent,
            _ => MicCheck::Refused(refused),
        };
        assert_eq!(check_mic(key, messages), checked);
        assert!(!checked.is_right());
        refusal_at::<()>(Err(refused))
    };
    assert_eq!(refused(&[1; 16], &messages), (56, 0, 0));
    let cut = &challenge[..challenge.len() - 4];
    let messages = SignIn {
        challenge: cut,
        ..messages
    };
    assert_eq!(refused(&[1; 16], &messages), (6, 2, 0));
    let messages = SignIn {
        negotiate: &[],
        ..messages
    };
    assert_eq!(refused(&[1; 16], &messages), (2, 0, 0));
    assert_eq!(refused(&[1; 15], &messages), (55, 0, 0));
    let mut short = [0xEE; 15];
    assert_eq!(raw::mic(&[1; 15], &messages, &mut short), 1 << 63 | 33 << 8);
    assert_eq!(short, [0xEE; 15]);
}

#[test]
fn any_bytes_are_answered() {
    let mut state = 1_u64;
    let mut next = || {
        state = state.wrapping_mul(0x5851_F42D_4C95_7F2D).wrapping_add(1);
        (state >> 33) as usize
    };
    let mut messages = vec![p1(), challenge(), negotiate(), NAMES.to_vec()];
    for _ in 0..2_000 {
        let mut message = messages[next() % 4].clone();
        for _ in 0..next() % 4 {
            let at = next() % message.len();
            message[at] = next() as u8;
        }
        message.truncate(next() % 200);
        messages.push(message);
    }
    for message in &messages {
        let mut room = [0; 600];
        let read = read_authenticate(message);
        if let Ok(read) = read {
            let fields = [
                read.lm,
                read.nt,
                read.domain,
                read.user,
                read.workstation,
                read.key,
            ];
            for field in fields {
                assert_eq!(field.bytes(message).len(), usize::from(field.len));
            }
        }
        if let Ok(read) = read_negotiate(message) {
            for field in [read.domain, read.workstation] {
                assert_eq!(field.bytes(message).len(), usize::from(field.len));
            }
        }
        let _ = (
            read_challenge(message),
            read_timestamp(message),
            read_nl_auth(message),
        );
        for which in 0..7 {
            let text = nl_auth_name(message, which, &mut room);
            assert_eq!(text.is_ok(), read_nl_auth(message).is_ok());
        }
        assert!(Walk::new(message).count() <= message.len() / 4 + 1);
        assert!(find_pair(message, 7).is_err() || check_pairs(message).is_ok());
        assert!(ntlm_line(message, &mut room).is_ok());
        assert!(nl_auth_program_line(message, &mut room).is_ok());
        assert!(explain(message, &mut [0; EXPLAIN_ROOM]).is_ok());
        let _ = respond_for_bench(&mut room, message, CLOCK, true, &parts());
        let _ = write_response_pairs(&mut room, message, b"n\0", true, &[1; 16]);
        let tidy = canonical_authenticate(&mut room, message);
        assert!(tidy.is_err() || read_authenticate(message).is_ok());
        let text = export_header(&mut room, message).map(<[u8]>::to_vec);
        let mut back = vec![0; message.len()];
        let text = text.expect("room");
        assert_eq!(import_header(&mut back, &text), Ok(&message[..]));
    }
}

/// The Time is the one that answering gives, with NTLMv2 and without.
#[test]
fn a_decisions_time_is_the_answers() {
    for file in ["challenge-smbd.bin", "challenge-no-timestamp.bin"] {
        let path = format!("{}/../messages/{file}", env!("CARGO_MANIFEST_DIR"));
        let challenge = std::fs::read(path).expect("a message");
        for ntlmv2 in [true, false] {
            let settings = dialtable::Settings {
                demand_128: false,
                ntlmv2,
                ..Default::default()
            };
            let parts = dialtable::Parts::default();
            let mut room = [0; 512];
            let answer = dialtable::respond(&mut room, &challenge, settings, 7, &parts);
            let decision = dialtable::decide(settings, &challenge).expect("taken");
            let time = answer.expect("written").time;
            assert_eq!(decision.time(settings, 7), time, "{file} {ntlmv2}");
        }
    }
}
