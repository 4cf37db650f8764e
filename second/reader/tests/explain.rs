//! Document 02, request 4/12: the checks of a message, one to a line, and why one
//! failed.

mod common;

use common::*;
use reader::{explain, Program, LINE_LIMIT};

const NEGOTIATE: &[u8] = &[1, 2, 3, 4, 5, 6, 7];
const CHALLENGE: &[u8] = &[1, 2, 3, 4, 5, 6, 7, 8, 11, 12, 10, 13];
const AUTHENTICATE: &[u8] = &[1, 2, 3, 4, 5, 6, 7, 8, 9];

/// The print of a message.
fn print(message: &[u8]) -> String {
    line(explain, message)
}

/// The print in which the check of this number fails, with these figures; all
/// held where no check has it.
fn failing(checks: &[u8], failed: u8, figures: &str) -> String {
    let at = checks.iter().position(|&check| check == failed);
    let mut text = String::new();
    for (k, check) in checks.iter().enumerate() {
        let state = match at {
            Some(at) if k == at => format!("failed {figures}"),
            Some(at) if k > at => "not reached".to_owned(),
            _ => "held".to_owned(),
        };
        text += &format!("check {check} {state}\n");
    }
    text
}

fn held(checks: &[u8]) -> String {
    failing(checks, 0, "")
}

#[test]
fn the_requests_own_example() {
    // "field 4, offset 113, length 8, message 120"
    assert_eq!(
        print(&p1_with(USER, 8, 113)),
        "check 1 held\ncheck 2 held\ncheck 3 held\ncheck 4 held\ncheck 5 held\n\
         check 6 failed field=4 offset=113 length=8 message=120\n\
         check 7 not reached\ncheck 8 not reached\ncheck 9 not reached\n"
    );
}

#[test]
fn an_accepted_message_shows_all_held() {
    assert_eq!(print(&p1()), held(AUTHENTICATE));
    let nego = negotiate(UNICODE | OEM_DOMAIN, b"DOM", b"");
    assert_eq!(print(&nego), held(NEGOTIATE));
    let flags = UNICODE | TARGET_INFO;
    let chal = challenge(flags, b"", &list(&[(1, b"ab"), (7, &[1; 8])]));
    assert_eq!(
        print(&chal),
        "check 1 held\ncheck 2 held\ncheck 3 held\ncheck 4 held\ncheck 5 held\n\
         check 6 held\ncheck 7 held\ncheck 8 held\ncheck 11 held\ncheck 12 held\n\
         check 10 held\ncheck 13 held\n"
    );
    // "An empty or uncounted TargetInfo: 11, 12, 10 and 13 are held."
    assert_eq!(print(&challenge(flags, b"", b"")), held(CHALLENGE));
    let uncounted = challenge(UNICODE, b"", b"\x06\0\x01\0x");
    assert_eq!(print(&uncounted), held(CHALLENGE));
}

#[test]
fn the_kind_is_that_of_the_ntlm_program() {
    let short = "field=0 offset=0 length=0 message=11";
    for start in [
        p1(),
        challenge(OEM, b"", b""),
        negotiate(OEM, b"", b""),
        vec![0; 11],
    ] {
        // Without 12 bytes it is read as AUTHENTICATE.
        assert_eq!(print(&start[..11]), failing(AUTHENTICATE, 2, short));
    }
    let short = "field=0 offset=0 length=0 message=12";
    assert_eq!(print(&p1()[..12]), failing(AUTHENTICATE, 2, short));
    let chal = challenge(OEM, b"", b"");
    assert_eq!(print(&chal[..12]), failing(CHALLENGE, 2, short));
    let nego = negotiate(OEM, b"", b"");
    assert_eq!(print(&nego[..12]), failing(NEGOTIATE, 2, short));
    // Whatever the signature is; another type is AUTHENTICATE's.
    for (mut message, checks) in [(chal, CHALLENGE), (nego, NEGOTIATE)] {
        let figures = format!("field=0 offset=0 length=0 message={}", message.len());
        message[0] = 0;
        assert_eq!(print(&message), failing(checks, 3, &figures));
        message[9] = 1;
        message.resize(64, 0);
        let figures = "field=0 offset=0 length=0 message=64";
        assert_eq!(print(&message), failing(AUTHENTICATE, 3, figures));
        message[0] = b'N';
        assert_eq!(print(&message), failing(AUTHENTICATE, 4, figures));
    }
}

#[test]
fn field_0_has_no_head() {
    // The heads hold figures, which these checks are not about.
    let message = Auth::new(0, 90).field(USER, 8, 113).field(LM, 3, 5).0;
    let figures = "field=0 offset=0 length=0 message=90";
    assert_eq!(print(&message), failing(AUTHENTICATE, 5, figures));
    let figures = "field=0 offset=0 length=0 message=63";
    assert_eq!(print(&message[..63]), failing(AUTHENTICATE, 2, figures));
}

#[test]
fn the_message_figure_is_the_length_or_65536() {
    for (start, checks) in [
        (p1(), AUTHENTICATE),
        (challenge(OEM, b"", b""), CHALLENGE),
        (negotiate(OEM, b"", b""), NEGOTIATE),
    ] {
        for len in [65_536, 65_537, 70_000, 200_000] {
            let mut message = start.clone();
            message.resize(len, 0);
            let figures = "field=0 offset=0 length=0 message=65536";
            assert_eq!(print(&message), failing(checks, 1, figures));
        }
        let mut message = start.clone();
        message.resize(65_535, 0);
        assert_eq!(print(&message), held(checks));
        message[0] = 0;
        let figures = "field=0 offset=0 length=0 message=65535";
        assert_eq!(print(&message), failing(checks, 3, figures));
    }
}

#[test]
fn every_field_has_its_own_head() {
    for field in 1..=6 {
        let message = |len, offset| {
            Auth::new(OEM | KEY_EXCH, 200)
                .field(field, len, offset)
                .bytes(HEADS[field - 1] + 2, &[0xAB, 0xCD])
                .0
        };
        let figures = format!("field={field} offset=4294967295 length=65535 message=200");
        assert_eq!(
            print(&message(65_535, 0xFFFF_FFFF)),
            failing(AUTHENTICATE, 6, &figures)
        );
        let figures = format!("field={field} offset=63 length=2 message=200");
        assert_eq!(print(&message(2, 63)), failing(AUTHENTICATE, 7, &figures));
    }
    for (head, field) in NEGOTIATE_HEADS {
        let mut message = negotiate(OEM | OEM_DOMAIN | OEM_WORK, b"", b"");
        put_head(&mut message, head, 3, 38);
        let figures = format!("field={field} offset=38 length=3 message=40");
        assert_eq!(print(&message), failing(NEGOTIATE, 6, &figures));
        put_head(&mut message, head, 300, 7);
        message.resize(400, 0);
        let figures = format!("field={field} offset=7 length=300 message=400");
        assert_eq!(print(&message), failing(NEGOTIATE, 7, &figures));
    }
    let flags = UNICODE | REQUEST_TARGET | TARGET_INFO;
    for (head, field) in [(12, 1), (40, 2)] {
        let mut message = challenge(flags, b"", b"");
        put_head(&mut message, head, 10, 47);
        let figures = format!("field={field} offset=47 length=10 message=56");
        assert_eq!(print(&message), failing(CHALLENGE, 6, &figures));
        put_head(&mut message, head, 9, 47);
        let figures = format!("field={field} offset=47 length=9 message=56");
        assert_eq!(print(&message), failing(CHALLENGE, 7, &figures));
    }
}

#[test]
fn names_fail_8_and_9() {
    let figures = "field=4 offset=88 length=7 message=120";
    let odd = p1_with(USER, 7, 88);
    assert_eq!(print(&odd), failing(AUTHENTICATE, 8, figures));
    let figures = "field=4 offset=112 length=8 message=120";
    let over = p1_with(USER, 8, 112);
    assert_eq!(print(&over), failing(AUTHENTICATE, 9, figures));
    let message = challenge(UNICODE | REQUEST_TARGET, b"T", b"");
    let figures = "field=1 offset=56 length=1 message=57";
    assert_eq!(print(&message), failing(CHALLENGE, 8, figures));
}

/// A challenge with this list at 58.
fn with_list(list: &[u8]) -> Vec<u8> {
    challenge(UNICODE | REQUEST_TARGET | TARGET_INFO, b"T\0", list)
}

/// The figures of a list at 58 and of a pair in it.
fn figures(list: &[u8], pair: &str) -> String {
    let len = list.len();
    format!("field=2 offset=58 length={len} message={} {pair}", 58 + len)
}

#[test]
fn a_pair_has_its_place_id_and_length_number() {
    let before = pair(1, b"ab");
    let cases: [(&[u8], u8, &str); 14] = [
        // Bytes after the end pair; the end pair's length, with and without them.
        (&[0, 0, 0, 0, 9, 9, 9, 9, 9], 12, "id=0 size=0"),
        (&[0, 0, 5, 0], 12, "id=0 size=5"),
        (&[0, 0, 255, 255, 1], 12, "id=0 size=65535"),
        // The length number, and not what is left.
        (&[1, 0, 6, 0, 0x41, 0], 10, "id=1 size=6"),
        (&[255, 255, 255, 255], 10, "id=65535 size=65535"),
        (&[7, 1, 0, 1, 0], 10, "id=263 size=256"),
        // Too long and of a wrong size: 10.
        (&[6, 0, 9, 0, 0], 10, "id=6 size=9"),
        (&[6, 0, 2, 0, 0, 0, 0, 0, 0, 0], 13, "id=6 size=2"),
        (&[10, 0, 0, 0], 13, "id=10 size=0"),
        (&[9, 0, 1, 0, 1, 0, 0, 0, 0], 13, "id=9 size=1"),
        // "11: id and size 0 even where 1 to 3 bytes stand there."
        (&[], 11, "id=0 size=0"),
        (&[7], 11, "id=0 size=0"),
        (&[7, 0], 11, "id=0 size=0"),
        (&[7, 0, 8], 11, "id=0 size=0"),
    ];
    for (fault, number, pair) in cases {
        let list = [&before, fault].concat();
        let figures = figures(&list, &format!("at=64 {pair}"));
        let expected = failing(CHALLENGE, number, &figures);
        assert_eq!(print(&with_list(&list)), expected);
        // At the list's first pair too.
        if !fault.is_empty() {
            let figures = self::figures(fault, &format!("at=58 {pair}"));
            let expected = failing(CHALLENGE, number, &figures);
            assert_eq!(print(&with_list(fault)), expected);
        }
    }
}

#[test]
fn checks_before_are_held_up_to_the_pair() {
    // 13 at the first pair, then a pair that would be 10, an end pair that would
    // be 12, and two bytes that would be 11.
    for rest in [&[1, 0, 99, 0][..], &[0, 0, 1, 0], &[1, 0], &[]] {
        let list = [&[6, 0, 1, 0, 0][..], rest].concat();
        let figures = figures(&list, "at=58 id=6 size=1");
        assert_eq!(print(&with_list(&list)), failing(CHALLENGE, 13, &figures));
    }
}

#[test]
fn the_order_of_a_challenges_checks() {
    let list = [7, 0, 8];
    assert_eq!(
        print(&with_list(&list)),
        "check 1 held\ncheck 2 held\ncheck 3 held\ncheck 4 held\ncheck 5 held\n\
         check 6 held\ncheck 7 held\ncheck 8 held\n\
         check 11 failed field=2 offset=58 length=3 message=61 at=58 id=0 size=0\n\
         check 12 not reached\ncheck 10 not reached\ncheck 13 not reached\n"
    );
}

#[test]
fn max_len_and_ignored_bytes_change_nothing() {
    let message = with_list(&[6, 0, 1, 0, 0]);
    let mut other = message.clone();
    for at in [14, 15, 42, 43, 32, 39, 48, 55] {
        other[at] ^= 0xFF;
    }
    assert_eq!(print(&message), print(&other));
    let message = p1_with(USER, 8, 113);
    let mut other = message.clone();
    for at in [14, 22, 38, 39, 54, 64, 71] {
        other[at] ^= 0xFF;
    }
    assert_eq!(print(&message), print(&other));
}

#[test]
fn a_print_with_no_room_is_33_and_changes_nothing() {
    for message in [p1(), with_list(&[7]), negotiate(OEM, b"", b""), Vec::new()] {
        let whole = print(&message);
        let mut out = vec![0xEE; whole.len() + 9];
        assert_eq!(explain(&message, &mut out), Ok(whole.len()));
        assert!(out[whole.len()..].iter().all(|&byte| byte == 0xEE));
        let mut exact = vec![0xEE; whole.len()];
        assert_eq!(explain(&message, &mut exact), Ok(whole.len()));
        assert_eq!(exact, whole.as_bytes());
        for room in [0, 1, whole.len() / 2, whole.len() - 1] {
            let mut out = vec![0xEE; room];
            assert_eq!(refused_at(explain(&message, &mut out)), (33, 0, 0));
            assert!(out.iter().all(|&byte| byte == 0xEE));
        }
    }
}

#[test]
fn the_longest_print_of_each_kind() {
    // Nothing is longer than what follows check 1 of a long CHALLENGE.
    for (number, len) in [(1, 175), (2, 279), (3, 215)] {
        let mut message = vec![0; 65_536];
        message[8] = number;
        assert_eq!(print(&message).len(), len);
    }
}

#[test]
fn the_program_prints_it() {
    let mut room = Box::new([0; LINE_LIMIT]);
    for message in [p1(), with_list(&[7]), Vec::new(), vec![1; 100_000]] {
        let printed = Program::Explain.line(&message, &mut room);
        assert_eq!(printed, print(&message).as_bytes());
    }
}
