//! Document 02, request 5/12: NL_AUTH names C, D and E by RFC 1035 section
//! 4.1.4.

mod common;

use common::*;
use reader::{nl_auth_line, nl_auth_name, write_nl_auth_request, NlAuth, NlAuthFlags, MAX_MESSAGE};

const C: u32 = 0x4;
const D: u32 = 0x8;
const E: u32 = 0x10;

/// A jump to a place of the buffer.
fn jump(place: u16) -> [u8; 2] {
    (0xC000 | place).to_be_bytes()
}

/// A name that a jump ends.
fn dns_jump(labels: &[&[u8]], place: u16) -> Vec<u8> {
    let mut name = dns(labels);
    name.pop();
    name.extend(jump(place));
    name
}

/// The refusal of a request.
fn refuses(flags: u32, buffer: &[u8]) -> (u8, u8) {
    refused(NlAuth::read(&nl(0, flags, buffer)))
}

/// The words after the flags of a request's line.
fn words(flags: u32, buffer: &[u8]) -> String {
    let line = line(nl_auth_line, &nl(0, flags, buffer));
    let start = format!("nl type=0 flags={flags:08X} ");
    let words = line.strip_prefix(&start).expect(&line);
    words.trim_end().to_owned()
}

/// The jumps of C, D and E.
fn jumps(flags: u32, buffer: &[u8]) -> [usize; 3] {
    let message = nl(0, flags, buffer);
    let strings = NlAuth::read(&message).expect("a request").strings;
    assert_eq!((strings[0].jumps, strings[1].jumps), (0, 0));
    [2, 3, 4].map(|string| strings[string].jumps)
}

#[test]
fn the_example_of_rfc_1035() {
    // F.ISI.ARPA at 20, FOO.F.ISI.ARPA after it, then ARPA.
    let names = [
        &b"nineteen bytes of A\0"[..],
        b"\x01F\x03ISI\x04ARPA\0",
        b"\x03FOO\xC0\x14",
        b"\xC0\x1A",
    ];
    let buffer = names.concat();
    assert_eq!(
        words(0x1D, &buffer),
        "a=nineteen\\x20bytes\\x20of\\x20A c=F.ISI.ARPA d=FOO.F.ISI.ARPA e=ARPA"
    );
    assert_eq!(jumps(0x1D, &buffer), [0, 1, 1]);
    // "The root domain name has no labels."
    assert_eq!(words(C, &[0]), "c=");
}

#[test]
fn a_host_name_that_ends_in_its_domain() {
    let buffer = [
        &b"DEPOT\0DC1\0"[..],
        &dns(&[b"depot", b"example"]),
        &dns_jump(&[b"dc1"], 10),
        &dns(&[b"DC1"]),
    ];
    let message = nl(0, 0x1F, &buffer.concat());
    assert_eq!(
        line(nl_auth_line, &message),
        "nl type=0 flags=0000001F a=DEPOT b=DC1 c=depot.example d=dc1.depot.example e=DC1\n"
    );
    let strings = NlAuth::read(&message).unwrap().strings;
    let strings = strings.map(|string| (string.place, string.bytes, string.jumps));
    let expected: [(usize, &[u8], usize); 5] = [
        (8, b"DEPOT", 0),
        (14, b"DC1", 0),
        (18, b"\x05depot\x07example\0", 0),
        (33, b"\x03dc1\xC0\x0A", 1),
        (39, b"\x03DC1\0", 0),
    ];
    assert_eq!(strings, expected);
}

#[test]
fn a_place_counts_from_the_buffer_and_has_14_bits() {
    // Counted from the message, 8 would be C's own start.
    let buffer = [dns(&[b"example", b"com"]), jump(8).to_vec()].concat();
    assert_eq!(words(C | D, &buffer), "c=example.com d=com");
    for place in [0x00FF, 0x0100, 0x012C, 0x3FFE, 0x3FFF] {
        // A fills the buffer up to the place, where C stands.
        let mut a = vec![b'x'; usize::from(place) - 1];
        a.push(0);
        let buffer = [a, dns(&[b"far"]), jump(place).to_vec()].concat();
        assert!(words(1 | C | D, &buffer).ends_with(" c=far d=far"));
    }
}

#[test]
fn a_place_is_before_the_run_of_labels() {
    // C is at 1 and the run of D at 4; a jump there ends it.
    for (place, expected) in [(3, Ok("c=a d=b")), (4, Err((51, 4))), (5, Err((51, 4)))] {
        let buffer = [&b"\0"[..], b"\x01a\0", &dns_jump(&[b"b"], place)].concat();
        match expected {
            Ok(line) => assert_eq!(words(1 | C | D, &buffer), format!("a= {line}")),
            Err(refusal) => assert_eq!(refuses(1 | C | D, &buffer), refusal),
        }
    }
    // A jump that ends no run: before the jump itself.
    for (place, expected) in [(3, None), (4, Some((51, 4))), (5, Some((51, 4)))] {
        let buffer = [&b"\0"[..], b"\x01a\0", &jump(place)].concat();
        match expected {
            None => assert_eq!(words(1 | C | D, &buffer), "a= c=a d="),
            Some(refusal) => assert_eq!(refuses(1 | C | D, &buffer), refusal),
        }
    }
    // The first string of the buffer can't jump at all.
    assert_eq!(refuses(C, &jump(0)), (51, 3));
    assert_eq!(refuses(C, &dns_jump(&[b"a"], 0)), (51, 3));
}

#[test]
fn after_a_jump_the_run_starts_at_the_place() {
    // C holds the label `x` at 1 and a jump at 3, all inside a label of its own.
    let with = |place: u8| [&[5, 1, b'x', 0xC0, place, 0, 0][..], &jump(1)].concat();
    assert_eq!(
        words(C | D, &with(0)),
        "c=\\x01x\\xC0\\x00\\x00 d=x.\\x01x\\xC0\\x00\\x00"
    );
    assert_eq!(jumps(C | D, &with(0)), [0, 2, 0]);
    assert_eq!(refuses(C | D, &with(1)), (51, 4));
    assert_eq!(refuses(C | D, &with(2)), (51, 4));
}

/// C is one label: at 1 the zero byte, from 2 on jumps, each to the one before
/// it. D jumps into it, so that it takes `jumps` of them.
fn chain(jumps: u8) -> Vec<u8> {
    let mut label = vec![0, 0xC0, 1];
    for at in (2..60).step_by(2) {
        label.extend(jump(at));
    }
    let start = if jumps == 1 {
        1
    } else {
        2 * u16::from(jumps) - 2
    };
    [dns(&[&label]), jump(start).to_vec()].concat()
}

#[test]
fn sixteen_jumps_are_followed() {
    for count in 1..=16 {
        assert_eq!(jumps(C | D, &chain(count)), [0, count.into(), 0]);
    }
    for count in 17..=20 {
        assert_eq!(refuses(C | D, &chain(count)), (52, 4));
    }
    // Each string has sixteen of its own.
    let both = [chain(16), chain(16)[chain(16).len() - 2..].to_vec()].concat();
    assert_eq!(jumps(C | D | E, &both), [0, 16, 16]);
    // A seventeenth to a place that is not before is 51.
    let mut chain = chain(17);
    chain[3] = 2;
    assert_eq!(refuses(C | D, &chain), (51, 4));
}

#[test]
fn a_jump_that_is_cut_short_is_15_before_51_and_52() {
    for first in [0xC0, 0xC1, 0xFF] {
        assert_eq!(refuses(C, &[first]), (15, 3));
        assert_eq!(refuses(C | E, &[1, b'c', 0, 1, b'e', first]), (15, 5));
    }
    // After sixteen jumps a label leads to the buffer's end.
    for (last, number) in [(&[0xC0][..], 15), (&[0xC0, 1], 51), (&[0xC0, 0], 52)] {
        let mut buffer = chain(16);
        buffer[1] = 63;
        assert_eq!(buffer.len(), 2 + 63);
        buffer.extend(last);
        assert_eq!(refuses(C | D, &buffer), (number, 4));
    }
}

#[test]
fn other_top_bits_are_50() {
    for byte in [0x40, 0x41, 0x7F, 0x80, 0xBF] {
        // As the last byte too.
        assert_eq!(refuses(C, &[byte]), (50, 3));
        assert_eq!(refuses(D, &[byte, 0]), (50, 4));
        assert_eq!(refuses(E, &[1, b'e', byte]), (50, 5));
        assert_eq!(refuses(C | D, &[1, byte, 0, 0xC0, 1]), (50, 4));
        // In a label it is a byte like others.
        assert!(NlAuth::read(&nl(0, C, &[1, byte, 0])).is_ok());
    }
}

#[test]
fn a_label_has_at_most_63_bytes() {
    let label = [b'l'; 64];
    for len in 1..=63 {
        let text = "l".repeat(len);
        assert_eq!(words(C, &dns(&[&label[..len]])), format!("c={text}"));
    }
    assert_eq!(refuses(C, &dns(&[&label])), (50, 3));
}

#[test]
fn a_length_byte_or_a_label_that_is_cut_short_is_15() {
    let name = dns(&[b"one", b"three"]);
    for len in 0..name.len() {
        assert_eq!(refuses(C, &name[..len]), (15, 3));
        assert_eq!(
            refuses(1 | E, &[&b"a\0"[..], &name[..len]].concat()),
            (15, 5)
        );
    }
    assert!(NlAuth::read(&nl(0, C, &name)).is_ok());
    // Also where a jump has led: 2 of the label `x\x09` is a label past the end.
    assert_eq!(refuses(C | D, &[2, b'x', 9, 0, 0xC0, 2]), (15, 4));
}

/// Labels that make a coded length, without a jump.
fn labels_of(coded: usize) -> Vec<Vec<u8>> {
    let mut left = coded - 1;
    let mut labels = Vec::new();
    while left > 0 {
        // What is left over is never a label of no bytes.
        let len = if left == 65 { 31 } else { left.min(64) - 1 };
        labels.push(vec![b'n'; len]);
        left -= len + 1;
    }
    labels
}

fn name_of(coded: usize) -> Vec<u8> {
    let labels = labels_of(coded);
    dns(&labels.iter().map(Vec::as_slice).collect::<Vec<_>>())
}

#[test]
fn the_coded_length_is_at_most_255() {
    for coded in [3, 64, 65, 66, 67, 128, 129, 130, 200, 253, 254, 255] {
        assert_eq!(name_of(coded).len(), coded);
        assert!(NlAuth::read(&nl(0, E, &name_of(coded))).is_ok(), "{coded}");
    }
    for coded in [256, 257, 300, 1000] {
        assert_eq!(refuses(E, &name_of(coded)), (53, 5), "{coded}");
    }
    // At one label 15 comes first, and 53 before what stands after it.
    let mut cut = name_of(256);
    cut.truncate(cut.len() - 2);
    assert_eq!(refuses(C, &cut), (15, 3));
    let mut after = name_of(256);
    *after.last_mut().unwrap() = 0x80;
    assert_eq!(refuses(C, &after), (53, 3));
    *after.last_mut().unwrap() = 0xC0;
    assert_eq!(refuses(C, &after), (53, 3));
    // A jump after a full name is taken: it adds nothing.
    let mut full = name_of(255);
    full.pop();
    let buffer = [&b"\0"[..], &full, &jump(0)].concat();
    assert_eq!(jumps(1 | D, &buffer), [0, 1, 0]);
}

#[test]
fn the_coded_length_counts_labels_over_all_jumps() {
    // C has a coded length of 200, and D the same labels after its own.
    for (more, expected) in [(54, None), (55, Some((53, 4)))] {
        let label = vec![b'm'; more];
        let buffer = [name_of(200), dns_jump(&[&label], 0)].concat();
        match expected {
            None => assert_eq!(jumps(C | D, &buffer), [0, 1, 0]),
            Some(refusal) => assert_eq!(refuses(C | D, &buffer), refusal),
        }
    }
}

#[test]
fn a_jump_goes_to_any_byte_before() {
    // Into the middle of a label, to its zero byte, into A and into B.
    let c = dns(&[b"a\x02bc", b"e"]);
    assert_eq!(
        words(C | D, &[&c[..], &jump(2)].concat()),
        "c=a\\x02bc.e d=bc.e"
    );
    let at_zero = [&c[..], &dns_jump(&[b"z"], 7)].concat();
    assert_eq!(words(C | D, &at_zero), "c=a\\x02bc.e d=z");
    let in_strings = [&b"\x03abc\0\x02de\0"[..], &jump(0), &jump(5)].concat();
    assert_eq!(
        words(1 | 2 | C | D, &in_strings),
        "a=\\x03abc b=\\x02de c=abc d=de"
    );
    // And on from there over whatever stands there: the rest of A, into C.
    let over = [&b"x\x04abc\0"[..], &dns(&[b"c"]), &jump(1)].concat();
    assert_eq!(words(1 | C | D, &over), "a=x\\x04abc c=c d=abc\\x00.c");
    // Even over the jump itself and what comes after it.
    let itself = [&b"x\x04abc\0"[..], &jump(1), &[0]].concat();
    assert_eq!(refuses(1 | C, &itself), (51, 3));
    let itself = [&b"\x05xxxx\0"[..], &jump(0), &[9, 0]].concat();
    assert_eq!(refuses(1 | C | D, &itself), (51, 3));
    let past = [&b"x\x06abc\0"[..], &jump(1), &dns(&[b"d"])].concat();
    assert_eq!(
        words(1 | C | D, &past),
        "a=x\\x06abc c=abc\\x00\\xC0\\x01.d d=d"
    );
    assert_eq!(jumps(1 | C | D, &past), [1, 0, 0]);
}

#[test]
fn the_next_string_starts_after_the_first_jump() {
    // D jumps to a jump to C; E starts after D's own.
    let buffer = [
        &dns(&[b"dom", &jump(0)])[..],
        &dns_jump(&[b"host"], 5),
        &dns(&[b"e"]),
    ];
    let message = nl(0, C | D | E, &buffer.concat());
    let strings = NlAuth::read(&message).unwrap().strings;
    let strings = strings.map(|string| (string.place, string.bytes.len(), string.jumps));
    assert_eq!(strings[2..], [(8, 8, 0), (16, 7, 2), (23, 3, 0)]);
    assert_eq!(
        words(C | D | E, &buffer.concat()),
        "c=dom.\\xC0\\x00 d=host.dom.\\xC0\\x00 e=e"
    );
    // 16 goes by it too.
    let after = [&dns(&[b"dom"])[..], &jump(0), &[0]].concat();
    assert_eq!(refuses(C | D, &after), (16, 0));
    assert_eq!(words(C | D | E, &after), "c=dom d=dom e=");
}

#[test]
fn strings_are_judged_one_by_one_and_before_16() {
    let faults: [(&[u8], u8); 4] = [(b"\x09c", 15), (b"\x80", 50), (b"\xC0\x3F", 51), (b"", 15)];
    for (fault, number) in faults {
        // What is wrong later isn't told.
        for later in [&b""[..], b"\x80\x80", b"\xFF\xFF\xFF"] {
            let buffer = [&b"a\0"[..], fault, later].concat();
            if number == 15 && !later.is_empty() {
                continue;
            }
            assert_eq!(refuses(0x1D, &buffer), (number, 3));
        }
        let buffer = [&b"a\0\x01c\0"[..], fault].concat();
        assert_eq!(refuses(0x1D, &buffer), (number, 4));
    }
    // A's and B's 15 come first.
    assert_eq!(refuses(0x07, b"a\0\x80"), (15, 2));
    assert_eq!(refuses(0x05, b"a\0\x80\0\0"), (50, 3));
}

#[test]
fn bytes_of_a_label_are_shown_as_bytes_of_a_name() {
    let name = dns(&[b"a.b", b"..", b"\0", b"\\", b" ", b"\xC3\xA9", b"\x7E\x7F"]);
    assert_eq!(
        words(D, &name),
        "d=a\\x2Eb.\\x2E\\x2E.\\x00.\\x5C.\\x20.\\xC3\\xA9.~\\x7F"
    );
    // In A and B a full stop is plain.
    assert_eq!(words(3, b"a.b\0.\0"), "a=a.b b=.");
}

/// The text of a string with exactly its room, after one byte less was refused.
fn text(message: &[u8], which: u32) -> Result<String, (u8, u8)> {
    let mut out = [0xEE; 2000];
    let len = match nl_auth_name(message, which, &mut out) {
        Ok(len) => len,
        Err(refusal) => {
            assert!(out.iter().all(|&byte| byte == 0xEE));
            return Err((refusal.number(), refusal.field));
        }
    };
    assert!(out[len..].iter().all(|&byte| byte == 0xEE));
    let mut exact = vec![0xEE; len];
    if let Some(less) = len.checked_sub(1) {
        let answer = nl_auth_name(message, which, &mut exact[..less]);
        assert_eq!(refused(answer), (33, 0));
        assert!(exact.iter().all(|&byte| byte == 0xEE));
    }
    assert_eq!(nl_auth_name(message, which, &mut exact), Ok(len));
    assert_eq!(exact, out[..len]);
    Ok(String::from_utf8(exact).expect("ASCII"))
}

#[test]
fn the_text_of_one_name() {
    let names = [
        &b"A b\0B.\0"[..],
        &dns(&[b"x.y", b"com"]),
        &dns_jump(&[b"h"], 7),
        &[0],
    ];
    let message = nl(0, 0x1F, &names.concat());
    let texts = [
        "",
        "A\\x20b",
        "B.",
        "x\\x2Ey.com",
        "h.x\\x2Ey.com",
        "",
        "",
        "",
    ];
    for (which, expected) in [0, 1, 2, 3, 4, 5, 6, 7].into_iter().zip(texts) {
        assert_eq!(text(&message, which).as_deref(), Ok(expected));
    }
    for which in [8, 0x103, 0x1_0003, u32::MAX] {
        assert_eq!(text(&message, which).as_deref(), Ok(""));
    }
    // A string that isn't there, and each one of a response.
    let message = nl(0, 0x12, b"B\0\x01e\0");
    let texts = [1, 2, 3, 4, 5].map(|which| text(&message, which).unwrap());
    assert_eq!(texts, ["", "B", "", "", "e"]);
    for which in 0..7 {
        assert_eq!(text(&nl(1, 0x1F, &[0]), which).as_deref(), Ok(""));
        // The reading refuses first, whatever is asked for.
        assert_eq!(text(&message[..message.len() - 1], which), Err((15, 5)));
        assert_eq!(text(&nl(1, 0x1F, b"x"), which), Err((17, 0)));
        let answer = nl_auth_name(&nl(0, 0, &[0]), which, &mut []);
        assert_eq!(refused(answer), (14, 0));
    }
}

#[test]
fn the_longest_text() {
    // 250 bytes in four labels, all escaped, and three full stops.
    let labels = [63, 63, 63, 61].map(|len| vec![0xFF; len]);
    let name = dns(&labels.each_ref().map(Vec::as_slice));
    assert_eq!(name.len(), 255);
    let message = nl(0, E, &name);
    assert_eq!(text(&message, 5).unwrap().len(), 1003);
}

fn writes(flags: u32, strings: &[&[u8]; 5], room: usize) -> Result<Vec<u8>, (u8, u8)> {
    let mut out = vec![0xEE; room];
    let answer = write_nl_auth_request(NlAuthFlags::new(flags), strings, &mut out);
    let len = *answer.as_ref().unwrap_or(&0);
    assert!(out[len..].iter().all(|&byte| byte == 0xEE));
    out.truncate(len);
    answer
        .map(|_| out)
        .map_err(|refusal| (refusal.number(), refusal.field))
}

#[test]
fn text_is_written_as_labels_without_jumps() {
    let strings: [&[u8]; 5] = [b"A.a", b"", b"example.com", b"h.example.com", b""];
    let expected = [
        &b"A.a\0\0"[..],
        b"\x07example\x03com\0",
        b"\x01h\x07example\x03com\0",
        b"\0",
    ];
    let message = nl(0, 0x1F, &expected.concat());
    assert_eq!(writes(0x1F, &strings, 200), Ok(message.clone()));
    assert_eq!(writes(0x1F, &strings, message.len()), Ok(message.clone()));
    assert_eq!(writes(0x1F, &strings, message.len() - 1), Err((33, 0)));
}

#[test]
fn an_empty_label_or_one_over_63_is_50() {
    let long = [b'l'; 64];
    let ends_long = [b"a.", &long[..]].concat();
    for text in [&b"."[..], b".a", b"a.", b"a..b", b"..", &long, &ends_long] {
        for (bit, number) in [(C, 3), (D, 4), (E, 5)] {
            assert_eq!(writes(bit, &[text; 5], 100), Err((50, number)));
        }
        // A and B have no labels.
        assert!(writes(3, &[text; 5], 200).is_ok());
    }
    for len in 1..=63 {
        let message = writes(C, &[&long[..len]; 5], 100).unwrap();
        assert_eq!(message, nl(0, C, &dns(&[&long[..len]])));
    }
}

/// Text of labels that are no longer than 63 bytes.
fn text_of(len: usize) -> Vec<u8> {
    let mut text = vec![b't'; len];
    for at in (63..len).step_by(64) {
        text[at] = b'.';
    }
    if text.last() == Some(&b'.') {
        text.swap(len - 1, len - 2);
    }
    text
}

#[test]
fn a_name_over_255_is_53() {
    for len in [1, 63, 64, 65, 66, 128, 252, 253] {
        let message = writes(D, &[&text_of(len); 5], 300).unwrap();
        assert_eq!(message.len(), 8 + len + 2);
        assert!(NlAuth::read(&message).is_ok());
    }
    for len in [254, 255, 256, 1000, 70_000] {
        for (bit, number) in [(C, 3), (D, 4), (E, 5)] {
            assert_eq!(writes(bit, &[&text_of(len); 5], 300), Err((53, number)));
        }
    }
}

#[test]
fn a_request_is_refused_by_14_34_50_53_30_33() {
    let vast = vec![b'x'; MAX_MESSAGE];
    let long = text_of(254);
    // Everything is wrong, and one thing after the other is put right.
    let mut strings: [&[u8]; 5] = [&vast, b"", &long, b".", b"a\0."];
    assert_eq!(writes(0x20, &strings, 0), Err((14, 0)));
    assert_eq!(writes(0x1F, &strings, 0), Err((34, 5)));
    strings[4] = b"a..";
    assert_eq!(writes(0x1F, &strings, 0), Err((50, 4)));
    strings[3] = &long;
    assert_eq!(writes(0x1F, &strings, 0), Err((50, 5)));
    strings[4] = b"a";
    assert_eq!(writes(0x1F, &strings, 0), Err((53, 3)));
    strings[2] = b"";
    assert_eq!(writes(0x1F, &strings, 0), Err((53, 4)));
    strings[3] = b"a";
    assert_eq!(writes(0x1F, &strings, 0), Err((30, 0)));
    strings[0] = b"";
    assert_eq!(writes(0x1F, &strings, 0), Err((33, 0)));
    // A clear bit's text is looked at by none.
    let strings: [&[u8]; 5] = [&vast, b"B", b".", &long, b"\0"];
    assert_eq!(writes(2, &strings, 100), Ok(nl(0, 2, b"B\0")));
}

#[test]
fn the_length_of_a_request_counts_coded_names() {
    // 8 bytes, A and its zero byte, and a name of four.
    let fits = vec![b'x'; MAX_MESSAGE - 8 - 1 - 4];
    let mut strings: [&[u8]; 5] = [&fits, b"", b"ab", b"", b""];
    assert_eq!(writes(1 | C, &strings, 1 << 17).unwrap().len(), MAX_MESSAGE);
    strings[2] = b"abc";
    assert_eq!(writes(1 | C, &strings, 1 << 17), Err((30, 0)));
    strings[2] = b"a.b";
    assert_eq!(writes(1 | C, &strings, 1 << 17), Err((30, 0)));
    strings[2] = b"";
    let message = writes(1 | C, &strings, 1 << 17).unwrap();
    assert_eq!(message.len(), MAX_MESSAGE - 3);
}

/// A name as the request puts it, label by label and by recursion: the labels
/// joined, the jumps and the next string's place, or the number.
fn model(
    buffer: &[u8],
    at: usize,
    run: usize,
    jumps: usize,
    coded: usize,
) -> Result<(Vec<Vec<u8>>, usize, usize), u8> {
    let byte = *buffer.get(at).ok_or(15)?;
    match (byte / 64, usize::from(byte % 64)) {
        (0, 0) => Ok((Vec::new(), 0, at + 1)),
        (0, len) => {
            let label = buffer.get(at + 1..at + 1 + len).ok_or(15)?.to_vec();
            if coded + len + 1 > 255 {
                return Err(53);
            }
            let (labels, taken, next) = model(buffer, at + 1 + len, run, jumps, coded + len + 1)?;
            Ok(([vec![label], labels].concat(), taken, next))
        }
        (3, high) => {
            let place = 256 * high + usize::from(*buffer.get(at + 1).ok_or(15)?);
            if place >= run {
                return Err(51);
            }
            if jumps == 16 {
                return Err(52);
            }
            let (labels, taken, _) = model(buffer, place, place, jumps + 1, coded)?;
            Ok((labels, taken + 1, at + 2))
        }
        _ => Err(50),
    }
}

#[test]
fn every_short_buffer_reads_as_the_request_says() {
    const BYTES: [u8; 9] = [0, 1, 2, 3, 0x3F, 0x40, 0xBF, 0xC0, 0xC1];
    let (mut taken, mut with_jumps) = (0, 0);
    for index in 0..9_usize.pow(6) {
        let buffer: [u8; 6] = std::array::from_fn(|at| BYTES[index / 9_usize.pow(at as u32) % 9]);
        let message = nl(0, C | D, &buffer);
        let expected = model(&buffer, 0, 0, 0, 1)
            .map_err(|number| (number, 3))
            .and_then(|(_, jumps, at)| {
                let (labels, second, next) =
                    model(&buffer, at, at, 0, 1).map_err(|number| (number, 4))?;
                if next < buffer.len() {
                    return Err((16, 0));
                }
                Ok((jumps, at, second, labels))
            });
        match (expected, NlAuth::read(&message)) {
            (Err(refusal), Err(read)) => assert_eq!((read.number(), read.field), refusal),
            (Ok((jumps, at, second, labels)), Ok(read)) => {
                let [_, _, c, d, _] = read.strings;
                assert_eq!((c.place, c.bytes, c.jumps), (8, &buffer[..at], jumps));
                assert_eq!((d.place, d.bytes, d.jumps), (8 + at, &buffer[at..], second));
                let escaped = |label: &Vec<u8>| -> String {
                    label.iter().map(|byte| format!("\\x{byte:02X}")).collect()
                };
                // 0x3F is a question mark, 0x40 an at sign.
                let text: Vec<String> = labels.iter().map(escaped).collect();
                let text = text.join(".").replace("\\x3F", "?").replace("\\x40", "@");
                assert!(line(nl_auth_line, &message).ends_with(&format!(" d={text}\n")));
                taken += 1;
                with_jumps += usize::from(second > 0);
            }
            (expected, read) => panic!("{buffer:X?}: {expected:?}, {read:?}"),
        }
    }
    assert!(taken > 1000 && with_jumps > 200, "{taken}, {with_jumps}");
}

#[test]
fn what_is_written_reads_back() {
    let mut state = 1_u64;
    let mut below = |limit: usize| {
        state = state.wrapping_mul(0x5851_F42D_4C95_7F2D).wrapping_add(1);
        (state >> 33) as usize % limit
    };
    for _ in 0..3_000 {
        let mut names: [Vec<Vec<u8>>; 3] = Default::default();
        for name in &mut names {
            let mut left = 254;
            for _ in 0..below(6) {
                let len = 1 + below(63);
                if len + 1 > left {
                    break;
                }
                left -= len + 1;
                // Any byte but the two that text can't have in a label.
                let byte = |_| match below(256) as u8 {
                    0 | b'.' => b'x',
                    byte => byte,
                };
                name.push((0..len).map(byte).collect());
            }
        }
        let texts = names.each_ref().map(|name| name.join(&b'.'));
        let [c, d, e] = texts.each_ref().map(Vec::as_slice);
        let message = writes(0x1F, &[b"A", b"B", c, d, e], 1000).unwrap();
        let read = NlAuth::read(&message).unwrap();
        for (which, name) in (3..).zip(&names) {
            let string = read.strings[which as usize - 1];
            let labels: Vec<&[u8]> = name.iter().map(Vec::as_slice).collect();
            assert_eq!((string.bytes, string.jumps), (&dns(&labels)[..], 0));
            let shown = |&byte: &u8| match byte {
                0x21..=0x5B | 0x5D..=0x7E => char::from(byte).to_string(),
                _ => format!("\\x{byte:02X}"),
            };
            let shown: String = name.join(&b'.').iter().map(shown).collect();
            assert_eq!(text(&message, which), Ok(shown));
        }
    }
}
