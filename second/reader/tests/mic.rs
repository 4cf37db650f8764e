//! MD5, HMAC-MD5 and the MIC of three messages: the vectors of RFC 1321, RFC 2104
//! and RFC 2202, real sign-ins, and the refusals of request 10/12.

use reader::{check_mic, hmac_md5, md5, mic, Refusal, SignIn};

fn hex(text: &str) -> Vec<u8> {
    let digits: Vec<u8> = text
        .chars()
        .map(|digit| digit.to_digit(16).expect("a digit") as u8)
        .collect();
    let (pairs, odd) = digits.as_chunks::<2>();
    assert!(odd.is_empty());
    pairs.iter().map(|[high, low]| high << 4 | low).collect()
}

/// RFC 1321, A.5 "Test suite".
#[test]
fn md5_of_rfc_1321() {
    for (message, digest) in [
        ("", "d41d8cd98f00b204e9800998ecf8427e"),
        ("a", "0cc175b9c0f1b6a831c399e269772661"),
        ("abc", "900150983cd24fb0d6963f7d28e17f72"),
        ("message digest", "f96b697d7cb7938d525a2f31aaf161d0"),
        (
            "abcdefghijklmnopqrstuvwxyz",
            "c3fcd3d76192e4007dfb496cca67e13b",
        ),
        (
            "ABCDEFGHIJKLMNOPQRSTUVWXYZabcdefghijklmnopqrstuvwxyz0123456789",
            "d174ab98d277d9f5a5611c2c9f419d9f",
        ),
        (
            "12345678901234567890123456789012345678901234567890123456789012345678901234567890",
            "57edf4a22be3c955ac49da2e2107b67a",
        ),
    ] {
        assert_eq!(md5(message.as_bytes()).to_vec(), hex(digest), "{message}");
    }
}

fn hmac_is(key: &[u8], text: &[u8], digest: &str) {
    assert_eq!(hmac_md5(key, [text]).to_vec(), hex(digest));
    // In parts, of which one is empty.
    let (start, end) = text.split_at(text.len() / 2);
    assert_eq!(hmac_md5(key, [start, &[], end]).to_vec(), hex(digest));
}

/// RFC 2104, "Appendix -- Sample Code", and RFC 2202, 2. "Test Cases for
/// HMAC-MD5", whose first three are the same.
#[test]
fn hmac_md5_of_rfc_2104_and_2202() {
    hmac_is(&[0x0B; 16], b"Hi There", "9294727a3638bb1c13f48ef8158bfc9d");
    hmac_is(
        b"Jefe",
        b"what do ya want for nothing?",
        "750c783e6ab0b503eaa86e310a5db738",
    );
    hmac_is(&[0xAA; 16], &[0xDD; 50], "56be34521d144c88dbb8c733f0e8b3f6");
    let counted: Vec<u8> = (1..=25).collect();
    hmac_is(&counted, &[0xCD; 50], "697eaf0aca3a3aea3a75164746ffaa79");
    hmac_is(
        &[0x0C; 16],
        b"Test With Truncation",
        "56461ef2342edc00f9bab995690efd4c",
    );
    hmac_is(
        &[0xAA; 80],
        b"Test Using Larger Than Block-Size Key - Hash Key First",
        "6b1ab7fe4bd7bf8f0b62e6ce61b9d0cd",
    );
    hmac_is(
        &[0xAA; 80],
        b"Test Using Larger Than Block-Size Key and Larger Than One Block-Size Data",
        "6f630fad67cda0ee1fb1f562db3aa53e",
    );
}

/// A key of one block is no longer than one.
#[test]
fn a_key_is_hashed_where_it_is_longer_than_a_block() {
    let hashed = md5(&[7; 65]);
    assert_eq!(
        hmac_md5(&[7; 65], [&b"x"[..]]),
        hmac_md5(&hashed, [&b"x"[..]])
    );
    let hashed = md5(&[7; 64]);
    assert_ne!(
        hmac_md5(&[7; 64], [&b"x"[..]]),
        hmac_md5(&hashed, [&b"x"[..]])
    );
}

struct Triple {
    source: String,
    key: Vec<u8>,
    messages: [Vec<u8>; 3],
    mic: Vec<u8>,
}

impl Triple {
    fn sign_in(&self) -> SignIn<'_> {
        sign_in(&self.messages)
    }
}

fn sign_in(messages: &[Vec<u8>; 3]) -> SignIn<'_> {
    let [negotiate, challenge, authenticate] = messages;
    SignIn {
        negotiate,
        challenge,
        authenticate,
    }
}

/// The sign-ins of tests/mic/triples.txt: a word and what it stands for on each
/// line, and the MIC's last.
fn triples() -> Vec<Triple> {
    let file = concat!(env!("CARGO_MANIFEST_DIR"), "/../../tests/mic/triples.txt");
    let text = std::fs::read_to_string(file).expect("the sign-ins");
    let mut triples = Vec::new();
    let mut source = String::new();
    let mut read: Vec<Vec<u8>> = Vec::new();
    for line in text.lines() {
        match line.split_once(' ') {
            Some(("#", _)) | None => {}
            Some(("source", name)) => source = name.to_owned(),
            Some((_, bytes)) => read.push(hex(bytes)),
        }
        if read.len() == 5 {
            let mut next = read.drain(..);
            let mut part = || next.next().expect("a part");
            triples.push(Triple {
                source: source.clone(),
                key: part(),
                messages: [part(), part(), part()],
                mic: part(),
            });
        }
    }
    triples
}

#[test]
fn real_sign_ins_check() {
    let triples = triples();
    assert_eq!(triples.len(), 18);
    for triple in &triples {
        let worked_out = mic(&triple.key, &triple.sign_in()).expect(&triple.source);
        assert_eq!(worked_out.to_vec(), triple.mic, "{}", triple.source);
        assert_eq!(check_mic(&triple.key, &triple.sign_in()), Ok(true));
    }
}

#[test]
fn a_sign_in_with_any_byte_changed_does_not_check() {
    for triple in triples() {
        let mut messages = triple.messages.clone();
        for which in 0..3 {
            for at in 0..messages[which].len() {
                messages[which][at] ^= 0x80;
                let checked = check_mic(&triple.key, &sign_in(&messages));
                assert_ne!(checked, Ok(true), "{} {which} {at}", triple.source);
                if which == 2 && (72..88).contains(&at) {
                    assert_eq!(checked, Ok(false));
                    let worked_out = mic(&triple.key, &sign_in(&messages));
                    assert_eq!(worked_out.expect("a MIC").to_vec(), triple.mic);
                }
                messages[which][at] ^= 0x80;
            }
        }
        for at in 0..16 {
            let mut key = triple.key.clone();
            key[at] ^= 1;
            assert_eq!(check_mic(&key, &triple.sign_in()), Ok(false));
        }
    }
}

#[test]
fn bytes_after_the_payload_are_hashed() {
    let triple = &triples()[0];
    for which in 0..3 {
        let mut messages = triple.messages.clone();
        messages[which].push(0);
        assert_eq!(check_mic(&triple.key, &sign_in(&messages)), Ok(false));
    }
}

#[test]
fn a_mic_of_zeros_is_there_and_is_compared() {
    let triple = &triples()[0];
    let mut messages = triple.messages.clone();
    messages[2][72..88].fill(0);
    assert_eq!(check_mic(&triple.key, &sign_in(&messages)), Ok(false));
    let worked_out = mic(&triple.key, &sign_in(&messages));
    assert_eq!(worked_out.expect("a MIC").to_vec(), triple.mic);
}

/// Number, field and place.
fn refusal<T: std::fmt::Debug>(answer: Result<T, Refusal>) -> (u8, u8, usize) {
    let refusal = answer.expect_err("refused");
    (refusal.number(), refusal.field, refusal.place)
}

/// Both calls refuse alike.
fn refused(key: &[u8], messages: &[Vec<u8>; 3]) -> (u8, u8, usize) {
    let refused = refusal(mic(key, &sign_in(messages)));
    assert_eq!(refusal(check_mic(key, &sign_in(messages))), refused);
    refused
}

#[test]
fn refusals_come_in_the_order_given() {
    let triple = &triples()[0];
    let key = triple.key.as_slice();
    let mut messages = triple.messages.clone();
    // No MIC: the user name lies over its place.
    messages[2][40..44].copy_from_slice(&70_u32.to_le_bytes());
    assert_eq!(refused(key, &messages), (56, 0, 0));
    // A name over the NT response.
    messages[2][40..44].copy_from_slice(&128_u32.to_le_bytes());
    assert_eq!(refused(key, &messages), (9, 4, 0));
    // The end pair has a length: its place is the message's.
    let end = messages[1].len() - 4;
    messages[1][end + 2] = 1;
    assert_eq!(refused(key, &messages), (12, 2, end));
    messages[0].truncate(31);
    assert_eq!(refused(key, &messages), (2, 0, 0));
    for len in [0, 1, 15, 17, 32, 64, 65] {
        assert_eq!(refused(&vec![9; len], &messages), (55, 0, 0), "{len}");
    }
    assert_eq!(refused(key, &[vec![], vec![], vec![]]), (2, 0, 0));
    // Each message is read as its own kind.
    let [negotiate, challenge, authenticate] = triple.messages.clone();
    let exchanged = [challenge, negotiate, authenticate];
    assert_eq!(refused(key, &exchanged), (4, 0, 0));
}

#[test]
fn the_longest_messages_are_hashed_whole() {
    let triple = &triples()[0];
    let mut messages = triple.messages.clone();
    for message in &mut messages {
        message.resize(65_535, 0x5A);
    }
    let worked_out = mic(&triple.key, &sign_in(&messages)).expect("a MIC");
    messages[2][72..88].copy_from_slice(&worked_out);
    assert_eq!(check_mic(&triple.key, &sign_in(&messages)), Ok(true));
    messages[2][65_534] ^= 1;
    assert_eq!(check_mic(&triple.key, &sign_in(&messages)), Ok(false));
    messages[2].push(0);
    assert_eq!(refused(&triple.key, &messages), (1, 0, 0));
}
