//! One meaning, one writing: request 11/12.

mod common;

use common::*;
use reader::{canonical_authenticate, Authenticate, Refusal};

fn tidied(message: &[u8]) -> Result<Vec<u8>, Refusal> {
    let mut out = vec![0xEE; 70_000];
    let len = canonical_authenticate(message, &mut out)?;
    assert!(out[len..].iter().all(|&byte| byte == 0xEE));
    out.truncate(len);
    Ok(out)
}

/// "Meaning is the flags, the six fields' bytes and the MIC so read."
fn meaning(message: &[u8]) -> (u32, Vec<Vec<u8>>, [u8; 16]) {
    let read = Authenticate::read(message).expect("taken");
    let fields = read.fields().map(|field| field.bytes.to_vec());
    (read.flags.0, fields.to_vec(), read.mic_bytes())
}

#[test]
fn the_layout_is_document_01s() {
    let message = Auth::new(UNICODE | VERSION | KEY_EXCH, 200)
        .bytes(64, &[9; 8])
        .bytes(72, &[7; 16])
        .field(KEY, 16, 90)
        .bytes(90, &[6; 16])
        .field(LM, 3, 110)
        .bytes(110, &[1; 3])
        .field(NT, 5, 120)
        .bytes(120, &[2; 5])
        .field(WORK, 2, 130)
        .bytes(130, b"w\0")
        .field(USER, 4, 140)
        .bytes(140, b"u\0s\0")
        .field(DOMAIN, 2, 150)
        .bytes(150, b"d\0")
        .0;
    let expected = Auth::new(UNICODE | VERSION | KEY_EXCH, 120)
        .bytes(72, &[7; 16])
        .field(DOMAIN, 2, 88)
        .bytes(88, b"d\0")
        .field(USER, 4, 90)
        .bytes(90, b"u\0s\0")
        .field(WORK, 2, 94)
        .bytes(94, b"w\0")
        .field(LM, 3, 96)
        .bytes(96, &[1; 3])
        .field(NT, 5, 99)
        .bytes(99, &[2; 5])
        .field(KEY, 16, 104)
        .bytes(104, &[6; 16])
        .0;
    assert_eq!(tidied(&message), Ok(expected));
}

/// Messages of few meanings, laid out in many ways.
fn messages() -> Vec<Vec<u8>> {
    let mut messages = Vec::new();
    for flags in [OEM, OEM | KEY_EXCH, OEM | VERSION, OEM | 0x1234_0000] {
        for start in [64, 88, 100] {
            for mic in [0, 7] {
                for user in [&b"u"[..], b"v", b"uv", b""] {
                    for (lm_at, nt_at) in [(20, 23), (30, 20), (20, 20)] {
                        for (version, max_len) in [(0, 0), (9, 9)] {
                            let user_at = start + 40;
                            let mut message = Auth::new(flags, start + 60)
                                .bytes(64, &[version; 8])
                                .bytes(72, &[mic; 16])
                                .field(LM, 3, (start + lm_at) as u32)
                                .field(NT, 3, (start + nt_at) as u32)
                                .field(USER, user.len() as u16, user_at as u32)
                                .bytes(user_at, user)
                                .field(KEY, 16, start as u32)
                                .0;
                            message[14] = max_len;
                            messages.push(message);
                        }
                    }
                }
            }
        }
    }
    messages
}

#[test]
fn two_come_out_equal_exactly_when_their_meanings_are() {
    let tidied: Vec<_> = messages()
        .iter()
        .map(|message| (meaning(message), tidied(message).expect("written")))
        .collect();
    let mut equal = 0;
    for (meaning, out) in &tidied {
        for (other_meaning, other_out) in &tidied {
            assert_eq!(meaning == other_meaning, out == other_out);
            equal += usize::from(out == other_out);
        }
    }
    assert!(equal > 2 * tidied.len());
}

#[test]
fn what_came_out_comes_out_again_and_means_the_same() {
    for message in messages() {
        let out = tidied(&message).expect("written");
        assert_eq!(meaning(&out), meaning(&message));
        assert_eq!(tidied(&out), Ok(out.clone()));
        let mut exact = vec![0; out.len()];
        assert_eq!(canonical_authenticate(&out, &mut exact), Ok(out.len()));
        let short = &mut vec![0xEE; out.len() - 1][..];
        assert_eq!(refused(canonical_authenticate(&out, short)), (33, 0));
        assert!(short.iter().all(|&byte| byte == 0xEE));
    }
}

#[test]
fn no_mic_is_the_same_as_one_of_zeros() {
    let with = Auth::new(OEM, 88).0;
    let without = Auth::new(OEM, 87).bytes(72, &[5; 15]).0;
    assert_eq!(Authenticate::read(&without).expect("taken").mic, None);
    assert_eq!(tidied(&with), tidied(&without));
    assert_eq!(
        tidied(&with),
        Ok(Auth::new(OEM, 88)
            .field(LM, 0, 88)
            .field(NT, 0, 88)
            .field(DOMAIN, 0, 88)
            .field(USER, 0, 88)
            .field(WORK, 0, 88)
            .field(KEY, 0, 88)
            .0)
    );
}

#[test]
fn a_key_that_does_not_count_is_empty() {
    let key = |flags, len| tidied(&Auth::new(flags, 200).field(KEY, len, 100).0);
    for len in [1, 15, 16, 17, 100] {
        assert_eq!(key(OEM, len), key(OEM, 0), "{len}");
    }
    assert_eq!(key(OEM | KEY_EXCH, 16).expect("written").len(), 104);
    for len in [1, 15, 17, 24, 100] {
        assert_eq!(refused(key(OEM | KEY_EXCH, len)), (32, 6), "{len}");
    }
}

#[test]
fn refusals_come_in_the_order_given() {
    // LM and NT response over the same bytes, each written by itself.
    let twice = |lm, nt| {
        Auth::new(OEM | KEY_EXCH, 40_000)
            .field(LM, lm, 88)
            .field(NT, nt, 88)
    };
    assert_eq!(
        tidied(&twice(32_723, 32_724).0).map(|out| out.len()),
        Ok(65_535)
    );
    assert_eq!(refused(tidied(&twice(32_724, 32_724).0)), (30, 0));
    assert_eq!(
        refused(canonical_authenticate(&twice(32_724, 32_724).0, &mut [])),
        (30, 0)
    );
    let keyed = twice(32_724, 32_724).field(KEY, 17, 88);
    assert_eq!(refused(tidied(&keyed.0)), (32, 6));
    let named = twice(32_724, 32_724).field(KEY, 17, 88).field(USER, 4, 88);
    assert_eq!(refused(tidied(&named.0)), (9, 4));
    assert_eq!(refused(tidied(&p1()[..63])), (2, 0));
    assert_eq!(refused(tidied(&[0; 65_536])), (1, 0));
}
