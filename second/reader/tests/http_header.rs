//! Messages in HTTP header lines: request 12/12.

mod common;

use common::{p1, refused};
use reader::{export_header, import_header, Refusal};

fn exported(message: &[u8]) -> Result<Vec<u8>, Refusal> {
    written(2 * message.len() + 20, |out| export_header(message, out))
}

fn imported(text: impl AsRef<[u8]>) -> Result<Vec<u8>, Refusal> {
    let text = text.as_ref();
    written(text.len() + 10, |out| import_header(text, out))
}

/// What a call writes, with nothing after it changed.
fn written(
    room: usize,
    call: impl Fn(&mut [u8]) -> Result<usize, Refusal>,
) -> Result<Vec<u8>, Refusal> {
    let mut out = vec![0xEE; room];
    let answer = call(&mut out);
    let len = answer.unwrap_or_default();
    assert!(out[len..].iter().all(|&byte| byte == 0xEE));
    out.truncate(len);
    answer.map(|_| out)
}

/// RFC 4648, section 10.
const VECTORS: [(&str, &str); 7] = [
    ("", ""),
    ("f", "Zg=="),
    ("fo", "Zm8="),
    ("foo", "Zm9v"),
    ("foob", "Zm9vYg=="),
    ("fooba", "Zm9vYmE="),
    ("foobar", "Zm9vYmFy"),
];

#[test]
fn the_vectors_of_rfc_4648() {
    for (message, digits) in VECTORS {
        let text = format!("NTLM {digits}");
        assert_eq!(exported(message.as_bytes()), Ok(text.clone().into_bytes()));
        assert_eq!(imported(&text), Ok(message.as_bytes().to_vec()), "{text}");
    }
}

#[test]
fn an_export_gives_its_message_back() {
    let bytes: Vec<u8> = (0..=255).chain((0..=255).rev()).collect();
    for len in 0..=bytes.len() {
        let text = exported(&bytes[..len]).expect("text");
        assert_eq!(text.len(), 5 + len.div_ceil(3) * 4);
        assert_eq!(imported(&text), Ok(bytes[..len].to_vec()));
    }
    assert_eq!(imported(exported(&p1()).expect("text")), Ok(p1()));
}

#[test]
fn the_word_in_any_case_and_any_spaces() {
    for case in 0..16 {
        let word: String = "ntlm"
            .chars()
            .enumerate()
            .map(|(at, letter)| match case >> at & 1 {
                0 => letter,
                _ => letter.to_ascii_uppercase(),
            })
            .collect();
        for spaces in [1, 2, 7] {
            let text = format!("{word}{}Zm9v", " ".repeat(spaces));
            assert_eq!(imported(&text), Ok(b"foo".to_vec()), "{text}");
        }
    }
}

#[test]
fn no_scheme_word_or_no_space_is_57() {
    for text in [
        "",
        "N",
        "NTL",
        "NTLM",
        "ntlm",
        "NTLMZm9v",
        "NTLM\tZm9v",
        "NTLM\u{A0}Zm9v",
        " NTLM Zm9v",
        "\tNTLM Zm9v",
        "NTLMX Zm9v",
        "NTLN Zm9v",
        "Negotiate Zm9v",
        "NTLM=Zm9v",
        "NTLM,Zm9v",
        "NTLM\n Zm9v",
        "Zm9v",
        "XTLM Zm9v",
        "\u{212A}TLM Zm9v",
        "NTLM\0Zm9v",
        "nTL- -",
    ] {
        assert_eq!(refused(imported(text)), (57, 0), "{text:?}");
    }
}

#[test]
fn the_word_and_spaces_alone_are_the_empty_message() {
    for text in ["NTLM ", "ntlm  ", "NTLM          "] {
        assert_eq!(imported(text), Ok(Vec::new()), "{text:?}");
    }
    assert_eq!(exported(&[]), Ok(b"NTLM ".to_vec()));
}

#[test]
fn bad_characters_padding_groups_and_last_bits_are_58() {
    for digits in [
        "Z",
        "Zg",
        "Zg=",
        "Zg===",
        "Zm8",
        "Zm9vY",
        "Zm9vYg",
        "Zm9vYg=", // groups
        "=",
        "==",
        "===",
        "====",
        "Z===",
        "=Zg=",
        "Z=g=",
        "Zg=v",
        "Zg==Zm9v",
        "Zm8=Zm9v", // padding
        "Zh==",
        "Zi==",
        "Zo==",
        "Zx==",
        "Zm9=",
        "Zm+=", // last bits
        "Zm-v",
        "Zm_v",
        "Zm.v",
        "Zm9\u{0}",
        "Zm9\u{7f}",
        "Zm,v",
        "Zm:v",
        "Zm@v",
        "Zm[v",
        "Zm`v",
        "Zm{v",
        "Zm*v", // characters
        "Zm9v ",
        "Zm9v\r\n",
        "Zm9v\n",
        "Zm9v,",
        "Zm9v\t",
        "Zm9v    ",
        "Zm 9v",
        "Z m9",
        "\tZm9v",
        "\nZm9v",
        "Zm9v, Negotiate", // what follows
    ] {
        let text = format!("NTLM {digits}");
        assert_eq!(refused(imported(&text)), (58, 0), "{text:?}");
    }
    for byte in 0..=255_u8 {
        let digit = byte.is_ascii_alphanumeric() || byte == b'+' || byte == b'/';
        for at in 0..3 {
            let mut text = *b"NTLM Zm9v";
            text[5 + at] = byte;
            // A space before the text is one of those after the word.
            let expected = if at == 0 && byte == b' ' {
                false
            } else {
                digit
            };
            assert_eq!(imported(text).is_ok(), expected, "{byte} {at}");
        }
        let text = [b'N', b'T', b'L', b'M', b' ', b'Z', b'm', b'8', byte];
        assert_eq!(imported(text).is_ok(), digit || byte == b'=', "{byte}");
    }
}

/// Of sixteen texts that differ in the bits that are left over, one is taken.
#[test]
fn one_message_has_one_text() {
    const DIGITS: &[u8; 64] = b"ABCDEFGHIJKLMNOPQRSTUVWXYZabcdefghijklmnopqrstuvwxyz0123456789+/";
    let mut seen = std::collections::BTreeSet::new();
    for &a in DIGITS {
        for &b in DIGITS {
            let one = imported([b'N', b'T', b'L', b'M', b' ', a, b, b'=', b'=']);
            if let Ok(one) = one {
                assert!(seen.insert(one));
            }
        }
    }
    assert_eq!(seen.len(), 256);
}

#[test]
fn the_longest_message_and_one_byte_more() {
    let longest = vec![0xA5; 65_535];
    let text = exported(&longest).expect("text");
    assert_eq!(text.len(), 87_385);
    assert_eq!(imported(&text), Ok(longest));
    assert_eq!(refused(exported(&vec![0; 65_536])), (1, 0));
    assert_eq!(refused(export_header(&vec![0; 65_536], &mut [])), (1, 0));
    // 65,536 bytes: a group more, padded twice.
    let long = [&text[..], b"AA=="].concat();
    assert_eq!(refused(imported(&long)), (1, 0));
    assert_eq!(refused(import_header(&long, &mut [])), (1, 0));
    // 58 is judged over the whole text before 1.
    let bad = [&text[..], b"AB=="].concat();
    assert_eq!(refused(imported(&bad)), (58, 0));
}

#[test]
fn room_goes_by_what_is_written() {
    for (message, digits) in VECTORS {
        let text = format!("NTLM {digits}");
        let mut exact = vec![0; message.len()];
        assert_eq!(
            import_header(text.as_bytes(), &mut exact),
            Ok(message.len())
        );
        assert_eq!(exact, message.as_bytes());
        let mut exact = vec![0; text.len()];
        assert_eq!(
            export_header(message.as_bytes(), &mut exact),
            Ok(text.len())
        );
        for len in 0..text.len() {
            let mut short = vec![0xEE; len];
            let answer = export_header(message.as_bytes(), &mut short);
            assert_eq!(refused(answer), (33, 0));
            assert_eq!(short, vec![0xEE; len]);
        }
        for len in 0..message.len() {
            let mut short = vec![0xEE; len];
            let answer = import_header(text.as_bytes(), &mut short);
            assert_eq!(refused(answer), (33, 0));
            assert_eq!(short, vec![0xEE; len]);
        }
    }
}
