//! The checks of a message, held against the reader's with one fault planted.

use super::super::call::{refused, Call, Line};
use super::super::second;
use super::{found, tried};

/// Room for every print.
const ROOM: usize = 279;

/// A faulty library in whose prints `wrong` has changed the text of a message.
fn misprints(
    wrong: impl Fn(&[u8], String) -> String,
) -> impl Fn(&Call<'_>, &mut [u8], &mut [u64]) -> u64 {
    move |call, out, numbers| {
        let Call::Line {
            line: Line::Explain,
            message,
        } = call
        else {
            return second(call, out, numbers);
        };
        let mut print = vec![0; ROOM];
        let len = usize::try_from(second(call, &mut print, numbers)).expect("a length");
        print.truncate(len);
        let text = wrong(message, String::from_utf8(print).expect("ASCII"));
        let Some(room) = out.get_mut(..text.len()) else {
            return refused(33, 0);
        };
        room.copy_from_slice(text.as_bytes());
        text.len() as u64
    }
}

fn misprinted(what: &str, wrong: impl Fn(&[u8], String) -> String) {
    found(what, "explain", misprints(wrong));
}

/// The lines with the state of each changed: `wrong` is told the line's state and
/// whether it stands after the failed one.
fn states(text: &str, wrong: impl Fn(&str, bool) -> String) -> String {
    let mut after = false;
    let mut all = String::new();
    for line in text.lines() {
        let at = line.match_indices(' ').nth(1).expect("two blanks").0;
        let (check, state) = line.split_at(at);
        all += &format!("{check}{}\n", wrong(state, after));
        after |= state.starts_with(" failed");
    }
    all
}

/// The number behind a word.
fn figure(text: &str, word: &str) -> Option<u64> {
    let digits = text.split_once(word)?.1;
    let end = digits.find(|c: char| !c.is_ascii_digit())?;
    digits[..end].parse().ok()
}

#[test]
fn wrong_states_are_found() {
    // All held for a refused message; a later check shown as held; one that was
    // not reached for an accepted message.
    misprinted("DIFFERENT", |_, text| {
        states(&text, |_, _| " held".to_owned())
    });
    misprinted("DIFFERENT", |_, text| {
        states(&text, |state, after| {
            if after { " held" } else { state }.to_owned()
        })
    });
    misprinted("DIFFERENT", |_, text| {
        states(&text, |state, after| match state {
            " held" if !after && !text.contains("failed") => " not reached".to_owned(),
            _ => state.to_owned(),
        })
    });
}

#[test]
fn wrong_numbers_and_orders_are_found() {
    misprinted("DIFFERENT", |_, text| {
        text.replace("check 6 failed", "check 7 failed")
    });
    misprinted("DIFFERENT", |_, text| {
        let mut lines: Vec<&str> = text.split_inclusive('\n').collect();
        let number = |line: &&str| figure(line, "check ");
        lines.sort_by_key(number);
        lines.concat()
    });
}

#[test]
fn wrong_figures_are_found() {
    for (word, other) in [
        (" field=4", " field=3"),
        (" field=0 offset=0 length=0", " field=0 offset=0 length=1"),
    ] {
        misprinted("DIFFERENT", |_, text| text.replace(word, other));
    }
    long(" message=65536", " message=65537");
    long(" message=65535", " message=65536");
    // The pair's place for the list's, and its size for the list's length.
    misprinted("DIFFERENT", |_, text| match figure(&text, " at=") {
        Some(place) => {
            let offset = figure(&text, " offset=").expect("a figure");
            text.replace(&format!(" offset={offset}"), &format!(" offset={place}"))
        }
        None => text,
    });
    misprinted("DIFFERENT", |_, text| match figure(&text, " size=") {
        Some(size) => {
            let len = figure(&text, " length=").expect("a figure");
            text.replace(&format!(" length={len}"), &format!(" length={size}"))
        }
        None => text,
    });
    // What is left of the list for the length number.
    misprinted("DIFFERENT", |_, text| match figure(&text, " size=") {
        Some(size) if text.contains("check 10 failed") => {
            text.replace(&format!(" size={size}"), &format!(" size={}", size / 2))
        }
        _ => text,
    });
    // The bytes that stand where a pair is missing.
    misprinted("DIFFERENT", |message, text| match figure(&text, " at=") {
        Some(place) if text.contains("check 11 failed") => {
            let id = message.get(place as usize).copied().unwrap_or(1);
            text.replace(" id=0", &format!(" id={id}"))
        }
        _ => text,
    });
}

/// A figure that only a message around 65,535 bytes has.
fn long(word: &str, other: &str) {
    let message = |len: usize| {
        let mut message = b"NTLMSSP\0\x02\0\0\0".to_vec();
        message.resize(len, 0);
        message
    };
    let given = vec![message(65_535), message(65_536), message(70_000)];
    let library = misprints(|_, text| text.replace(word, other));
    assert!(tried(library, &given, 0).failed > 0, "{word}");
}

#[test]
fn a_byte_of_a_secret_is_found_without_the_reader() {
    misprinted("SECRETS TELL", |message, text| {
        let last = message.last().copied().unwrap_or_default();
        text.replace(
            "check 1 held",
            if last < 0x80 {
                "check 1 held"
            } else {
                "check 1 HELD"
            },
        )
    });
}
