//! MaxLen in records and lines, held against the reader's with one fault planted.
//! Each fault is looked for on messages that are made for it, not on drawn ones.

use super::super::call::{refused, Call, Line};
use super::super::hold::Library;
use super::super::second;
use super::{files, tried};

/// Where the heads stand by type, and how many numbers come before MaxLen's.
fn heads(message: &[u8]) -> (&'static [usize], usize) {
    match message[8] {
        1 => (&[16, 24], 5),
        2 => (&[12, 40], 5),
        _ => (&[12, 20, 28, 36, 44, 52], 14),
    }
}

fn len(message: &[u8], head: usize) -> u16 {
    u16::from_le_bytes([message[head], message[head + 1]])
}

fn max_len(message: &[u8], head: usize) -> u16 {
    len(message, head + 2)
}

/// The messages of the README, one of each kind: with MaxLen as they have it, and
/// unlike Len in each field alone; then with that field empty, and with no field
/// that counts by a flag.
fn messages() -> Vec<Vec<u8>> {
    let sound = files([
        "negotiate-names",
        "challenge-smbd",
        "authenticate-smbclient",
    ]);
    let mut messages = sound.clone();
    for message in sound {
        let (heads, _) = heads(&message);
        for &head in heads {
            let mut other = message.clone();
            other[head + 2] ^= 0x40;
            other[head + 3] ^= 1;
            messages.push(other.clone());
            let mut uncounted = other.clone();
            match message[8] {
                1 => uncounted[13] &= !0x30,
                2 => {
                    uncounted[20] &= !4;
                    uncounted[22] &= !0x80;
                }
                _ => uncounted[63] &= !0x40,
            }
            messages.push(uncounted);
            other[head..head + 2].fill(0);
            messages.push(other);
        }
    }
    messages
}

/// The fault must be found in this call.
fn found(name: &str, library: impl Library) {
    let found = tried(library, &messages(), 0);
    let start = format!("DIFFERENT: {name} ");
    let mut texts = found.differences();
    assert!(texts.any(|(_, text)| text.starts_with(&start)));
}

/// A library whose readings give other records: `wrong` is told the message, a
/// field's head, its length as it was read, and its MaxLen.
fn misread(wrong: impl Fn(&[u8], usize, u64, u64) -> u64) {
    let library = |call: &Call<'_>, out: &mut [u8], numbers: &mut [u64]| {
        let answer = second(call, out, numbers);
        let (Call::ReadAuthenticate { message }
        | Call::ReadChallenge { message }
        | Call::ReadNegotiate { message }) = *call
        else {
            return answer;
        };
        if answer == 0 {
            let (heads, before) = heads(message);
            for (field, &head) in heads.iter().enumerate() {
                let length = numbers[before - 2 * heads.len() + 2 * field + 1];
                let max = &mut numbers[before + field];
                *max = wrong(message, head, length, *max);
            }
        }
        answer
    };
    for name in ["read_negotiate", "read_challenge", "read_authenticate"] {
        found(name, library);
    }
}

#[test]
fn another_record_is_found() {
    // None; Len for it; only its low byte; none of an empty field; that of a field
    // that doesn't count; the head's own halves changed round.
    misread(|_, _, _, _| 0);
    misread(|_, _, length, _| length);
    misread(|_, _, _, max| max & 0xFF);
    misread(|_, _, length, max| if length == 0 { 0 } else { max });
    misread(|message, head, _, _| u64::from(max_len(message, head)));
    misread(|_, _, _, max| u64::from((max as u16).swap_bytes()));
}

/// A library whose lines end otherwise: `wrong` is told the message and the line up
/// to its last word, and that word's digits.
fn misprint(wrong: impl Fn(&[u8], &str, &str) -> String) {
    let library = |call: &Call<'_>, out: &mut [u8], numbers: &mut [u64]| {
        let Call::Line {
            line: Line::Ntlm,
            message,
        } = *call
        else {
            return second(call, out, numbers);
        };
        let mut room = vec![0; 4_096];
        let length = second(call, &mut room, numbers) as usize;
        let text = String::from_utf8(room[..length].to_vec()).expect("ASCII");
        let Some((line, digits)) = text.trim_end().split_once(" max=") else {
            return second(call, out, numbers);
        };
        let text = format!("{}\n", wrong(message, line, digits));
        match out.get_mut(..text.len()) {
            Some(room) => room.copy_from_slice(text.as_bytes()),
            None => return refused(33, 0),
        }
        text.len() as u64
    };
    found("ntlm_line", library);
}

/// The digits of all heads, whether or not their fields count: MaxLen unlike Len by
/// this measure.
fn digits(message: &[u8], unlike: impl Fn(u16, u16) -> bool) -> String {
    let (heads, _) = heads(message);
    let digit = |&head: &usize| unlike(len(message, head), max_len(message, head));
    heads
        .iter()
        .map(|head| if digit(head) { '1' } else { '0' })
        .collect()
}

#[test]
fn another_last_word_is_found() {
    // No word; all 0; 1 for alike; backwards; a digit for a field that doesn't
    // count; only where MaxLen is less, or more; by the low byte alone.
    misprint(|_, line, _| line.to_owned());
    misprint(|_, line, digits| format!("{line} max={}", digits.replace('1', "0")));
    misprint(|_, line, digits| {
        let turned = digits.replace('1', "x").replace('0', "1");
        format!("{line} max={}", turned.replace('x', "0"))
    });
    misprint(|_, line, digits| {
        let backwards: String = digits.chars().rev().collect();
        format!("{line} max={backwards}")
    });
    let measures: [fn(u16, u16) -> bool; 4] = [
        |len, max| len != max,
        |len, max| max < len,
        |len, max| max > len,
        |len, max| (len ^ max) & 0xFF != 0,
    ];
    for measure in measures {
        misprint(|message, line, _| format!("{line} max={}", digits(message, measure)));
    }
    // None for an empty field that counts.
    misprint(|message, line, told| {
        let of_some = digits(message, |len, _| len > 0);
        let both = told.chars().zip(of_some.chars());
        let kept: String = both.map(|(a, b)| if b == '1' { a } else { '0' }).collect();
        format!("{line} max={kept}")
    });
    // Before the time.
    misprint(|_, line, digits| match line.split_once(" time=") {
        Some((line, time)) => format!("{line} max={digits} time={time}"),
        None => format!("{line} max={digits}"),
    });
    // In the order of the payload, which has the names first.
    misprint(|_, line, digits| match digits.len() {
        6 => format!(
            "{line} max={}{}{}",
            &digits[2..5],
            &digits[..2],
            &digits[5..]
        ),
        _ => format!("{line} max={digits}"),
    });
}

#[test]
fn a_check_that_looks_at_max_len_is_found() {
    let library = |call: &Call<'_>, out: &mut [u8], numbers: &mut [u64]| {
        if let Call::ReadAuthenticate { message } = *call {
            let user = 36;
            if message.len() > 64 && max_len(message, user) > len(message, user) {
                return refused(6, 4);
            }
        }
        second(call, out, numbers)
    };
    found("read_authenticate", library);
}
