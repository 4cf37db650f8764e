//! A night in one call, held against the reader's with one fault planted. The
//! nights are made of these messages alone, at the places that every message is
//! tried at, so that no fault needs luck to be found.

use reader::Entry;

use super::super::call::{refusal, refused, Call};
use super::super::hold::Library;
use super::super::night::{entries, put_entries};
use super::super::second;
use super::{captured, tried};

/// A challenge that is refused at a pair, an AUTHENTICATE with secrets, and two
/// that are taken.
fn messages() -> Vec<Vec<u8>> {
    let [challenge, authenticate, negotiate] = captured().try_into().expect("three messages");
    let mut bad = challenge.clone();
    bad[120] = 4;
    vec![bad, authenticate, challenge, negotiate]
}

/// A faulty library.
type Fault = fn(&Call<'_>, &mut [u8], &mut [u64]) -> u64;

/// The fault must be found, and told by `what`.
fn found(what: &str, library: impl Library) {
    let found = tried(library, &messages(), 0);
    let start = format!("{what}: check_messages ");
    let mut texts = found.differences();
    assert!(texts.any(|(_, text)| text.starts_with(&start)));
}

/// A library that answers a night otherwise: `wrong` is told the buffer, the
/// entries before the call and those after it, which it may change.
fn misread(wrong: impl Fn(&[u8], &[Entry], &mut [Entry])) {
    let library = |call: &Call<'_>, out: &mut [u8], numbers: &mut [u64]| {
        let before = entries(numbers);
        let answer = second(call, out, numbers);
        if let (Call::CheckMessages { buffer, .. }, None) = (call, refusal(answer)) {
            let mut after = entries(numbers);
            wrong(buffer, &before, &mut after);
            put_entries(&after, numbers);
        }
        answer
    };
    found("DIFFERENT", library);
}

/// The answer of the same call on other entries.
fn answer_as(buffer: &[u8], entry: Entry) -> Entry {
    let mut other = [entry];
    let taken = reader::check_messages(buffer, &mut other);
    assert_eq!(taken, Ok(()));
    other[0]
}

/// An entry with the answer of another.
fn with_answer(entry: Entry, answer: Entry) -> Entry {
    Entry {
        number: answer.number,
        field: answer.field,
        place: answer.place,
        ..entry
    }
}

/// Each entry by itself.
fn misread_each(wrong: impl Fn(&[u8], Entry, Entry) -> Entry) {
    misread(|buffer, before, after| {
        for (after, before) in after.iter_mut().zip(before) {
            *after = wrong(buffer, *before, *after);
        }
    });
}

#[test]
fn a_sum_that_wraps_is_found() {
    // In 64 bits, and start or length in 32.
    misread_each(|buffer, before, after| {
        let end = before.start.wrapping_add(before.length);
        if after.number == 54 && end <= buffer.len() as u64 {
            Entry { number: 2, ..after }
        } else {
            after
        }
    });
    misread_each(|buffer, before, after| {
        let start = before.start & 0xFFFF_FFFF;
        with_answer(after, answer_as(buffer, Entry { start, ..before }))
    });
    misread_each(|buffer, before, after| {
        let length = before.length & 0xFFFF_FFFF;
        with_answer(after, answer_as(buffer, Entry { length, ..before }))
    });
}

#[test]
fn a_place_outside_by_another_number_is_found() {
    let total = |buffer: &[u8]| buffer.len() as u64;
    // Past the end with length 0; at the end; one byte past; cut to what is there.
    misread_each(|buffer, before, after| match before.length {
        0 if before.start > total(buffer) => Entry { number: 2, ..after },
        _ => after,
    });
    misread_each(|buffer, before, after| match before.length {
        0 if before.start == total(buffer) => Entry {
            number: 54,
            ..after
        },
        _ => after,
    });
    misread_each(|buffer, before, after| match before.start {
        0 if before.length == total(buffer) => Entry {
            number: 54,
            field: 0,
            place: 0,
            ..after
        },
        _ => after,
    });
    misread_each(|buffer, before, after| {
        let end = before.start.saturating_add(before.length);
        let over = end.saturating_sub(total(buffer));
        let length = before.length.saturating_sub(over);
        let cut = Entry { length, ..before };
        with_answer(after, answer_as(buffer, cut))
    });
    // After the mark.
    misread_each(|_, before, after| match before.mark {
        1..=3 => after,
        _ => Entry { number: 4, ..after },
    });
}

#[test]
fn an_answer_counted_from_elsewhere_is_found() {
    misread_each(|_, before, after| {
        let moved = u64::from(after.place) + before.start;
        let place = u32::try_from(moved).unwrap_or_default();
        if after.place > 0 {
            Entry { place, ..after }
        } else {
            after
        }
    });
    misread_each(|_, _, after| Entry { place: 0, ..after });
    misread_each(|_, _, after| Entry { field: 0, ..after });
}

#[test]
fn entries_that_are_left_out_are_found() {
    // After the first fault; the last; the first.
    misread(|_, before, after| {
        let fault = after.iter().position(|entry| entry.number > 0);
        let from = fault.map_or(after.len(), |at| at + 1);
        after[from..].copy_from_slice(&before[from..]);
    });
    misread(|_, before, after| {
        if let (Some(after), Some(before)) = (after.last_mut(), before.last()) {
            *after = *before;
        }
    });
    misread(|_, before, after| {
        if let (Some(after), Some(before)) = (after.first_mut(), before.first()) {
            *after = *before;
        }
    });
    // One that stands there already.
    misread(|_, before, after| {
        for at in 1..after.len() {
            let same = |entry: &Entry| {
                (entry.start, entry.length, entry.mark)
                    == (before[at].start, before[at].length, before[at].mark)
            };
            if before[..at].iter().any(same) {
                after[at] = before[at];
            }
        }
    });
}

#[test]
fn an_old_answer_that_is_left_is_found() {
    misread_each(|_, before, after| match after.number {
        0 => before,
        _ => after,
    });
    misread_each(|_, before, after| match after.field {
        0 => Entry {
            field: before.field,
            ..after
        },
        _ => after,
    });
    misread_each(|_, before, after| match after.place {
        0 => Entry {
            place: before.place,
            ..after
        },
        _ => after,
    });
}

#[test]
fn another_part_that_changes_is_found() {
    misread_each(|_, _, after| Entry { mark: 3, ..after });
    misread_each(|_, _, after| Entry { mark: 0, ..after });
    misread_each(|_, _, after| Entry {
        start: after.start.wrapping_add(after.length),
        ..after
    });
    misread_each(|_, _, after| Entry { length: 0, ..after });
}

#[test]
fn a_mark_that_does_not_decide_is_found() {
    // The type in its place; only its lowest byte; another mark as AUTHENTICATE,
    // as taken, or refused after the message's length.
    misread_each(|buffer, before, after| {
        let at = usize::try_from(before.start).unwrap_or(usize::MAX);
        let mark = buffer.get(at.saturating_add(8)).copied().unwrap_or(3);
        let mark = u32::from(mark);
        with_answer(after, answer_as(buffer, Entry { mark, ..before }))
    });
    misread_each(|buffer, before, after| {
        let mark = before.mark & 0xFF;
        with_answer(after, answer_as(buffer, Entry { mark, ..before }))
    });
    for number in [0, 2, 3, 54] {
        misread_each(|_, before, after| match (before.mark, after.number) {
            (1..=3, _) | (_, 54) => after,
            _ => Entry { number, ..after },
        });
    }
}

#[test]
fn a_buffer_that_is_too_long_or_a_list_that_is_empty_is_found() {
    let mut long = messages().swap_remove(1);
    long.resize(65_536, 0);
    let faults: [Fault; 3] = [
        // Answered where the list is empty.
        |call, out, numbers| match call {
            Call::CheckMessages { places: [], .. } => 0,
            _ => second(call, out, numbers),
        },
        // Refused for each entry.
        |call, out, numbers| {
            let answer = second(call, out, numbers);
            if let (Call::CheckMessages { .. }, Some((1, 0))) = (call, refusal(answer)) {
                let mut listed = entries(numbers);
                for entry in &mut listed {
                    entry.number = 1;
                }
                put_entries(&listed, numbers);
            }
            answer
        },
        // Taken, and read as far as 65,535 bytes.
        |call, out, numbers| match *call {
            Call::CheckMessages { buffer, places } => {
                let buffer = &buffer[..buffer.len().min(65_535)];
                second(&Call::CheckMessages { buffer, places }, out, numbers)
            }
            _ => second(call, out, numbers),
        },
    ];
    for fault in faults {
        assert_eq!(tried(fault, &[long.clone()], 0).failed, 1);
    }
    // An empty list that is refused.
    found("DIFFERENT", |call, out, numbers| match call {
        Call::CheckMessages { places: [], .. } => refused(2, 0),
        _ => second(call, out, numbers),
    });
}

#[test]
fn an_answer_by_a_secret_is_found_without_the_reader() {
    let leaks = |call: &Call<'_>, out: &mut [u8], numbers: &mut [u64]| {
        let answer = second(call, out, numbers);
        if let Call::CheckMessages { buffer, .. } = *call {
            // A sum over the buffer, as a reader that looks at every byte has it.
            let sum = buffer
                .iter()
                .fold(0_u64, |sum, &byte| sum * 31 % 65_521 + u64::from(byte));
            if let Some(last) = numbers.last_mut() {
                *last ^= sum << 32;
            }
        }
        answer
    };
    found("SECRETS TELL", leaks);
}
