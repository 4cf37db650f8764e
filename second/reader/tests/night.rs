//! Document 02, request 8/12: a night's messages in one call, and each of its
//! settled readings.

mod common;

use common::*;
use reader::{check_messages, Authenticate, Challenge, Entry, Negotiate, Reason, MAX_MESSAGE};

const FLAGS: u32 = UNICODE | REQUEST_TARGET | TARGET_INFO;

const MARKS: [u32; 3] = [Entry::NEGOTIATE, Entry::CHALLENGE, Entry::AUTHENTICATE];

/// An entry whose old answer stands in the room for the new one.
fn entry(start: usize, length: usize, mark: u32) -> Entry {
    Entry {
        number: 77,
        field: 78,
        place: 79,
        ..Entry::new(start as u64, length as u64, mark)
    }
}

/// P1, a NEGOTIATE, a CHALLENGE and one whose pair list is cut short at 64.
fn messages() -> [Vec<u8>; 4] {
    let name = utf16("PEER");
    [
        p1(),
        negotiate(OEM | OEM_DOMAIN, b"DEPOT", b""),
        challenge(FLAGS, &name, &list(&[(7, &[9; 8])])),
        challenge(FLAGS, &name, &pair(7, &[9; 8])),
    ]
}

/// Where each message stands in the buffer of all.
fn starts(messages: &[Vec<u8>]) -> Vec<usize> {
    let mut next = 0;
    let start = messages.iter().map(|message| {
        next += message.len();
        next - message.len()
    });
    start.collect()
}

/// What a single call on the bytes gives: number, field and place, all 0 if taken.
fn single(message: &[u8], mark: u32) -> [u32; 3] {
    let read = match mark {
        Entry::NEGOTIATE => Negotiate::read(message).map(drop),
        Entry::CHALLENGE => Challenge::read(message).map(drop),
        _ => Authenticate::read(message).map(drop),
    };
    read.map_or_else(
        |refusal| {
            [
                u32::from(refusal.number()),
                u32::from(refusal.field),
                refusal.place as u32,
            ]
        },
        |()| [0; 3],
    )
}

/// The answers to these entries, of which nothing else has changed.
fn answers(buffer: &[u8], listed: &[Entry]) -> Vec<[u32; 3]> {
    let mut entries = listed.to_vec();
    assert_eq!(check_messages(buffer, &mut entries), Ok(()));
    let answer = |(entry, before): (&Entry, &Entry)| {
        let answer = [entry.number, entry.field, entry.place];
        let [number, field, place] = answer;
        let expected = Entry {
            number,
            field,
            place,
            ..*before
        };
        assert_eq!(*entry, expected);
        answer
    };
    entries.iter().zip(listed).map(answer).collect()
}

/// The answer to one entry.
fn answer(buffer: &[u8], start: u64, length: u64, mark: u32) -> [u32; 3] {
    let listed = Entry {
        start,
        length,
        ..entry(0, 0, mark)
    };
    answers(buffer, &[listed])[0]
}

#[test]
fn each_entry_has_the_answer_of_a_single_call() {
    let messages = messages();
    let buffer = messages.concat();
    let mut listed = Vec::new();
    let mut expected = Vec::new();
    for (start, message) in starts(&messages).into_iter().zip(&messages) {
        for mark in MARKS {
            for cut in 0..=message.len() {
                listed.push(entry(start, message.len() - cut, mark));
                expected.push(single(&message[..message.len() - cut], mark));
            }
        }
    }
    assert_eq!(answers(&buffer, &listed), expected);
    // "All 0 if taken"; the place counts from the entry's own message.
    assert_eq!(answer(&buffer, 0, 120, Entry::AUTHENTICATE), [0; 3]);
    let [_, _, _, start] = starts(&messages)[..] else {
        unreachable!("four messages");
    };
    let length = (buffer.len() - start) as u64;
    let cut = answer(&buffer, start as u64, length, Entry::CHALLENGE);
    assert_eq!(cut, [11, 2, 76]);
}

#[test]
fn the_mark_decides_and_not_the_type() {
    let message = p1();
    assert_eq!(answer(&message, 0, 120, Entry::NEGOTIATE), [4, 0, 0]);
    assert_eq!(answer(&message, 0, 120, Entry::CHALLENGE), [4, 0, 0]);
    assert_eq!(answer(&message, 0, 120, Entry::AUTHENTICATE), [0; 3]);
    // "One that is none of the three gets 4 with field and place 0, after 54",
    // before any check of the message.
    for mark in [0, 4, 0x103, 0x1_0003, 0x8000_0003, u32::MAX] {
        for length in [0, 11, 120] {
            assert_eq!(answer(&message, 0, length, mark), [4, 0, 0]);
        }
        assert_eq!(answer(&message, 0, 121, mark), [54, 0, 0]);
    }
}

#[test]
fn a_place_outside_comes_before_all_others_and_sums_do_not_wrap() {
    let message = p1();
    for mark in MARKS {
        // "Start at the end with length 0 is 2; start past the end with length 0
        // is 54."
        assert_eq!(answer(&message, 120, 0, mark), [2, 0, 0]);
        assert_eq!(answer(&message, 121, 0, mark), [54, 0, 0]);
        assert_eq!(answer(&[], 0, 0, mark), [2, 0, 0]);
        assert_eq!(answer(&[], 0, 1, mark), [54, 0, 0]);
        for (start, length) in [
            (0, 121),
            (1, 120),
            (119, 2),
            (120, 1),
            (u64::MAX, 0),
            (u64::MAX, 1),
            (u64::MAX, 121),
            (1, u64::MAX),
            (121, u64::MAX - 120),
            (u64::MAX, u64::MAX),
            (1 << 32, 120),
            (0, 1 << 32 | 120),
            (1 << 63, 1 << 63),
        ] {
            assert_eq!(answer(&message, start, length, mark), [54, 0, 0]);
        }
    }
    assert_eq!(Reason::PlaceOutside as u8, 54);
}

#[test]
fn places_may_overlap_and_repeat() {
    let message = p1();
    let twice = [message.clone(), message].concat();
    let whole = entry(0, 240, Entry::AUTHENTICATE);
    let listed = [
        entry(120, 120, Entry::AUTHENTICATE),
        whole,
        entry(1, 239, Entry::AUTHENTICATE),
        entry(120, 120, Entry::AUTHENTICATE),
        whole,
        entry(0, 119, Entry::AUTHENTICATE),
    ];
    let taken = [0; 3];
    let expected = [taken, taken, [3, 0, 0], taken, taken, [6, 2, 0]];
    assert_eq!(answers(&twice, &listed), expected);
    // In any order.
    let backwards: Vec<Entry> = listed.into_iter().rev().collect();
    let expected: Vec<_> = expected.into_iter().rev().collect();
    assert_eq!(answers(&twice, &backwards), expected);
}

#[test]
fn a_buffer_over_65535_bytes_is_1_and_changes_no_entry() {
    let mut buffer = p1();
    buffer.resize(MAX_MESSAGE, 0);
    let listed = [entry(0, 120, Entry::AUTHENTICATE), entry(9, 9, 9)];
    assert_eq!(answers(&buffer, &listed), [[0; 3], [4, 0, 0]]);
    let mut all = [entry(0, MAX_MESSAGE, Entry::AUTHENTICATE)];
    assert_eq!(check_messages(&buffer, &mut all), Ok(()));
    assert_eq!(all[0].number, 0);
    buffer.push(0);
    let mut entries = listed;
    let answer = check_messages(&buffer, &mut entries);
    assert_eq!((refused(answer), entries), ((1, 0), listed));
    // "1 also with an empty list."
    assert_eq!(refused(check_messages(&buffer, &mut [])), (1, 0));
}

#[test]
fn an_empty_list_does_nothing() {
    assert_eq!(check_messages(&p1(), &mut []), Ok(()));
    assert_eq!(check_messages(&[], &mut []), Ok(()));
}
