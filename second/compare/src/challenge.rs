//! CHALLENGE messages.

use crate::names::name;
use crate::ntlm::{all_bytes, long_names, low_units, unit_names, Kind, Message};
use crate::pairs::{drawn_list, faults, Fault, List, IDS, TIMESTAMP};
use crate::random::Random;
use crate::wire::{
    drawn_flags, maybe_damaged, set_of, Head, LONG, MAX_MESSAGE, OEM, REQUEST_TARGET, TARGET_INFO,
    UNICODE,
};

const FIXED: usize = 48;
/// Where the payload starts after the Version.
const PAYLOAD: usize = 56;

const BOTH_FIELDS: u32 = REQUEST_TARGET | TARGET_INFO;

/// Fields by their place among the heads.
const NAME: usize = 0;
const INFO: usize = 1;

pub static KIND: Kind<2> = Kind {
    number: 2,
    heads_at: [12, 40],
    flags_at: 20,
    // ServerChallenge and Reserved.
    others_at: 24..40,
    fixed: FIXED,
    counting: BOTH_FIELDS,
    usual,
    cut_flags: [UNICODE | BOTH_FIELDS, OEM | BOTH_FIELDS],
    changed: FIXED,
    type_flags: UNICODE | BOTH_FIELDS,
    other_types: &[0, 1, 3],
    added_flags: &[0],
    misplaced: [Some((NAME, 0xFFFF_FFFF)), Some((INFO, 3)), None, None],
    with_head,
    own: &[
        |random, messages| KIND.max_lens(random, messages),
        two_faults,
        ids,
        times,
        sizes,
        counts,
        orders,
        faulty_lists,
        faulty_lists_elsewhere,
        places,
        units,
        long_messages,
        long_lines,
    ],
};

/// A name and a list of names and a time.
fn usual(random: &mut Random, flags: u32) -> Message<2> {
    let target = name(random, set_of(flags), 5);
    let list = List::sound(random, &[2, 1, 4, 3, TIMESTAMP]).ended();
    KIND.of(random, flags, PAYLOAD, [&target, &list])
}

/// Among the other field or alone, with any MaxLen.
fn with_head(random: &mut Random, usual: &Message<2>, field: usize, head: Head) -> Vec<Message<2>> {
    let mut message = usual.clone();
    if random.one_in(2) {
        message.clear_heads();
    }
    message.heads[field] = Head {
        max_len: u16::from_le_bytes(random.array()),
        ..head
    };
    vec![message]
}

/// A message with both fields and this list.
fn with_list(random: &mut Random, list: &[u8]) -> Vec<u8> {
    let flags = random.pick(&[UNICODE, OEM]) | BOTH_FIELDS;
    let target = name(random, set_of(flags), 2);
    KIND.of(random, flags, PAYLOAD, [&target, list]).bytes()
}

/// A message with this name and no list.
fn with_name(random: &mut Random, set: u32, name: &[u8]) -> Vec<u8> {
    let flags = set | REQUEST_TARGET;
    KIND.of(random, flags, PAYLOAD, [name, &[]]).bytes()
}

/// Checks 6, 7 and 8 failing at both fields, in every order, also with a
/// faulty list, which comes last.
fn two_faults(random: &mut Random, messages: &mut Vec<Vec<u8>>) {
    let spoil = |head: &mut Head, check: usize, total: usize| match check {
        6 => head.offset = u32::try_from(total).expect("a length") - 1,
        7 => head.offset = 46,
        8 => head.offset += 1,
        _ => {}
    };
    for name_check in [0, 6, 7, 8] {
        for info_check in [0, 6, 7] {
            for list_is_sound in [true, false] {
                for flags in [UNICODE, OEM] {
                    let mut message = usual(random, flags | BOTH_FIELDS);
                    if !list_is_sound {
                        message.heads[INFO].len -= 1;
                    }
                    let total = message.len();
                    spoil(&mut message.heads[NAME], name_check, total);
                    spoil(&mut message.heads[INFO], info_check, total);
                    messages.push(message.bytes());
                }
            }
        }
    }
}

/// Each id alone, twice, and beside a timestamp; no pairs, and an empty
/// TargetInfo.
fn ids(random: &mut Random, messages: &mut Vec<Vec<u8>>) {
    for id in IDS {
        for ids in [&[id][..], &[id, id], &[TIMESTAMP, id], &[id, 8, TIMESTAMP]] {
            let list = List::sound(random, ids).ended();
            messages.push(with_list(random, &list));
        }
    }
    for list in [List::default().ended(), Vec::new()] {
        messages.push(with_list(random, &list));
    }
}

/// Timestamps, the first of two counting.
fn times(random: &mut Random, messages: &mut Vec<Vec<u8>>) {
    for time in [0, 1, 0x0123_4567_89AB_CDEF, u64::MAX, 1 << 63, 0xFF] {
        let mut list = List::default();
        list.put(TIMESTAMP, &u64::to_le_bytes(time));
        list.put_sound(random, TIMESTAMP);
        messages.push(with_list(random, &list.ended()));
    }
}

/// Sizes that ids 1 to 5 and 9 and unknown ids may have.
fn sizes(random: &mut Random, messages: &mut Vec<Vec<u8>>) {
    for len in [0, 2, 4, 254, 256, 1_000] {
        for id in [1, 2, 3, 4, 5, 9, 8, 11] {
            let mut list = List::default();
            list.put(id, &random.bytes(len));
            messages.push(with_list(random, &list.ended()));
        }
    }
}

/// Counts of each number of digits.
fn counts(random: &mut Random, messages: &mut Vec<Vec<u8>>) {
    for count in [9, 10, 11, 99, 100, 999, 1_000, 9_999, 10_000, 16_300] {
        let mut list = List::default();
        for _ in 0..count {
            list.put(random.pick(&[1, 2, 5, 8, 9, 11]), &[]);
        }
        messages.push(with_list(random, &list.ended()));
    }
}

/// What the list that goes back changes, leaves out or adds: flags, a time, a
/// target name and bindings, beside a pair that stays. Every sequence of up to
/// three of them; the four in every order, once, twice, and where TargetInfo
/// doesn't count.
pub fn orders(random: &mut Random, messages: &mut Vec<Vec<u8>>) {
    let ids = [1, 6, TIMESTAMP, 9, 10];
    for ids in sequences(&ids, 3) {
        let list = List::sound(random, &ids).ended();
        messages.push(with_list(random, &list));
    }
    for order in permutations(&ids[1..]) {
        let once = List::sound(random, &order).ended();
        messages.push(with_list(random, &once));
        let twice = List::sound(random, &[&order[..], &[1], &order].concat()).ended();
        messages.push(with_list(random, &twice));
        let uncounted = KIND.of(random, UNICODE | REQUEST_TARGET, PAYLOAD, [&[], &once]);
        messages.push(uncounted.bytes());
    }
}

/// Every sequence of up to so many of these ids.
fn sequences(ids: &[u16], longest: usize) -> Vec<Vec<u16>> {
    let mut all = vec![Vec::new()];
    if longest > 0 {
        for rest in sequences(ids, longest - 1) {
            all.extend(ids.iter().map(|&id| [&[id], &rest[..]].concat()));
        }
    }
    all
}

/// Every order of these ids.
fn permutations(ids: &[u16]) -> Vec<Vec<u16>> {
    if ids.is_empty() {
        return vec![Vec::new()];
    }
    let first = |at: usize| {
        let mut rest = ids.to_vec();
        let id = rest.remove(at);
        permutations(&rest)
            .into_iter()
            .map(move |rest| [&[id], &rest[..]].concat())
    };
    (0..ids.len()).flat_map(first).collect()
}

/// Every fault at every place of lists of up to four pairs, in every other one
/// with one more fault after it.
fn faulty_lists(random: &mut Random, messages: &mut Vec<Vec<u8>>) {
    let faults = faults();
    for before in 0..5 {
        for &fault in &faults {
            let mut list = List::default();
            for _ in 0..before {
                let id = random.pick(&IDS);
                list.put_sound(random, id);
            }
            list.put_fault(random, fault);
            // A value past the end stays past it only where nothing follows.
            if matches!(fault, Fault::Size(..)) && random.one_in(2) {
                let more = random.pick(&faults);
                list.put_fault(random, more);
            }
            messages.push(with_list(random, &list.bytes()));
        }
    }
}

/// Each fault in a list that doesn't count, and in one that stands before the
/// name.
fn faulty_lists_elsewhere(random: &mut Random, messages: &mut Vec<Vec<u8>>) {
    for fault in faults() {
        let mut list = List::sound(random, &[1]);
        list.put_fault(random, fault);
        let list = list.bytes();
        let message = KIND.of(random, UNICODE | REQUEST_TARGET, PAYLOAD, [&[], &list]);
        messages.push(message.bytes());
        let mut message = KIND.of(random, OEM | BOTH_FIELDS, FIXED, [&[], &list]);
        message.heads[NAME] = Head::new(4, message.len());
        message.rest.extend(b"NAME");
        messages.push(message.bytes());
    }
}

/// A fault of each number at the first pair, the second, and after many, with
/// pairs behind it where it leaves room for them; and each in a list that begins
/// at an odd, an even and a far place, or ends with the longest message.
fn places(random: &mut Random, messages: &mut Vec<Vec<u8>>) {
    let faults = [
        Fault::Cut(0),
        Fault::Cut(1),
        Fault::Cut(2),
        Fault::Cut(3),
        Fault::EndLength(4, 4),
        Fault::AfterEnd(1),
        Fault::AfterEnd(12),
        Fault::PastEnd(8, 1),
        Fault::SizePastEnd(6, 5),
        Fault::Size(1, 3),
        Fault::Size(6, 2),
    ];
    for before in [0, 1, 60] {
        for fault in faults {
            let mut list = List::default();
            for _ in 0..before {
                let id = random.pick(&IDS);
                list.put_sound(random, id);
            }
            list.put_fault(random, fault);
            let list = list.bytes();
            for start in [FIXED, 49, 255, 256, 4_097, MAX_MESSAGE - list.len()] {
                messages.push(list_at(random, start, &list));
            }
        }
    }
}

/// A message whose list begins at `start`, and whose name is empty.
fn list_at(random: &mut Random, start: usize, list: &[u8]) -> Vec<u8> {
    let flags = random.pick(&[UNICODE, OEM]) | BOTH_FIELDS;
    KIND.of(random, flags, start, [&[], list]).bytes()
}

/// Every byte and every unit at an edge.
fn units(random: &mut Random, messages: &mut Vec<Vec<u8>>) {
    let whole = [(OEM, all_bytes()), (UNICODE, low_units())];
    for (set, name) in whole.into_iter().chain(unit_names()) {
        messages.push(with_name(random, set, &name));
    }
}

/// Around 65,535 bytes: with no field, and with a field that ends at the end.
fn long_messages(random: &mut Random, messages: &mut Vec<Vec<u8>>) {
    for len in LONG {
        for flags in [UNICODE | BOTH_FIELDS, OEM | BOTH_FIELDS] {
            let mut message = KIND.empty(random, flags, len);
            messages.push(message.bytes());
            let field = len.min(MAX_MESSAGE) - FIXED;
            message.heads[INFO] = Head::new(field, FIXED);
            messages.push(message.bytes());
            // One pair over all of it, then the end pair.
            let mut list = List::default();
            list.put(8, &vec![7; field - 8]);
            let list = list.ended();
            message.rest[..list.len()].copy_from_slice(&list);
            messages.push(message.bytes());
            message.heads[NAME] = Head::new(field - field % 2, FIXED);
            message.heads[INFO] = Head::default();
            message.rest.fill(b'x');
            messages.push(message.bytes());
        }
    }
}

/// Lines of exactly the longest length, just under and over it, and far over.
fn long_lines(random: &mut Random, messages: &mut Vec<Vec<u8>>) {
    let words = "chal flags=00000000 set=U target= pairs=0 max=00\n";
    long_names(random, words, |random, set, name| {
        messages.push(with_name(random, set, &name));
    });
    for set in [OEM, UNICODE] {
        messages.push(with_name(random, set, &[0xFF; 65_478]));
    }
}

/// A message of any layout, sound or damaged.
pub fn drawn(random: &mut Random) -> Vec<u8> {
    let mut flags = drawn_flags(random);
    if !random.one_in(4) {
        flags |= BOTH_FIELDS;
    }
    let list = drawn_list(random);
    let units = random.pick(&[0, 1, 4, 7, 20]);
    let target = name(random, set_of(flags), units);
    let start = random.pick(&[FIXED, 50, PAYLOAD, PAYLOAD, 60, 64]);
    let mut message = KIND.of(random, flags, start, [&target, &list]);
    message.stir_max_lens(random);
    maybe_damaged(random, message.bytes())
}
