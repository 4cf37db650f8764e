//! NEGOTIATE messages.

use crate::names::{bytes_of_line, name, Set, EDGES};
use crate::ntlm::{all_bytes, Kind, Message};
use crate::random::Random;
use crate::wire::{
    drawn_flags, maybe_damaged, Head, LONG, LONG_LINES, MAX_MESSAGE, OEM, OEM_DOMAIN,
    OEM_WORKSTATION, UNICODE,
};

const FIXED: usize = 32;
/// Where the payload starts after the Version.
const PAYLOAD: usize = 40;

const BOTH_NAMES: u32 = OEM_DOMAIN | OEM_WORKSTATION;

/// Fields by their place among the heads.
const DOMAIN: usize = 0;
const WORKSTATION: usize = 1;

pub static KIND: Kind<2> = Kind {
    number: 1,
    flags_at: 12,
    heads_at: [16, 24],
    others_at: 0..0,
    fixed: FIXED,
    counting: BOTH_NAMES,
    usual,
    cut_flags: [UNICODE | BOTH_NAMES, OEM | BOTH_NAMES],
    changed: PAYLOAD,
    type_flags: UNICODE | BOTH_NAMES,
    other_types: &[0, 2, 3],
    added_flags: &[0, BOTH_NAMES],
    misplaced: [
        Some((DOMAIN, 0xFFFF_FFFF)),
        Some((WORKSTATION, 3)),
        None,
        None,
    ],
    with_head,
    own: &[
        |random, messages| KIND.max_lens(random, messages),
        shared_bytes,
        two_faults,
        units,
        long_messages,
        long_lines,
    ],
};

/// Names of odd length at odd places, which no check forbids.
fn usual(random: &mut Random, flags: u32) -> Message<2> {
    let [domain, workstation] = [5, 7].map(|len| name(random, Set::Oem, len));
    KIND.of(random, flags, PAYLOAD, [&domain, &workstation])
}

/// Among the other field or alone, also where the field's bit is clear.
fn with_head(random: &mut Random, usual: &Message<2>, field: usize, head: Head) -> Vec<Message<2>> {
    let mut message = usual.clone();
    if random.one_in(2) {
        message.clear_heads();
    }
    message.heads[field] = head;
    let mut without = message.clone();
    without.flags &= ![OEM_DOMAIN, OEM_WORKSTATION][field];
    vec![message, without]
}

/// Names over each other and over the Version, which no check forbids.
fn shared_bytes(random: &mut Random, messages: &mut Vec<Vec<u8>>) {
    for flags in [UNICODE | BOTH_NAMES, OEM | BOTH_NAMES] {
        for place in FIXED..=PAYLOAD + 2 {
            for other in [FIXED, place, PAYLOAD + 5] {
                let mut message = KIND.empty(random, flags, 60);
                message.heads = [Head::new(9, place), Head::new(12, other)];
                messages.push(message.bytes());
                message.heads.swap(DOMAIN, WORKSTATION);
                messages.push(message.bytes());
            }
        }
    }
}

/// Makes check 6 or 7 fail at a name.
fn spoil(random: &mut Random, message: &mut Message<2>, check: usize, field: usize) {
    match check {
        6 => message.pass_end(random, field),
        7 => message.heads[field].offset = random.pick(&[0, 12, 16, 30, 31]),
        _ => {}
    }
}

/// Checks 6 and 7 failing at one name or both, in every order, also where a
/// name doesn't count.
fn two_faults(random: &mut Random, messages: &mut Vec<Vec<u8>>) {
    for checks in [0, 6, 7]
        .map(|one| [0, 6, 7].map(|two| [one, two]))
        .concat()
    {
        for names in [BOTH_NAMES, OEM_DOMAIN, OEM_WORKSTATION, 0] {
            for set in [UNICODE, OEM, 0] {
                let mut message = usual(random, set | names);
                for (field, check) in checks.into_iter().enumerate() {
                    spoil(random, &mut message, check, field);
                }
                messages.push(message.bytes());
            }
        }
    }
}

/// Every byte, in each name and with each set: none of them makes it a unit.
fn units(random: &mut Random, messages: &mut Vec<Vec<u8>>) {
    let mut alone = |name: &[u8]| {
        for set in [OEM, UNICODE, UNICODE | OEM] {
            for names in [[name, b""], [b"", name]] {
                let message = KIND.of(random, set | BOTH_NAMES, PAYLOAD, names);
                messages.push(message.bytes());
            }
        }
    };
    alone(&all_bytes());
    for byte in EDGES {
        alone(&[byte]);
        alone(&[byte, 0]);
    }
}

/// Around 65,535 bytes: with no field, and with a name that ends at the end.
fn long_messages(random: &mut Random, messages: &mut Vec<Vec<u8>>) {
    for len in LONG {
        for flags in [UNICODE | BOTH_NAMES, OEM | BOTH_NAMES, 0] {
            let mut message = KIND.empty(random, flags, len);
            messages.push(message.bytes());
            // Plain, so that the line is no longer than the message allows.
            message.rest.fill(b'x');
            let field = len.min(MAX_MESSAGE) - FIXED;
            for names in [[field, 0], [0, field], [field / 2, field]] {
                message.heads = names.map(|len| Head::new(len, FIXED));
                messages.push(message.bytes());
            }
            message.heads[WORKSTATION] = Head::new(MAX_MESSAGE, FIXED);
            messages.push(message.bytes());
        }
    }
}

/// Lines of exactly the longest length, just under and over it, and far over.
fn long_lines(random: &mut Random, messages: &mut Vec<Vec<u8>>) {
    let words = "nego flags=00000000 domain= work= max=00\n";
    for line in LONG_LINES {
        for set in [OEM, UNICODE] {
            let long = bytes_of_line(random, line, words);
            let (start, end) = long.split_at(random.below(long.len()));
            for names in [[&long, &b""[..]], [b"", &long], [start, end]] {
                let message = KIND.of(random, set | BOTH_NAMES, PAYLOAD, names);
                messages.push(message.bytes());
            }
        }
    }
    let names = [DOMAIN, WORKSTATION];
    let lengths = [8_000, 10_000, 32_000, 33_000, 65_495];
    KIND.names_over_each_other(random, messages, BOTH_NAMES, PAYLOAD, &names, &lengths);
}

/// A message of any layout, sound or damaged.
pub fn drawn(random: &mut Random) -> Vec<u8> {
    let mut flags = drawn_flags(random);
    if !random.one_in(3) {
        flags |= BOTH_NAMES;
    }
    let lens = [(); 2].map(|()| random.pick(&[0, 1, 4, 7, 15, 40]));
    let [domain, workstation] = lens.map(|len| name(random, Set::Oem, len));
    let start = random.pick(&[FIXED, 33, PAYLOAD, PAYLOAD, PAYLOAD, 48, 64]);
    let mut message = KIND.of(random, flags, start, [&domain, &workstation]);
    if random.one_in(6) {
        message.heads.swap(DOMAIN, WORKSTATION);
    }
    if random.one_in(4) {
        let (check, field) = (random.between(6, 7), random.below(2));
        spoil(random, &mut message, check, field);
    }
    message.stir_max_lens(random);
    maybe_damaged(random, message.bytes())
}
