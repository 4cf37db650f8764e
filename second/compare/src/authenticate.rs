//! AUTHENTICATE messages.

use crate::names::name;
use crate::ntlm::{all_bytes, long_names, low_units, unit_names, Kind, Message};
use crate::random::Random;
use crate::wire::{
    drawn_flags, maybe_damaged, set_of, Head, KEY_EXCH, LONG, MAX_MESSAGE, OEM, UNICODE,
};

const FIXED: usize = 64;
const WITH_MIC: usize = 88;

/// Fields by their place among the heads.
const LM: usize = 0;
const NT: usize = 1;
const DOMAIN: usize = 2;
const USER: usize = 3;
const WORK: usize = 4;
const KEY: usize = 5;
const NAMES: [usize; 3] = [DOMAIN, USER, WORK];
const SECRETS: [usize; 3] = [LM, NT, KEY];
/// The order in which boxes send them.
const NAMES_FIRST: [usize; 6] = [DOMAIN, USER, WORK, LM, NT, KEY];

pub static KIND: Kind<6> = Kind {
    number: 3,
    heads_at: [12, 20, 28, 36, 44, 52],
    flags_at: 60,
    others_at: 0..0,
    fixed: FIXED,
    counting: KEY_EXCH,
    usual,
    // A key that counts, and one that doesn't.
    cut_flags: [UNICODE | KEY_EXCH, OEM],
    changed: FIXED,
    type_flags: UNICODE,
    other_types: &[0, 1, 2, 4],
    added_flags: &[0],
    misplaced: [
        Some((KEY, 0xFFFF_FFFF)),
        None,
        Some((KEY, 0xFFFF_FFFF)),
        None,
    ],
    with_head,
    own: &[
        |random, messages| KIND.max_lens(random, messages),
        names_beside_others,
        names_on_secrets,
        two_faults,
        mics,
        lengths,
        units,
        long_messages,
        long_lines,
        secrets_written_twice,
    ],
};

/// The fields' contents one after the other, in `order`.
fn laid_out(
    random: &mut Random,
    flags: u32,
    start: usize,
    contents: &[Vec<u8>; 6],
    order: [usize; 6],
) -> Message<6> {
    let contents = contents.each_ref().map(Vec::as_slice);
    KIND.ordered(random, flags, start, contents, order)
}

/// A message with one field that is not empty.
fn alone(random: &mut Random, flags: u32, field: usize, content: &[u8]) -> Message<6> {
    let mut contents = [&[][..]; 6];
    contents[field] = content;
    KIND.of(random, flags, WITH_MIC, contents)
}

/// Names, responses, and a key.
fn usual(random: &mut Random, flags: u32) -> Message<6> {
    let set = set_of(flags);
    let contents = [
        random.bytes(24),
        random.bytes(24),
        name(random, set, 4),
        name(random, set, 4),
        name(random, set, 4),
        random.bytes(16),
    ];
    laid_out(random, flags, WITH_MIC, &contents, NAMES_FIRST)
}

/// Among the other fields, or alone.
fn with_head(random: &mut Random, usual: &Message<6>, field: usize, head: Head) -> Vec<Message<6>> {
    let mut message = if random.one_in(2) {
        usual.clone()
    } else {
        KIND.empty(random, usual.flags, usual.len())
    };
    message.heads[field] = head;
    vec![message]
}

/// Each name beside, against and over each other field.
fn names_beside_others(random: &mut Random, messages: &mut Vec<Vec<u8>>) {
    // The other field stands at 120 to 139.
    const PLACES: [(usize, usize); 13] = [
        (8, 110),
        (8, 112),
        (8, 113),
        (8, 114),
        (8, 120),
        (8, 126),
        (8, 132),
        (8, 138),
        (8, 139),
        (8, 140),
        (20, 120),
        (36, 112),
        (0, 126),
    ];
    for flags in [UNICODE | KEY_EXCH, OEM | KEY_EXCH, UNICODE] {
        for named in NAMES {
            for other in (0..6).filter(|&other| other != named) {
                for (len, offset) in PLACES {
                    let mut message = KIND.empty(random, flags, 180);
                    message.heads[other] = Head::new(20, 120);
                    message.heads[named] = Head::new(len, offset);
                    messages.push(message.bytes());
                }
            }
        }
    }
}

/// Secrets on secrets and names on names; and every name on a secret.
fn names_on_secrets(random: &mut Random, messages: &mut Vec<Vec<u8>>) {
    for flags in [UNICODE | KEY_EXCH, OEM] {
        let mut message = KIND.empty(random, flags, 180);
        for (names_at, secrets_at) in [(100, 140), (140, 100), (120, 140), (138, 120)] {
            for field in NAMES {
                message.heads[field] = Head::new(20, names_at);
            }
            for field in SECRETS {
                message.heads[field] = Head::new(20, secrets_at);
            }
            messages.push(message.bytes());
        }
    }
}

/// Makes one of the checks 6 to 9 fail at a field. A secret has no 8 and no 9.
fn spoil(random: &mut Random, message: &mut Message<6>, check: usize, field: usize) {
    let secret_at = message.heads[random.pick(&SECRETS)].offset;
    let head = &mut message.heads[field];
    match check {
        6 => message.pass_end(random, field),
        7 => head.offset = random.pick(&[0, 2, 12, 62, 63]),
        8 if random.one_in(2) => head.len ^= 1,
        8 => head.offset ^= 1,
        _ => head.offset = secret_at,
    }
}

/// Two checks failing at two fields, in every order of both.
fn two_faults(random: &mut Random, messages: &mut Vec<Vec<u8>>) {
    for first in 6..=9 {
        for second in 6..=9 {
            for _ in 0..12 {
                let mut message = usual(random, UNICODE | KEY_EXCH);
                for check in [first, second] {
                    let field = if check < 8 {
                        random.below(6)
                    } else {
                        random.pick(&NAMES)
                    };
                    spoil(random, &mut message, check, field);
                }
                messages.push(message.bytes());
            }
        }
    }
}

/// The lowest field at each place around the MIC, and messages without fields
/// that end there.
fn mics(random: &mut Random, messages: &mut Vec<Vec<u8>>) {
    for place in FIXED..=WITH_MIC + 2 {
        for flags in [OEM, OEM | KEY_EXCH] {
            messages.push(KIND.empty(random, flags, place).bytes());
            for field in 0..6 {
                let mut message = KIND.empty(random, flags, 130);
                message.heads[field] = Head::new(2, place);
                message.heads[(field + 1) % 6] = Head::new(2, 128);
                messages.push(message.bytes());
            }
        }
    }
}

/// Secrets of each number of digits, and around 24 and 44.
fn lengths(random: &mut Random, messages: &mut Vec<Vec<u8>>) {
    for len in [
        0, 1, 9, 10, 11, 16, 23, 24, 25, 43, 44, 45, 99, 100, 101, 240, 280, 999, 1_000, 9_999,
        10_000, 65_447,
    ] {
        for field in SECRETS {
            let mut contents: [Vec<u8>; 6] = Default::default();
            contents[field] = random.bytes(len);
            let order = random.order();
            let flags = UNICODE | KEY_EXCH;
            let message = laid_out(random, flags, WITH_MIC, &contents, order);
            messages.push(message.bytes());
        }
    }
}

/// Every byte and every unit at an edge, in each name.
fn units(random: &mut Random, messages: &mut Vec<Vec<u8>>) {
    let high_units: Vec<u8> = (0..=u8::MAX).flat_map(|high| [0x41, high]).collect();
    for field in NAMES {
        let whole = [
            (OEM, all_bytes()),
            (UNICODE, low_units()),
            (UNICODE, high_units.clone()),
        ];
        for (set, name) in whole.into_iter().chain(unit_names()) {
            messages.push(alone(random, set, field, &name).bytes());
        }
    }
}

/// Around 65,535 bytes: with no field, and with a field that ends at the end.
fn long_messages(random: &mut Random, messages: &mut Vec<Vec<u8>>) {
    for len in LONG {
        for flags in [UNICODE, OEM, 0] {
            let mut message = KIND.empty(random, flags, len);
            messages.push(message.bytes());
            let field = len.min(MAX_MESSAGE) - WITH_MIC;
            message.heads[NT] = Head::new(field, WITH_MIC);
            messages.push(message.bytes());
            message.heads[NT] = Head::new(MAX_MESSAGE, FIXED);
            messages.push(message.bytes());
        }
    }
}

/// Lines of exactly the longest length, just under and over it, and far over.
fn long_lines(random: &mut Random, messages: &mut Vec<Vec<u8>>) {
    let words = "auth flags=00000000 set=U domain= user= work= lm=0 nt=0 key=0 mic=1 kind=none max=000000\n";
    long_names(random, words, |random, set, name| {
        let mut contents: [Vec<u8>; 6] = Default::default();
        contents[random.pick(&NAMES)] = name;
        let order = random.order();
        messages.push(laid_out(random, set, WITH_MIC, &contents, order).bytes());
    });
    let lengths = [4_000, 10_000, 16_000, 21_000, 32_000, 65_446];
    KIND.names_over_each_other(random, messages, 0, WITH_MIC, &NAMES, &lengths);
}

/// Two responses over the same bytes, which are around 65,535 bytes where each is
/// written by itself, or far more.
fn secrets_written_twice(random: &mut Random, messages: &mut Vec<Vec<u8>>) {
    for total in [65_533, 65_534, 65_535, 65_536, 65_537, 100_000] {
        let both = total - WITH_MIC;
        let mut message = KIND.empty(random, UNICODE, WITH_MIC + both / 2 + 1);
        message.heads[LM] = Head::new(both / 2, WITH_MIC);
        message.heads[NT] = Head::new(both - both / 2, WITH_MIC);
        messages.push(message.bytes());
    }
}

/// A message of any layout, sound or damaged.
pub fn drawn(random: &mut Random) -> Vec<u8> {
    if random.one_in(10) {
        return noise(random);
    }
    let flags = drawn_flags(random);
    let set = set_of(flags);
    let mut contents: [Vec<u8>; 6] = Default::default();
    for field in NAMES {
        let units = random.pick(&[0, 1, 4, 7, 20, 40]);
        contents[field] = name(random, set, units);
    }
    for field in SECRETS {
        let len = random.pick(&[0, 0, 1, 16, 24, 24, 48, 220, 301]);
        contents[field] = random.bytes(len);
    }
    let start = random.pick(&[FIXED, 72, 87, WITH_MIC, WITH_MIC, WITH_MIC, 90, 100]);
    // Names first keeps them at even places.
    let order = if random.one_in(3) {
        random.order()
    } else {
        random.pick(&[NAMES_FIRST, [USER, WORK, DOMAIN, KEY, NT, LM]])
    };
    let mut message = laid_out(random, flags, start, &contents, order);
    if random.one_in(6) {
        let (one, two) = (random.below(6), random.below(6));
        message.heads[one] = message.heads[two];
    }
    if random.one_in(4) {
        let (check, field) = (random.between(6, 9), random.below(6));
        spoil(random, &mut message, check, field);
    }
    message.stir_max_lens(random);
    maybe_damaged(random, message.bytes())
}

/// Any heads at all, with small numbers in them.
fn noise(random: &mut Random) -> Vec<u8> {
    let len = random.between(FIXED, 200);
    let flags = random.pick(&[UNICODE, OEM, OEM | KEY_EXCH, UNICODE | KEY_EXCH]);
    let mut message = KIND.empty(random, flags, len);
    for head in &mut message.heads {
        let field = random.pick(&[0, 0, 2, 4, 8, 17]);
        *head = Head::new(field, FIXED + random.below(len - FIXED + 4));
    }
    message.bytes()
}
