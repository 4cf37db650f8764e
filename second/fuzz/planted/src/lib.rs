//! The library with one fault, for tools/test-fuzz. The crate is instrumented as the
//! second reader is, so that its comparisons guide the fuzzer as those of a faulty
//! library would: none of the faults is inlined into a crate that has no counters.

use compare::wide::call::{refusal, Call};
use compare::wide::hold::Library;

/// A fault: it may change what a call that wasn't refused gave.
type Fault = fn(&Call<'_>, &mut [u8], &mut [u64]);

/// The faults by name. Each takes some numbers that must agree.
const FAULTS: [(&str, Fault); 7] = [
    ("lengths", lengths),
    ("pair", pair),
    ("challenge_pair", challenge_pair),
    ("jump", jump),
    ("max_len", max_len),
    ("name", name),
    ("past_the_end", past_the_end),
];

/// A library with the fault of a name; as it is without one, or with the name `none`.
///
/// # Panics
///
/// Where no fault has that name.
pub fn planted(name: Option<&str>, library: impl Library) -> impl Library {
    let fault = name.filter(|name| *name != "none").map(|name| {
        let of_that_name = FAULTS.iter().find(|fault| fault.0 == name);
        of_that_name.expect("a fault of that name").1
    });
    move |call: &Call<'_>, out: &mut [u8], numbers: &mut [u64]| {
        let answer = library(call, out, numbers);
        if let (Some(fault), None) = (fault, refusal(answer)) {
            fault(call, out, numbers);
        }
        answer
    }
}

/// Where fields 3 to 5 of an AUTHENTICATE have their offset and length, and MaxLen.
const DOMAIN: usize = 6;
const USER: usize = 8;
const WORKSTATION: usize = 10;
const MAX_LEN_OF_USER: usize = 17;

/// The name of twelve bytes.
const NAME: &[u8; 12] = b"K\0i\0o\0s\0k\x009\0";

/// Three lengths.
#[inline(never)]
fn lengths(call: &Call<'_>, _: &mut [u8], numbers: &mut [u64]) {
    if let Call::ReadAuthenticate { .. } = call {
        if numbers[USER + 1] == 26 && numbers[WORKSTATION + 1] == 38 && numbers[DOMAIN + 1] == 50 {
            numbers[0] ^= 1;
        }
    }
}

/// Whether a list has a pair of an id with a length.
fn has(list: &[u8], id: u16, len: u16) -> bool {
    let mut rest = list;
    while let &[a, b, c, d, ref after @ ..] = rest {
        let this = u16::from_le_bytes([c, d]);
        if u16::from_le_bytes([a, b]) == id && this == len {
            return true;
        }
        rest = after.get(usize::from(this)..).unwrap_or_default();
    }
    false
}

/// A pair's id and its length, in a list by itself.
#[inline(never)]
fn pair(call: &Call<'_>, _: &mut [u8], numbers: &mut [u64]) {
    if let Call::CountPairs { list } = call {
        if has(list, 9, 22) {
            numbers[0] += 1;
        }
    }
}

/// A pair's id and its length, in a challenge that is read.
#[inline(never)]
fn challenge_pair(call: &Call<'_>, _: &mut [u8], numbers: &mut [u64]) {
    if let Call::ReadChallenge { message } = call {
        let (offset, len) = (numbers[3] as usize, numbers[4] as usize);
        if has(&message[offset..offset + len], 8, 53) {
            numbers[0] ^= 1;
        }
    }
}

/// The seventh jump of a name, and its place.
#[inline(never)]
fn jump(call: &Call<'_>, _: &mut [u8], numbers: &mut [u64]) {
    let Call::ReadNlAuth { message } = call else {
        return;
    };
    for string in [6, 8, 10] {
        let (start, len) = (numbers[string] as usize, numbers[string + 1]);
        if len > 0 && seventh_jump(&message[8..], start - 8) == Some(27) {
            numbers[1] ^= 1;
        }
    }
}

fn seventh_jump(buffer: &[u8], mut at: usize) -> Option<usize> {
    let mut jumps = 0;
    loop {
        match buffer[at] {
            0 => return None,
            len @ 1..=63 => at += 1 + usize::from(len),
            high => {
                at = usize::from(high & 0x3F) << 8 | usize::from(buffer[at + 1]);
                jumps += 1;
                if jumps == 7 {
                    return Some(at);
                }
            }
        }
    }
}

/// An offset and a MaxLen.
#[inline(never)]
fn max_len(call: &Call<'_>, _: &mut [u8], numbers: &mut [u64]) {
    if let Call::ReadAuthenticate { .. } = call {
        if numbers[USER] == 138 && numbers[MAX_LEN_OF_USER] as u16 == 375 {
            numbers[0] ^= 1;
        }
    }
}

/// A name, compared byte by byte.
#[inline(never)]
fn name(call: &Call<'_>, _: &mut [u8], numbers: &mut [u64]) {
    if let Call::ReadAuthenticate { message } = call {
        let (offset, len) = (numbers[USER] as usize, numbers[USER + 1] as usize);
        let user = &message[offset..offset + len];
        if user.len() == NAME.len() && user.iter().zip(NAME).all(|(one, two)| one == two) {
            numbers[0] ^= 1;
        }
    }
}

/// A byte written behind what is lent, after a message of one length.
#[inline(never)]
fn past_the_end(call: &Call<'_>, out: &mut [u8], _: &mut [u64]) {
    if let Call::CanonicalAuthenticate { message } = call {
        if message.len() == 211 {
            let after = out.as_mut_ptr_range().end;
            // The fault that is meant.
            unsafe { after.write_volatile(after.read_volatile().wrapping_add(1)) };
        }
    }
}
