//! NL_AUTH messages.

use crate::dns_names::{self, coded};
use crate::names::{bytes_of_line, string, EDGES};
use crate::random::Random;
use crate::wire::{cut_or_changed, maybe_damaged, LONG, LONG_LINES};

/// Type, flags and buffer.
pub fn message(number: u32, flags: u32, buffer: &[u8]) -> Vec<u8> {
    let mut message = number.to_le_bytes().to_vec();
    message.extend(flags.to_le_bytes());
    message.extend(buffer);
    message
}

/// The first of the bits whose strings are names.
const NAMES: u32 = 0x4;

/// A request with one string for each set bit, those of C, D and E with jumps.
fn request(random: &mut Random, flags: u32) -> Vec<u8> {
    let mut buffer = Vec::new();
    let mut places = Vec::new();
    for bit in set_bits(flags) {
        if bit < NAMES {
            let len = random.pick(&[0, 1, 4, 4, 9, 20]);
            buffer.extend(string(random, len));
            places.push(buffer.len());
            buffer.push(0);
        } else {
            dns_names::put_drawn(random, &mut buffer, &mut places);
        }
    }
    message(0, flags, &buffer)
}

/// Those of the bits A to E that are set, A first.
fn set_bits(flags: u32) -> impl Iterator<Item = u32> {
    (0..5)
        .map(|bit| 1 << bit)
        .filter(move |bit| flags & bit != 0)
}

/// Messages at every boundary.
pub fn boundaries(random: &mut Random) -> Vec<Vec<u8>> {
    let mut messages = Vec::new();
    requests(random, &mut messages);
    strings(random, &mut messages);
    responses(random, &mut messages);
    types(random, &mut messages);
    units(&mut messages);
    long_messages(&mut messages);
    long_lines(random, &mut messages);
    messages.extend(dns_names::boundaries(random));
    messages
}

/// Every subset of the bits A to E, with other bits, with too much and too
/// little after them.
fn requests(random: &mut Random, messages: &mut Vec<Vec<u8>>) {
    for bits in 0..32 {
        for others in [0, 0x20, 0x8000_0000, 0xFFFF_FFE0] {
            messages.push(request(random, bits | others));
        }
        let sound = request(random, bits);
        for after in [&[0][..], &[1], &[0, 0], b"more\0"] {
            messages.push([&sound, after].concat());
        }
        messages.push(sound[..sound.len().saturating_sub(1)].to_vec());
    }
    for bits in [0x01, 0x0A, 0x1F] {
        let sound = request(random, bits);
        messages.extend(cut_or_changed(random, &sound, 8));
    }
}

/// Each string of each subset without its zero byte, and empty.
fn strings(random: &mut Random, messages: &mut Vec<Vec<u8>>) {
    for bits in 1_u32..32 {
        for chosen in set_bits(bits) {
            for (text, end) in [(&b"BOX7"[..], &b""[..]), (b"", b"\0"), (b"", b"")] {
                let mut buffer = Vec::new();
                let mut after_chosen = 0;
                for bit in set_bits(bits) {
                    let sound = if bit == chosen { text } else { b"LINE" };
                    if bit < NAMES {
                        buffer.extend([sound, b"\0"].concat());
                    } else if sound.is_empty() {
                        buffer.push(0);
                    } else {
                        buffer.extend(coded(&[sound]));
                    }
                    if bit == chosen {
                        buffer.truncate(buffer.len() - 1 + end.len());
                        after_chosen = buffer.len();
                    }
                }
                messages.push(message(0, bits, &buffer));
                // What is missing is the rest of the message too.
                if end.is_empty() {
                    messages.push(message(0, bits, &buffer[..after_chosen]));
                }
            }
        }
    }
    // Flags that ask for more strings than there are: every string is missed.
    for held in 0..5 {
        let buffer = random.pick(&[&b"\x01A\0"[..], b"\0"]).repeat(held);
        messages.push(message(0, 0x1F, &buffer));
    }
}

fn responses(random: &mut Random, messages: &mut Vec<Vec<u8>>) {
    let buffers: [&[u8]; 8] = [
        b"", b"\0", b"\x01", b"\xFF", b"\0\0", b"\0\x01", b"\x01\0", b"A\0",
    ];
    for flags in [0, 1, 0x1F, 0x20, u32::MAX] {
        for buffer in buffers {
            messages.push(message(1, flags, buffer));
        }
    }
    let sound = message(1, 0, b"\0");
    messages.extend(cut_or_changed(random, &sound, sound.len()));
}

fn types(random: &mut Random, messages: &mut Vec<Vec<u8>>) {
    for number in [
        2,
        3,
        0x100,
        0x101,
        0x1_0000,
        0x100_0000,
        0x8000_0000,
        u32::MAX,
    ] {
        messages.push(message(number, 0, b"\0"));
        let sound = request(random, 0x1F);
        messages.push(message(number, 0x1F, &sound[8..]));
    }
}

/// Every byte that a string can hold, in A and B; in C, D and E most of these
/// begin no name.
fn units(messages: &mut Vec<Vec<u8>>) {
    let mut all: Vec<u8> = (1..=u8::MAX).collect();
    all.push(0);
    for bit in 0..5 {
        messages.push(message(0, 1 << bit, &all));
    }
    messages.push(message(0, 0x1F, &all.repeat(5)));
    for byte in EDGES {
        for bit in 0..5 {
            messages.push(message(0, 1 << bit, &[byte, 0]));
        }
    }
}

/// Around 65,535 bytes.
fn long_messages(messages: &mut Vec<Vec<u8>>) {
    for len in LONG {
        // Plain, so that the line is no longer than the message allows.
        let mut text = vec![b'x'; len - 9];
        text.push(0);
        messages.push(message(0, 0x02, &text));
        messages.push(message(1, 0, &text));
        text.pop();
        text.push(b'x');
        messages.push(message(0, 0x02, &text));
    }
}

/// Lines of exactly the longest length, just under and over it, and far over.
fn long_lines(random: &mut Random, messages: &mut Vec<Vec<u8>>) {
    let words = "nl type=0 flags=00000000 a=\n";
    for line in LONG_LINES {
        for bit in 0..2 {
            let mut text = bytes_of_line(random, line, words);
            text.push(0);
            messages.push(message(0, 1 << bit, &text));
        }
        // D's name has more characters than bytes of its own.
        let words = "nl type=0 flags=0000000B a=\\x03pit b= d=dc.\\xFF.pit\n";
        let b = bytes_of_line(random, line, words);
        let buffer = [&b"\x03pit\0"[..], &b, b"\0\x02dc\x01\xFF\xC0\0"];
        messages.push(message(0, 0x0B, &buffer.concat()));
    }
    let mut escaped = vec![0xFF; 32_000];
    escaped.push(0);
    messages.push(message(0, 0x03, &escaped.repeat(2)));
}

/// A message of any flags and strings, sound or damaged.
pub fn drawn(random: &mut Random) -> Vec<u8> {
    let flags = u32::from_le_bytes(random.array());
    let message = match random.below(8) {
        0 => message(1, flags, b"\0"),
        1 => {
            let len = random.below(12);
            message(random.pick(&[0, 1, 2]), flags, &random.bytes(len))
        }
        _ => request(random, flags),
    };
    maybe_damaged(random, message)
}
