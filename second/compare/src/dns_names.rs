//! The names of NL_AUTH strings C, D and E: labels and jumps, at every boundary
//! of request 5/12.

use crate::names::{string, EDGES};
use crate::nl_auth::message;
use crate::random::Random;
use crate::wire::cut_or_changed;

/// Bits C, D and E.
const NAMES: [u32; 3] = [0x4, 0x8, 0x10];
const A: u32 = 0x1;
const B: u32 = 0x2;

/// Labels, each after its length, and no end. A length takes its low byte.
fn labels(labels: &[&[u8]]) -> Vec<u8> {
    let mut bytes = Vec::new();
    for label in labels {
        bytes.push(label.len().to_le_bytes()[0]);
        bytes.extend(*label);
    }
    bytes
}

/// A name that its zero byte ends.
pub fn coded(name: &[&[u8]]) -> Vec<u8> {
    [&labels(name)[..], &[0]].concat()
}

/// A jump to a place of the buffer, of which it has the low 14 bits.
fn jump(place: usize) -> [u8; 2] {
    let [low, high, ..] = place.to_le_bytes();
    [0xC0 | high, low]
}

/// A name that a jump ends.
fn jumping(name: &[&[u8]], place: usize) -> Vec<u8> {
    [&labels(name)[..], &jump(place)].concat()
}

/// A request of A and one name.
fn after_a(bit: u32, a: &[u8], name: &[u8]) -> Vec<u8> {
    message(0, A | bit, &[a, &[0], name].concat())
}

/// Puts a drawn name behind a buffer, often with a jump into it. `places` are
/// those where a label or an end stands, which mostly are jumped to.
pub fn put_drawn(random: &mut Random, buffer: &mut Vec<u8>, places: &mut Vec<usize>) {
    let start = buffer.len();
    let mut own = Vec::new();
    for _ in 0..random.pick(&[0, 1, 1, 2, 2, 3, 5]) {
        own.push(buffer.len());
        let len = if random.one_in(12) {
            random.pick(&[1, 2, 31, 61, 62, 63])
        } else {
            random.between(1, 9)
        };
        buffer.push(u8::try_from(len).expect("a length"));
        let label = if random.one_in(6) {
            random.bytes(len)
        } else {
            string(random, len)
        };
        buffer.extend(label);
    }
    own.push(buffer.len());
    if start == 0 || random.one_in(2) {
        buffer.push(0);
    } else if places.is_empty() || random.one_in(5) {
        buffer.extend(jump(random.below(start + 3)));
    } else {
        buffer.extend(jump(random.pick(places)));
    }
    places.extend(own);
}

/// The text of a name to write, mostly one that is accepted: labels around 63
/// bytes, names around 253, and full stops where none may stand.
pub fn drawn_text(random: &mut Random) -> Vec<u8> {
    let len = match random.below(16) {
        0 => random.between(250, 257),
        1 => random.between(60, 70),
        2 => random.between(100, 400),
        _ => random.pick(&[0, 1, 4, 9, 20]),
    };
    let mut text: Vec<u8> = string(random, len);
    for byte in &mut text {
        // What `string` draws has a full stop now and then.
        if *byte == b'.' {
            *byte = b'-';
        }
    }
    let mut at = random.pick(&[1, 4, 61, 62, 63, 63]);
    while at + 1 < len {
        text[at] = b'.';
        at += 1 + random.pick(&[1, 3, 7, 20, 61, 62, 63, 63]);
    }
    if random.one_in(12) {
        let places = [0, len / 2, len.saturating_sub(1), len, at];
        let at = random.pick(&places).min(len);
        text.insert(at, b'.');
    }
    if random.one_in(20) {
        let from = random.below(len + 1);
        text.splice(from..from, [b'w'; 64]);
    }
    text
}

/// Messages at every boundary of a name.
pub fn boundaries(random: &mut Random) -> Vec<Vec<u8>> {
    let mut messages = Vec::new();
    for bit in NAMES {
        jumps_followed(bit, &mut messages);
        run_starts(bit, &mut messages);
        cut_short(bit, &mut messages);
        first_bytes(bit, &mut messages);
        label_lengths(bit, &mut messages);
        coded_lengths(bit, &mut messages);
        coded_over_jumps(bit, &mut messages);
        far_places(bit, &mut messages);
        bytes_in_labels(bit, &mut messages);
    }
    jumps_of_each(&mut messages);
    every_place(&mut messages);
    next_strings(&mut messages);
    orders(&mut messages);
    controller(random, &mut messages);
    messages
}

/// A string A that holds 20 jumps: at 1 a label that covers them all, at 2 a
/// jump to it, and each later one to that before it.
fn chain() -> Vec<u8> {
    let mut a = vec![b'x', 40, 0xC0, 1];
    for at in (2..40).step_by(2) {
        a.extend(jump(at));
    }
    a
}

/// Where a jump into [`chain`] leads over so many jumps, its own among them.
fn entry(jumps: usize) -> usize {
    match jumps {
        1 => 1,
        _ => 2 * (jumps - 1),
    }
}

/// 0 to 20 jumps, with and without labels before; a seventeenth that is cut
/// short or goes to a place not before.
fn jumps_followed(bit: u32, messages: &mut Vec<Vec<u8>>) {
    let a = chain();
    messages.push(after_a(bit, &a, &coded(&[b"none"])));
    for count in 1..=20 {
        messages.push(after_a(bit, &a, &jump(entry(count))));
        messages.push(after_a(bit, &a, &jumping(&[b"h", b"dom"], entry(count))));
    }
    // The first jump of the chain, to its own place, after it and before it.
    for place in [1, 2, 3, 4, 0x3F] {
        for count in [15, 16, 17, 18] {
            let mut a = a.clone();
            a[3] = place;
            messages.push(after_a(bit, &a, &jump(entry(count))));
        }
    }
    // The label at 1 leads over all of A and the name to what stands after it.
    for count in [1, 2, 15, 16, 17] {
        for last in [&[0xC0][..], &[0xC0, 1], &[0xC0, 0], &[0x80], &[0x3F], &[0]] {
            let mut a = a.clone();
            a[1] = 43;
            let name = [&jump(entry(count))[..], last].concat();
            messages.push(after_a(bit, &a, &name));
        }
    }
}

/// Jumps in all three names: each has sixteen of its own.
fn jumps_of_each(messages: &mut Vec<Vec<u8>>) {
    let all = A | NAMES[0] | NAMES[1] | NAMES[2];
    for counts in [
        [16; 3],
        [1, 2, 3],
        [16, 1, 16],
        [8, 8, 8],
        [16, 16, 17],
        [5, 16, 1],
    ] {
        let names = counts.map(|count| jump(entry(count)));
        let buffer = [&chain()[..], &[0], names.as_flattened()].concat();
        messages.push(message(0, all, &buffer));
    }
}

/// A place around the first byte of the run of labels, and around the jump; the
/// same for a jump that was jumped to.
fn run_starts(bit: u32, messages: &mut Vec<Vec<u8>>) {
    let a = b"\x02ab\x01c\x03xyz";
    let start = a.len() + 1;
    let names: [&[&[u8]]; 3] = [&[], &[b"h"], &[b"host", b"h"]];
    for name in names {
        let end = start + labels(name).len();
        for place in (0..end + 5).chain([0x100, 0x3FFF]) {
            messages.push(after_a(bit, a, &jumping(name, place)));
        }
    }
    // A's own jump at 5 ends a run that starts at 3, 4 or 5 as it is jumped to.
    for target in 1..8 {
        let a = [b'x', 1, 1, 1, b'y', 0xC0, target, b'z'];
        for place in 0..9 {
            messages.push(after_a(bit, &a, &jumping(&[b"h"], place)));
        }
    }
    // The first string of a buffer has no place before it.
    for place in 0..4 {
        messages.push(message(0, bit, &jump(place)));
        messages.push(message(0, bit, &jumping(&[b"h"], place)));
    }
}

/// A name cut off everywhere, and a jump without its second byte.
fn cut_short(bit: u32, messages: &mut Vec<Vec<u8>>) {
    for name in [coded(&[b"one", b"three"]), jumping(&[b"one", b"three"], 0)] {
        for len in 0..name.len() {
            messages.push(after_a(bit, b"\x01x", &name[..len]));
        }
    }
    for first in [0xC0, 0xC1, 0xFE, 0xFF] {
        messages.push(message(0, bit, &[first]));
        messages.push(after_a(bit, b"\x01x", &[1, b'h', first]));
        // Jumped to: the label at 0 leads over A's end to the last byte.
        messages.push(after_a(bit, b"\x04xyz", &[0xC0, 0, first]));
    }
}

/// Every byte where a length byte or a jump is read: as the last one, with too
/// little after it, and with enough.
fn first_bytes(bit: u32, messages: &mut Vec<Vec<u8>>) {
    for byte in 0..=u8::MAX {
        let edge = matches!(byte % 64, 0 | 1 | 62 | 63);
        if edge || bit == NAMES[1] {
            messages.push(after_a(bit, b"\x01x", &[byte]));
            messages.push(after_a(bit, b"\x01x", &[byte, 0]));
        }
        if edge {
            messages.push(after_a(bit, b"\x01x", &[1, b'h', byte]));
            messages.push(after_a(bit, b"\x01x", &[1, b'h', byte, 0, 0]));
            let long = [&[byte][..], &[b'l'; 191], &[0]].concat();
            messages.push(after_a(bit, b"\x01x", &long));
            let exact = [&[byte][..], &vec![b'l'; usize::from(byte)], &[0]].concat();
            messages.push(after_a(bit, b"\x01x", &exact));
            // Jumped to.
            let a = [b'x', byte.max(1), b'y'];
            messages.push(after_a(bit, &a, &jump(1)));
        }
    }
}

/// Labels of 1 to 64 bytes, alone and after another.
fn label_lengths(bit: u32, messages: &mut Vec<Vec<u8>>) {
    let label = [b'l'; 66];
    for len in [1, 2, 31, 32, 61, 62, 63, 64, 65] {
        messages.push(message(0, bit, &coded(&[&label[..len]])));
        messages.push(message(0, bit, &coded(&[b"h", &label[..len], b"com"])));
        messages.push(after_a(bit, b"\x01x", &jumping(&[&label[..len]], 0)));
    }
}

/// Labels of so many bytes whose coded length is this, which is over 2. What is
/// left over goes to the last ones.
fn labels_of(coded: usize, size: usize) -> Vec<u8> {
    let mut left = coded - 1;
    let mut bytes = Vec::new();
    while left > 0 {
        let mut len = left.min(size + 1);
        if left == len + 1 {
            // No label would be left with its length byte alone.
            len = if size < 63 { len + 1 } else { len - 1 };
        }
        bytes.extend(labels(&[&vec![b'n'; len - 1]]));
        left -= len;
    }
    bytes
}

/// Coded lengths around 255, with what stands after the last label sound or not,
/// and the last label cut short.
fn coded_lengths(bit: u32, messages: &mut Vec<Vec<u8>>) {
    for size in [1, 9, 63] {
        for coded in [3, 128, 252, 253, 254, 255, 256, 257, 258, 300] {
            let name = labels_of(coded, size);
            for end in [
                &[0][..],
                &[],
                &[0x40],
                &[0xC0],
                &[0xC0, 0],
                &[0xFF, 0xFF],
                &[1],
            ] {
                messages.push(after_a(bit, b"\x01x", &[&name, end].concat()));
            }
            messages.push(after_a(bit, b"\x01x", &name[..name.len() - 1]));
        }
    }
}

/// The same with a part of the labels after a jump or two.
fn coded_over_jumps(bit: u32, messages: &mut Vec<Vec<u8>>) {
    for before in [3, 100, 150, 180] {
        // A has labels from 1 on, and B a label of one byte and a jump to them.
        let a = [&b"x"[..], &labels_of(before, 63), &[0]].concat();
        let b = [&jumping(&[b"y"], 1)[..], &[0]].concat();
        for all in [252, 253, 254, 255, 256, 257, 258] {
            let name = labels_of(all + 1 - before, 63);
            let once = [&a[..], &b, &name, &jump(1)].concat();
            messages.push(message(0, A | B | bit, &once));
            let name = labels_of(all - 1 - before, 63);
            let twice = [&a[..], &b, &name, &jump(a.len())].concat();
            messages.push(message(0, A | B | bit, &twice));
        }
    }
}

/// Places whose high and low bytes differ, around those that 8 and 14 bits have.
fn far_places(bit: u32, messages: &mut Vec<Vec<u8>>) {
    for place in [0xFE, 0xFF, 0x100, 0x101, 0x1FF, 0x203, 0x3FFE, 0x3FFF] {
        // What stands at the place, and what would if another byte came first.
        let mut a = vec![b'x'; place];
        a.extend(b"\x03far");
        messages.push(after_a(bit, &a, &jump(place)));
        messages.push(after_a(bit, &a, &jumping(&[b"h"], place)));
        a[1] = 2;
        messages.push(after_a(bit, &a, &jump(place)));
    }
    // A name that stands too far back to be jumped to: 14 bits are another place.
    let mut a = vec![b'x'; 0x4001];
    a.extend(b"\x03far");
    messages.push(after_a(bit, &a, &jump(0x4001)));
}

/// Every byte in a label, and those at the edges of what is escaped at each
/// place of one.
fn bytes_in_labels(bit: u32, messages: &mut Vec<Vec<u8>>) {
    let all: Vec<u8> = (0..=u8::MAX).collect();
    for half in all.chunks(128) {
        let name: Vec<&[u8]> = half.chunks(50).collect();
        messages.push(message(0, bit, &coded(&name)));
    }
    for byte in EDGES.into_iter().chain(*b".-,") {
        messages.push(message(0, bit, &coded(&[&[byte]])));
        messages.push(message(0, bit, &coded(&[&[byte, b'h'], &[b'h', byte]])));
        messages.push(message(0, bit, &coded(&[&[byte; 3], &[byte]])));
    }
    messages.push(message(0, bit, &coded(&[])));
}

/// A jump from each name to each place of a buffer with all strings: into A, B,
/// the middle of a label, a zero byte, another's jump and what is after it.
fn every_place(messages: &mut Vec<Vec<u8>>) {
    let start = [
        &b"\x03abc\x02de\0\x01f\x04gh\0"[..],
        &coded(&[b"i\x01j", b"\x02kl"]),
    ]
    .concat();
    let d = jumping(&[b"m\0"], 9);
    let all = A | B | NAMES[0] | NAMES[1] | NAMES[2];
    for place in 0..start.len() + d.len() + 8 {
        let d_jumps = [&start[..], &jumping(&[b"m\0"], place), &coded(&[b"n"])];
        messages.push(message(0, all, &d_jumps.concat()));
        let e_jumps = [&start[..], &d, &jumping(&[b"n"], place)];
        messages.push(message(0, all, &e_jumps.concat()));
        let both = [&start[..], &jump(place), &jump(place + 2)];
        messages.push(message(0, all, &both.concat()));
        let c_jumps = [&start[..13], &jump(place), &coded(&[b"d"]), &coded(&[])];
        messages.push(message(0, all, &c_jumps.concat()));
    }
}

/// Where a string starts after a name with no, one and two jumps, and bytes that
/// are left over.
fn next_strings(messages: &mut Vec<Vec<u8>>) {
    // Inside C's label stands a jump, at 2.
    let c = coded(&[b"\x01\xC0\0y", b"com"]);
    for d in [
        coded(&[b"d"]),
        jump(0).to_vec(),
        jump(2).to_vec(),
        jumping(&[b"d"], 5),
    ] {
        for e in [&b"\0"[..], b"\x01e\0", b"\xC0\x00", b"\xC0\x02", b""] {
            for after in [&b""[..], b"\0", b"\x01", b"\0\0"] {
                let buffer = [&c, &d[..], e, after].concat();
                messages.push(message(0, 0x1C, &buffer));
                messages.push(message(0, 0x0C, &buffer));
            }
        }
    }
}

/// Two strings with a fault each: the first decides.
fn orders(messages: &mut Vec<Vec<u8>>) {
    // 15, 50, 51 (twice), 53, and none.
    let faults = [
        b"\x09x".to_vec(),
        b"\x01x\x80".to_vec(),
        b"\xC0\x3F".to_vec(),
        b"\x01x\xFF\xFF".to_vec(),
        coded(&[&[b'l'; 63][..]; 4]),
        coded(&[b"sound"]),
    ];
    for first in &faults {
        for second in &faults {
            for flags in [0x0D, 0x15, 0x19, 0x1D] {
                messages.push(message(0, flags, &[&b"a\0"[..], first, second].concat()));
            }
        }
        messages.push(message(0, 0x07, &[&b"a\0b"[..], first].concat()));
        messages.push(message(0, 0x07, &[&b"a\0b\0"[..], first, b"\0"].concat()));
    }
}

/// A domain controller's request, its host name ending in its domain name: cut
/// off everywhere, and each byte changed.
fn controller(random: &mut Random, messages: &mut Vec<Vec<u8>>) {
    let start = [&b"DEPOT\0DC1\0"[..], &coded(&[b"depot", b"example"])].concat();
    let sound = [&start[..], &jumping(&[b"dc1"], 10), &jump(25)].concat();
    let sound = message(0, 0x1F, &sound);
    messages.extend(cut_or_changed(random, &sound, sound.len()));
    // Places as if they were counted from the message.
    for more in [8, 16] {
        let other = [&start[..], &jumping(&[b"dc1"], 10 + more), &jump(25 + more)];
        messages.push(message(0, 0x1F, &other.concat()));
    }
}
