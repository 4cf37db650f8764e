//! What the calls are given: messages drawn and mutated, and what is written.

use crate::names::{name, string, Set};
use crate::random::Random;
use crate::wire::{damage, offsets, set_of, FIELD_LENGTHS, LONG, MAX_MESSAGE};
use crate::wire::{KEY_EXCH, OEM, UNICODE};
use crate::{authenticate, challenge, dns_names, negotiate, nl_auth, pairs};

use super::call::{Call, Parts};

/// Where heads stand in some kind of message.
fn head_places() -> Vec<usize> {
    // The first of a CHALLENGE stands where an AUTHENTICATE has one too.
    let [_, target_info] = challenge::KIND.heads_at;
    [
        &authenticate::KIND.heads_at[..],
        &[target_info],
        &negotiate::KIND.heads_at,
    ]
    .concat()
}

/// Where flags stand in each kind of message, NL_AUTH first.
fn flag_places() -> [usize; 4] {
    [
        4,
        negotiate::KIND.flags_at,
        challenge::KIND.flags_at,
        authenticate::KIND.flags_at,
    ]
}

/// A message of any kind, sound or damaged, of 0 to 66,000 bytes. `captured`
/// are sound ones to mutate.
pub fn message(random: &mut Random, captured: &[Vec<u8>]) -> Vec<u8> {
    let mut message = match random.below(24) {
        0..=4 => authenticate::drawn(random),
        5..=11 => challenge::drawn(random),
        12..=13 => nl_auth::drawn(random),
        14..=17 => negotiate::drawn(random),
        18..=22 if !captured.is_empty() => {
            let message = captured[random.below(captured.len())].clone();
            mutated(random, message)
        }
        _ => {
            let len = random.below(200);
            random.bytes(len)
        }
    };
    if random.one_in(250) {
        // Cut off, or with bytes after it that no field covers.
        let len = if random.one_in(2) {
            random.pick(&LONG)
        } else {
            random.below(66_001)
        };
        message.resize(len, random.byte());
    }
    message
}

/// One to three changes: a head's length or offset at a boundary, a flag, or
/// damage anywhere.
fn mutated(random: &mut Random, mut message: Vec<u8>) -> Vec<u8> {
    for _ in 0..random.between(1, 3) {
        match random.below(4) {
            0 | 1 => boundary_head(random, &mut message),
            2 => {
                let at = random.pick(&flag_places()) + random.below(4);
                if let Some(byte) = message.get_mut(at) {
                    *byte ^= 1 << random.below(8);
                }
            }
            _ => damage(random, &mut message),
        }
    }
    message
}

/// A head's length or offset, or both, at a boundary; or its MaxLen.
fn boundary_head(random: &mut Random, message: &mut [u8]) {
    let total = message.len();
    let head = random.pick(&head_places());
    let Some(bytes) = message.get_mut(head..head + 8) else {
        return;
    };
    let mut len = u16::from_le_bytes([bytes[0], bytes[1]]);
    let change = random.below(4);
    if change == 3 {
        let max_len = random.pick(&[0, 1, len ^ 1, len ^ 0x100, 0xFFFF]);
        bytes[2..4].copy_from_slice(&max_len.to_le_bytes());
        return;
    }
    if change != 0 {
        len = boundary_len(random, total);
        bytes[..2].copy_from_slice(&len.to_le_bytes());
    }
    if change != 1 {
        let offset = boundary_offset(random, len, total);
        bytes[4..].copy_from_slice(&offset.to_le_bytes());
    }
}

/// 0, 1, a fixed part, what the message has, 0xFFFF and others.
pub fn boundary_len(random: &mut Random, total: usize) -> u16 {
    let whole = u16::try_from(total).unwrap_or(u16::MAX);
    match random.below(3) {
        0 => random.pick(&FIELD_LENGTHS),
        1 => random.pick(&[
            32,
            40,
            48,
            64,
            88,
            whole,
            whole.wrapping_sub(40),
            whole.wrapping_sub(88),
            whole.wrapping_add(1),
        ]),
        _ => u16::from(random.byte()),
    }
}

/// 0, 1, around the fixed parts, around the message's end and 0xFFFFFFFF.
pub fn boundary_offset(random: &mut Random, len: u16, total: usize) -> u32 {
    match random.below(3) {
        0 => random.pick(&[0, 1, 32, 40, 64, 88]),
        1 => u32::try_from(random.below(total + 2)).expect("an offset"),
        _ => random.pick(&offsets(len, total)),
    }
}

/// A challenge to answer: the message itself where it is one, and mostly a
/// drawn one where it isn't.
pub fn challenge(random: &mut Random, message: &[u8]) -> Vec<u8> {
    let is_challenge = message.get(8..12) == Some(&[2, 0, 0, 0]);
    if is_challenge || random.one_in(4) {
        message.to_vec()
    } else {
        challenge::drawn(random)
    }
}

/// Flags that decide something, mostly with a character set.
pub fn flags(random: &mut Random) -> u32 {
    let flags = u32::from_le_bytes(random.array());
    if random.one_in(16) {
        flags & !(UNICODE | OEM)
    } else {
        flags | random.pick(&[UNICODE, OEM])
    }
}

/// The parts of a message to write.
#[derive(Clone, Debug)]
pub struct Drawn {
    version: [u8; 8],
    mic: [u8; 16],
    lm: Vec<u8>,
    nt: Vec<u8>,
    domain: Vec<u8>,
    user: Vec<u8>,
    workstation: Vec<u8>,
    key: Vec<u8>,
}

impl Drawn {
    /// Parts for a message with these flags, mostly such as are accepted.
    pub fn new(random: &mut Random, flags: u32) -> Self {
        let set = set_of(flags);
        let part = |random: &mut Random| {
            let units = random.pick(&[0, 0, 1, 4, 7, 30]);
            let mut part = name(random, set, units);
            if random.one_in(24) {
                part.push(random.byte());
            }
            part
        };
        let [domain, user, workstation] = std::array::from_fn(|_| part(random));
        let secret = |random: &mut Random, lens: &[usize]| {
            let len = random.pick(lens);
            random.bytes(len)
        };
        let mut drawn = Self {
            version: random.array(),
            mic: random.array(),
            lm: secret(random, &[0, 1, 24, 24, 25]),
            nt: secret(random, &[0, 16, 24, 52, 220]),
            domain,
            user,
            workstation,
            key: if flags & KEY_EXCH != 0 {
                secret(random, &[0, 16, 16, 16, 16, 16, 15, 17, 32])
            } else {
                secret(random, &[0, 0, 0, 0, 0, 0, 0, 0, 0, 0, 0, 0, 1, 16])
            },
        };
        if random.one_in(100) {
            drawn.lengthen(random);
        }
        drawn
    }

    /// Makes the message around 65,535 bytes long, or far longer.
    fn lengthen(&mut self, random: &mut Random) {
        let others: usize = self.fields().iter().map(|field| field.len()).sum();
        let total = random.pick(&LONG).max(88 + others);
        let more = random.pick(&[total - 88 - others, MAX_MESSAGE, 0x1_0000]);
        let field = match random.below(5) {
            0 => &mut self.lm,
            1 => &mut self.domain,
            2 => &mut self.user,
            3 => &mut self.workstation,
            _ => &mut self.nt,
        };
        field.resize(field.len() + more, b'x');
    }

    pub fn parts(&self) -> Parts<'_> {
        Parts {
            version: &self.version,
            mic: &self.mic,
            lm: &self.lm,
            nt: &self.nt,
            domain: &self.domain,
            user: &self.user,
            workstation: &self.workstation,
            key: &self.key,
        }
    }

    fn fields(&self) -> [&[u8]; 6] {
        let Self {
            lm,
            nt,
            domain,
            user,
            workstation,
            key,
            ..
        } = self;
        [lm, nt, domain, user, workstation, key]
    }

    /// LM response, NT response and key of the same lengths, with other bytes.
    pub fn other_secrets(&self, random: &mut Random) -> [Vec<u8>; 3] {
        [&self.lm, &self.nt, &self.key].map(|secret| random.bytes(secret.len()))
    }
}

/// A domain and a workstation for a NEGOTIATE, mostly such as are accepted.
pub fn opening_names(random: &mut Random) -> [Vec<u8>; 2] {
    let mut names = [(); 2].map(|()| {
        let len = random.pick(&[0, 0, 1, 4, 7, 30]);
        name(random, Set::Oem, len)
    });
    if random.one_in(100) {
        let total: usize = names.iter().map(Vec::len).sum();
        let exact = random.pick(&LONG) - 40 - total;
        let more = random.pick(&[exact, exact, MAX_MESSAGE, 0x1_0000]);
        let chosen = &mut names[random.below(2)];
        chosen.resize(chosen.len() + more, b'z');
    }
    names
}

/// A target name of even length that isn't empty, in either character set.
pub fn target_name(random: &mut Random) -> Vec<u8> {
    let set = random.pick(&[Set::Unicode, Set::Oem]);
    let units = 2 * random.pick(&[1, 1, 2, 7, 15]);
    name(random, set, units)
}

/// A short target name of odd length, or one of any length that makes a list of
/// around 65,535 bytes, or of far more, with the `others` that stand beside it.
pub fn odd_or_long_name(random: &mut Random, others: usize) -> Vec<u8> {
    let len = if random.one_in(6) {
        let exact = random.pick(&LONG).saturating_sub(others);
        let even = exact - exact % 2;
        random.pick(&[exact, even, even, MAX_MESSAGE, 0x1_0000, 0x1_0002, 0x2_0000])
    } else {
        random.pick(&[1, 3, 9, 15, 31, 255, 257])
    };
    vec![random.byte(); len]
}

/// A yes, as a mark that a name is unverified or a demand for 128-bit: anything
/// but 0.
pub fn yes(random: &mut Random) -> u32 {
    random.pick(&[1, 2, 4, 0x100, 0x1_0000, 0x8000_0000, 0xFFFF_FFFF])
}

/// A session key, mostly of sixteen bytes.
fn session_key(random: &mut Random) -> Vec<u8> {
    let len = if random.one_in(12) {
        random.pick(&[0, 1, 15, 17, 32, 64, 65])
    } else {
        16
    };
    random.bytes(len)
}

/// A sign-in's session key and its messages.
pub struct SignIn {
    key: Vec<u8>,
    messages: [Vec<u8>; 3],
}

impl SignIn {
    /// The message in the place of its kind, beside two others, mostly sound ones;
    /// where it is of no kind, as the last.
    pub fn new(random: &mut Random, message: &[u8]) -> Self {
        let others: [fn(&mut Random) -> Vec<u8>; 3] =
            [negotiate::drawn, challenge::drawn, authenticate::drawn];
        let mut messages = others.map(|drawn| {
            if random.one_in(8) {
                drawn(random)
            } else {
                Vec::new()
            }
        });
        let sound = [
            negotiate::KIND.empty(random, UNICODE, 40).bytes(),
            challenge::KIND.empty(random, OEM, 56).bytes(),
            // So long that there is a MIC.
            authenticate::KIND.empty(random, UNICODE, 90).bytes(),
        ];
        for (message, sound) in messages.iter_mut().zip(sound) {
            if message.is_empty() {
                *message = sound;
            }
        }
        let place = match message.get(8..12) {
            Some([1, 0, 0, 0]) => 0,
            Some([2, 0, 0, 0]) => 1,
            _ => 2,
        };
        messages[place] = message.to_vec();
        let key = session_key(random);
        Self { key, messages }
    }

    pub fn mic(&self) -> Call<'_> {
        Call::Mic {
            key: &self.key,
            messages: self.messages(),
        }
    }

    pub fn check_mic(&self) -> Call<'_> {
        Call::CheckMic {
            key: &self.key,
            messages: self.messages(),
        }
    }

    fn messages(&self) -> reader::SignIn<'_> {
        let [negotiate, challenge, authenticate] = &self.messages;
        reader::SignIn {
            negotiate,
            challenge,
            authenticate,
        }
    }

    /// The MIC that is right, where there is one.
    pub fn right_mic(&self) -> Option<[u8; 16]> {
        reader::mic(&self.key, &self.messages()).ok()
    }

    /// Puts a MIC into an AUTHENTICATE that has one.
    pub fn set_mic(&mut self, mic: [u8; 16]) {
        self.messages[2][72..88].copy_from_slice(&mic);
    }

    /// With another key of its length, and other bytes in the AUTHENTICATE after
    /// its first 64.
    pub fn with_other_secrets(&self, random: &mut Random) -> Self {
        let key = random.bytes(self.key.len());
        let mut messages = self.messages.clone();
        for byte in messages[2].iter_mut().skip(64) {
            *byte = random.byte();
        }
        Self { key, messages }
    }
}

/// Any flags of an NL_AUTH request, mostly with a bit A to E.
pub fn nl_auth_flags(random: &mut Random) -> u32 {
    let flags = u32::from_le_bytes(random.array());
    if random.one_in(30) {
        flags & !0x1F
    } else {
        flags
    }
}

/// Five strings for an NL_AUTH request, mostly such as are accepted: A and B,
/// then the texts of three names.
pub fn strings(random: &mut Random) -> [Vec<u8>; 5] {
    let mut strings: [Vec<u8>; 5] = std::array::from_fn(|which| {
        let mut text = if which < 2 {
            let len = random.pick(&[0, 1, 4, 9, 20]);
            string(random, len)
        } else {
            dns_names::drawn_text(random)
        };
        if random.one_in(24) {
            let at = random.below(text.len() + 1);
            text.insert(at, 0);
        }
        text
    });
    if random.one_in(100) {
        let total: usize = strings.iter().map(Vec::len).sum();
        let chosen = random.below(2);
        let len = strings[chosen].len() + random.pick(&LONG) - 8 - random.below(9) - total;
        strings[chosen].resize(len, b'y');
    }
    strings
}

/// A pair list: the TargetInfo of `message` as its head has it, the message
/// itself, or a drawn one.
pub fn list(random: &mut Random, message: &[u8]) -> Vec<u8> {
    match random.below(16) {
        0 => message.to_vec(),
        1..=4 => target_info(message).unwrap_or_default().to_vec(),
        5 if random.one_in(40) => pairs::long_list(random),
        _ => pairs::drawn_list(random),
    }
}

fn target_info(message: &[u8]) -> Option<&[u8]> {
    let [len_low, len_high, _, _, offset @ ..] = *message.get(40..)?.first_chunk::<8>()?;
    let start = usize::try_from(u32::from_le_bytes(offset)).ok()?;
    let len = usize::from(u16::from_le_bytes([len_low, len_high]));
    message.get(start..start.checked_add(len)?)
}

/// Where a walk is asked: the boundaries of the list, and anywhere.
pub fn places(random: &mut Random, list: &[u8]) -> [usize; 4] {
    let len = list.len();
    [
        random.below(len + 6),
        random.pick(&[len, len.saturating_sub(4), len.saturating_sub(3), len + 1]),
        random.pick(&[1, 4, 0xFFFF, 0x1_0000, 0xFFFF_FFFF]),
        random.pick(&[usize::MAX, usize::MAX - 3, usize::MAX / 2, 1 << 32]),
    ]
}
