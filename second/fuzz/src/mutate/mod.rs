//! Changes that know what an input's group has: heads that are put right, pairs, names,
//! flags, MaxLen, labels and jumps. The fuzzer's own changes of bytes come beside them.

mod message;
mod names;
mod pairs;
mod parts;
mod text;

use std::ops::{Deref, DerefMut};

use compare::Random;

use crate::input::{joined, split, Group, Head};

/// Bytes that mean something in names, lists and texts.
const TELLING: [u8; 12] = [
    0, 1, 0x20, 0x2E, 0x41, 0x5C, 0x61, 0x7F, 0x80, 0xC0, 0xD8, 0xFF,
];

/// The longest payload that a change may make.
const LONGEST: usize = 4000;

/// What changes are drawn from.
pub struct Draw {
    pub random: Random,
    /// Numbers that the code under test has compared, lately.
    pub compared: Vec<Compared>,
}

/// A number that was compared, and the constant that it wasn't.
#[derive(Clone, Copy, Debug)]
pub struct Compared {
    pub constant: u16,
    pub number: u16,
    /// How often the constant was compared with.
    pub times: u32,
}

impl Deref for Draw {
    type Target = Random;

    fn deref(&self) -> &Random {
        &self.random
    }
}

impl DerefMut for Draw {
    fn deref_mut(&mut self) -> &mut Random {
        &mut self.random
    }
}

impl Draw {
    /// A number below a limit: one time in four a constant that some number was compared
    /// with, where it is below it too.
    fn number(&mut self, limit: usize) -> usize {
        if self.one_in(4) {
            let compared = self.compared().map(|compared| compared.constant.into());
            if let Some(constant) = compared.filter(|constant| *constant < limit) {
                return constant;
            }
        }
        self.below(limit)
    }

    /// Of some that were compared the one whose constant was compared with least often: it
    /// is that of code which is reached seldom.
    fn compared(&mut self) -> Option<Compared> {
        let many = self.compared.len();
        let some = (0..4).filter_map(|_| {
            let at = self.random.below(many.max(1));
            self.compared.get(at).copied()
        });
        some.min_by_key(|compared| compared.times)
    }

    /// Puts a constant in the place of a number that was compared with it, where some two
    /// bytes, or one where both are small, are that number.
    fn put_constant(&mut self, bytes: &mut [u8]) {
        let Some(Compared {
            constant, number, ..
        }) = self.compared()
        else {
            return;
        };
        let small = constant.max(number) < 0x100;
        let width = if small && self.one_in(2) { 1 } else { 2 };
        let (old, new) = (number.to_le_bytes(), constant.to_le_bytes());
        let all = bytes.windows(width).enumerate();
        let there = all.filter(|(_, some)| *some == &old[..width]);
        let places: Vec<usize> = there.map(|(place, _)| place).collect();
        if !places.is_empty() {
            let place = self.pick(&places);
            bytes[place..place + width].copy_from_slice(&new[..width]);
        }
    }

    /// A length of a field: mostly even, up to 64.
    fn len(&mut self) -> usize {
        match self.below(8) {
            0 => self.below(65),
            1..=2 => self.number(257),
            _ => 2 * self.below(33),
        }
    }

    /// Changes an input, mostly once. One without a head stays as it is.
    pub fn change(&mut self, input: &mut Vec<u8>) {
        for _ in 0..self.pick(&[1, 1, 1, 2, 3]) {
            let Some((mut head, payload)) = split(input) else {
                return;
            };
            let mut payload = payload.to_vec();
            match self.below(12) {
                0 => change_head(self, &mut head),
                1 | 2 => self.put_constant(&mut payload),
                _ => change_payload(self, &mut head, &mut payload),
            }
            if payload.len() <= LONGEST.max(input.len()) {
                *input = joined(head, &payload);
            }
        }
    }
}

/// Another room, other numbers, another of the group's own, or another group on the
/// same message.
fn change_head(draw: &mut Draw, head: &mut Head) {
    match draw.below(6) {
        0 => head.room = draw.byte(),
        1 => head.lent = draw.byte(),
        2 => head.own[draw.below(3)] = draw.byte(),
        3 => head.own[draw.below(3)] ^= 1 << draw.below(8),
        4 => {
            let long = 240 | draw.byte();
            head.stretch = draw.pick(&[0, 0, long]);
        }
        _ => {
            head.group = match head.group {
                Group::Ntlm | Group::ResponsePairs | Group::Respond | Group::Night => {
                    let on_a_message = [
                        Group::Ntlm,
                        Group::ResponsePairs,
                        Group::Respond,
                        Group::Night,
                        Group::Field,
                    ];
                    draw.pick(&on_a_message)
                }
                _ => draw.pick(&Group::ALL),
            }
        }
    }
}

fn change_payload(draw: &mut Draw, head: &mut Head, payload: &mut Vec<u8>) {
    let beside_len = head.beside(payload.len());
    let mut beside = payload.split_off(payload.len() - beside_len);
    match head.group {
        Group::Ntlm => message::change(draw, payload),
        Group::NlAuth => names::change(draw, payload),
        Group::Pairs => pairs::change(draw, payload),
        Group::WriteAuthenticate => parts::change(draw, payload, 4 + 8 + 16, 6),
        Group::WriteNegotiate => parts::change(draw, payload, 4 + 8, 2),
        Group::WriteNlAuth => parts::change(draw, payload, 0, 5),
        Group::Respond if draw.one_in(2) => parts::change(draw, &mut beside, 8 + 8 + 16, 6),
        Group::ResponsePairs if draw.one_in(3) => {
            let len = draw.below(65);
            parts::resize(draw, &mut beside, 16..usize::MAX, len);
        }
        Group::Night if draw.one_in(2) => place(draw, head, payload.len(), &mut beside),
        Group::Respond | Group::ResponsePairs | Group::Night | Group::Field => {
            message::change(draw, payload);
        }
        Group::Header => text::change(draw, payload),
        Group::SignIn => sign_in(draw, head, payload),
    }
    // What stands beside is as long as its byte can say.
    beside.truncate(255);
    if head.beside(usize::MAX) > 0 || !beside.is_empty() {
        head.own[3] = beside.len() as u8;
    }
    payload.extend(beside);
}

/// One of a sign-in's three messages, with the lengths of the first two put right.
fn sign_in(draw: &mut Draw, head: &mut Head, payload: &mut Vec<u8>) {
    let [a, b, c, _] = head.own;
    let first = usize::from(a).min(payload.len());
    let second = usize::from(u16::from_le_bytes([b, c & 15])).min(payload.len() - first);
    let mut authenticate = payload.split_off(first + second);
    let mut challenge = payload.split_off(first);
    let negotiate = payload;
    match draw.below(4) {
        0 => message::change(draw, negotiate),
        1 => message::change(draw, &mut challenge),
        _ => message::change(draw, &mut authenticate),
    }
    negotiate.truncate(255);
    challenge.truncate(0xFFF);
    let [low, high] = (challenge.len() as u16).to_le_bytes();
    head.own = [negotiate.len() as u8, low, c & 0xF0 | high, head.own[3]];
    negotiate.extend(challenge);
    negotiate.extend(authenticate);
}

/// A place more in a night's list, or one of them changed: at the buffer's ends, over
/// any part of it, by any mark.
fn place(draw: &mut Draw, head: &mut Head, total: usize, beside: &mut Vec<u8>) {
    let start = match draw.below(4) {
        0 => 0,
        1 => draw.below(total + 2),
        2 => draw.pick(&[total, total + 1, 0xFE00, 0xFFFF]),
        _ => draw.below(9),
    };
    let length = match draw.below(4) {
        0 => total.saturating_sub(start),
        1 => draw.below(total + 2),
        2 => draw.pick(&[0, total, total + 1, 0xFE00 + total % 0x100, 0xFFFF]),
        _ => total.saturating_sub(start) + 1,
    };
    let mut entry = Vec::new();
    entry.extend((start as u16).to_le_bytes());
    entry.extend((length as u16).to_le_bytes());
    let any = draw.byte();
    entry.push(draw.pick(&[0, 1, 2, 3, 1, 2, 3, 4, any]));
    let many = beside.len() / entry.len();
    if many < 15 && (many == 0 || draw.one_in(2)) {
        beside.truncate(many * entry.len());
        beside.extend(entry);
        head.own[0] = (many + 1) as u8;
    } else {
        let at = draw.below(many) * entry.len();
        beside[at..at + entry.len()].copy_from_slice(&entry);
    }
}

#[cfg(test)]
mod tests {
    use compare::Random;

    use super::{Compared, Draw, LONGEST};
    use crate::input::{joined, split, Group, Head, HEAD};

    /// What a test draws from.
    pub fn drawing(seed: u64) -> Draw {
        Draw {
            random: Random::new(seed),
            compared: [375, 7, 0xFFFF]
                .map(|constant| Compared {
                    constant,
                    number: 26,
                    times: 1,
                })
                .to_vec(),
        }
    }

    /// No bytes make a change fail, and inputs stay of a size that can be fuzzed.
    #[test]
    fn any_input_can_be_changed() {
        let draw = &mut drawing(7);
        for group in Group::ALL {
            for len in 0..200 {
                let mut head = Head::new(group);
                head.own = draw.array();
                let payload = draw.bytes(len);
                let mut input = joined(head, &payload);
                for _ in 0..20 {
                    draw.change(&mut input);
                    assert!(split(&input).is_some());
                    assert!(input.len() <= HEAD + LONGEST, "{}", input.len());
                }
            }
        }
        let mut short = vec![1; 7];
        draw.change(&mut short);
        assert_eq!(short, [1; 7]);
    }

    /// A constant takes the place of the number that was compared with it, and nothing else.
    #[test]
    fn a_constant_takes_a_numbers_place() {
        let draw = &mut drawing(3);
        draw.compared.truncate(1);
        let mut bytes = vec![9, 26, 0, 27, 26, 1];
        draw.put_constant(&mut bytes);
        assert_eq!(bytes, [9, 119, 1, 27, 26, 1]);
        draw.put_constant(&mut bytes);
        assert_eq!(bytes, [9, 119, 1, 27, 26, 1]);
    }

    #[test]
    fn numbers_that_were_compared_with_are_drawn() {
        let draw = &mut drawing(3);
        let drawn: Vec<usize> = (0..2000).map(|_| draw.number(400)).collect();
        let times = drawn.iter().filter(|number| **number == 375).count();
        assert!((100..300).contains(&times), "{times}");
        assert!(drawn.iter().all(|number| *number < 400));
    }
}
