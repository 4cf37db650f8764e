//! Properties over messages from a generator with a fixed seed.

mod common;

use std::ops::Range;

use common::*;
use reader::{
    answer, authenticate_line, challenge_line, domain_to_send, explain, negotiate_line,
    nl_auth_line, nl_auth_name, ntlm_line, write_authenticate, write_negotiate,
    write_nl_auth_request, write_response_pairs, Account, Authenticate, AuthenticateParts, AvId,
    Challenge, Negotiate, NegotiateFlags, NegotiateParts, NlAuth, NlAuthFlags, Policy, Refusal,
    ResponsePairs, Secrets, Settings, TargetInfo,
};

/// SplitMix64.
struct Random(u64);

impl Random {
    fn next(&mut self) -> u64 {
        self.0 = self.0.wrapping_add(0x9E37_79B9_7F4A_7C15);
        let mut mixed = self.0;
        mixed = (mixed ^ mixed >> 30).wrapping_mul(0xBF58_476D_1CE4_E5B9);
        mixed = (mixed ^ mixed >> 27).wrapping_mul(0x94D0_49BB_1331_11EB);
        mixed ^ mixed >> 31
    }

    fn below(&mut self, limit: usize) -> usize {
        (self.next() % limit as u64) as usize
    }

    fn coin(&mut self) -> bool {
        self.next() & 1 == 1
    }

    fn bytes(&mut self, len: usize) -> Vec<u8> {
        (0..len).map(|_| self.next() as u8).collect()
    }

    fn pick<T: Copy>(&mut self, values: &[T]) -> T {
        values[self.below(values.len())]
    }

    /// Flags that decide something, at random, mostly with a character set.
    fn flags(&mut self) -> u32 {
        let mut flags = self.next() as u32;
        flags &= UNICODE
            | OEM
            | REQUEST_TARGET
            | SIGN
            | SEAL
            | OEM_DOMAIN
            | OEM_WORK
            | TARGET_INFO
            | VERSION
            | BITS_128
            | KEY_EXCH;
        flags | self.pick(&[0, UNICODE, UNICODE, OEM, OEM])
    }

    /// An AUTHENTICATE message, more often taken than not.
    fn authenticate(&mut self) -> Vec<u8> {
        let len = self.pick(&[64, 70, 80, 88, 90, 120, 200]) + self.below(20);
        let mut message = self.bytes(len);
        put(&mut message, 0, b"NTLMSSP\0\x03\0\0\0");
        let flags = self.flags();
        put(&mut message, 60, &flags.to_le_bytes());
        for head in HEADS {
            let length = self.pick(&[0, 0, 2, 4, 7, 16]) as u16;
            let offset = match self.below(40) {
                0 => self.next() as u32,
                1 => self.below(64) as u32,
                2 => 0xFFFF_FFFF,
                _ => {
                    let last = len.saturating_sub(usize::from(length)).max(65);
                    let from = self.pick(&[64, 64, 88]).min(last - 1);
                    let offset = from + self.below(last + 1 - from);
                    (offset & !usize::from(self.below(8) != 0)) as u32
                }
            };
            put_head(&mut message, head, length, offset);
        }
        message
    }

    /// A pair list, more often taken than not.
    fn list(&mut self) -> Vec<u8> {
        let mut bytes = Vec::new();
        for _ in 0..self.below(6) {
            let id = self.pick(&[1, 2, 2, 3, 4, 5, 6, 7, 7, 8, 9, 10, 11, 300]);
            let len = match id {
                _ if self.below(30) == 0 => self.below(20),
                6 => 4,
                7 => 8,
                10 => 16,
                _ => 2 * self.below(5),
            };
            let value = self.bytes(len);
            bytes.extend(pair(id, &value));
        }
        bytes.extend([0; 4]);
        if self.below(10) == 0 {
            let len = bytes.len() + 2;
            bytes.resize(self.below(len), 1);
        }
        bytes
    }

    /// A CHALLENGE message, more often taken than not.
    fn challenge(&mut self) -> Vec<u8> {
        let flags = self.flags() | self.pick(&[0, TARGET_INFO]);
        let len = self.pick(&[0, 2, 4, 6, 8, 8, 8, 3]);
        let target = self.bytes(len);
        let info = self.list();
        challenge(flags, &target, &info)
    }

    /// A NEGOTIATE message, more often taken than not.
    fn negotiate(&mut self) -> Vec<u8> {
        let flags = self.flags();
        let [domain, workstation] = [(); 2].map(|()| {
            let len = self.pick(&[0, 1, 4, 7]);
            self.bytes(len)
        });
        let mut message = negotiate(flags, &domain, &workstation);
        if self.below(4) == 0 {
            let (head, _) = self.pick(&NEGOTIATE_HEADS);
            let offset = self.pick(&[0, 31, 32, 39, 41, 45, 0xFFFF_FFFF]);
            put(&mut message, head + 4, &u32::to_le_bytes(offset));
        }
        message
    }

    /// Puts a DNS name behind a buffer, often one that ends in a jump.
    fn dns_name(&mut self, buffer: &mut Vec<u8>) {
        let start = buffer.len();
        for _ in 0..self.below(4) {
            let len = self.below(6) + 1;
            buffer.push(len as u8);
            buffer.extend(self.bytes(len));
        }
        if start > 0 && self.coin() {
            let place = self.below(start) as u16;
            buffer.extend((0xC000 | place).to_be_bytes());
        } else {
            buffer.push(0);
        }
    }

    /// An NL_AUTH message, more often taken than not.
    fn nl_auth(&mut self) -> Vec<u8> {
        let flags = self.next() as u32;
        let mut buffer = Vec::new();
        for bit in 0..5 {
            if flags >> bit & 1 == 0 {
                continue;
            }
            if bit < 2 {
                let len = self.below(6);
                buffer.extend(self.bytes(len).iter().map(|byte| byte | 1));
                buffer.push(0);
            } else {
                self.dns_name(&mut buffer);
            }
        }
        if self.below(10) == 0 {
            let len = buffer.len() + 2;
            buffer.resize(self.below(len), 1);
        }
        nl(self.pick(&[0, 0, 0, 0, 0, 0, 1, 2]), flags, &buffer)
    }

    /// A message of any kind with a few bytes changed or cut off.
    fn damaged(&mut self) -> Vec<u8> {
        let mut message = match self.below(5) {
            0 => self.authenticate(),
            1 => self.challenge(),
            2 => self.nl_auth(),
            3 => self.negotiate(),
            _ => {
                let len = self.below(150);
                self.bytes(len)
            }
        };
        for _ in 0..self.below(4) {
            if !message.is_empty() {
                let at = self.below(message.len());
                message[at] = self.pick(&[0, 1, 2, 0x7F, 0x80, 0xFF]);
            }
        }
        if self.coin() {
            let len = message.len() + 1;
            message.truncate(self.below(len));
        }
        message
    }
}

const LINE_CALLS: [LineCall; 5] = [
    authenticate_line,
    challenge_line,
    negotiate_line,
    nl_auth_line,
    ntlm_line,
];

#[test]
fn no_bytes_make_a_call_panic() {
    let mut random = Random(1);
    let mut out = vec![0; 1 << 16];
    for _ in 0..40_000 {
        let message = random.damaged();
        let _ = Authenticate::read(&message);
        let _ = Challenge::read(&message);
        let _ = Negotiate::read(&message);
        let _ = NlAuth::read(&message);
        let info = TargetInfo(&message);
        let _ = (info.count(), info.timestamp(), info.summary());
        let _ = info.find(AvId(random.below(12) as u16));
        let _ = info.answer_at(random.below(6));
        let _ = domain_to_send(b"", &message);
        for call in LINE_CALLS {
            let room = random.below(200);
            let _ = call(&message, &mut out[..room]);
        }
        let (which, room) = (random.below(7) as u32, random.below(20));
        let _ = nl_auth_name(&message, which, &mut out[..room]);
        let room = random.below(300);
        let _ = explain(&message, &mut out[..room]);
        let (part, other) = message.split_at(random.below(message.len() + 1));
        let secrets = Secrets {
            lm: part,
            nt: other,
            key: part,
            mic: [1; 16],
        };
        let settings = Settings {
            policy: Policy {
                require_128: random.coin(),
                ntlmv2: random.coin(),
                integrity: random.coin(),
                confidentiality: random.coin(),
            },
            account: Account {
                version: [2; 8],
                domain: other,
                user: part,
                workstation: other,
            },
        };
        let room = random.below(1000);
        let _ = answer(&message, &settings, 3, &secrets, &mut out[..room]);
        let flags = NlAuthFlags::new(random.next() as u32);
        let strings = [part, other, part, other, part];
        let _ = write_nl_auth_request(flags, &strings, &mut out[..room]);
        let parts = NegotiateParts {
            flags: NegotiateFlags(random.next() as u32),
            version: [2; 8],
            domain: part,
            workstation: other,
        };
        let _ = write_negotiate(&parts, &mut out[..room]);
        let parts = ResponsePairs {
            target_name: part,
            unverified: random.coin(),
            bindings: [4; 16],
        };
        let _ = write_response_pairs(&message, &parts, &mut out[..room]);
    }
}

#[test]
fn a_line_fills_its_room_or_leaves_it() {
    let mut random = Random(2);
    let mut taken = 0;
    for _ in 0..10_000 {
        let message = random.damaged();
        for call in LINE_CALLS {
            let whole = line(call, &message);
            assert!(whole.ends_with('\n') && !whole[..whole.len() - 1].contains('\n'));
            assert!(whole.bytes().all(|byte| matches!(byte, 0x20..=0x7E | 0x0A)));
            taken += usize::from(!whole.starts_with("refused"));
            let room = random.below(whole.len() + 40);
            let mut out = vec![0xEE; room];
            let mut expected = out.clone();
            if room < whole.len() {
                assert_eq!(refused(call(&message, &mut out)), (33, 0));
            } else {
                assert_eq!(call(&message, &mut out), Ok(whole.len()));
                put(&mut expected, 0, whole.as_bytes());
            }
            assert_eq!(out, expected);
        }
    }
    assert!(taken > 1000, "{taken}");
}

/// The bytes from a head's offset on, as many as its length, as far as the
/// message reaches.
fn stretch(message: &[u8], head: usize) -> Range<usize> {
    let len = u16::from_le_bytes([message[head], message[head + 1]]) as u64;
    let offset = u32::from_le_bytes(message[head + 4..head + 8].try_into().unwrap()) as u64;
    let reach = |at: u64| at.min(message.len() as u64) as usize;
    reach(offset)..reach(offset + len)
}

/// Whether the fields' heads leave the MIC present.
fn mic_is_there(message: &[u8]) -> bool {
    let key_exch = message[63] & 0x40 != 0;
    let lowest = HEADS
        .iter()
        .filter(|&&head| head != 52 || key_exch)
        .filter(|&&head| message[head] != 0 || message[head + 1] != 0)
        .map(|&head| u32::from_le_bytes(message[head + 4..head + 8].try_into().unwrap()))
        .min();
    lowest.map_or(message.len() as u64, u64::from) >= 88
}

/// The places that demand 3 calls secret, from byte 64 on.
fn secret_places(message: &[u8]) -> Vec<usize> {
    if message.len() < 64 {
        return Vec::new();
    }
    let mut places: Vec<usize> = Vec::new();
    for head in [12, 20, 52] {
        if head != 52 || message[63] & 0x40 != 0 {
            places.extend(stretch(message, head));
        }
    }
    if mic_is_there(message) {
        places.extend(72..message.len().min(88));
    }
    places.retain(|&at| at >= 64);
    places
}

/// What demand 3 compares of a reading.
#[derive(Debug, PartialEq)]
struct Visible {
    flags: u32,
    mic_is_present: bool,
    places: [usize; 6],
    lengths: [usize; 6],
    names: [Vec<u8>; 3],
}

fn all_but_secrets(message: &[u8]) -> Result<Visible, Refusal> {
    let read = Authenticate::read(message)?;
    let fields = read.fields();
    let names = [read.domain, read.user, read.workstation];
    Ok(Visible {
        flags: read.flags.0,
        mic_is_present: read.mic.is_some(),
        places: fields.map(|field| field.place),
        lengths: fields.map(|field| field.bytes.len()),
        names: names.map(|name| name.bytes.to_vec()),
    })
}

#[test]
fn messages_that_differ_in_secrets_have_one_line() {
    let mut random = Random(3);
    let (mut taken, mut refused_by_9, mut changed) = (0, 0, 0);
    for _ in 0..40_000 {
        let mut message = random.authenticate();
        if random.below(10) == 0 {
            let len = message.len();
            message.truncate(random.below(len));
        }
        let mut other = message.clone();
        for at in secret_places(&message) {
            other[at] = random.next() as u8;
        }
        changed += usize::from(other != message);
        let read = all_but_secrets(&message);
        assert_eq!(read, all_but_secrets(&other));
        assert_eq!(
            line(authenticate_line, &message),
            line(authenticate_line, &other)
        );
        assert_eq!(line(explain, &message), line(explain, &other));
        match read {
            Ok(_) => taken += 1,
            Err(refusal) => refused_by_9 += usize::from(refusal.number() == 9),
        }
    }
    assert!(
        taken > 5000 && refused_by_9 > 500 && changed > 10_000,
        "{taken} {refused_by_9} {changed}"
    );
}

#[test]
fn answers_that_differ_in_secrets_are_alike() {
    let mut random = Random(4);
    let (mut answered, mut refusals) = (0, 0);
    for _ in 0..20_000 {
        let challenge = random.challenge();
        let lens = [
            random.below(40),
            random.below(40),
            random.pick(&[0, 16, 16, 5]),
        ];
        let domain_len = random.pick(&[0, 2, 3]);
        let domain = random.bytes(domain_len);
        let user = random.bytes(4);
        let settings = Settings {
            policy: Policy {
                require_128: random.below(4) == 0,
                ntlmv2: random.coin(),
                integrity: random.below(4) == 0,
                confidentiality: random.below(4) == 0,
            },
            account: Account {
                version: [7; 8],
                domain: &domain,
                user: &user,
                workstation: b"W\0",
            },
        };
        let room = random.pick(&[100, 150, 300, 300, 300]);
        let clock = random.next();
        let mut once = || {
            let [lm, nt, key] = lens.map(|len| random.bytes(len));
            let secrets = Secrets {
                lm: &lm,
                nt: &nt,
                key: &key,
                mic: random.bytes(16).try_into().unwrap(),
            };
            let mut out = vec![0xEE; room];
            let answer = answer(&challenge, &settings, clock, &secrets, &mut out);
            (answer, out)
        };
        let (first, one) = once();
        let (second, two) = once();
        assert_eq!(first, second);
        match first {
            Ok(first) => {
                let hidden = secret_places(&one[..first.len]);
                for at in 0..room {
                    assert!(one[at] == two[at] || hidden.contains(&at));
                }
                assert!(Authenticate::read(&one[..first.len]).is_ok());
                answered += 1;
            }
            Err(_) => {
                assert!(one == two && one.iter().all(|&byte| byte == 0xEE));
                refusals += 1;
            }
        }
    }
    assert!(answered > 3000 && refusals > 3000, "{answered} {refusals}");
}

#[test]
fn what_is_written_reads_back() {
    let mut random = Random(5);
    let mut written = 0;
    for _ in 0..20_000 {
        let flags = random.flags();
        let lens: [usize; 5] = [30, 60, 20, 20, 20].map(|limit| random.below(limit));
        let [lm, nt, domain, user, workstation] = lens.map(|len| {
            let even = len & !usize::from(flags & UNICODE != 0);
            random.bytes(even)
        });
        let key_len = if flags & KEY_EXCH != 0 {
            random.pick(&[0, 16])
        } else {
            0
        };
        let key = random.bytes(key_len);
        let parts = AuthenticateParts {
            flags: NegotiateFlags(flags),
            version: random.bytes(8).try_into().unwrap(),
            mic: random.bytes(16).try_into().unwrap(),
            lm: &lm,
            nt: &nt,
            domain: &domain,
            user: &user,
            workstation: &workstation,
            key: &key,
        };
        let mut out = [0xEE; 400];
        let len = match write_authenticate(&parts, &mut out) {
            Ok(len) => len,
            Err(refusal) => {
                assert_eq!((refusal.number(), flags & (UNICODE | OEM)), (5, 0));
                continue;
            }
        };
        let read = Authenticate::read(&out[..len]).unwrap();
        assert_eq!(read.flags.0, flags);
        assert_eq!(read.mic, Some(parts.mic));
        assert_eq!(read.lm.bytes, lm);
        assert_eq!(read.nt.bytes, nt);
        assert_eq!(read.domain.bytes, domain);
        assert_eq!(read.user.bytes, user);
        assert_eq!(read.workstation.bytes, workstation);
        assert_eq!(read.key.bytes, key);
        written += 1;
    }
    assert!(written > 10_000, "{written}");
}

#[test]
fn a_negotiate_that_is_written_reads_back() {
    let mut random = Random(8);
    let mut written = 0;
    for _ in 0..20_000 {
        let flags = random.next() as u32;
        let [domain, workstation] = [(); 2].map(|()| {
            let len = random.pick(&[0, 1, 2, 15, 40]);
            random.bytes(len)
        });
        let parts = NegotiateParts {
            flags: NegotiateFlags(flags),
            version: random.bytes(8).try_into().unwrap(),
            domain: &domain,
            workstation: &workstation,
        };
        let mut out = [0xEE; 200];
        let len = match write_negotiate(&parts, &mut out) {
            Ok(len) => len,
            Err(refusal) => {
                assert_eq!((refusal.number(), flags & (UNICODE | OEM)), (5, 0));
                continue;
            }
        };
        let read = Negotiate::read(&out[..len]).unwrap();
        let bit = |name: &[u8], bit| if name.is_empty() { 0 } else { bit };
        let bits = bit(&domain, OEM_DOMAIN) | bit(&workstation, OEM_WORK);
        assert_eq!(read.flags.0, flags & !(OEM_DOMAIN | OEM_WORK) | bits);
        assert_eq!(read.domain.bytes, domain);
        assert_eq!(read.workstation.bytes, workstation);
        written += 1;
    }
    assert!(written > 10_000, "{written}");
}

/// Checks 6 to 9 of an AUTHENTICATE message, one byte at a time.
fn slow_checks(message: &[u8]) -> Option<(u8, u8)> {
    let flags = u32::from_le_bytes(message[60..64].try_into().unwrap());
    let fields: Vec<(u64, u64)> = HEADS
        .iter()
        .map(|&head| {
            let len = u16::from_le_bytes([message[head], message[head + 1]]);
            let offset = u32::from_le_bytes(message[head + 4..head + 8].try_into().unwrap());
            let counts = head != 52 || flags & KEY_EXCH != 0;
            (u64::from(offset), if counts { u64::from(len) } else { 0 })
        })
        .collect();
    let first = |numbers: &[usize], fault: &dyn Fn(u64, u64) -> bool| {
        numbers.iter().copied().find(|number| {
            let (offset, len) = fields[number - 1];
            len != 0 && fault(offset, len)
        })
    };
    let all = [1, 2, 3, 4, 5, 6];
    let names = [3, 4, 5];
    let size = message.len() as u64;
    if let Some(number) = first(&all, &|offset, len| offset + len > size) {
        return Some((6, number as u8));
    }
    if let Some(number) = first(&all, &|offset, _| offset < 64) {
        return Some((7, number as u8));
    }
    if flags & UNICODE != 0 {
        let odd = |offset: u64, len: u64| offset % 2 == 1 || len % 2 == 1;
        if let Some(number) = first(&names, &odd) {
            return Some((8, number as u8));
        }
    }
    let is_secret = |at: u64| {
        [1, 2, 6].iter().any(|number| {
            let (offset, len) = fields[number - 1];
            (offset..offset + len).contains(&at)
        })
    };
    let number = first(&names, &|offset, len| (offset..offset + len).any(is_secret))?;
    Some((9, number as u8))
}

#[test]
fn checks_6_to_9_agree_with_a_slow_count_of_bytes() {
    let mut random = Random(6);
    let mut counts = [0; 10];
    for _ in 0..40_000 {
        let message = random.authenticate();
        if message[60] & 3 == 0 {
            assert_eq!(refused(Authenticate::read(&message)), (5, 0));
            continue;
        }
        let expected = slow_checks(&message);
        match Authenticate::read(&message) {
            Ok(read) => {
                assert_eq!(expected, None);
                assert_eq!(read.mic.is_some(), mic_is_there(&message));
                counts[0] += 1;
            }
            Err(refusal) => {
                assert_eq!(expected, Some((refusal.number(), refusal.field)));
                counts[usize::from(refusal.number())] += 1;
            }
        }
    }
    for number in [0, 6, 7, 8, 9] {
        assert!(counts[number] > 500, "{counts:?}");
    }
}

/// The number at a place, lowest byte first.
fn number(message: &[u8], at: usize, len: usize) -> u64 {
    let bytes = message[at..at + len].iter().rev();
    bytes.fold(0, |number, &byte| number << 8 | u64::from(byte))
}

/// The figures of a refusal, from the message's own bytes.
fn figures(message: &[u8], heads: &[usize], refusal: Refusal) -> String {
    let Refusal { field, place, .. } = refusal;
    let (offset, len) = match usize::from(field).checked_sub(1) {
        Some(at) => (
            number(message, heads[at] + 4, 4),
            number(message, heads[at], 2),
        ),
        None => (0, 0),
    };
    let all = message.len().min(65_536);
    let mut text = format!("failed field={field} offset={offset} length={len} message={all}");
    let (id, size) = match refusal.number() {
        11 => (0, 0),
        10 | 12 | 13 => (number(message, place, 2), number(message, place + 2, 2)),
        _ => return text,
    };
    text += &format!(" at={place} id={id} size={size}");
    text
}

#[test]
fn a_print_tells_what_the_reader_returns() {
    let mut random = Random(12);
    let mut failed = [0; 14];
    for _ in 0..40_000 {
        let message = random.damaged();
        let (checks, heads, read): (&[u8], &[usize], _) = match message.get(8..12) {
            Some([1, 0, 0, 0]) => (
                &[1, 2, 3, 4, 5, 6, 7],
                &[16, 24],
                Negotiate::read(&message).map(|_| ()),
            ),
            Some([2, 0, 0, 0]) => (
                &[1, 2, 3, 4, 5, 6, 7, 8, 11, 12, 10, 13],
                &[12, 40],
                Challenge::read(&message).map(|_| ()),
            ),
            _ => (
                &[1, 2, 3, 4, 5, 6, 7, 8, 9],
                &HEADS,
                Authenticate::read(&message).map(|_| ()),
            ),
        };
        let failing = read.err().map(Refusal::number);
        let mut reached = true;
        let mut expected = String::new();
        for &check in checks {
            let state = match read {
                Err(refusal) if failing == Some(check) => {
                    reached = false;
                    figures(&message, heads, refusal)
                }
                _ if reached => "held".to_owned(),
                _ => "not reached".to_owned(),
            };
            expected += &format!("check {check} {state}\n");
        }
        let print = line(explain, &message);
        assert_eq!(print, expected);
        assert!(print.len() <= 279);
        assert_eq!(reached, read.is_ok());
        failed[usize::from(failing.unwrap_or(0))] += 1;
    }
    for number in [0, 2, 3, 4, 5, 6, 7, 8, 9, 10, 11, 12, 13] {
        assert!(failed[number] > 50, "{failed:?}");
    }
}

#[test]
fn a_list_agrees_with_its_walk() {
    let mut random = Random(7);
    let (mut taken, mut faulty) = (0, 0);
    for _ in 0..20_000 {
        let bytes = random.list();
        let info = TargetInfo(&bytes);
        let mut walk = info.walk();
        let mut pairs = Vec::new();
        let end = loop {
            match walk.ask() {
                Ok(Some(pair)) => {
                    let end = pair.place + pair.value.len();
                    assert_eq!(pair.value, &bytes[pair.place..end]);
                    pairs.push(pair);
                }
                Ok(None) => break None,
                Err(refusal) => break Some(refusal),
            }
        };
        for (k, pair) in pairs.iter().enumerate() {
            assert_eq!(info.answer_at(k), Ok(Some(*pair)));
        }
        let after = pairs.len() + random.below(4);
        for id in [0, 1, 2, 7, 300, 5000].map(AvId) {
            let first = pairs.iter().find(|pair| pair.id == id).copied();
            assert_eq!(info.find(id), end.map_or(Ok(first), Err));
        }
        match end {
            None => {
                assert_eq!(info.count(), Ok(pairs.len()));
                assert_eq!(info.answer_at(after), Ok(None));
                taken += 1;
            }
            Some(refusal) => {
                assert_eq!(info.count(), Err(refusal));
                assert_eq!(info.answer_at(after), Err(refusal));
                assert_eq!(info.timestamp(), Err(refusal));
                faulty += 1;
            }
        }
    }
    assert!(taken > 5000 && faulty > 1000, "{taken} {faulty}");
}

/// The pairs of a list, without the end pair.
fn pairs_of(list: &[u8]) -> Vec<(u16, Vec<u8>)> {
    let mut walk = TargetInfo(list).walk();
    let mut pairs = Vec::new();
    while let Some(pair) = walk.ask().expect("a sound list") {
        pairs.push((pair.id.0, pair.value.to_vec()));
    }
    pairs
}

/// The value of the first flags pair, or 0.
fn first_flags(pairs: &[(u16, Vec<u8>)]) -> u32 {
    let value = pairs.iter().find(|(id, _)| *id == 6);
    value.map_or(0, |(_, value)| {
        u32::from_le_bytes(value.as_slice().try_into().unwrap())
    })
}

/// The pairs without the value of the first flags pair.
fn but_first_flags(mut pairs: Vec<(u16, Vec<u8>)>) -> Vec<(u16, Vec<u8>)> {
    if let Some((_, value)) = pairs.iter_mut().find(|(id, _)| *id == 6) {
        value.clear();
    }
    pairs
}

/// That `went` answers `came`, part by part.
fn goes_back(came: Vec<(u16, Vec<u8>)>, went: &[(u16, Vec<u8>)], parts: &ResponsePairs<'_>) {
    // The two that are always added, last.
    let (kept, added) = went.split_at(went.len() - 2);
    let name = parts.target_name;
    assert_eq!(added, [(10, parts.bindings.to_vec()), (9, name.to_vec())]);
    assert!(kept.iter().all(|(id, _)| *id != 9 && *id != 10));

    // The bits, each for its own reason.
    let mark = parts.unverified && !name.is_empty();
    let time = came.iter().any(|(id, _)| *id == 7);
    let due = u32::from(time) << 1 | u32::from(mark) << 2;
    assert_eq!(first_flags(kept), first_flags(&came) | due);

    // What came, in order, and a flags pair where bits had none to go to.
    let had_flags = came.iter().any(|(id, _)| *id == 6);
    let mut expected = came;
    expected.retain(|(id, _)| *id != 9 && *id != 10);
    if !had_flags && due != 0 {
        expected.push((6, Vec::new()));
    }
    assert_eq!(but_first_flags(kept.to_vec()), but_first_flags(expected));
}

#[test]
fn a_pair_list_that_goes_back_reads_back() {
    let mut random = Random(8);
    let mut taken = 0;
    for _ in 0..20_000 {
        let message = random.challenge();
        let Ok(challenge) = Challenge::read(&message) else {
            continue;
        };
        let name_len = 2 * random.below(5);
        let name = random.bytes(name_len);
        let parts = ResponsePairs {
            target_name: &name,
            unverified: random.coin(),
            bindings: random.bytes(16).try_into().unwrap(),
        };
        let mut out = [0xEE; 400];
        let len = write_response_pairs(&message, &parts, &mut out).expect("room enough");
        let (written, after) = out.split_at(len);
        assert!(after.iter().all(|&byte| byte == 0xEE));
        let list = challenge.target_info.bytes;
        if list.is_empty() {
            assert_eq!(written, [0; 4]);
        } else {
            goes_back(pairs_of(list), &pairs_of(written), &parts);
            taken += 1;
        }
    }
    assert!(taken > 5000, "{taken}");
}
