//! The calls of an input, each held against the second reader.

use compare::wide::call::{Call, Line, Parts, Respond, Thin};
use compare::wide::hold::{Holder, Lent, Library};
use compare::wide::night::{Place, MOST_ENTRIES};
use compare::Random;
use reader::{SignIn, TargetInfo};

use crate::input::{split, stretched, Group, Head, Stream};

/// The most pairs of a list that are asked for one after the other.
const WALKED: usize = 20;

/// Holds the calls of inputs.
pub struct Calls<L> {
    pub holder: Holder<L>,
    /// The head of the input that is held.
    head: Head,
}

impl<L: Library> Calls<L> {
    pub fn new(library: L) -> Self {
        Self {
            holder: Holder::new(library, &mut Random::new(38)),
            head: Head::new(Group::Ntlm),
        }
    }

    /// Makes the calls of an input and says whether none differed. What stands in the
    /// lent memory goes by the input alone, so that it does the same each time.
    pub fn hold_input(&mut self, input: &[u8]) -> bool {
        let Some((head, payload)) = split(input) else {
            return true;
        };
        let before = self.holder.different;
        self.head = head;
        self.holder.stir(&mut Random::new(head.lent.into()));
        let (message, beside) = payload.split_at(payload.len() - head.beside(payload.len()));
        match head.group {
            Group::Ntlm => self.ntlm(&stretched(message, head.stretch)),
            Group::NlAuth => self.nl_auth(&stretched(message, head.stretch)),
            Group::Pairs => self.pairs(&stretched(message, head.stretch)),
            Group::WriteAuthenticate => self.write_authenticate(Stream(message)),
            Group::WriteNegotiate => self.write_negotiate(Stream(message)),
            Group::WriteNlAuth => self.write_nl_auth(Stream(message)),
            Group::ResponsePairs => self.response_pairs(message, Stream(beside)),
            Group::Respond => self.respond(message, Stream(beside)),
            Group::Header => self.header(message),
            Group::SignIn => self.sign_in(Stream(message)),
            Group::Night => self.night(message, Stream(beside)),
            Group::Field => self.field(message, beside),
        }
        self.holder.different == before
    }

    /// Makes a call with what the head says is lent, and once with what it needs.
    fn hold(&mut self, call: &Call<'_>) {
        let own = call.numbers();
        let numbers = match self.head.lent & 7 {
            _ if matches!(call, Call::CheckMessages { .. }) => own,
            0..=3 => own,
            4 | 5 => own + 2,
            6 => own.saturating_sub(1),
            _ => 0,
        };
        let needed = match call.array() {
            Some(len) => len,
            None if own > 0 && !matches!(call, Call::Respond { .. }) => 0,
            None => self.holder.measure(call).unwrap_or_default(),
        };
        let more = usize::from(self.head.room >> 2);
        let room = match self.head.room & 3 {
            0 => needed + more,
            1 => needed,
            2 => needed.saturating_sub(1 + more / 8),
            _ => 4 * more,
        };
        self.holder.hold(call, Lent { room, numbers });
        if room != needed || numbers != own {
            let (room, numbers) = (needed, own);
            self.holder.hold(call, Lent { room, numbers });
        }
    }

    fn hold_all(&mut self, calls: &[Call<'_>]) {
        for call in calls {
            self.hold(call);
        }
    }

    fn ntlm(&mut self, message: &[u8]) {
        self.hold_all(&[
            Call::ReadAuthenticate { message },
            Call::ReadChallenge { message },
            Call::ReadNegotiate { message },
            Call::ReadTimestamp { message },
            Call::ReadServerNames { message },
            Call::CanonicalAuthenticate { message },
            Call::Decide {
                settings: self.own_word(),
                challenge: message,
            },
            Call::DomainToSend {
                own: &[],
                challenge: message,
            },
        ]);
        for line in [
            Line::Authenticate,
            Line::Challenge,
            Line::Negotiate,
            Line::Ntlm,
            Line::NtlmProgram,
            Line::Explain,
        ] {
            self.hold(&Call::Line { line, message });
        }
    }

    fn nl_auth(&mut self, message: &[u8]) {
        self.hold(&Call::ReadNlAuth { message });
        for line in [Line::NlAuth, Line::NlAuthProgram] {
            self.hold(&Call::Line { line, message });
        }
        for which in [1, 2, 3, 4, 5, self.own_word()] {
            self.hold(&Call::NlAuthName { message, which });
        }
    }

    fn pairs(&mut self, list: &[u8]) {
        self.hold(&Call::CheckPairs { list });
        self.hold(&Call::CountPairs { list });
        let [a, b, c, d] = self.head.own;
        for id in (0..12).chain([u16::from_le_bytes([a, b])]) {
            self.hold(&Call::FindPair { list, id });
        }
        let at = match u16::from_le_bytes([c, d]) {
            near @ 0xFF00.. => usize::MAX - usize::from(near & 0xFF),
            at => at.into(),
        };
        self.hold(&Call::NextPair { list, at });
        let mut walk = TargetInfo(list).walk();
        for _ in 0..WALKED {
            let at = walk.at();
            self.hold(&Call::NextPair { list, at });
            if !matches!(walk.ask(), Ok(Some(_))) {
                break;
            }
        }
    }

    fn write_authenticate(&mut self, mut stream: Stream<'_>) {
        let flags = stream.word();
        let (version, mic) = (stream.array(), stream.array());
        let mut fields = stream.parts().map(<[u8]>::to_vec);
        let [a, b, c, _] = self.head.own;
        stretch_one(&mut fields, a, self.head.stretch);
        stretch_one(&mut fields, b, c);
        let parts = parts(&version, &mic, &fields);
        self.hold(&Call::WriteAuthenticate { flags, parts });
    }

    fn write_negotiate(&mut self, mut stream: Stream<'_>) {
        let flags = stream.word();
        let version = stream.array();
        let mut names = stream.parts::<2>().map(<[u8]>::to_vec);
        let [a, b, ..] = self.head.own;
        stretch_one(&mut names, a, self.head.stretch);
        stretch_one(&mut names, a ^ 1, b);
        let [domain, workstation] = &names;
        self.hold(&Call::WriteNegotiate {
            flags,
            version: &version,
            domain,
            workstation,
        });
    }

    fn write_nl_auth(&mut self, mut stream: Stream<'_>) {
        let mut strings = stream.parts::<5>().map(<[u8]>::to_vec);
        stretch_one(&mut strings, self.head.room, self.head.stretch);
        self.hold(&Call::WriteNlAuthRequest {
            flags: self.own_word(),
            strings: strings.each_ref().map(Vec::as_slice),
        });
        self.hold(&Call::WriteNlAuthResponse);
    }

    fn response_pairs(&mut self, challenge: &[u8], mut beside: Stream<'_>) {
        let bindings = beside.array();
        let [a, b, ..] = self.head.own;
        self.hold(&Call::WriteResponsePairs {
            challenge: &stretched(challenge, self.head.stretch),
            target_name: &stretched(beside.0, b),
            unverified: a.into(),
            bindings: &bindings,
        });
    }

    fn respond(&mut self, challenge: &[u8], mut beside: Stream<'_>) {
        let clock = u64::from_le_bytes(beside.array());
        let (version, mic) = (beside.array(), beside.array());
        let mut fields = beside.parts().map(<[u8]>::to_vec);
        let [a, b, c, _] = self.head.own;
        stretch_one(&mut fields, 1, b);
        let how = match a >> 4 & 7 {
            1 => Respond::Thin(Thin::ForBench {
                demand_128: c.into(),
            }),
            2 => Respond::Thin(Thin::ToOldServer),
            3 => Respond::Thin(Thin::ForRelay),
            _ => Respond::With {
                settings: u32::from(a) | u32::from(c) << 24,
            },
        };
        self.hold(&Call::Respond {
            how,
            challenge: &stretched(challenge, self.head.stretch),
            clock,
            parts: parts(&version, &mic, &fields),
        });
    }

    /// A text as it is, or the text of a message; and the bytes as a message.
    fn header(&mut self, payload: &[u8]) {
        let payload = stretched(payload, self.head.stretch);
        let text = match self.head.own[0] & 1 {
            0 => payload,
            _ => encoded(&payload),
        };
        self.hold(&Call::ImportHeader { text: &text });
        self.hold(&Call::ExportHeader { message: &text });
    }

    fn sign_in(&mut self, mut stream: Stream<'_>) {
        let [a, b, c, d] = self.head.own;
        let negotiate = stream.bytes(a.into());
        let challenge = stream.bytes(u16::from_le_bytes([b, c & 15]).into());
        let mut authenticate = stretched(stream.0, self.head.stretch);
        let key_len = if d < 200 { 16 } else { d - 200 };
        let key: Vec<u8> = (0..key_len)
            .map(|at| at.wrapping_mul(d).wrapping_add(c))
            .collect();
        let messages = SignIn {
            negotiate,
            challenge,
            authenticate: &authenticate,
        };
        // The MIC that is right, or one that is nearly.
        let right = reader::mic(&key, &messages).ok();
        if let (Some(mic), 1..) = (right, self.head.lent >> 5 & 3) {
            authenticate[72..88].copy_from_slice(&mic);
            if self.head.lent & 0x40 != 0 {
                authenticate[72 + usize::from(d & 15)] ^= 1 << (c & 7);
            }
        }
        let messages = SignIn {
            negotiate,
            challenge,
            authenticate: &authenticate,
        };
        self.hold(&Call::Mic {
            key: &key,
            messages,
        });
        self.hold(&Call::CheckMic {
            key: &key,
            messages,
        });
    }

    fn night(&mut self, buffer: &[u8], mut beside: Stream<'_>) {
        let buffer = &stretched(buffer, self.head.stretch);
        let many = usize::from(self.head.own[0]) % (MOST_ENTRIES + 1);
        let places: Vec<Place> = (0..many).map(|_| place(&mut beside)).collect();
        let whole = [1, 2, 3].map(|mark| Place::new(0, buffer.len(), mark));
        for places in [places.as_slice(), &whole] {
            self.hold(&Call::CheckMessages { buffer, places });
        }
    }

    fn field(&mut self, message: &[u8], own: &[u8]) {
        let message = &stretched(message, self.head.stretch);
        let [a, b, c, _] = self.head.own;
        self.hold_all(&[
            Call::FieldBytes {
                message,
                offset: u32::from(a) | u32::from(c & 1) << 31 | u32::from(c & 2) << 15,
                len: u16::from_le_bytes([b, c >> 2]),
            },
            Call::DomainToSend {
                own,
                challenge: message,
            },
            Call::ExportHeader { message },
        ]);
    }

    const fn own_word(&self) -> u32 {
        u32::from_le_bytes(self.head.own)
    }
}

/// Stretches one of some parts.
fn stretch_one<const N: usize>(parts: &mut [Vec<u8>; N], which: u8, stretch: u8) {
    let part = &mut parts[usize::from(which) % N];
    *part = stretched(part, stretch);
}

fn parts<'a>(version: &'a [u8; 8], mic: &'a [u8; 16], fields: &'a [Vec<u8>; 6]) -> Parts<'a> {
    let [lm, nt, domain, user, workstation, key] = fields;
    Parts {
        version,
        mic,
        lm,
        nt,
        domain,
        user,
        workstation,
        key,
    }
}

/// A place of a night: numbers from 0xFF00 on stand for the last ones of 64 bits, and
/// those below them for ones that pass 32 bits.
fn place(stream: &mut Stream<'_>) -> Place {
    let number = |bytes| match u16::from_le_bytes(bytes) {
        near @ 0xFF00.. => u64::MAX - u64::from(near & 0xFF),
        far @ 0xFE00.. => (1 << 32) + u64::from(far & 0xFF),
        number => number.into(),
    };
    let (start, length) = (number(stream.array()), number(stream.array()));
    let mark = match stream.byte() {
        mark @ 0..=249 => u32::from(mark % 5),
        other => 1 << 8 << (other & 3) | u32::from(other & 3),
    };
    Place {
        start,
        length,
        mark,
    }
}

/// The text of a header line, also of a message that is too long for one.
pub fn encoded(bytes: &[u8]) -> Vec<u8> {
    const DIGITS: &[u8; 64] = b"ABCDEFGHIJKLMNOPQRSTUVWXYZabcdefghijklmnopqrstuvwxyz0123456789+/";
    let mut text = b"NTLM ".to_vec();
    for group in bytes.chunks(3) {
        let three = group.iter().chain(&[0; 3]).take(3);
        let word = three.fold(0, |word, &byte| word << 8 | usize::from(byte));
        for at in 0..4 {
            text.push(match at <= group.len() {
                true => DIGITS[word >> (18 - 6 * at) & 63],
                false => b'=',
            });
        }
    }
    text
}
