//! Every call of the library held against the second reader, on messages at
//! every boundary, then on drawn and mutated ones.

pub mod call;
mod chunks;
pub mod fault;
mod given;
pub mod hold;
mod inputs;
mod lender;
#[cfg(feature = "library")]
pub mod library;
pub mod memory;
pub mod night;
mod second;
mod secret;
mod tally;

use std::io::{self, Write};
use std::num::NonZero;
use std::thread;

use crate::cases::cases;
use crate::headers::{changed, other_text, Change, CHANGES};
use crate::pairs::IDS;
use crate::random::Random;
use crate::report::{print_counts, print_differences};
use crate::wire::{KEY_EXCH, MAX_MESSAGE};

use call::{Call, Line, Respond};
use chunks::{Found, Plan, CHUNK};
use hold::{Holder, Lent, Library, MOST_NUMBERS};
use inputs::Drawn;
use night::{Night, Place};
use secret::{changeable_in_night, changeable_places, secret_places};

pub use chunks::Until;
pub use second::second;
pub use tally::Tally;

/// What a run found.
pub struct Report {
    seed: u64,
    found: Found,
}

/// Holds the library against the second reader, on every core: a case for each message
/// at a boundary and for each that is `captured`, then drawn ones, some of them
/// captured ones with changes.
pub fn run(
    library: impl Library + Sync,
    seed: u64,
    until: Until,
    captured: &[Vec<u8>],
    progress: &mut (impl Write + Send),
) -> Report {
    let boundaries = cases(seed, 0).into_iter();
    let mut given: Vec<Vec<u8>> = boundaries.map(|case| case.message).collect();
    given.extend_from_slice(captured);
    let plan = Plan {
        seed,
        given: &given,
        captured,
        until,
        chunk: CHUNK,
        threads: thread::available_parallelism().unwrap_or(NonZero::<usize>::MIN),
    };
    let found = plan.run(library, progress);
    Report { seed, found }
}

/// So many messages as the cases are drawn from: of any kind, sound, damaged, or
/// `captured` with changes.
pub fn drawn(seed: u64, count: usize, captured: &[Vec<u8>]) -> Vec<Vec<u8>> {
    let random = &mut Random::new(!seed);
    let messages = (0..count).map(|_| inputs::message(random, captured));
    messages.collect()
}

/// Makes every call on a message, and holds it.
pub struct Run<L> {
    pub holder: Holder<L>,
    /// What is drawn beside a message.
    pub random: Random,
}

impl<L: Library> Run<L> {
    pub fn new(library: L, seed: u64) -> Self {
        let mut random = Random::new(seed);
        Self {
            holder: Holder::new(library, &mut random),
            random,
        }
    }

    /// Whether a case found no difference.
    fn held(&mut self, message: &[u8]) -> bool {
        let before = self.holder.different;
        self.case(message);
        self.holder.different == before
    }

    /// Every call on one message, and on what is drawn beside it.
    pub fn case(&mut self, message: &[u8]) {
        self.holder.stir(&mut self.random);
        self.readings(message);
        self.names(message);
        self.fields(message);
        let list = inputs::list(&mut self.random, message);
        self.pairs(&list);
        self.lines(message);
        self.nights(message);
        self.writing();
        let challenge = inputs::challenge(&mut self.random, message);
        self.answering(&challenge);
        self.going_back(&challenge);
        self.secrets_read(message);
        self.secrets_answered(&challenge);
        self.mics(message);
        self.canonical(message);
        let some = [(); 4].map(|()| self.random.pick(&CHANGES));
        self.headers(message, &some);
    }

    fn readings(&mut self, message: &[u8]) {
        for call in [
            Call::ReadAuthenticate { message },
            Call::ReadChallenge { message },
            Call::ReadTimestamp { message },
            Call::ReadServerNames { message },
            Call::ReadNegotiate { message },
            Call::ReadNlAuth { message },
        ] {
            self.hold_arrays(&call);
        }
    }

    /// A call that gives arrays, at the room that it needs, at more, and at
    /// less in one or both.
    fn hold_arrays(&mut self, call: &Call<'_>) {
        let (room, numbers) = (call.array().unwrap_or_default(), call.numbers());
        self.holder.hold(call, Lent { room, numbers });
        let lent = Lent {
            room: self.other_room(room),
            numbers: self.other_room(numbers).min(MOST_NUMBERS),
        };
        self.holder.hold(call, lent);
    }

    /// The room that is needed, one less, none, or some more.
    fn other_room(&mut self, needed: usize) -> usize {
        match self.random.below(5) {
            0 => 0,
            1 => needed.saturating_sub(1),
            2 => self.random.below(needed + 1),
            3 => needed,
            _ => needed + self.random.between(1, 6),
        }
    }

    /// The text of each string that may have jumps, and of any other number.
    fn names(&mut self, message: &[u8]) {
        let other = self.random.pick(&[0, 1, 1, 2, 6, 0x103, u32::MAX]);
        for which in [3, 4, 5, other] {
            self.hold_rooms(&Call::NlAuthName { message, which });
        }
    }

    fn fields(&mut self, message: &[u8]) {
        for _ in 0..3 {
            let len = inputs::boundary_len(&mut self.random, message.len());
            let offset = inputs::boundary_offset(&mut self.random, len, message.len());
            self.hold_rooms(&Call::FieldBytes {
                message,
                offset,
                len,
            });
        }
    }

    /// A call that writes, at exactly the room that it needs, one less, none,
    /// less, and more.
    fn hold_rooms(&mut self, call: &Call<'_>) {
        let numbers = call.numbers();
        let rooms = match self.holder.measure(call) {
            Some(len) => [
                len,
                len.saturating_sub(1),
                0,
                self.random.below(len + 1),
                len + self.random.between(1, 64),
            ],
            None => [0, 1, self.random.below(100), 150, 300],
        };
        for room in rooms {
            self.holder.hold(call, Lent { room, numbers });
        }
        if numbers > 0 {
            let numbers = self.random.below(numbers);
            for room in [rooms[0], rooms[4]] {
                self.holder.hold(call, Lent { room, numbers });
            }
        }
    }

    fn pairs(&mut self, list: &[u8]) {
        self.hold_arrays(&Call::CheckPairs { list });
        self.hold_arrays(&Call::CountPairs { list });
        for id in [0, self.random.pick(&IDS), self.random.pick(&[1, 2, 7])] {
            self.hold_arrays(&Call::FindPair { list, id });
        }
        // The walk from the start, as a caller would ask.
        let mut walk = reader::TargetInfo(list).walk();
        for _ in 0..8 {
            let at = walk.at();
            self.hold_arrays(&Call::NextPair { list, at });
            if !matches!(walk.ask(), Ok(Some(_))) {
                break;
            }
        }
        for at in inputs::places(&mut self.random, list) {
            self.hold_arrays(&Call::NextPair { list, at });
        }
    }

    fn lines(&mut self, message: &[u8]) {
        for line in Line::ALL {
            self.hold_rooms(&Call::Line { line, message });
        }
        // Around the line of 33, which has 24 bytes.
        for line in [Line::NtlmProgram, Line::NlAuthProgram] {
            let room = self.random.between(22, 26);
            let lent = Lent { room, numbers: 0 };
            self.holder.hold(&Call::Line { line, message }, lent);
        }
    }

    /// The message as a night's buffer, then among others in one.
    fn nights(&mut self, message: &[u8]) {
        let places = night::boundaries(&mut self.random, message.len());
        self.hold_night(message, &places);
        let Night { buffer, places } = night::drawn(&mut self.random, message);
        self.hold_night(&buffer, &places);
        self.secrets_of_a_night(&buffer, &places);
    }

    /// The whole list, and none of it.
    fn hold_night(&mut self, buffer: &[u8], places: &[Place]) {
        for places in [places, &[]] {
            let call = Call::CheckMessages { buffer, places };
            let (room, numbers) = (0, call.numbers());
            self.holder.hold(&call, Lent { room, numbers });
        }
    }

    /// Demand 3 as request 8/12 puts it: two buffers that differ only in secrets
    /// get equal answers for equal lists.
    fn secrets_of_a_night(&mut self, buffer: &[u8], places: &[Place]) {
        let mut other = buffer.to_vec();
        for at in changeable_in_night(buffer, places) {
            other[at] = self.random.byte();
        }
        if other == buffer {
            return;
        }
        let calls = [buffer, &other].map(|buffer| Call::CheckMessages { buffer, places });
        let lent = Lent {
            room: 0,
            numbers: calls[0].numbers(),
        };
        self.holder
            .hold_alike(&calls[0], &calls[1], lent, |_| Vec::new());
    }

    fn writing(&mut self) {
        let flags = inputs::flags(&mut self.random);
        let drawn = Drawn::new(&mut self.random, flags);
        self.hold_rooms(&Call::WriteAuthenticate {
            flags,
            parts: drawn.parts(),
        });
        let flags = inputs::flags(&mut self.random);
        let [domain, workstation] = inputs::opening_names(&mut self.random);
        let version = self.random.array();
        self.hold_rooms(&Call::WriteNegotiate {
            flags,
            version: &version,
            domain: &domain,
            workstation: &workstation,
        });
        self.nl_auth_request();
        self.hold_rooms(&Call::WriteNlAuthResponse);
    }

    fn nl_auth_request(&mut self) {
        let flags = inputs::nl_auth_flags(&mut self.random);
        let strings = inputs::strings(&mut self.random);
        self.hold_rooms(&Call::WriteNlAuthRequest {
            flags,
            strings: strings.each_ref().map(Vec::as_slice),
        });
    }

    fn answering(&mut self, challenge: &[u8]) {
        let flags = challenge_flags(challenge);
        let mut drawn = Drawn::new(&mut self.random, flags);
        for settings in self.settings() {
            self.hold_arrays(&Call::Decide {
                settings,
                challenge,
            });
            self.hold_respond(Respond::With { settings }, challenge, &drawn);
            drawn = Drawn::new(&mut self.random, flags);
        }
        let demand_128 = inputs::yes(&mut self.random);
        for how in Respond::thin(demand_128) {
            self.hold_respond(how, challenge, &drawn);
        }
        let parts = drawn.parts();
        for own in [&[], parts.domain] {
            self.hold_rooms(&Call::DomainToSend { own, challenge });
        }
    }

    /// The pair list that goes back: without and with a name, each without and
    /// with a mark, then with a name of odd length or a long one.
    fn going_back(&mut self, challenge: &[u8]) {
        let bindings = self.random.array();
        let mark = inputs::yes(&mut self.random);
        let name = inputs::target_name(&mut self.random);
        let call = |target_name, unverified| Call::WriteResponsePairs {
            challenge,
            target_name,
            unverified,
            bindings: &bindings,
        };
        for unverified in [0, mark] {
            self.hold_rooms(&call(&[], unverified));
            self.hold_rooms(&call(&name, unverified));
            // The end pair has four bytes.
            for room in [3, 4] {
                let lent = Lent { room, numbers: 0 };
                self.holder.hold(&call(&name, unverified), lent);
            }
        }
        let unverified = self.random.pick(&[0, mark]);
        let with_name = self.holder.measure(&call(&name, unverified));
        let others = with_name.map_or(0, |len| len.saturating_sub(name.len()));
        let other = inputs::odd_or_long_name(&mut self.random, others);
        self.hold_rooms(&call(&other, unverified));
    }

    /// Two sums of the four settings, one with bits that are ignored.
    fn settings(&mut self) -> [u32; 2] {
        let settings = u32::from_le_bytes(self.random.array());
        [settings & 0xF, settings >> 4]
    }

    fn hold_respond(&mut self, how: Respond, challenge: &[u8], drawn: &Drawn) {
        let clock = self.random.bits();
        self.hold_rooms(&Call::Respond {
            how,
            challenge,
            clock,
            parts: drawn.parts(),
        });
    }

    /// Demand 3: two messages that differ only in secrets get the same answer, the
    /// same line and the same checks.
    fn secrets_read(&mut self, message: &[u8]) {
        let mut other = message.to_vec();
        for at in changeable_places(message) {
            other[at] = self.random.byte();
        }
        if other == message {
            return;
        }
        let other = other.as_slice();
        // All but the MIC's own bytes.
        let mic = |_: &[u8]| (0..16).collect();
        let calls = [message, other].map(|message| Call::ReadAuthenticate { message });
        let lent = Lent {
            room: 16,
            numbers: calls[0].numbers(),
        };
        self.holder.hold_alike(&calls[0], &calls[1], lent, mic);
        for line in [
            Line::Authenticate,
            Line::Ntlm,
            Line::NtlmProgram,
            Line::Explain,
        ] {
            // A message of type 1 or 2 is read as another kind, without secrets.
            if line != Line::Authenticate && matches!(message[8..12], [1 | 2, 0, 0, 0]) {
                continue;
            }
            let calls = [message, other].map(|message| Call::Line { line, message });
            let len = self.holder.measure(&calls[0]).unwrap_or_default();
            for room in [len, self.other_room(len)] {
                let lent = Lent { room, numbers: 0 };
                self.holder
                    .hold_alike(&calls[0], &calls[1], lent, |_| Vec::new());
            }
        }
    }

    /// Demand 3: two answers to one challenge, with other secrets of the same
    /// lengths, are alike outside them.
    fn secrets_answered(&mut self, challenge: &[u8]) {
        let drawn = Drawn::new(&mut self.random, challenge_flags(challenge));
        let others = drawn.other_secrets(&mut self.random);
        let (clock, mic) = (self.random.bits(), self.random.array());
        let [settings, _] = self.settings();
        let demand_128 = inputs::yes(&mut self.random);
        let thin = self.random.pick(&Respond::thin(demand_128));
        for how in [Respond::With { settings }, thin] {
            let call = |parts| Call::Respond {
                how,
                challenge,
                clock,
                parts,
            };
            let calls = [
                call(drawn.parts()),
                call(drawn.parts().with_secrets(&others, &mic)),
            ];
            let len = self.holder.measure(&calls[0]).unwrap_or(100);
            let lent = Lent {
                room: if self.random.one_in(4) {
                    self.other_room(len)
                } else {
                    len
                },
                numbers: calls[0].numbers(),
            };
            self.holder
                .hold_alike(&calls[0], &calls[1], lent, secret_places);
        }
    }
}

impl<L: Library> Run<L> {
    /// A message's canonical form, and what comes out of that.
    fn canonical(&mut self, message: &[u8]) {
        self.hold_rooms(&Call::CanonicalAuthenticate { message });
        let mut out = vec![0; message.len() + MAX_MESSAGE];
        if let Ok(len) = reader::canonical_authenticate(message, &mut out) {
            let message = &out[..len];
            self.hold_rooms(&Call::CanonicalAuthenticate { message });
        }
    }

    /// A message in a header line and back, and out of texts that are changed.
    fn headers(&mut self, message: &[u8], changes: &[Change]) {
        self.hold_rooms(&Call::ExportHeader { message });
        let text = other_text(&mut self.random, message);
        self.hold_rooms(&Call::ImportHeader { text: &text });
        for &change in changes {
            let text = changed(&mut self.random, message, change);
            self.hold_rooms(&Call::ImportHeader { text: &text });
        }
        // As a text by itself.
        self.hold_rooms(&Call::ImportHeader { text: message });
    }

    /// The MIC of a sign-in, as it came, and with a MIC that is right, or wrong in
    /// one byte.
    fn mics(&mut self, message: &[u8]) {
        let mut sign_in = inputs::SignIn::new(&mut self.random, message);
        self.hold_arrays(&sign_in.mic());
        self.hold_arrays(&sign_in.check_mic());
        self.secrets_hashed(&sign_in);
        let Some(right) = sign_in.right_mic() else {
            return;
        };
        sign_in.set_mic(right);
        self.hold_arrays(&sign_in.mic());
        self.hold_arrays(&sign_in.check_mic());
        for at in [0, self.random.below(16), 15] {
            let mut wrong = right;
            wrong[at] ^= 1 << self.random.below(8);
            sign_in.set_mic(wrong);
            self.hold_arrays(&sign_in.check_mic());
        }
    }

    /// Request 10/12 on demand 3: the refusals "depend only on the key's length,
    /// the two earlier messages, and the AUTHENTICATE's length and first 64
    /// bytes".
    fn secrets_hashed(&mut self, sign_in: &inputs::SignIn) {
        let other = sign_in.with_other_secrets(&mut self.random);
        let lent = |room| Lent { room, numbers: 0 };
        let room = self.random.pick(&[16, 16, 17, 15]);
        // All but the MIC's own bytes.
        let mic = |written: &[u8]| (0..written.len()).collect();
        let calls = [sign_in, &other].map(inputs::SignIn::mic);
        self.holder
            .hold_alike(&calls[0], &calls[1], lent(room), mic);
        let calls = [sign_in, &other].map(inputs::SignIn::check_mic);
        self.holder
            .hold_alike(&calls[0], &calls[1], lent(0), |_| Vec::new());
    }
}

/// A challenge's flags, as far as it has any, so that the parts fit it.
fn challenge_flags(challenge: &[u8]) -> u32 {
    challenge
        .get(20..24)
        .and_then(|bytes| bytes.first_chunk())
        .map_or(KEY_EXCH, |bytes| u32::from_le_bytes(*bytes))
}

impl Report {
    /// Prints the counts, the differences and last 'N passed, M failed', and
    /// gives M: each kind of answer that was missed is one that failed.
    pub fn print(&self, out: &mut impl Write) -> io::Result<usize> {
        let Found {
            cases,
            failed,
            ref tally,
            different,
            ..
        } = self.found;
        let (seed, calls) = (self.seed, tally.calls());
        writeln!(out, "{cases} cases from seed {seed}, {calls} calls held:")?;
        write!(out, "{tally}")?;
        print_differences(self.found.differences().collect(), different, out)?;
        let not_reached = tally.not_reached().into_iter();
        let missed: Vec<String> = not_reached
            .map(|kind| format!("NOT REACHED: {kind}"))
            .collect();
        print_counts(cases, failed, &missed, out)
    }
}

#[cfg(test)]
mod tests;
