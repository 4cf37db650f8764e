//! The pair list that goes back, held against a plain stand-in for the library's
//! call: it agrees with the reader, and with one fault planted it doesn't.

use reader::{Challenge, TargetInfo};

use super::super::call::{refused, refused_at, Call};
use super::super::hold::Library;
use super::super::tally::Tally;
use super::super::{second, Run};
use crate::challenge::{drawn, orders, KIND};
use crate::random::Random;

/// A pair's id and value.
type Pair = (u16, Vec<u8>);

const FLAGS: u16 = 6;
const TIME: u16 = 7;
const NAME: u16 = 9;
const BINDINGS: u16 = 10;

/// What may be wrong with the stand-in, and the list of all that may.
macro_rules! faults {
    ($($name:ident)*) => {
        #[derive(Clone, Copy, Debug, PartialEq, Eq)]
        enum Fault {
            None,
            $($name,)*
        }
        const FAULTS: &[Fault] = &[$(Fault::$name,)*];
    };
}

faults! {
    IncomingNameKept
    IncomingBindingsKept
    FirstNameAloneLeftOut
    BitsInEveryFlagsPair
    BitsInTheLastFlagsPair
    BitsInThePairAfterTheTime
    BitsCleared
    OtherBitsCleared
    MicBitWithoutATime
    MarkWithoutAName
    MarkForgotten
    MarkByItsLowByte
    MarkNeedsATime
    MarkInAPairOfItsOwn
    SecondFlagsPairAdded
    FlagsPairAddedWithNoBits
    NameBeforeBindings
    FlagsAfterBindings
    FlagsBeforeWhatCame
    AddedAfterTheEndPair
    NoNamePairForNoName
    ZerosForBindings
    AddedWhereEmpty
    NothingWhereEmpty
    EndPairAloneIsEmpty
    UncountedListCopied
    EndPairForgotten
    OddNameTaken
    OddNameByUnicode
    OddNameWithAList
    OddNameOfField3
    SizeBeforeOddName
    RoomBeforeSize
    SizeWithoutTheEndPair
    SizeByTheListThatCame
    NameLengthIn16Bits
    NameBeforeReading
    RoomForEverythingThatCame
}

use Fault as F;

/// What the call is given.
#[derive(Clone, Copy)]
struct Given<'a> {
    name: &'a [u8],
    mark: u32,
    bindings: [u8; 16],
    fault: Fault,
}

/// The pairs of a sound list, without the end pair.
fn pairs_of(list: &[u8]) -> Vec<Pair> {
    let mut walk = TargetInfo(list).walk();
    let mut pairs = Vec::new();
    while let Ok(Some(pair)) = walk.ask() {
        pairs.push((pair.id.0, pair.value.to_vec()));
    }
    pairs
}

fn has(pairs: &[Pair], wanted: u16) -> bool {
    pairs.iter().any(|(id, _)| *id == wanted)
}

impl Given<'_> {
    fn is(&self, fault: Fault) -> bool {
        self.fault == fault
    }

    /// The bits that are due.
    fn bits(&self, time: bool) -> u8 {
        let marked = match self.fault {
            F::MarkForgotten => false,
            F::MarkByItsLowByte => self.mark & 0xFF != 0,
            _ => self.mark != 0,
        };
        let named = !self.name.is_empty() || self.is(F::MarkWithoutAName);
        let marked = marked && named && (time || !self.is(F::MarkNeedsATime));
        let mic = time || self.is(F::MicBitWithoutATime);
        u8::from(mic) << 1 | u8::from(marked) << 2
    }

    /// The incoming pairs that stay.
    fn kept(&self, came: &[Pair]) -> Vec<Pair> {
        let mut kept = came.to_vec();
        if self.is(F::FirstNameAloneLeftOut) {
            let first = kept.iter().position(|(id, _)| *id == NAME);
            first.map(|at| kept.remove(at));
            kept.retain(|(id, _)| *id != BINDINGS);
            return kept;
        }
        kept.retain(|(id, _)| match *id {
            NAME => self.is(F::IncomingNameKept),
            BINDINGS => self.is(F::IncomingBindingsKept),
            _ => true,
        });
        kept
    }

    /// Which flags pairs get the bits.
    fn chosen(&self, pairs: &[Pair]) -> Vec<usize> {
        let all: Vec<usize> = (0..pairs.len())
            .filter(|&at| pairs[at].0 == FLAGS)
            .collect();
        let time = pairs.iter().position(|(id, _)| *id == TIME);
        match self.fault {
            F::BitsInEveryFlagsPair => all,
            F::BitsInTheLastFlagsPair => all.last().copied().into_iter().collect(),
            F::BitsInThePairAfterTheTime => {
                let after = all.iter().find(|&&at| Some(at) > time).or(all.first());
                after.copied().into_iter().collect()
            }
            _ => all.first().copied().into_iter().collect(),
        }
    }

    /// Sets the bits in the flags pairs; those that none came in for.
    fn set_bits(&self, pairs: &mut [Pair], bits: u8) -> u8 {
        let chosen = self.chosen(pairs);
        for &at in &chosen {
            let flags = &mut pairs[at].1;
            match self.fault {
                F::BitsCleared => flags[0] = flags[0] & !6 | bits,
                F::OtherBitsCleared => flags.copy_from_slice(&[bits, 0, 0, 0]),
                F::MarkInAPairOfItsOwn => flags[0] |= bits & 2,
                _ => flags[0] |= bits,
            }
        }
        match self.fault {
            F::MarkInAPairOfItsOwn if !chosen.is_empty() => bits & 4,
            _ if chosen.is_empty() => bits,
            _ => 0,
        }
    }

    /// The pairs that go back.
    fn pairs(&self, came: &[Pair]) -> Vec<Pair> {
        let bits = self.bits(has(came, TIME));
        let mut pairs = self.kept(came);
        let left = self.set_bits(&mut pairs, bits);
        let add_flags = match self.fault {
            F::SecondFlagsPairAdded => bits != 0,
            F::FlagsPairAddedWithNoBits => !has(came, FLAGS),
            _ => left != 0,
        };
        let flags = (FLAGS, vec![if left == 0 { bits } else { left }, 0, 0, 0]);
        let bindings = match self.fault {
            F::ZerosForBindings => [0; 16],
            _ => self.bindings,
        };
        let mut added = vec![(BINDINGS, bindings.to_vec()), (NAME, self.name.to_vec())];
        match self.fault {
            F::NameBeforeBindings => added.reverse(),
            F::NoNamePairForNoName => added.retain(|(_, value)| !value.is_empty()),
            _ => {}
        }
        if add_flags {
            match self.fault {
                F::FlagsAfterBindings => added.insert(1, flags),
                F::FlagsBeforeWhatCame => pairs.insert(0, flags),
                _ => added.insert(0, flags),
            }
        }
        pairs.extend(added);
        pairs
    }

    /// The bytes of the list.
    fn list(&self, challenge: &Challenge<'_>, message: &[u8]) -> Vec<u8> {
        let mut info = challenge.target_info.bytes;
        if self.is(F::UncountedListCopied) && info.is_empty() {
            info = by_its_head(message);
        }
        let empty = match self.fault {
            F::AddedWhereEmpty => false,
            F::EndPairAloneIsEmpty => info.len() <= 4,
            _ => info.is_empty(),
        };
        if empty {
            return vec![0; if self.is(F::NothingWhereEmpty) { 0 } else { 4 }];
        }
        let came = pairs_of(info);
        let mut list = Vec::new();
        for (id, value) in self.pairs(&came) {
            if self.is(F::AddedAfterTheEndPair) && id == BINDINGS {
                list.extend([0; 4]);
            }
            let [low, high, ..] = value.len().to_le_bytes();
            list.extend(id.to_le_bytes());
            list.extend([low, high]);
            list.extend(value);
        }
        if !self.is(F::EndPairForgotten) && !self.is(F::AddedAfterTheEndPair) {
            list.extend([0; 4]);
        }
        list
    }

    fn is_odd(&self, challenge: &Challenge<'_>) -> bool {
        let looked_at = match self.fault {
            F::OddNameTaken => false,
            F::OddNameByUnicode => challenge.flags.0 & 1 != 0,
            F::OddNameWithAList => !challenge.target_info.is_empty(),
            _ => true,
        };
        looked_at && self.name.len() % 2 == 1
    }

    /// Whether the list is refused 30.
    fn is_long(&self, list: &[u8], came: &[u8]) -> bool {
        let len = match self.fault {
            F::SizeWithoutTheEndPair => list.len() - 4,
            F::SizeByTheListThatCame => list.len().max(came.len() + 24 + self.name.len()),
            F::NameLengthIn16Bits => list.len() - self.name.len() / 0x1_0000 * 0x1_0000,
            _ => list.len(),
        };
        len > 65_535
    }

    /// The answer, and the bytes where there are some.
    fn answer(&self, message: &[u8], room: usize) -> Result<Vec<u8>, u64> {
        let odd = refused(31, if self.is(F::OddNameOfField3) { 3 } else { 2 });
        if self.is(F::NameBeforeReading) && self.name.len() % 2 == 1 {
            return Err(odd);
        }
        let read = Challenge::read(message);
        let challenge =
            read.map_err(|refusal| refused_at(refusal.number(), refusal.field, refusal.place))?;
        let came = challenge.target_info.bytes;
        let list = self.list(&challenge, message);
        let long = self.is_long(&list, came);
        let needed = match self.fault {
            F::RoomForEverythingThatCame => list.len().max(came.len()),
            _ => list.len(),
        };
        let [odd, long, room] = [
            (self.is_odd(&challenge), odd),
            (long, refused(30, 0)),
            (room < needed, refused(33, 0)),
        ];
        let order = match self.fault {
            F::SizeBeforeOddName => [long, odd, room],
            F::RoomBeforeSize => [odd, room, long],
            _ => [odd, long, room],
        };
        match order.into_iter().find(|(fails, _)| *fails) {
            Some((_, refusal)) => Err(refusal),
            None => Ok(list),
        }
    }
}

/// A TargetInfo whether it counts or not, where its head has one.
fn by_its_head(message: &[u8]) -> &[u8] {
    let len = usize::from(u16::from_le_bytes([message[40], message[41]]));
    let [_, _, _, _, offset @ ..] = *message[40..].first_chunk::<8>().expect("a head");
    let at = u32::from_le_bytes(offset) as usize;
    message.get(at..at.saturating_add(len)).unwrap_or_default()
}

/// The library with the stand-in for this call.
fn stand_in(fault: Fault) -> impl Fn(&Call<'_>, &mut [u8], &mut [u64]) -> u64 {
    move |call, out, numbers| {
        let Call::WriteResponsePairs {
            challenge,
            target_name,
            unverified,
            bindings,
        } = *call
        else {
            return second(call, out, numbers);
        };
        let given = Given {
            name: target_name,
            mark: unverified,
            bindings: *bindings,
            fault,
        };
        match given.answer(challenge, out.len()) {
            Ok(list) => {
                out[..list.len()].copy_from_slice(&list);
                list.len() as u64
            }
            Err(refusal) => refusal,
        }
    }
}

/// The call on these challenges, up to the first that finds a difference: its
/// text, and how the reader answered.
fn held(library: impl Library, challenges: &[Vec<u8>]) -> (Option<String>, Tally) {
    let mut run = Run::new(library, 11);
    for challenge in challenges {
        run.going_back(challenge);
        if run.holder.different > 0 {
            break;
        }
    }
    let found = run.holder.differences.into_iter().next();
    (found.map(|difference| difference.text), run.holder.tally)
}

/// Every order of the pairs that matter, and drawn challenges.
fn challenges() -> Vec<Vec<u8>> {
    let mut random = Random::new(3);
    let mut challenges = Vec::new();
    orders(&mut random, &mut challenges);
    challenges.extend((0..600).map(|_| drawn(&mut random)));
    challenges
}

#[test]
fn the_stand_in_agrees_and_the_boundaries_reach_every_refusal() {
    let mut challenges = challenges();
    challenges.extend(KIND.boundaries(&mut Random::new(4)));
    let (found, tally) = held(stand_in(F::None), &challenges);
    assert_eq!(found, None);
    for missing in tally.not_reached() {
        assert!(!missing.starts_with("write_response_pairs "), "{missing}");
    }
}

#[test]
fn each_fault_in_the_list_is_found() {
    let challenges = challenges();
    for &fault in FAULTS {
        let (found, _) = held(stand_in(fault), &challenges);
        let text = found.unwrap_or_else(|| panic!("{fault:?} is not found"));
        let start = "DIFFERENT: write_response_pairs unverified=";
        assert!(text.starts_with(start), "{fault:?}: {text}");
    }
}

/// The first difference tells of lent memory that must stay.
fn changes_more(library: impl Library) {
    let (found, _) = held(library, &challenges());
    let text = found.expect("a difference");
    let start = "CHANGED MORE THAN IT WRITES: write_response_pairs ";
    assert!(text.starts_with(start), "{text}");
}

#[test]
fn a_refusal_that_has_begun_to_write_is_found() {
    changes_more(|call: &Call<'_>, out: &mut [u8], numbers: &mut [u64]| {
        let answer = second(call, out, numbers);
        if answer == refused(33, 0) {
            out.iter_mut().take(4).for_each(|byte| *byte = !*byte);
        }
        answer
    });
}

#[test]
fn a_byte_after_the_list_is_found() {
    changes_more(|call: &Call<'_>, out: &mut [u8], numbers: &mut [u64]| {
        let answer = second(call, out, numbers);
        if let Some(byte) = usize::try_from(answer).ok().and_then(|at| out.get_mut(at)) {
            *byte = !*byte;
        }
        answer
    });
}
