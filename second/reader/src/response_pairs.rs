//! Writing the pair list that goes back in the answer: document 02, request
//! 2/12, with source document 004 behind it.

use crate::challenge::Challenge;
use crate::layout::room_for;
use crate::output::{Count, Cursor, Sink};
use crate::refusal::{Reason, Refusal};
use crate::target_info::{AvId, AvPair, TargetInfo};

/// What the caller gives beside the challenge.
#[derive(Clone, Copy, Debug, Default)]
pub struct ResponsePairs<'a> {
    /// The target name: "an empty name is no name".
    pub target_name: &'a [u8],
    /// Whether "the caller marks that name unverified".
    pub unverified: bool,
    /// "The caller's 16 bytes or 16 zeros."
    pub bindings: [u8; 16],
}

/// In a flags pair: a MIC is there.
const MIC_IS_THERE: u32 = 0x2;
/// In a flags pair: the target name is unverified.
const NAME_IS_UNVERIFIED: u32 = 0x4;

impl ResponsePairs<'_> {
    /// "31 with field 2 for a target name of odd length."
    const fn check_name(&self) -> Result<(), Refusal> {
        if self.target_name.len().is_multiple_of(2) {
            Ok(())
        } else {
            Err(Reason::WrittenOddName.of_field(TargetInfo::FIELD))
        }
    }

    /// The bits that the flags pair gets: 0x2 with a timestamp, 0x4 for a name
    /// that is marked. "A mark without one changes nothing."
    const fn bits(&self, timestamp: bool) -> u32 {
        let mic = if timestamp { MIC_IS_THERE } else { 0 };
        let marked = self.unverified && !self.target_name.is_empty();
        mic | if marked { NAME_IS_UNVERIFIED } else { 0 }
    }

    /// The list. "Where TargetInfo doesn't count or is empty, the four-byte end
    /// pair alone comes out."
    fn put(&self, challenge: &Challenge<'_>, sink: &mut impl Sink) -> Result<(), Refusal> {
        if !challenge.target_info.is_empty() {
            let bits = self.bits(challenge.pairs.timestamp.is_some());
            let list = TargetInfo(challenge.target_info.bytes);
            let bits_left = put_incoming(list, bits, sink)?;
            self.put_added(bits_left, sink);
        }
        put_pair(AvId::END, &[], sink);
        Ok(())
    }

    /// "Added pairs stand before the end pair in the order 6, 10, 9." A flags
    /// pair is added where bits are left that none has come in for.
    fn put_added(&self, bits_left: u32, sink: &mut impl Sink) {
        if bits_left != 0 {
            put_pair(AvId::FLAGS, &bits_left.to_le_bytes(), sink);
        }
        put_pair(AvId::CHANNEL_BINDINGS, &self.bindings, sink);
        put_pair(AvId::TARGET_NAME, self.target_name, sink);
    }
}

/// The incoming pairs in order, without every 9 and 10, the first flags pair
/// with `bits` set. The bits are given back where there is no flags pair.
fn put_incoming(list: TargetInfo<'_>, bits: u32, sink: &mut impl Sink) -> Result<u32, Refusal> {
    let mut bits_left = bits;
    let mut walk = list.walk();
    while let Some(pair) = walk.ask()? {
        match pair.id {
            AvId::TARGET_NAME | AvId::CHANNEL_BINDINGS => {}
            AvId::FLAGS => {
                let flags = flags_of(&pair) | bits_left;
                put_pair(AvId::FLAGS, &flags.to_le_bytes(), sink);
                bits_left = 0;
            }
            id => put_pair(id, pair.value, sink),
        }
    }
    Ok(bits_left)
}

/// The value of a flags pair, which has four bytes by check 13.
fn flags_of(pair: &AvPair<'_>) -> u32 {
    let bytes = pair.value.first_chunk().copied().unwrap_or_default();
    u32::from_le_bytes(bytes)
}

/// One pair. Check 30 keeps every length that is written below 65,536.
fn put_pair(id: AvId, value: &[u8], sink: &mut impl Sink) {
    let [len_low, len_high, ..] = value.len().to_le_bytes();
    let [id_low, id_high] = id.0.to_le_bytes();
    sink.put(&[id_low, id_high, len_low, len_high]);
    sink.put(value);
}

/// Writes the pair list that answers `challenge` to the start of `out` and
/// gives its length. Refuses by the reading, 31, 30, 33, in that order, with
/// `out` unchanged.
pub fn write_response_pairs(
    challenge: &[u8],
    parts: &ResponsePairs<'_>,
    out: &mut [u8],
) -> Result<usize, Refusal> {
    let challenge = Challenge::read(challenge)?;
    parts.check_name()?;
    let mut count = Count::default();
    parts.put(&challenge, &mut count)?;
    let list = room_for(count.0, &[], out)?;

    let mut cursor = Cursor::new(list);
    parts.put(&challenge, &mut cursor)?;
    Ok(cursor.len())
}
