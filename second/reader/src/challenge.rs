//! Reading CHALLENGE.

use crate::flags::{CharacterSet, NegotiateFlags};
use crate::refusal::Refusal;
use crate::target_info::{Summary, TargetInfo};
use crate::wire::{head_of, locate, number_at, open, part, Field, Head};

/// A CHALLENGE message that every check holds for.
#[derive(Clone, Copy, Debug, PartialEq, Eq)]
pub struct Challenge<'a> {
    /// NegotiateFlags
    pub flags: NegotiateFlags,
    /// The character set that the flags choose.
    pub set: CharacterSet,
    /// ServerChallenge
    pub server_challenge: [u8; 8],
    /// TargetName, empty without REQUEST_TARGET.
    pub target_name: Field<'a>,
    /// TargetInfo, empty without TARGET_INFO.
    pub target_info: Field<'a>,
    /// What the pairs of TargetInfo say.
    pub pairs: Summary<'a>,
}

impl<'a> Challenge<'a> {
    /// The number of the TargetName field.
    pub const TARGET_NAME: u8 = 1;

    pub(crate) const TYPE: u32 = 2;
    /// "House fixed part: 48 bytes."
    const FIXED: usize = 48;

    /// Reads `message` by checks 1 to 8 and 10 to 13, in that order.
    pub fn read(message: &'a [u8]) -> Result<Self, Refusal> {
        let fixed = open::<{ Challenge::FIXED }>(message, Self::TYPE)?;
        let flags = NegotiateFlags(number_at::<20, { Challenge::FIXED }>(fixed));
        let set = flags.character_set()?;

        let [name, info] = Self::heads(fixed);
        let heads = [
            name.counted(flags.target_name_counts()),
            info.counted(flags.target_info_counts()),
        ];
        let [target_name, target_info] = locate(message, Self::FIXED, heads)?;
        if set == CharacterSet::Unicode {
            target_name.check_even(Self::TARGET_NAME)?;
        }
        // The list's own places become the message's here, and nowhere else.
        let pairs = TargetInfo(target_info.bytes)
            .summary()
            .map_err(|refusal| refusal.in_message(target_info.place))?;

        Ok(Self {
            flags,
            set,
            server_challenge: part::<24, 8, { Challenge::FIXED }>(fixed),
            target_name,
            target_info,
            pairs,
        })
    }

    /// The heads in field order.
    fn heads(fixed: &[u8; Challenge::FIXED]) -> [Head; 2] {
        [
            Head::read::<12, { Challenge::FIXED }>(fixed),
            Head::read::<40, { Challenge::FIXED }>(fixed),
        ]
    }

    /// The head of a field, where `message` has a fixed part.
    pub(crate) fn head(message: &[u8], field: u8) -> Option<Head> {
        head_of(Self::heads(message.first_chunk()?), field)
    }

    /// The fields in field order.
    pub const fn fields(&self) -> [Field<'a>; 2] {
        [self.target_name, self.target_info]
    }
}
