//! TargetInfo: the AvPair list of a CHALLENGE.

use crate::refusal::{Reason, Refusal};

/// The id of an AvPair.
#[derive(Clone, Copy, Debug, PartialEq, Eq)]
pub struct AvId(pub u16);

impl AvId {
    /// MsvAvEOL
    pub const END: Self = Self(0);
    /// MsvAvNbComputerName
    pub const NB_COMPUTER_NAME: Self = Self(1);
    /// MsvAvNbDomainName
    pub const NB_DOMAIN_NAME: Self = Self(2);
    /// MsvAvDnsComputerName
    pub const DNS_COMPUTER_NAME: Self = Self(3);
    /// MsvAvDnsDomainName
    pub const DNS_DOMAIN_NAME: Self = Self(4);
    /// MsvAvDnsTreeName
    pub const DNS_TREE_NAME: Self = Self(5);
    /// MsvAvFlags
    pub const FLAGS: Self = Self(6);
    /// MsvAvTimestamp
    pub const TIMESTAMP: Self = Self(7);
    /// MsvAvSingleHost
    pub const SINGLE_HOST: Self = Self(8);
    /// MsvAvTargetName
    pub const TARGET_NAME: Self = Self(9);
    /// MsvAvChannelBindings
    pub const CHANNEL_BINDINGS: Self = Self(10);

    /// Whether a value of this id may have `len` bytes: flags 4, timestamp 8,
    /// channel bindings 16, "values of 1 to 5 and 9 have even length", any
    /// other id any length.
    pub const fn allows(self, len: usize) -> bool {
        match self {
            Self::NB_COMPUTER_NAME
            | Self::NB_DOMAIN_NAME
            | Self::DNS_COMPUTER_NAME
            | Self::DNS_DOMAIN_NAME
            | Self::DNS_TREE_NAME
            | Self::TARGET_NAME => len.is_multiple_of(2),
            Self::FLAGS => len == 4,
            Self::TIMESTAMP => len == 8,
            Self::CHANNEL_BINDINGS => len == 16,
            _ => true,
        }
    }
}

/// One pair of a list.
#[derive(Clone, Copy, Debug, PartialEq, Eq)]
pub struct AvPair<'a> {
    /// What the value is.
    pub id: AvId,
    /// Where the value begins, from the start of the list.
    pub place: usize,
    /// The value's bytes.
    pub value: &'a [u8],
}

impl AvPair<'_> {
    /// The value of a timestamp pair, read as a number.
    fn timestamp(&self) -> Option<u64> {
        if self.id != AvId::TIMESTAMP {
            return None;
        }
        self.value
            .first_chunk()
            .map(|bytes| u64::from_le_bytes(*bytes))
    }
}

/// A lent pair list. Check 1 is for messages, so the list may have any length.
#[derive(Clone, Copy, Debug, PartialEq, Eq)]
pub struct TargetInfo<'a>(pub &'a [u8]);

/// What one pass over a list with no fault finds.
#[derive(Clone, Copy, Debug, Default, PartialEq, Eq)]
pub struct Summary<'a> {
    /// How many pairs, without the end pair.
    pub pairs: usize,
    /// The first pair 1.
    pub computer: Option<AvPair<'a>>,
    /// The first pair 2.
    pub domain: Option<AvPair<'a>>,
    /// The first timestamp pair's value.
    pub timestamp: Option<u64>,
}

impl<'a> TargetInfo<'a> {
    /// The number of this field in a CHALLENGE. Checks 10 to 13 return it also
    /// where a list alone is lent.
    pub const FIELD: u8 = 2;

    /// The walk from the first pair on.
    pub const fn walk(self) -> Walk<'a> {
        self.walk_from(0)
    }

    /// The walk from the pair that should start at `at`. Past the list there
    /// are "under 4 bytes left".
    pub const fn walk_from(self, at: usize) -> Walk<'a> {
        Walk { list: self.0, at }
    }

    /// Checks 10 to 13 over the whole list; otherwise the number of pairs.
    pub fn count(self) -> Result<usize, Refusal> {
        Ok(self.summary()?.pairs)
    }

    /// "A search first makes checks 10 to 13 on the whole list and refuses by
    /// them"; otherwise the first pair with the wanted id. One pass does both.
    pub fn find(self, id: AvId) -> Result<Option<AvPair<'a>>, Refusal> {
        let mut walk = self.walk();
        let found = loop {
            match walk.ask()? {
                Some(pair) if pair.id == id => break pair,
                Some(_) => {}
                None => return Ok(None),
            }
        };
        while walk.ask()?.is_some() {}
        Ok(Some(found))
    }

    /// The first timestamp pair's value, found as [`TargetInfo::find`] does.
    pub fn timestamp(self) -> Result<Option<u64>, Refusal> {
        let pair = self.find(AvId::TIMESTAMP)?;
        Ok(pair.and_then(|pair| pair.timestamp()))
    }

    /// The answer of a walk's asking number `k`, the first being 0.
    pub fn answer_at(self, k: usize) -> Result<Option<AvPair<'a>>, Refusal> {
        let mut walk = self.walk();
        for _ in 0..k {
            // The end and a refusal are the same at each later asking.
            if walk.ask()?.is_none() {
                return Ok(None);
            }
        }
        walk.ask()
    }

    /// Checks 10 to 13 over the whole list; otherwise all that the line and
    /// the answer to a challenge want from it.
    pub fn summary(self) -> Result<Summary<'a>, Refusal> {
        let mut summary = Summary::default();
        let mut walk = self.walk();
        while let Some(pair) = walk.ask()? {
            summary.pairs = summary.pairs.saturating_add(1);
            match pair.id {
                AvId::NB_COMPUTER_NAME => summary.computer = summary.computer.or(Some(pair)),
                AvId::NB_DOMAIN_NAME => summary.domain = summary.domain.or(Some(pair)),
                AvId::TIMESTAMP => summary.timestamp = summary.timestamp.or(pair.timestamp()),
                _ => {}
            }
        }
        Ok(summary)
    }
}

/// "A walk that its caller can hold, one pair at each asking, over the lent
/// bytes: the pairs before the end or the first fault, then the end or that
/// refusal, and the same at each later asking."
#[derive(Clone, Copy, Debug)]
pub struct Walk<'a> {
    list: &'a [u8],
    /// Where the next pair starts. It stays at the end pair or the fault, so
    /// a later asking gives the same answer.
    at: usize,
}

impl<'a> Walk<'a> {
    /// Where the next pair should start.
    pub const fn at(&self) -> usize {
        self.at
    }

    /// The next pair, `None` at the end, or the refusal of the first fault.
    /// "At one pair the order is 11, 12, 10, 13."
    pub fn ask(&mut self) -> Result<Option<AvPair<'a>>, Refusal> {
        // "An empty TargetInfo holds no pairs."
        if self.list.is_empty() {
            return Ok(None);
        }
        let rest = self.list.get(self.at..).unwrap_or_default();
        let (head, after) = rest
            .split_first_chunk::<4>()
            .ok_or(self.refusal(Reason::PairCutOff))?;
        let [id_low, id_high, len_low, len_high] = *head;
        let id = AvId(u16::from_le_bytes([id_low, id_high]));
        let len = usize::from(u16::from_le_bytes([len_low, len_high]));
        if id == AvId::END {
            return if len == 0 && after.is_empty() {
                Ok(None)
            } else {
                Err(self.refusal(Reason::EndPair))
            };
        }
        let value = after.get(..len).ok_or(self.refusal(Reason::PairPastEnd))?;
        if !id.allows(len) {
            return Err(self.refusal(Reason::PairSize));
        }
        // Head and value are inside the list, so neither sum can wrap.
        let place = self.at.saturating_add(4);
        self.at = place.saturating_add(len);
        Ok(Some(AvPair { id, place, value }))
    }

    /// The refusal of a faulty pair: its place is the first byte of the pair, or
    /// where one should have started.
    const fn refusal(&self, reason: Reason) -> Refusal {
        reason.of_field(TargetInfo::FIELD).at(self.at)
    }
}
