//! The names that strings C, D and E hold: RFC 1035 section 4.1.4, as request
//! 5/12 of document 02 has it.

use crate::output::Sink;
use crate::refusal::Reason;

/// "The coded length .. is at most 255."
const LONGEST: usize = 255;

/// "Labels of 1 to 63 bytes."
const LONGEST_LABEL: usize = 63;

/// "At most 16 jumps are followed in each string."
const MOST_JUMPS: usize = 16;

/// The name that starts at a place of a buffer.
#[derive(Clone, Copy)]
pub(crate) struct DnsName<'a> {
    pub(crate) buffer: &'a [u8],
    pub(crate) start: usize,
}

/// What reading a name gives.
pub(crate) struct Ended {
    /// "The number of jumps taken is part of the answer."
    pub(crate) jumps: usize,
    /// "The next string starts after that zero byte or after the first jump."
    pub(crate) next: usize,
}

impl<'a> DnsName<'a> {
    /// Reads the name to its end. Refuses by 15, 50, 51, 52 or 53, "judged at a
    /// label's length byte or a jump's first byte and there by number".
    pub(crate) fn read(self) -> Result<Ended, Reason> {
        let mut walk = Walk::new(self);
        while walk.ask()?.is_some() {}
        Ok(Ended {
            jumps: walk.jumps,
            next: walk.next.unwrap_or(walk.at.saturating_add(1)),
        })
    }

    /// The labels of a name that was read, in order and over all jumps.
    pub(crate) fn labels(self) -> impl Iterator<Item = &'a [u8]> {
        let mut walk = Walk::new(self);
        // No fault is left to find.
        std::iter::from_fn(move || walk.ask().ok().flatten())
    }
}

/// A walk over a name, which gives a label at each asking.
struct Walk<'a> {
    buffer: &'a [u8],
    /// Where a length byte, a jump or the ending zero byte stands.
    at: usize,
    /// The first byte of the run of labels, which is where the walk started or
    /// was when it jumped last.
    run: usize,
    jumps: usize,
    /// "One more than the sum of each label's length plus one."
    coded: usize,
    /// The place after the first jump.
    next: Option<usize>,
}

impl<'a> Walk<'a> {
    const fn new(name: DnsName<'a>) -> Self {
        Self {
            buffer: name.buffer,
            at: name.start,
            run: name.start,
            jumps: 0,
            coded: 1,
            next: None,
        }
    }

    /// The next label, none at the zero byte, or the first fault.
    fn ask(&mut self) -> Result<Option<&'a [u8]>, Reason> {
        loop {
            let left = self.buffer.get(self.at..).unwrap_or_default();
            let (&first, after) = left.split_first().ok_or(Reason::StringNotEnded)?;
            match first {
                0 => return Ok(None),
                1..=63 => return self.label(first.into(), after).map(Some),
                64..=191 => return Err(Reason::WrongLabel),
                192..=255 => self.jump(first, after)?,
            }
        }
    }

    /// A label: 15, then 53.
    fn label(&mut self, len: usize, after: &'a [u8]) -> Result<&'a [u8], Reason> {
        let label = after.get(..len).ok_or(Reason::StringNotEnded)?;
        let coded = self.coded.saturating_add(len).saturating_add(1);
        if coded > LONGEST {
            return Err(Reason::NameTooLong);
        }
        self.coded = coded;
        self.at = self.at.saturating_add(len).saturating_add(1);
        Ok(label)
    }

    /// "A two-byte jump whose top two bits are set and whose other 14 are a
    /// place, high byte first": 15, then 51, then 52. "The place must lie before
    /// the first byte of the run of labels that the jump ends, or before the
    /// jump where it ends none", and there the run is the jump's own place.
    fn jump(&mut self, first: u8, after: &[u8]) -> Result<(), Reason> {
        let &second = after.first().ok_or(Reason::StringNotEnded)?;
        let place = u16::from_be_bytes([first & 0x3F, second]).into();
        if place >= self.run {
            return Err(Reason::JumpNotBack);
        }
        if self.jumps == MOST_JUMPS {
            return Err(Reason::TooManyJumps);
        }
        self.next.get_or_insert(self.at.saturating_add(2));
        self.jumps = self.jumps.saturating_add(1);
        self.run = place;
        self.at = place;
        Ok(())
    }
}

/// A name to write: "from text split at full stops; empty text is the zero byte
/// alone".
#[derive(Clone, Copy)]
pub(crate) struct NameText<'a>(pub(crate) &'a [u8]);

impl<'a> NameText<'a> {
    fn labels(self) -> impl Iterator<Item = &'a [u8]> {
        let text = (!self.0.is_empty()).then_some(self.0);
        text.into_iter()
            .flat_map(|text| text.split(|&byte| byte == b'.'))
    }

    /// "50 for an empty label or one over 63."
    pub(crate) fn check_labels(self) -> Result<(), Reason> {
        let sound = |label: &[u8]| (1..=LONGEST_LABEL).contains(&label.len());
        if self.labels().all(sound) {
            Ok(())
        } else {
            Err(Reason::WrongLabel)
        }
    }

    /// 53.
    pub(crate) fn check_length(self) -> Result<(), Reason> {
        if self.coded() > LONGEST {
            Err(Reason::NameTooLong)
        } else {
            Ok(())
        }
    }

    /// The coded length, which is how many bytes are written: "We write without
    /// jumps".
    pub(crate) fn coded(self) -> usize {
        self.labels().fold(1, |sum, label| {
            sum.saturating_add(label.len()).saturating_add(1)
        })
    }

    /// Puts the labels, each after its length, and the zero byte. Check 50 has
    /// kept every length below 64.
    pub(crate) fn put(self, sink: &mut impl Sink) {
        for label in self.labels() {
            let [len, ..] = label.len().to_le_bytes();
            sink.put_byte(len);
            sink.put(label);
        }
        sink.put_byte(0);
    }
}
