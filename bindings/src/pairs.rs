//! TargetInfo: a pair list, lent by itself.

use core::fmt;

use crate::hidden::Hidden;
use crate::{raw, Refusal};

/// A pair of a list.
#[derive(Clone, Copy, Debug, PartialEq, Eq, Hash)]
pub struct Pair {
    /// What the value is.
    pub id: u16,
    /// Where the value stands, from the start of the list.
    pub place: usize,
    /// How many bytes the value has.
    pub len: u16,
}

impl Pair {
    /// The value in the list that the pair was found in.
    pub fn value(self, list: &[u8]) -> &[u8] {
        let end = self.place.saturating_add(usize::from(self.len));
        list.get(self.place..end).unwrap_or_default()
    }
}

/// Checks 10 to 13 over the whole list.
pub fn check_pairs(list: &[u8]) -> Result<(), Refusal> {
    Refusal::check(raw::check_pairs(list)).map(|_| ())
}

/// How many pairs the list holds, the end pair left out.
pub fn count_pairs(list: &[u8]) -> Result<usize, Refusal> {
    let mut numbers = [0; raw::COUNT_NUMBERS];
    Refusal::check(raw::count_pairs(list, &mut numbers))?;
    let [count] = numbers;
    Ok(count as usize)
}

/// The first pair with this id, after checks 10 to 13 over the whole list.
pub fn find_pair(list: &[u8], id: u16) -> Result<Option<Pair>, Refusal> {
    let mut numbers = [0; raw::FOUND_NUMBERS];
    Refusal::check(raw::find_pair(list, id, &mut numbers))?;
    let [there, place, len] = numbers;
    Ok((there != 0).then_some(Pair {
        id,
        place: place as usize,
        len: len as u16,
    }))
}

/// A walk over a list, a pair at each asking. As an iterator it ends after the
/// first refusal. `{:?}` shows the list's length alone.
#[derive(Clone, Copy)]
pub struct Walk<'a> {
    list: &'a [u8],
    at: usize,
    refused: bool,
}

impl<'a> Walk<'a> {
    /// The walk from the first pair on.
    pub const fn new(list: &'a [u8]) -> Self {
        Self {
            list,
            at: 0,
            refused: false,
        }
    }

    /// The next pair, none at the end, or the refusal of the first fault; the
    /// end and a refusal are the same at each later asking.
    pub fn ask(&mut self) -> Result<Option<Pair>, Refusal> {
        let mut numbers = [0; raw::NEXT_NUMBERS];
        Refusal::check(raw::next_pair(self.list, self.at, &mut numbers))?;
        let [there, id, place, len, next] = numbers;
        self.at = next as usize;
        Ok((there != 0).then_some(Pair {
            id: id as u16,
            place: place as usize,
            len: len as u16,
        }))
    }
}

impl fmt::Debug for Walk<'_> {
    fn fmt(&self, f: &mut fmt::Formatter<'_>) -> fmt::Result {
        f.debug_struct("Walk")
            .field("list", &Hidden::of(self.list))
            .field("at", &self.at)
            .field("refused", &self.refused)
            .finish()
    }
}

impl Iterator for Walk<'_> {
    type Item = Result<Pair, Refusal>;

    fn next(&mut self) -> Option<Self::Item> {
        if self.refused {
            return None;
        }
        let asked = self.ask();
        self.refused = asked.is_err();
        asked.transpose()
    }
}
