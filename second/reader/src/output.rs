//! Writing into a caller's output.

/// Where bytes go one after another.
pub(crate) trait Sink {
    fn put(&mut self, bytes: &[u8]);

    fn put_byte(&mut self, byte: u8);

    /// Puts each byte that the iterator gives, and gives their number.
    fn put_each(&mut self, bytes: impl Iterator<Item = u8>) -> usize;
}

/// Measures what would be written.
#[derive(Default)]
pub(crate) struct Count(pub usize);

impl Sink for Count {
    #[inline]
    fn put(&mut self, bytes: &[u8]) {
        self.0 = self.0.saturating_add(bytes.len());
    }

    #[inline]
    fn put_byte(&mut self, _: u8) {
        self.0 = self.0.saturating_add(1);
    }

    #[inline]
    fn put_each(&mut self, bytes: impl Iterator<Item = u8>) -> usize {
        let count = bytes.count();
        self.0 = self.0.saturating_add(count);
        count
    }
}

/// Writes from the start of a caller's output. Whoever puts has made sure of
/// the room.
pub(crate) struct Cursor<'a> {
    out: &'a mut [u8],
    at: usize,
}

impl<'a> Cursor<'a> {
    pub(crate) fn new(out: &'a mut [u8]) -> Self {
        Self { out, at: 0 }
    }

    /// How many bytes have been written.
    pub(crate) const fn len(&self) -> usize {
        self.at
    }
}

impl Sink for Cursor<'_> {
    #[inline]
    fn put(&mut self, bytes: &[u8]) {
        let room = self.out.get_mut(self.at..).unwrap_or_default();
        if let Some(slot) = room.get_mut(..bytes.len()) {
            slot.copy_from_slice(bytes);
            self.at = self.at.saturating_add(bytes.len());
        }
    }

    #[inline]
    fn put_byte(&mut self, byte: u8) {
        if let Some(slot) = self.out.get_mut(self.at) {
            *slot = byte;
            self.at = self.at.saturating_add(1);
        }
    }

    #[inline]
    fn put_each(&mut self, bytes: impl Iterator<Item = u8>) -> usize {
        let room = self.out.get_mut(self.at..).unwrap_or_default();
        let count = room
            .iter_mut()
            .zip(bytes)
            .map(|(slot, byte)| *slot = byte)
            .count();
        self.at = self.at.saturating_add(count);
        count
    }
}
