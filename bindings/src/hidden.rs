//! Bytes that no text shows.

use core::fmt;

/// Stands in `{:?}` for bytes of a message, a response, a key or a MIC: how many they
/// are.
pub(crate) struct Hidden(usize);

impl Hidden {
    pub(crate) const fn of(bytes: &[u8]) -> Self {
        Self(bytes.len())
    }
}

impl fmt::Debug for Hidden {
    fn fmt(&self, f: &mut fmt::Formatter<'_>) -> fmt::Result {
        write!(f, "{} bytes", self.0)
    }
}
