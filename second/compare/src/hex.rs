//! Bytes as they are printed.

use std::fmt;

/// Upper-case hex digits.
pub struct Hex<'a>(pub &'a [u8]);

impl fmt::Display for Hex<'_> {
    fn fmt(&self, f: &mut fmt::Formatter<'_>) -> fmt::Result {
        self.0.iter().try_for_each(|byte| write!(f, "{byte:02X}"))
    }
}

#[cfg(test)]
mod tests {
    use super::Hex;

    #[test]
    fn hex_is_upper_case_and_whole() {
        assert_eq!(Hex(&[0x00, 0x0A, 0xFF]).to_string(), "000AFF");
    }
}
