//! Messages in hex.

/// Stands in the table for a byte that is no hex digit.
const NONE: u8 = 0xFF;

/// The value of each hex digit, upper or lower case.
const VALUES: [u8; 256] = {
    let mut values = [NONE; 256];
    let mut value = 0;
    while value < 16 {
        values[b"0123456789abcdef"[value] as usize] = value as u8;
        values[b"0123456789ABCDEF"[value] as usize] = value as u8;
        value += 1;
    }
    values
};

/// Puts the bytes that `digits` stand for into `message`. False where they
/// are not pairs of hex digits.
pub fn decode(digits: &[u8], message: &mut Vec<u8>) -> bool {
    let (pairs, odd) = digits.as_chunks::<2>();
    let mut seen = 0;
    message.clear();
    message.extend(pairs.iter().map(|&[high, low]| {
        let high = VALUES[usize::from(high)];
        let low = VALUES[usize::from(low)];
        seen |= high | low;
        high << 4 | low
    }));
    odd.is_empty() && seen != NONE
}

#[cfg(test)]
mod tests {
    use super::decode;

    #[test]
    fn both_cases_are_read() {
        let mut message = vec![1];
        assert!(decode(b"00fF7eA0", &mut message));
        assert_eq!(message, [0x00, 0xFF, 0x7E, 0xA0]);
        assert!(decode(b"", &mut message));
        assert!(message.is_empty());
    }

    #[test]
    fn anything_else_is_not_hex() {
        let mut message = Vec::new();
        for digits in ["0", "000", "0g", "g0", " 00", "00 ", "0x00", "-1", "é"] {
            assert!(!decode(digits.as_bytes(), &mut message), "{digits}");
        }
    }
}
