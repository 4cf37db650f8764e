//! Names as people read them, and times.

use std::fmt;

use super::html::Html;

/// Puts a name of UTF-16LE units, or of bytes. Letters, digits and other visible ASCII
/// stand for themselves; what else there is, a blank too, stands as a number.
pub fn put(html: &mut Html, bytes: &[u8], unicode: bool) {
    html.markup("<bdi class=\"name\">");
    if unicode && bytes.len().is_multiple_of(2) {
        let (units, _) = bytes.as_chunks::<2>();
        let units = units.iter().map(|unit| u16::from_le_bytes(*unit));
        for read in char::decode_utf16(units) {
            match read {
                Ok(c) if c.is_ascii_graphic() || c.is_alphanumeric() => html.text(c),
                Ok(c) => put_number(html, u32::from(c), 4),
                Err(lone) => put_number(html, u32::from(lone.unpaired_surrogate()), 4),
            };
        }
    } else {
        for &byte in bytes {
            match byte {
                b'!'..=b'~' => html.text(char::from(byte)),
                _ => put_number(html, u32::from(byte), 2),
            };
        }
    }
    html.markup("</bdi>");
}

fn put_number(html: &mut Html, number: u32, digits: usize) -> &mut Html {
    html.markup("<b class=\"number\">")
        .text(format_args!("{number:0digits$X}"))
        .markup("</b>")
}

/// A timestamp, which counts tenths of microseconds since 1601, as a day and a time of day.
pub struct Time(pub u64);

impl fmt::Display for Time {
    fn fmt(&self, f: &mut fmt::Formatter<'_>) -> fmt::Result {
        let seconds = self.0 / 10_000_000;
        let (days, second) = (seconds / 86_400, seconds % 86_400);
        let (year, month, day) = date(days);
        let (hour, minute, second) = (second / 3_600, second / 60 % 60, second % 60);
        write!(
            f,
            "{year}-{month:02}-{day:02} {hour:02}:{minute:02}:{second:02} UTC"
        )
    }
}

/// The day that comes so many days after 1 January 1601, with which 400 years begin. A
/// year is counted from March, so that a leap day comes last.
const fn date(days: u64) -> (u64, u64, u64) {
    // From 1 March 1600.
    let days = days + 306;
    let (era, day) = (days / 146_097, days % 146_097);
    let year = (day - day / 1_460 + day / 36_524 - day / 146_096) / 365;
    let day = day - (365 * year + year / 4 - year / 100);
    let from_march = (5 * day + 2) / 153;
    let (month, next) = if from_march < 10 {
        (from_march + 3, 0)
    } else {
        (from_march - 9, 1)
    };
    let first = (153 * from_march + 2) / 5;
    (1_600 + 400 * era + year + next, month, day - first + 1)
}

#[cfg(test)]
mod tests {
    use super::{put, Time};
    use crate::report::html::Html;

    fn shown(bytes: &[u8], unicode: bool) -> String {
        let mut html = Html::default();
        put(&mut html, bytes, unicode);
        html.into_string()
    }

    #[test]
    fn what_is_not_visible_is_a_number() {
        let blank = "<bdi class=\"name\">b&lt;<b class=\"number\">20</b></bdi>";
        assert_eq!(shown(b"b< ", false), blank);
        let units = [0x62, 0, 0xFC, 0, 0x2E, 0x20, 0, 0xD8];
        let expected = "<bdi class=\"name\">b\u{FC}<b class=\"number\">202E</b><b class=\"number\">D800</b></bdi>";
        assert_eq!(shown(&units, true), expected);
    }

    #[test]
    fn times_are_days() {
        for (days, text) in [
            (0, "1601-01-01"),
            (31 + 27, "1601-02-28"),
            (31 + 28, "1601-03-01"),
            (364, "1601-12-31"),
            (134_774, "1970-01-01"),
            (134_774 + 11_016, "2000-02-29"),
            (134_774 + 20_774, "2026-11-17"),
        ] {
            let time = Time(days * 864_000_000_000 + 10_000_000).to_string();
            assert_eq!(time, format!("{text} 00:00:01 UTC"));
        }
    }
}
