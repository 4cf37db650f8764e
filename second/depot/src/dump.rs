//! Dumps as xxd, hexdump -C, od, tshark -x and tcpdump -X print them: lines of an
//! address, bytes in hex and, with some, the same bytes as text.
//!
//! Every address must be what the lines before it come to, so that a line which is
//! missing is seen. A line `*` stands for lines like the one before it.

/// What a dump gives.
#[derive(Debug, PartialEq, Eq)]
pub struct Dump {
    pub bytes: Vec<u8>,
    /// Whether it could be nothing else: it has a column of text, a colon behind its
    /// addresses, or two addresses that fit.
    pub sure: bool,
    /// Whether its groups are of more than two digits, without a colon or beside a text of other
    /// bytes: such words are in the order of the machine that printed them.
    pub words: bool,
}

/// Why a text is no dump.
#[derive(Clone, Copy, Debug, PartialEq, Eq)]
pub enum NoDump {
    /// It stops at this place of the text.
    Stops(usize),
    /// How many lines a `*` stands for can't be told.
    Starred,
}

/// The dump in a text.
pub fn read(text: &[u8]) -> Result<Dump, NoDump> {
    let read = [16, 8, 10].map(|radix| read_by(text, radix));
    let mut found: Option<Dump> = None;
    let mut stop = 0;
    for read in read {
        match (read, &found) {
            (Ok(dump), None) => found = Some(dump),
            (Ok(dump), Some(other)) if dump.bytes != other.bytes => return Err(NoDump::Starred),
            (Ok(_), Some(_)) => {}
            (Err(at), _) => stop = stop.max(at),
        }
    }
    found.ok_or(NoDump::Stops(stop))
}

/// Whether the first word on every line stands apart: it has four digits at least, and as
/// many on each line, and the others have two. Such a text has addresses, and is not all
/// bytes.
pub fn has_addresses(text: &[u8]) -> bool {
    let lines = text.split(|&byte| byte == b'\n').map(<[u8]>::trim_ascii);
    let mut words = lines.filter(|line| !line.is_empty()).map(|line| {
        let mut words = line.split(u8::is_ascii_whitespace).map(<[u8]>::len);
        (
            words.next().unwrap_or(0),
            words.all(|len| len == 2 || len == 0),
        )
    });
    let Some((first, true)) = words.next() else {
        return false;
    };
    let mut lines = 1;
    let alike = words.all(|(len, pairs)| {
        lines += 1;
        len == first && pairs
    });
    let bytes = text.trim_ascii().contains(&b' ');
    first >= 4 && alike && lines > 1 && bytes
}

/// How many digits od's addresses have, to 8 and to 10; to 16 they have six.
const OD_DIGITS: usize = 7;

/// What the lines of a dump come to, in the order in which they are read.
struct Lines {
    radix: u32,
    bytes: Vec<u8>,
    /// The address of the first line.
    first: Option<u64>,
    addresses: usize,
    /// How many bytes the last line had.
    last: usize,
    starred: bool,
    ended: bool,
    marked: bool,
    words: bool,
    /// Whether an address is as od writes it.
    by_od: bool,
}

/// The dump in a text whose addresses are to `radix`, or the place where it stops.
fn read_by(text: &[u8], radix: u32) -> Result<Dump, usize> {
    let mut lines = Lines {
        radix,
        bytes: Vec::new(),
        first: None,
        addresses: 0,
        last: 0,
        starred: false,
        ended: false,
        marked: false,
        words: false,
        by_od: false,
    };
    let mut at = 0;
    for line in text.split(|&byte| byte == b'\n') {
        lines.take(line).map_err(|stop| at + stop)?;
        at += line.len() + 1;
    }
    if lines.bytes.is_empty() || lines.starred {
        return Err(text.len());
    }
    // od's addresses are octal or decimal. hexdump has hex ones like them, before words.
    if lines.by_od && radix == 16 && !lines.words {
        return Err(0);
    }
    Ok(Dump {
        bytes: lines.bytes,
        sure: lines.marked || lines.addresses > 1,
        words: lines.words,
    })
}

impl Lines {
    /// Takes one line, or gives the place in it where the dump stops.
    fn take(&mut self, line: &[u8]) -> Result<(), usize> {
        let trimmed = line.trim_ascii();
        let start = line.len() - line.trim_ascii_start().len();
        if trimmed.is_empty() {
            return Ok(());
        }
        if self.ended {
            return Err(start);
        }
        if trimmed == b"*" {
            if self.last == 0 || self.starred {
                return Err(start);
            }
            self.starred = true;
            return Ok(());
        }
        let (address, colon, len) = address(trimmed, self.radix).ok_or(start)?;
        let by_od = len == OD_DIGITS && !colon;
        self.by_od |= by_od;
        if self.radix != 16 && !by_od {
            return Err(start);
        }
        self.address(address).ok_or(start)?;
        let rest = &trimmed[len..];
        if rest.is_empty() {
            self.ended = true;
            return Ok(());
        }
        let (area, marked) = hex_area(rest, colon);
        self.marked |= marked;
        let before = self.bytes.len();
        let words = groups(area, &mut self.bytes).map_err(|stop| start + len + stop)?;
        let bytes = &self.bytes[before..];
        self.words |= words && !(colon && agrees(&rest[area.len()..], bytes));
        self.last = bytes.len();
        Ok(())
    }

    /// Whether an address fits what came before it; lines that a `*` stands for are put
    /// in.
    fn address(&mut self, address: u64) -> Option<()> {
        let first = *self.first.get_or_insert(address);
        let place = usize::try_from(address.checked_sub(first)?).ok()?;
        if self.starred {
            let left_out = place.checked_sub(self.bytes.len())?;
            let (line, whole) = (self.last, left_out.checked_rem(self.last) == Some(0));
            // No message has as much as this.
            if left_out == 0 || left_out > 1 << 20 || !whole {
                return None;
            }
            let repeated = self.bytes[self.bytes.len() - line..].repeat(left_out / line);
            self.bytes.extend_from_slice(&repeated);
            self.starred = false;
        }
        self.addresses += 1;
        // The last of a dump's words may have bytes that are not the message's.
        let filled = self.bytes.len().checked_sub(place)?;
        (filled == 0 || self.words && filled < 8).then_some(())
    }
}

/// The address at a line's start, whether a colon is behind it, and its length in the
/// line. It has four digits at least, and a blank or nothing after it.
fn address(line: &[u8], radix: u32) -> Option<(u64, bool, usize)> {
    let prefix = if line.starts_with(b"0x") { 2 } else { 0 };
    let digits = line[prefix..]
        .iter()
        .take_while(|byte| byte.is_ascii_hexdigit())
        .count();
    let text = std::str::from_utf8(&line[prefix..prefix + digits]).ok()?;
    let address = u64::from_str_radix(text, radix).ok()?;
    let colon = line.get(prefix + digits) == Some(&b':');
    let len = prefix + digits + usize::from(colon);
    let apart = line.get(len).is_none_or(u8::is_ascii_whitespace);
    (digits >= 4 && apart).then_some((address, colon, len))
}

/// The part of a line in which the bytes stand in hex, and whether the line is marked as
/// one of a dump: by a colon behind the address, or by a column of text after it.
fn hex_area(rest: &[u8], colon: bool) -> (&[u8], bool) {
    let blanks = rest.len() - rest.trim_ascii_start().len();
    let digits = rest
        .iter()
        .take_while(|&&byte| byte == b' ' || byte.is_ascii_hexdigit())
        .count();
    let end = match digits.checked_sub(2) {
        // hexdump -C, which has two blanks after eight bytes too.
        Some(bar) if !colon && rest[bar..].starts_with(b"  |") => Some(bar),
        _ => rest[blanks..]
            .windows(2)
            .position(|two| two == b"  ")
            .map(|at| at + blanks),
    };
    (&rest[..end.unwrap_or(rest.len())], colon || end.is_some())
}

/// Whether a column of text may be that of these bytes. A dot may stand for any of them, and blanks
/// may be those of the column or its own. xxd -e has bytes in another order than their text.
fn agrees(text: &[u8], bytes: &[u8]) -> bool {
    let text = text.trim_ascii_start();
    let blanks = bytes.iter().take_while(|&&byte| byte == b' ').count();
    (0..=blanks).any(|skipped| {
        let mut pairs = text.iter().zip(&bytes[skipped..]);
        pairs.all(|(&shown, &byte)| shown == b'.' || shown == byte)
    })
}

/// Whether a text is a dump of octal words, as od prints one that isn't told otherwise.
pub fn is_octal(text: &[u8]) -> bool {
    [8, 16, 10].into_iter().any(|radix| octal_fits(text, radix))
}

/// The same, with addresses to `radix`, each of which fits the words before it: the last word may
/// have bytes that are not the message's.
fn octal_fits(text: &[u8], radix: u32) -> bool {
    let lines = text.split(|&byte| byte == b'\n').map(<[u8]>::trim_ascii);
    let (mut first, mut place, mut addresses, mut starred) = (None, 0, 0, false);
    for line in lines.filter(|line| !line.is_empty()) {
        if line == b"*" {
            starred = true;
            continue;
        }
        let Some((address, false, len)) = address(line, radix) else {
            return false;
        };
        let at = address.wrapping_sub(*first.get_or_insert(address));
        let fits = starred && at > place || at <= place && place - at < 8;
        let Some(bytes) = octal_bytes(&line[len..]).filter(|_| fits) else {
            return false;
        };
        (place, addresses, starred) = (at.saturating_add(bytes), addresses + 1, false);
    }
    addresses > 1 && place > 0
}

/// How many bytes octal words stand for; none where one has another number of digits.
fn octal_bytes(words: &[u8]) -> Option<u64> {
    let words = words.split(u8::is_ascii_whitespace);
    let bytes = words.filter(|word| !word.is_empty()).map(|word| {
        let is_octal = word.iter().all(|digit| (b'0'..=b'7').contains(digit));
        match word.len() {
            6 if is_octal => Some(2),
            11 if is_octal => Some(4),
            22 if is_octal => Some(8),
            _ => None,
        }
    });
    bytes.sum()
}

/// Puts the bytes of groups of hex digits with blanks between them. True where a group
/// has more than two; otherwise the place where they stop.
fn groups(area: &[u8], bytes: &mut Vec<u8>) -> Result<bool, usize> {
    let mut words = false;
    let mut at = 0;
    for group in area.split(|&byte| byte == b' ') {
        let (pairs, odd) = group.as_chunks::<2>();
        for (&[high, low], place) in pairs.iter().zip((at..).step_by(2)) {
            let value = |digit: u8, at: usize| char::from(digit).to_digit(16).ok_or(at);
            let byte = value(high, place)? << 4 | value(low, place + 1)?;
            bytes.push(byte as u8);
        }
        if !odd.is_empty() {
            let digit = usize::from(odd[0].is_ascii_hexdigit());
            return Err(at + group.len() - 1 + digit);
        }
        words |= group.len() > 2;
        at += group.len() + 1;
    }
    Ok(words)
}

#[cfg(test)]
mod tests {
    use super::{has_addresses, is_octal, read, Dump, NoDump};

    fn bytes() -> Vec<u8> {
        let mut bytes = b"NTLMSSP\0\x03\0\0\0|  |a  b 4e|".to_vec();
        bytes.extend(0x60..0x70);
        bytes
    }

    fn dump(text: &str) -> Dump {
        read(text.as_bytes()).expect(text)
    }

    #[test]
    fn dumps_are_read_as_programs_print_them() {
        let texts = [
            // xxd
            "00000000: 4e54 4c4d 5353 5000 0300 0000 7c20 207c  NTLMSSP.....|  |\n\
             00000010: 6120 2062 2034 657c 6061 6263 6465 6667  a  b 4e|`abcdefg\n\
             00000020: 6869 6a6b 6c6d 6e6f                      hijklmno\n",
            // hexdump -C
            "00000000  4e 54 4c 4d 53 53 50 00  03 00 00 00 7c 20 20 7c  |NTLMSSP.....|  ||\n\
             00000010  61 20 20 62 20 34 65 7c  60 61 62 63 64 65 66 67  |a  b 4e|`abcdefg|\n\
             00000020  68 69 6a 6b 6c 6d 6e 6f                           |hijklmno|\n\
             00000028\n",
            // od -t x1
            "0000000 4e 54 4c 4d 53 53 50 00 03 00 00 00 7c 20 20 7c\r\n\
             0000020 61 20 20 62 20 34 65 7c 60 61 62 63 64 65 66 67\r\n\
             0000040 68 69 6a 6b 6c 6d 6e 6f\r\n0000050\r\n",
            // od -A x -t x1z
            "000000 4e 54 4c 4d 53 53 50 00 03 00 00 00 7c 20 20 7c  >NTLMSSP.....|  |<\n\
             000010 61 20 20 62 20 34 65 7c 60 61 62 63 64 65 66 67  >a  b 4e|`abcdefg<\n\
             000020 68 69 6a 6b 6c 6d 6e 6f                          >hijklmno<\n000028\n",
            // od -A d -t x1
            "0000000 4e 54 4c 4d 53 53 50 00 03 00 00 00 7c 20 20 7c\n\
             0000016 61 20 20 62 20 34 65 7c 60 61 62 63 64 65 66 67\n\
             0000032 68 69 6a 6b 6c 6d 6e 6f\n0000040\n",
            // tshark -x, from byte 0x10 on
            "0010  4e 54 4c 4d 53 53 50 00 03 00 00 00 7c 20 20 7c   NTLMSSP.....|  |\n\
             0020  61 20 20 62 20 34 65 7c 60 61 62 63 64 65 66 67   a  b 4e|`abcdefg\n\
             0030  68 69 6a 6b 6c 6d 6e 6f                           hijklmno\n",
            // tcpdump -X
            "\t0x0000:  4e54 4c4d 5353 5000 0300 0000 7c20 207c  NTLMSSP.....|..|\n\
             \t0x0010:  6120 2062 2034 657c 6061 6263 6465 6667  a..b.4e|`abcdefg\n\
             \t0x0020:  6869 6a6b 6c6d 6e6f                      hijklmno\n",
        ];
        for text in texts {
            let dump = dump(text);
            assert_eq!(dump.bytes, bytes(), "{text}");
            assert!(dump.sure && !dump.words, "{text}");
        }
    }

    #[test]
    fn words_of_a_machine_are_seen() {
        // hexdump and od -x, as a little-endian machine prints them
        for text in [
            "0000000 544e 4d4c 5353 0050\n0000008\n",
            "0000000 544e 4d4c 5353 0050\n0000010\n",
            "000000 4d4c544e 00505353\n000008\n",
        ] {
            assert!(dump(text).words && dump(text).sure, "{text}");
        }
        assert!(!dump("00000000: 4e54 4c4d\n").words);
    }

    /// xxd -e is told by its text, which has the bytes in another order.
    #[test]
    fn words_beside_the_text_of_other_bytes_are_seen() {
        for text in [
            "00000000: 4d4c544e 00505353 00000003 00000000  NTLMSSP.........\n",
            "00000000: 544e 4d4c       53  NTLMS\n",
            "00000000: 00000000 00000001 00000000 656e696c  ............line\n",
        ] {
            assert!(dump(text).words && dump(text).sure, "{text}");
        }
        for text in [
            "00000000: 4e544c4d 53535000  NTLMSSP.\n",
            "00000000: 2020 4e54 4c4d    NTLM\n",
            "00000000: 2020 4e54 4c4d  ..NTLM\n",
            "00000000: 4e54 2020  NT\n",
        ] {
            assert!(!dump(text).words, "{text}");
        }
    }

    #[test]
    fn octal_words_are_seen() {
        for text in [
            "0000000 052116 046514 051523 000120\n0000010\n",
            "0000000 052116 046514 051523 000120\n0000007\n",
            "000000 052116 046514\n000004 051523\n000006\n",
            "0000000 000000 000000\n*\n0000020 000001\n0000022\n",
            "0000000 11523052116 00024051523\n0000010\n",
        ] {
            assert!(is_octal(text.as_bytes()), "{text}");
        }
        for text in [
            "",
            "0000000",
            "0000000 052116 046514\n",
            "0000000 052116 046514\n0000014\n",
            "0000000 052118 046514\n0000004\n",
            "0000000 116 124\n0000002\n",
            "0000000 4e 54\n0000002\n",
        ] {
            assert!(!is_octal(text.as_bytes()), "{text}");
        }
    }

    #[test]
    fn lines_left_out_are_put_in() {
        let zeros = "00 00 00 00 00 00 00 00  00 00 00 00 00 00 00 00";
        let text =
            format!("00000000  {zeros}  |................|\n*\n00000050  01  |.|\n00000051\n");
        let mut expected = vec![0; 80];
        expected.push(1);
        assert_eq!(dump(&text).bytes, expected);
        let octal = "0000000 00 00 00 00 00 00 00 00\n*\n0000020 01\n0000021\n";
        expected.drain(16..80);
        assert_eq!(dump(octal).bytes, expected);
        let hex = "000000 00 00 00 00\n*\n000010 01\n000011\n";
        assert_eq!(dump(hex).bytes, expected);
        // Octal and decimal both fit.
        let unclear = "0000000 00 00\n*\n0000010\n";
        assert_eq!(read(unclear.as_bytes()), Err(NoDump::Starred));
        for text in ["*\n0000 00", "0000 00\n*\n", "0000 00\n*\n*\n0004\n"] {
            assert!(matches!(read(text.as_bytes()), Err(NoDump::Stops(_))));
        }
        let far = "0000: 00\n*\nffffffffffffffff: 00\n";
        assert_eq!(read(far.as_bytes()), Err(NoDump::Stops(11)));
    }

    #[test]
    fn a_dump_stops_where_it_is_wrong() {
        for (text, at) in [
            ("", 0),
            ("4e 54\n", 0),
            ("00000000: 4e5g\n", 13),
            ("00000000: 4e5\n", 13),
            ("00000000:4e54\n", 0),
            // A line is missing, and one is there twice.
            ("0000: 4e54\n0004: 4c4d\n", 11),
            ("0000: 4e54\n0000: 4e54\n", 11),
            ("0000: 4e54\n0002\n0002: 4c4d\n", 16),
            ("0000: 4e54\nnotes\n", 11),
        ] {
            assert_eq!(read(text.as_bytes()), Err(NoDump::Stops(at)), "{text}");
        }
    }

    #[test]
    fn a_column_of_addresses_is_seen() {
        for text in [
            "000000 4e 54\n000020 4c\n",
            "0000 4e 54\r\n0010\r\n",
            "0000  4e\n0001  54",
        ] {
            assert!(has_addresses(text.as_bytes()), "{text}");
        }
        for text in [
            "",
            "4e 54\n4c 4d\n",
            "000000 4e 54\n",
            "4e544c4d\n53535000\n",
            "4e544c4d 53535000\n03000000 00000000\n",
            "4e544c4d 53\n0300 00\n",
        ] {
            assert!(!has_addresses(text.as_bytes()), "{text}");
        }
    }

    #[test]
    fn one_line_without_a_mark_could_be_hex() {
        assert!(!dump("00000000 01000000 4C494E45 00").sure);
        assert!(dump("00000000: 01 00").sure);
        assert!(dump("0000  01 00   ..").sure);
        assert!(dump("0000000 01 00\n0000002").sure);
    }
}
