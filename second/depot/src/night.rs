//! A night's messages as files, and what a program prints of them: a buffer, in
//! which the messages stand, and an index, a line of text for each entry. Nothing
//! here reads a message.

#![warn(missing_docs)]

use std::fmt;
use std::fs;
use std::io::{self, Read, Write};
use std::path::{Path, PathBuf};

use crate::folder::printable;

/// One byte past the longest buffer, which is enough to refuse it.
const KEPT: u64 = 65_536;

/// An index larger than this is not read.
const MAX_INDEX: u64 = 1 << 24;

/// As which kind a message is read.
#[derive(Clone, Copy, Debug, PartialEq, Eq)]
pub enum Mark {
    /// Read as NEGOTIATE.
    Negotiate = 1,
    /// Read as CHALLENGE.
    Challenge = 2,
    /// Read as AUTHENTICATE.
    Authenticate = 3,
}

impl Mark {
    const ALL: [Self; 3] = [Self::Negotiate, Self::Challenge, Self::Authenticate];

    /// The word that an index has for it.
    const fn word(self) -> &'static str {
        match self {
            Self::Negotiate => "NEGOTIATE",
            Self::Challenge => "CHALLENGE",
            Self::Authenticate => "AUTHENTICATE",
        }
    }

    fn of(word: &str) -> Option<Self> {
        Self::ALL.into_iter().find(|mark| mark.word() == word)
    }
}

/// Where a message stands in the buffer, and its mark.
#[derive(Clone, Copy, Debug, PartialEq, Eq)]
pub struct Place {
    /// Where it begins.
    pub start: u64,
    /// How many bytes it has.
    pub length: u64,
    /// As which kind it is read.
    pub mark: Mark,
}

impl Place {
    /// `START LENGTH MARK`, with one blank between.
    fn of(line: &str) -> Option<Self> {
        let mut words = line.split(' ');
        let mut word = || words.next();
        let place = Self {
            start: decimal(word()?)?,
            length: decimal(word()?)?,
            mark: Mark::of(word()?)?,
        };
        word().is_none().then_some(place)
    }
}

/// Digits alone, of a number of 64 bits.
fn decimal(word: &str) -> Option<u64> {
    let digits = word.bytes().all(|byte| byte.is_ascii_digit());
    digits.then(|| word.parse().ok()).flatten()
}

/// A refusal as number, field and place.
#[derive(Clone, Copy, Debug, PartialEq, Eq)]
pub struct Refused {
    /// The number of document 01's table.
    pub number: u32,
    /// The field, or 0.
    pub field: u32,
    /// Where a pair failed, or 0.
    pub place: u32,
}

impl fmt::Display for Refused {
    fn fmt(&self, f: &mut fmt::Formatter<'_>) -> fmt::Result {
        let Self {
            number,
            field,
            place,
        } = self;
        write!(f, "refused {number} field={field} at={place}")
    }
}

/// What a call answered: for each entry whether it is refused, or the refusal of
/// the whole.
pub type Answers = Result<Vec<Option<Refused>>, Refused>;

/// Why a night can't be run. Each says what to do.
#[derive(Debug)]
pub enum NoNight {
    /// The file that is named as a buffer is an index.
    NoBuffer(PathBuf),
    /// The index isn't there, or can't be opened.
    Unreadable(PathBuf, io::Error),
    /// The index is larger than any is.
    TooLarge(PathBuf),
    /// A line of the index is none.
    NoPlace(PathBuf, usize),
    /// The buffer can't be read, or the answers can't be printed.
    Io(io::Error),
}

impl From<io::Error> for NoNight {
    fn from(error: io::Error) -> Self {
        Self::Io(error)
    }
}

impl fmt::Display for NoNight {
    fn fmt(&self, f: &mut fmt::Formatter<'_>) -> fmt::Result {
        match self {
            Self::NoBuffer(path) => write!(
                f,
                "{} is an index: name the night's buffer, which stands beside it, as \
                 FILE=messages/two-boxes.night",
                printable(path)
            ),
            Self::Unreadable(path, error) => write!(
                f,
                "the index {} can't be read ({error}): put it beside the night's buffer",
                printable(path)
            ),
            Self::TooLarge(path) => write!(
                f,
                "the index {} is larger than {MAX_INDEX} bytes: split the night",
                printable(path)
            ),
            Self::NoPlace(path, line) => write!(
                f,
                "line {line} of the index {} is no place: write START LENGTH and NEGOTIATE, \
                 CHALLENGE or AUTHENTICATE, as '0 120 AUTHENTICATE'",
                printable(path)
            ),
            Self::Io(error) => write!(
                f,
                "the night can't be read or its answers can't be printed ({error}): run it again with whole files and an output with room"
            ),
        }
    }
}

/// The index that belongs to a buffer: the same name, ending in `.index`. A buffer
/// whose own name ends so has none.
pub fn index_of(buffer: &Path) -> Result<PathBuf, NoNight> {
    let index = buffer.with_extension("index");
    if index == buffer {
        return Err(NoNight::NoBuffer(index));
    }
    Ok(index)
}

/// The places of an index, a line for each; a last line may lack its end.
pub fn read_index(path: &Path) -> Result<Vec<Place>, NoNight> {
    let failed = |error| NoNight::Unreadable(path.to_owned(), error);
    let about = fs::metadata(path).map_err(failed)?;
    // Opening a pipe or a device could wait for ever.
    if !about.is_file() {
        return Err(failed(io::Error::other("it is not a plain file")));
    }
    if about.len() > MAX_INDEX {
        return Err(NoNight::TooLarge(path.to_owned()));
    }
    let index = fs::read(path).map_err(failed)?;
    places(&index).map_err(|line| NoNight::NoPlace(path.to_owned(), line))
}

/// The places of an index, or the number of the first line that is none.
fn places(index: &[u8]) -> Result<Vec<Place>, usize> {
    let lines = index.split_inclusive(|&byte| byte == b'\n').zip(1..);
    let place = |(line, number): (&[u8], usize)| {
        let line = line.strip_suffix(b"\n").unwrap_or(line);
        let line = line.strip_suffix(b"\r").unwrap_or(line);
        let place = std::str::from_utf8(line).ok().and_then(Place::of);
        place.ok_or(number)
    };
    lines.map(place).collect()
}

/// Reads the buffer from `input`, has it checked with the places of the index, and
/// prints a line for each entry and one that counts them; a night that is refused
/// as a whole has its one line.
pub fn run(
    index: &Path,
    input: &mut impl Read,
    out: &mut impl Write,
    check: impl FnOnce(&[u8], &[Place]) -> Answers,
) -> Result<(), NoNight> {
    let places = read_index(index)?;
    let mut buffer = Vec::new();
    input.by_ref().take(KEPT).read_to_end(&mut buffer)?;
    // The rest is read too, so that whoever writes it can finish.
    io::copy(input, &mut io::sink())?;
    print(&places, &check(&buffer, &places), out)?;
    out.flush()?;
    Ok(())
}

fn print(places: &[Place], answers: &Answers, out: &mut impl Write) -> io::Result<()> {
    let answers = match answers {
        Ok(answers) => answers,
        Err(refused) => return writeln!(out, "{refused}"),
    };
    for (place, answer) in places.iter().zip(answers) {
        let Place {
            start,
            length,
            mark,
        } = place;
        write!(out, "{start} {length} {} ", mark.word())?;
        match answer {
            None => writeln!(out, "taken")?,
            Some(refused) => writeln!(out, "{refused}")?,
        }
    }
    let refused = answers.iter().flatten().count();
    let (all, taken) = (answers.len(), answers.len() - refused);
    writeln!(out, "{all} entries: {taken} taken, {refused} refused")
}

#[cfg(test)]
mod tests {
    use super::*;

    const PLACES: [Place; 2] = [
        Place {
            start: 0,
            length: 120,
            mark: Mark::Authenticate,
        },
        Place {
            start: 18_446_744_073_709_551_615,
            length: 1,
            mark: Mark::Negotiate,
        },
    ];

    #[test]
    fn an_index_has_a_place_on_each_line() {
        for index in [
            "0 120 AUTHENTICATE\n18446744073709551615 1 NEGOTIATE\n",
            "0 120 AUTHENTICATE\r\n18446744073709551615 1 NEGOTIATE",
        ] {
            assert_eq!(places(index.as_bytes()), Ok(PLACES.to_vec()));
        }
        assert_eq!(places(b""), Ok(Vec::new()));
    }

    #[test]
    fn anything_else_is_no_place() {
        let good = "0 120 CHALLENGE\n";
        for bad in [
            "",
            "0 120",
            "0 120 NL_AUTH",
            "0 120 3",
            "0 120 CHALLENGE ",
            "0 120 CHALLENGE x",
            " 0 120 CHALLENGE",
            "0  120 CHALLENGE",
            "0\t120\tCHALLENGE",
            "-1 120 CHALLENGE",
            "+1 120 CHALLENGE",
            "0x0 120 CHALLENGE",
            "18446744073709551616 0 CHALLENGE",
            "0 1.0 CHALLENGE",
            "0 120 challenge",
            "0 120 CHALLENGE\r",
            "\u{FEFF}0 120 CHALLENGE",
        ] {
            let index = format!("{good}{good}{bad}\n{good}");
            // A CR may end a line.
            let expected = if bad.ends_with('\r') { Ok(4) } else { Err(3) };
            let found = places(index.as_bytes()).map(|places| places.len());
            assert_eq!(found, expected, "{bad}");
        }
        assert_eq!(places(b"0 120 CHALLENGE\n\xFF"), Err(2));
    }

    fn printed(answers: &Answers) -> String {
        let mut out = Vec::new();
        print(&PLACES, answers, &mut out).expect("room");
        String::from_utf8(out).expect("text")
    }

    #[test]
    fn a_line_for_each_entry_and_the_count() {
        let refused = Refused {
            number: 13,
            field: 2,
            place: 118,
        };
        assert_eq!(
            printed(&Ok(vec![None, Some(refused)])),
            "0 120 AUTHENTICATE taken\n\
             18446744073709551615 1 NEGOTIATE refused 13 field=2 at=118\n\
             2 entries: 1 taken, 1 refused\n"
        );
        assert_eq!(printed(&Err(refused)), "refused 13 field=2 at=118\n");
        assert_eq!(printed(&Ok(Vec::new())), "0 entries: 0 taken, 0 refused\n");
    }

    #[test]
    fn an_index_has_its_buffers_name() {
        let index = index_of(Path::new("a/b.c.night")).expect("an index");
        assert_eq!(index, Path::new("a/b.c.index"));
        let own = index_of(Path::new("a/b.index")).expect_err("its own index");
        assert_eq!(
            own.to_string(),
            "a/b.index is an index: name the night's buffer, which stands beside it, as \
             FILE=messages/two-boxes.night"
        );
        let missing = read_index(Path::new("/no/such.index")).expect_err("no index");
        let text = missing.to_string();
        assert!(text.starts_with("the index /no/such.index can't be read ("));
        assert!(read_index(Path::new("/")).is_err());
    }
}
