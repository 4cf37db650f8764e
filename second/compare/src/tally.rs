//! Which answers the messages got, and whether each kind was reached.

use std::collections::BTreeMap;
use std::fmt;
use std::str::FromStr;

/// A kind of answer.
#[derive(Clone, Copy, Debug, PartialEq, Eq, PartialOrd, Ord)]
pub enum Kind {
    Authenticate,
    ChallengeWithTime,
    ChallengeWithoutTime,
    Negotiate,
    NlAuthRequest,
    NlAuthResponse,
    Refused {
        number: u8,
        field: u8,
    },
    /// So many checks, all held.
    Held(usize),
    /// Checks of which this one failed.
    Failed {
        number: u8,
        field: u8,
    },
    /// A digit of the last word of a line: whether MaxLen is unlike Len.
    MaxLen {
        line: &'static str,
        field: u8,
        unlike: bool,
    },
    /// None of the forms of documents 01 and 02.
    Other,
}

/// The lines other than refusals and the prints of checks that held, and what
/// they are called.
const TAKEN: [(Kind, &str); 9] = [
    (Kind::Authenticate, "auth"),
    (Kind::ChallengeWithTime, "chal with time"),
    (Kind::ChallengeWithoutTime, "chal without time"),
    (Kind::Negotiate, "nego"),
    (Kind::NlAuthRequest, "nl type=0"),
    (Kind::NlAuthResponse, "nl type=1"),
    (Kind::Held(7), "7 checks held"),
    (Kind::Held(9), "9 checks held"),
    (Kind::Held(12), "12 checks held"),
];

/// The checks of each kind of message, in the order of their print.
const CHECKS: [&[u8]; 3] = [
    &[1, 2, 3, 4, 5, 6, 7],
    &[1, 2, 3, 4, 5, 6, 7, 8, 9],
    &[1, 2, 3, 4, 5, 6, 7, 8, 11, 12, 10, 13],
];

/// The lines whose last word has a digit for each field, and how many.
const WITH_MAX: [(&str, u8); 3] = [("auth", 6), ("chal", 2), ("nego", 2)];

/// The number of a refusal, and each field that it can have.
pub type Refusals = (u8, &'static [u8]);

/// Each refusal that a reading or a line can give, with every field that it
/// can have.
pub const REFUSALS: [Refusals; 22] = [
    (1, &[0]),
    (2, &[0]),
    (3, &[0]),
    (4, &[0]),
    (5, &[0]),
    (6, &[1, 2, 3, 4, 5, 6]),
    (7, &[1, 2, 3, 4, 5, 6]),
    (8, &[1, 3, 4, 5]),
    (9, &[3, 4, 5]),
    (10, &[2]),
    (11, &[2]),
    (12, &[2]),
    (13, &[2]),
    (14, &[0]),
    (15, &[1, 2, 3, 4, 5]),
    (16, &[0]),
    (17, &[0]),
    (33, &[0]),
    (50, &[3, 4, 5]),
    (51, &[3, 4, 5]),
    (52, &[3, 4, 5]),
    (53, &[3, 4, 5]),
];

impl Kind {
    /// The kind of a line.
    pub fn of(line: &[u8]) -> Self {
        let Some(text) = line.strip_suffix(b"\n") else {
            return Self::Other;
        };
        let words: Vec<&[u8]> = text.split(|&byte| byte == b' ').collect();
        match words.as_slice() {
            [b"check", ..] => Self::checks(text).unwrap_or(Self::Other),
            [b"auth" | b"chal" | b"nego", ..] if digits(&words).is_none() => Self::Other,
            [b"auth", ..] => Self::Authenticate,
            [b"chal", .., time, _] if time.starts_with(b"time=") => Self::ChallengeWithTime,
            [b"chal", ..] => Self::ChallengeWithoutTime,
            [b"nego", ..] => Self::Negotiate,
            [b"nl", b"type=0", ..] => Self::NlAuthRequest,
            [b"nl", b"type=1", ..] => Self::NlAuthResponse,
            [b"refused", number, field, place] => {
                Self::refused(number, field, place).unwrap_or(Self::Other)
            }
            _ => Self::Other,
        }
    }

    /// What the digits of a line's last word say.
    fn max_lens(line: &[u8]) -> Vec<Self> {
        let text = line.strip_suffix(b"\n").unwrap_or_default();
        let words: Vec<&[u8]> = text.split(|&byte| byte == b' ').collect();
        let Some((line, digits)) = digits(&words) else {
            return Vec::new();
        };
        let fields = (1..).zip(digits);
        let kinds = fields.map(|(field, &digit)| Self::MaxLen {
            line,
            field,
            unlike: digit == b'1',
        });
        kinds.collect()
    }

    /// The kind of a print of checks: those of one kind of message, in order,
    /// held up to one that failed, and not reached after it.
    fn checks(text: &[u8]) -> Option<Self> {
        let lines: Vec<&[u8]> = text.split(|&byte| byte == b'\n').collect();
        let checks = CHECKS.iter().find(|checks| checks.len() == lines.len())?;
        let mut failed = None;
        for (line, check) in lines.iter().zip(*checks) {
            let start = format!("check {check} ");
            let state = line.strip_prefix(start.as_bytes())?;
            match state {
                b"held" if failed.is_none() => {}
                b"not reached" if failed.is_some() => {}
                _ if failed.is_none() => failed = Some(Self::failed(*check, state)?),
                _ => return None,
            }
        }
        Some(failed.unwrap_or(Self::Held(lines.len())))
    }

    /// A check that failed, by the words after its number: every figure is there,
    /// and the length of a message is at most 65,536.
    fn failed(number: u8, state: &[u8]) -> Option<Self> {
        let words: Vec<&[u8]> = state.split(|&byte| byte == b' ').collect();
        let (first, figures) = words.split_first()?;
        let mut names = vec!["field", "offset", "length", "message"];
        if matches!(number, 10..=13) {
            names.extend(["at", "id", "size"]);
        }
        if *first != b"failed" || figures.len() != names.len() {
            return None;
        }
        let mut numbers = Vec::new();
        for (name, figure) in names.iter().zip(figures) {
            let digits = figure.strip_prefix(name.as_bytes())?.strip_prefix(b"=")?;
            numbers.push(parse::<u32>(digits)?);
        }
        let field = u8::try_from(numbers[0]).ok()?;
        (numbers[3] <= 65_536).then_some(Self::Failed { number, field })
    }

    fn refused(number: &[u8], field: &[u8], place: &[u8]) -> Option<Self> {
        let number = parse(number)?;
        let field = parse(field.strip_prefix(b"field=")?)?;
        let place: usize = parse(place.strip_prefix(b"at=")?)?;
        // Only a pair has a place, and in a message it stands after the fixed part.
        let right = if matches!(number, 10..=13) {
            place >= 48
        } else {
            place == 0
        };
        right.then_some(Self::Refused { number, field })
    }
}

/// The first word of a line and the digits of its last one, where it has as many as
/// the line has fields.
fn digits<'a>(words: &[&'a [u8]]) -> Option<(&'static str, &'a [u8])> {
    let (first, last) = (words.first()?, words.last()?);
    let mut lines = WITH_MAX.into_iter();
    let (line, fields) = lines.find(|(line, _)| line.as_bytes() == *first)?;
    let digits = last.strip_prefix(b"max=")?;
    let right = digits.len() == usize::from(fields);
    let plain = digits.iter().all(|digit| matches!(digit, b'0' | b'1'));
    (right && plain).then_some((line, digits))
}

fn parse<N: FromStr>(digits: &[u8]) -> Option<N> {
    std::str::from_utf8(digits).ok()?.parse().ok()
}

impl fmt::Display for Kind {
    fn fmt(&self, f: &mut fmt::Formatter<'_>) -> fmt::Result {
        match self {
            Self::Refused { number, field } => {
                return write!(f, "refused {number} field={field}");
            }
            Self::Failed { number, field } => {
                return write!(f, "check {number} failed field={field}");
            }
            Self::MaxLen {
                line,
                field,
                unlike,
            } => {
                let digit = u8::from(*unlike);
                return write!(f, "{line} max={digit} field={field}");
            }
            _ => {}
        }
        let taken = TAKEN.iter().find(|(kind, _)| kind == self);
        f.write_str(taken.map_or("no line of any form", |(_, name)| name))
    }
}

/// The refusals that are checks of an NTLM message.
fn of_checks() -> impl Iterator<Item = (u8, u8)> {
    each_refusal(&REFUSALS).filter(|(number, _)| *number <= 13)
}

/// Both digits of each field of each line.
fn of_max_lens() -> impl Iterator<Item = Kind> {
    let fields = WITH_MAX
        .iter()
        .flat_map(|&(line, fields)| (1..=fields).map(move |field| (line, field)));
    fields.flat_map(|(line, field)| {
        [false, true].map(|unlike| Kind::MaxLen {
            line,
            field,
            unlike,
        })
    })
}

/// Each number of a table with each of its fields.
pub fn each_refusal(table: &[Refusals]) -> impl Iterator<Item = (u8, u8)> + '_ {
    table
        .iter()
        .flat_map(|&(number, fields)| fields.iter().map(move |&field| (number, field)))
}

/// The widths of a printed tally: what is counted, and how often it was.
pub struct Columns {
    pub name: usize,
    pub count: usize,
}

impl Columns {
    /// The start of a row.
    pub fn row(&self, f: &mut fmt::Formatter<'_>, name: &str, count: u64) -> fmt::Result {
        let Self {
            name: left,
            count: right,
        } = *self;
        write!(f, "  {name:<left$}{count:>right$}")
    }

    /// A row for each number of a table, its fields beside it.
    pub fn refusals(
        &self,
        f: &mut fmt::Formatter<'_>,
        word: &str,
        table: &[Refusals],
        count: impl Fn(u8, u8) -> u64,
    ) -> fmt::Result {
        for &(number, fields) in table {
            let counts = fields.iter().map(|&field| (field, count(number, field)));
            let all = counts.clone().map(|(_, count)| count).sum();
            self.row(f, &format!("{word} {number}"), all)?;
            if fields.len() > 1 {
                let each: Vec<String> = counts
                    .map(|(field, count)| format!("field {field}: {count}"))
                    .collect();
                write!(f, "   {}", each.join(", "))?;
            }
            writeln!(f)?;
        }
        Ok(())
    }
}

/// How many messages got each kind of answer.
#[derive(Clone, Debug, Default)]
pub struct Tally(BTreeMap<Kind, u64>);

impl Tally {
    /// Counts the answer to one message.
    pub fn add(&mut self, line: &[u8]) {
        for kind in [Kind::of(line)].into_iter().chain(Kind::max_lens(line)) {
            *self.0.entry(kind).or_default() += 1;
        }
    }

    fn count(&self, kind: Kind) -> u64 {
        self.0.get(&kind).copied().unwrap_or_default()
    }

    /// The kinds that no message got.
    pub fn not_reached(&self) -> Vec<Kind> {
        let taken = TAKEN.map(|(kind, _)| kind).into_iter();
        let refused =
            each_refusal(&REFUSALS).map(|(number, field)| Kind::Refused { number, field });
        let failed = of_checks().map(|(number, field)| Kind::Failed { number, field });
        taken
            .chain(refused)
            .chain(failed)
            .chain(of_max_lens())
            .filter(|&kind| self.count(kind) == 0)
            .collect()
    }

    /// The kinds that were got, though document 01 has no such answer to a
    /// reading.
    pub fn not_expected(&self) -> Vec<Kind> {
        let expected = |kind: &Kind| match *kind {
            Kind::Refused { number, field } => {
                each_refusal(&REFUSALS).any(|refusal| refusal == (number, field))
            }
            Kind::Failed { number, field } => of_checks().any(|check| check == (number, field)),
            Kind::Other => false,
            _ => true,
        };
        self.0
            .keys()
            .copied()
            .filter(|kind| !expected(kind))
            .collect()
    }
}

const COLUMNS: Columns = Columns { name: 18, count: 6 };

/// A row for each kind of line and for each number.
impl fmt::Display for Tally {
    fn fmt(&self, f: &mut fmt::Formatter<'_>) -> fmt::Result {
        for (kind, name) in TAKEN {
            COLUMNS.row(f, name, self.count(kind))?;
            writeln!(f)?;
        }
        for (line, fields) in WITH_MAX {
            let unlike = (1..=fields).map(|field| Kind::MaxLen {
                line,
                field,
                unlike: true,
            });
            let counts: Vec<u64> = unlike.map(|kind| self.count(kind)).collect();
            COLUMNS.row(f, &format!("{line} max=1"), counts.iter().sum())?;
            let each: Vec<String> = (1..)
                .zip(counts)
                .map(|(field, count): (u8, u64)| format!("field {field}: {count}"))
                .collect();
            writeln!(f, "   {}", each.join(", "))?;
        }
        let refused = |number, field| self.count(Kind::Refused { number, field });
        COLUMNS.refusals(f, "refused", &REFUSALS, refused)?;
        let checks = REFUSALS.iter().filter(|(number, _)| *number <= 13);
        let checks: Vec<Refusals> = checks.copied().collect();
        let failed = |number, field| self.count(Kind::Failed { number, field });
        COLUMNS.refusals(f, "failed check", &checks, failed)
    }
}

#[cfg(test)]
mod tests {
    use super::{of_max_lens, Kind, Tally, CHECKS};

    #[test]
    fn each_line_has_its_kind() {
        let cases: [(&[u8], Kind); 23] = [
            (
                b"auth flags=00000201 set=U domain= max=010000\n",
                Kind::Authenticate,
            ),
            (b"auth flags=00000201 set=U domain=\n", Kind::Other),
            (
                b"auth flags=00000201 set=U domain= max=01000\n",
                Kind::Other,
            ),
            (
                b"auth flags=00000201 set=U domain= max=010002\n",
                Kind::Other,
            ),
            (
                b"chal flags=1 set=U target= pairs=0 max=00\n",
                Kind::ChallengeWithoutTime,
            ),
            (
                b"chal flags=1 set=U target= pairs=1 time=00 max=00\n",
                Kind::ChallengeWithTime,
            ),
            (
                b"chal flags=1 set=U target= pairs=1 max=00 time=00\n",
                Kind::Other,
            ),
            (
                b"chal flags=1 set=U target=time=1 pairs=0 max=10\n",
                Kind::ChallengeWithoutTime,
            ),
            (
                b"nego flags=00000001 domain= work= max=01\n",
                Kind::Negotiate,
            ),
            (b"nego flags=00000001 domain= work=\n", Kind::Other),
            (b"nego max=00 domain= work=\n", Kind::Other),
            (b"nl type=0 flags=00000001 a=LINE\n", Kind::NlAuthRequest),
            (b"nl type=1 flags=00000000\n", Kind::NlAuthResponse),
            (
                b"refused 15 field=4 at=0\n",
                Kind::Refused {
                    number: 15,
                    field: 4,
                },
            ),
            (
                b"refused 12 field=2 at=93\n",
                Kind::Refused {
                    number: 12,
                    field: 2,
                },
            ),
            (b"refused 15 field=4 at=0", Kind::Other),
            (b"refused 15\n", Kind::Other),
            (b"refused x field=4 at=0\n", Kind::Other),
            (b"refused 15 field=4\n", Kind::Other),
            (b"refused 15 field=4 at=93\n", Kind::Other),
            (b"refused 12 field=2 at=0\n", Kind::Other),
            (b"nl type=2 flags=00000000\n", Kind::Other),
            (b"\n", Kind::Other),
        ];
        for (line, kind) in cases {
            assert_eq!(Kind::of(line), kind, "{}", line.escape_ascii());
        }
    }

    #[test]
    fn each_print_of_checks_has_its_kind() {
        let held = |checks: &[u8]| {
            let lines = checks.iter().map(|check| format!("check {check} held\n"));
            lines.collect::<String>()
        };
        for checks in CHECKS {
            let kind = Kind::Held(checks.len());
            assert_eq!(Kind::of(held(checks).as_bytes()), kind);
        }
        let all = held(CHECKS[0]);
        let failed = "check 6 failed field=2 offset=45 length=5 message=49\ncheck 7 not reached\n";
        let print = all.replace("check 6 held\ncheck 7 held\n", failed);
        let kind = Kind::Failed {
            number: 6,
            field: 2,
        };
        assert_eq!(Kind::of(print.as_bytes()), kind);
        for other in [
            all.replace("check 7 held\n", ""),
            all.replace("check 6 held", "check 6 not reached"),
            all.replace("check 2", "check 3"),
            print.replace("7 not reached", "7 held"),
            print.replace("49", "65537"),
            print.replace(" message=49", ""),
            print.replace("message=49", "message=49 at=0"),
            print.replace("offset=45", "offset="),
            print.replace("5 held", "5 failed field=0 offset=0 length=0 message=49"),
            print.trim_end().to_owned(),
        ] {
            assert_eq!(Kind::of(other.as_bytes()), Kind::Other, "{other}");
        }
        let print = held(CHECKS[2]).replace(
            "13 held",
            "13 failed field=2 offset=70 length=64 message=134 at=118 id=7 size=4",
        );
        let kind = Kind::Failed {
            number: 13,
            field: 2,
        };
        assert_eq!(Kind::of(print.as_bytes()), kind);
        let without = print.replace(" size=4", "");
        assert_eq!(Kind::of(without.as_bytes()), Kind::Other);
    }

    #[test]
    fn what_was_not_reached_is_named() {
        let mut tally = Tally::default();
        assert_eq!(of_max_lens().count(), 20);
        assert_eq!(tally.not_reached().len(), 9 + 49 + 28 + 20);
        tally.add(b"refused 8 field=5 at=0\n");
        tally.add(b"auth max=001000\n");
        let missing = tally.not_reached();
        assert_eq!(missing.len(), 9 + 49 + 28 + 20 - 2 - 6);
        let max = |field, unlike| Kind::MaxLen {
            line: "auth",
            field,
            unlike,
        };
        for field in 1..=6 {
            assert_ne!(
                missing.contains(&max(field, true)),
                missing.contains(&max(field, false))
            );
        }
        assert!(missing.contains(&max(2, true)) && !missing.contains(&max(3, true)));
        assert_eq!(max(3, true).to_string(), "auth max=1 field=3");
        assert!(!missing.contains(&Kind::Authenticate));
        assert!(!missing.contains(&Kind::Refused {
            number: 8,
            field: 5
        }));
        assert!(tally.not_expected().is_empty());
    }

    #[test]
    fn answers_that_no_reading_has_are_named() {
        let mut tally = Tally::default();
        for line in [
            "refused 8 field=2 at=0\n",
            "refused 18 field=0 at=0\n",
            "what\n",
        ] {
            tally.add(line.as_bytes());
        }
        assert_eq!(tally.not_expected().len(), 3);
    }
}
