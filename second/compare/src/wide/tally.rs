//! How often each call was made and how it answered.

use std::fmt;

use reader::Entry;

use super::call::{place, refusal, Call, FARTHEST, NAMES};
use crate::tally::{each_refusal, Columns, Refusals, REFUSALS};

/// Each refusal that only answering, writing, working out and a night can give, with
/// every field that it can have.
const OF_WRITING: [Refusals; 11] = [
    (20, &[0]),
    (21, &[0]),
    (30, &[0]),
    (31, &[2, 3, 4, 5]),
    (32, &[6]),
    (34, &[1, 2, 3, 4, 5]),
    (54, &[0]),
    (55, &[0]),
    (56, &[0]),
    (57, &[0]),
    (58, &[0]),
];

/// What the entries of a night are called, by their marks: 1 to 3, and any other.
const ENTRIES: [&str; 4] = [
    "entry_negotiate",
    "entry_challenge",
    "entry_authenticate",
    "entry_other_mark",
];

/// Numbers, their fields and the readings and writings that can refuse by them:
/// each must have done so itself, since kinds of message share numbers.
const OF_CALLS: [(&[u8], &[u8], &[&str]); 42] = [
    (
        &[1, 2, 4, 33],
        &[0],
        &[
            "read_authenticate",
            "read_challenge",
            "read_negotiate",
            "read_nl_auth",
            "nl_auth_name",
            "write_response_pairs",
        ],
    ),
    (
        &[3, 5],
        &[0],
        &[
            "read_authenticate",
            "read_challenge",
            "read_negotiate",
            "write_response_pairs",
        ],
    ),
    (&[6, 7], &[1, 2, 3, 4, 5, 6], &["read_authenticate"]),
    (
        &[6, 7],
        &[1, 2],
        &["read_challenge", "read_negotiate", "write_response_pairs"],
    ),
    (&[8, 9], &[3, 4, 5], &["read_authenticate"]),
    (
        &[8],
        &[1],
        &["read_challenge", "write_response_pairs", "entry_challenge"],
    ),
    (
        &[10, 11, 12, 13],
        &[2],
        &[
            "read_challenge",
            "read_timestamp",
            "read_server_names",
            "check_pairs",
            "count_pairs",
            "find_pair",
            "next_pair",
            "write_response_pairs",
            "decide",
            "respond",
            "respond_for_bench",
            "respond_to_old_server",
            "respond_for_relay",
        ],
    ),
    (&[14, 16, 17], &[0], &["read_nl_auth", "nl_auth_name"]),
    (&[15], &[1, 2, 3, 4, 5], &["read_nl_auth", "nl_auth_name"]),
    (
        &[50, 51, 52, 53],
        &[3, 4, 5],
        &["read_nl_auth", "nl_auth_name"],
    ),
    (
        &[5, 30, 33],
        &[0],
        &["write_authenticate", "write_negotiate"],
    ),
    (&[31], &[3, 4, 5], &["write_authenticate"]),
    (&[32], &[6], &["write_authenticate"]),
    (&[14, 30, 33], &[0], &["write_nl_auth_request"]),
    (&[34], &[1, 2, 3, 4, 5], &["write_nl_auth_request"]),
    (&[50, 53], &[3, 4, 5], &["write_nl_auth_request"]),
    (&[33], &[0], &["write_nl_auth_response"]),
    (&[31], &[2], &["write_response_pairs"]),
    (&[30], &[0], &["write_response_pairs"]),
    (&[6, 33], &[0], &["field_bytes"]),
    (
        &[20],
        &[0],
        &[
            "decide",
            "respond",
            "respond_for_bench",
            "respond_for_relay",
        ],
    ),
    (&[33], &[0], &["explain"]),
    (&[1], &[0], &["check_messages"]),
    (
        &[2, 3, 4, 5],
        &[0],
        &["entry_negotiate", "entry_challenge", "entry_authenticate"],
    ),
    (
        &[6, 7],
        &[1, 2],
        &["entry_negotiate", "entry_challenge", "entry_authenticate"],
    ),
    (&[6, 7], &[3, 4, 5, 6], &["entry_authenticate"]),
    (&[8, 9], &[3, 4, 5], &["entry_authenticate"]),
    (&[10, 11, 12, 13], &[2], &["entry_challenge"]),
    (&[4], &[0], &["entry_other_mark"]),
    (&[54], &[0], &ENTRIES),
    (&[1, 2, 3, 4, 5, 30, 33], &[0], &["canonical_authenticate"]),
    (&[6, 7], &[1, 2, 3, 4, 5, 6], &["canonical_authenticate"]),
    (&[8, 9], &[3, 4, 5], &["canonical_authenticate"]),
    (&[32], &[6], &["canonical_authenticate"]),
    (&[1, 33], &[0], &["export_header", "import_header"]),
    (&[57, 58], &[0], &["import_header"]),
    (&[1, 2, 3, 4, 5, 55, 56], &[0], &["mic", "check_mic"]),
    (&[6, 7], &[1, 2, 3, 4, 5, 6], &["mic", "check_mic"]),
    (&[8], &[1, 3, 4, 5], &["mic", "check_mic"]),
    (&[9], &[3, 4, 5], &["mic", "check_mic"]),
    (&[33], &[0], &["mic"]),
    (&[10, 11, 12, 13], &[2], &["mic", "check_mic"]),
];

/// What a kind of place is called, and whether a place is of it.
type PlaceKind = (&'static str, fn(u64) -> bool);

/// Each kind of place that a refused pair can stand at.
const PLACES: [PlaceKind; 6] = [
    ("at 0", |place| place == 0),
    ("at an odd place", |place| place % 2 == 1),
    ("at an even place", |place| place > 0 && place % 2 == 0),
    ("past 255", |place| place > 255),
    ("past 65,535", |place| place > 65_535),
    ("too far to be shown", |place| place == FARTHEST),
];

/// Kinds of place and the calls that must have refused a pair there: 0 and far
/// places are those of a list alone, the farthest that of a walk asked there.
const OF_PLACES: [(&[usize], &[&str]); 3] = [
    (
        &[0, 1, 2, 3, 4],
        &["check_pairs", "count_pairs", "find_pair", "next_pair"],
    ),
    (&[5], &["next_pair"]),
    (
        &[1, 2, 3],
        &[
            "read_challenge",
            "read_timestamp",
            "read_server_names",
            "write_response_pairs",
            "decide",
            "respond",
            "respond_for_bench",
            "respond_to_old_server",
            "respond_for_relay",
            "entry_challenge",
        ],
    ),
];

/// The calls that are given two inputs which only secrets tell apart.
const WITH_SECRETS: [&str; 12] = [
    "read_authenticate",
    "authenticate_line",
    "ntlm_line",
    "ntlm_program_line",
    "explain",
    "check_messages",
    "respond",
    "respond_for_bench",
    "respond_to_old_server",
    "respond_for_relay",
    "mic",
    "check_mic",
];

/// All refusals, by their numbers.
fn refusals() -> Vec<Refusals> {
    let mut all = [&REFUSALS[..], &OF_WRITING].concat();
    for (number, fields) in &mut all {
        if *number == 6 {
            // 0 is for a copy of a field that doesn't fit its message.
            *fields = &[0, 1, 2, 3, 4, 5, 6];
        }
    }
    all.sort_by_key(|(number, _)| *number);
    all
}

/// One more than the highest number, and than the highest field.
const NUMBERS: usize = 59;
const FIELDS: usize = 7;

/// The counts of one call.
#[derive(Clone, Copy, Debug)]
struct Row {
    answered: u64,
    /// How many of these answers are 1.
    yes: u64,
    /// By number and field.
    refused: [[u64; FIELDS]; NUMBERS],
    /// Refused pairs by [`PLACES`].
    places: [u64; PLACES.len()],
    /// Calls of the library on two inputs that only secrets tell apart.
    alike: u64,
}

/// The second reader's answers.
#[derive(Clone, Debug)]
pub struct Tally {
    /// By [`NAMES`].
    rows: Vec<Row>,
    /// By [`ENTRIES`].
    entries: Vec<Row>,
}

impl Default for Tally {
    fn default() -> Self {
        let row = Row {
            answered: 0,
            yes: 0,
            refused: [[0; FIELDS]; NUMBERS],
            places: [0; PLACES.len()],
            alike: 0,
        };
        Self {
            rows: vec![row; NAMES.len()],
            entries: vec![row; ENTRIES.len()],
        }
    }
}

impl Tally {
    pub fn add(&mut self, call: &Call<'_>, answer: u64) {
        let row = &mut self.rows[call.index()];
        match refusal(answer) {
            None => {
                row.answered += 1;
                row.yes += u64::from(answer == 1);
            }
            Some((number, field)) => {
                row.refused[usize::from(number)][usize::from(field)] += 1;
                if matches!(number, 10..=13) {
                    row.add_place(place(answer));
                }
            }
        }
    }

    /// The answers of a night's entries.
    pub fn add_entries(&mut self, entries: &[Entry]) {
        for entry in entries {
            let row = match entry.mark {
                mark @ 1..=3 => &mut self.entries[mark as usize - 1],
                _ => &mut self.entries[ENTRIES.len() - 1],
            };
            match entry.number {
                0 => row.answered += 1,
                number => {
                    row.refused[number as usize][entry.field as usize] += 1;
                    if matches!(number, 10..=13) {
                        row.add_place(u64::from(entry.place));
                    }
                }
            }
        }
    }

    pub fn add_alike(&mut self, call: &Call<'_>) {
        self.rows[call.index()].alike += 1;
    }

    /// Adds all that another one has.
    pub fn add_all(&mut self, other: &Self) {
        let rows = self.rows.iter_mut().chain(&mut self.entries);
        for (row, other) in rows.zip(other.rows.iter().chain(&other.entries)) {
            row.add_all(other);
        }
    }

    /// How many calls were held against the second reader.
    pub fn calls(&self) -> u64 {
        self.rows.iter().map(Row::all).sum()
    }

    /// The calls with their rows, and the entries with theirs.
    fn named(&self) -> impl Iterator<Item = (&'static str, &Row)> {
        let calls = NAMES.into_iter().zip(&self.rows);
        calls.chain(ENTRIES.into_iter().zip(&self.entries))
    }

    /// How often any call refused by this number with this field.
    fn refused(&self, number: u8, field: u8) -> u64 {
        let rows = self.rows.iter().chain(&self.entries);
        rows.map(|row| row.at(number, field)).sum()
    }

    /// What no case has reached: calls that were never answered, refusals and
    /// fields that none gave or that a reading or writing never gave itself,
    /// calls that secrets should not tell apart.
    pub fn not_reached(&self) -> Vec<String> {
        let mut missing = Vec::new();
        for (name, row) in self.named() {
            // No message is taken by a mark that is none.
            if row.answered == 0 && name != "entry_other_mark" {
                missing.push(format!("{name} answers"));
            }
            if name == "check_mic" && (row.yes == 0 || row.yes == row.answered) {
                missing.push(format!("{name} says yes and says no"));
            }
            if row.alike == 0 && WITH_SECRETS.contains(&name) {
                missing.push(format!("{name} with other secrets"));
            }
            for (number, field) in own_refusals(name) {
                if row.at(number, field) == 0 {
                    missing.push(format!("{name} refused {number} field={field}"));
                }
            }
            for kind in own_places(name) {
                if row.places[kind] == 0 {
                    missing.push(format!("{name} refused a pair {}", PLACES[kind].0));
                }
            }
        }
        for (number, field) in each_refusal(&refusals()) {
            if self.refused(number, field) == 0 {
                missing.push(format!("refused {number} field={field}"));
            }
        }
        missing
    }
}

/// The numbers and fields that a reading or a writing can refuse by.
fn own_refusals(name: &str) -> Vec<(u8, u8)> {
    let rows = OF_CALLS
        .iter()
        .filter(|(_, _, calls)| calls.contains(&name));
    let pairs = rows.flat_map(|(numbers, fields, _)| {
        numbers
            .iter()
            .flat_map(|&number| fields.iter().map(move |&field| (number, field)))
    });
    pairs.collect()
}

/// The kinds of place that a call can refuse a pair at.
fn own_places(name: &str) -> impl Iterator<Item = usize> + '_ {
    let rows = OF_PLACES
        .iter()
        .filter(move |(_, calls)| calls.contains(&name));
    rows.flat_map(|(kinds, _)| kinds.iter().copied())
}

impl Row {
    fn add_all(&mut self, other: &Self) {
        self.answered += other.answered;
        self.yes += other.yes;
        self.alike += other.alike;
        let counts = self.refused.as_flattened_mut().iter_mut();
        for (count, other) in counts.zip(other.refused.as_flattened()) {
            *count += other;
        }
        for (count, other) in self.places.iter_mut().zip(other.places) {
            *count += other;
        }
    }

    fn add_place(&mut self, place: u64) {
        for (count, (_, is_there)) in self.places.iter_mut().zip(PLACES) {
            *count += u64::from(is_there(place));
        }
    }

    const fn at(&self, number: u8, field: u8) -> u64 {
        self.refused[number as usize][field as usize]
    }

    fn all(&self) -> u64 {
        self.answered + self.refused.as_flattened().iter().sum::<u64>()
    }
}

const COLUMNS: Columns = Columns { name: 28, count: 9 };

/// A row for each call, then one for each refusal.
impl fmt::Display for Tally {
    fn fmt(&self, f: &mut fmt::Formatter<'_>) -> fmt::Result {
        for (name, row) in self.named() {
            COLUMNS.row(f, name, row.all())?;
            write!(f, "   answered {}", row.answered)?;
            let refused = row
                .refused
                .iter()
                .map(|fields| fields.iter().sum::<u64>())
                .enumerate()
                .filter(|&(_, count)| count > 0);
            for (at, (number, count)) in refused.enumerate() {
                let word = if at == 0 { "refused " } else { "" };
                write!(f, ", {word}{number}: {count}")?;
            }
            if row.alike > 0 {
                write!(f, "; other secrets {}", row.alike)?;
            }
            writeln!(f)?;
        }
        let refused = |number, field| self.refused(number, field);
        COLUMNS.refusals(f, "refused", &refusals(), refused)
    }
}

#[cfg(test)]
mod tests {
    use super::super::call::{refused, refused_at};
    use super::{Call, Entry, Tally, ENTRIES, NAMES, OF_CALLS, OF_PLACES, WITH_SECRETS};

    #[test]
    fn the_tables_name_calls_that_are_there() {
        let calls = OF_CALLS.iter().flat_map(|(_, _, calls)| calls.iter());
        let places = OF_PLACES.iter().flat_map(|(_, calls)| calls.iter());
        for name in calls.chain(places).chain(&WITH_SECRETS) {
            let there = NAMES.contains(name) || ENTRIES.contains(name);
            assert!(there, "{name}");
        }
    }

    #[test]
    fn a_refusal_is_reached_for_the_call_that_gave_it() {
        let mut tally = Tally::default();
        let call = Call::ReadChallenge { message: &[] };
        tally.add(&call, refused(6, 1));
        let missing = tally.not_reached();
        let is_missing = |what: &str| missing.iter().any(|missed| missed == what);
        assert!(!is_missing("refused 6 field=1"));
        assert!(!is_missing("read_challenge refused 6 field=1"));
        assert!(is_missing("read_negotiate refused 6 field=1"));
        assert!(is_missing("read_challenge refused 6 field=2"));
    }

    #[test]
    fn a_place_is_reached_for_the_call_that_gave_it() {
        let mut tally = Tally::default();
        let list = &[];
        tally.add(&Call::CheckPairs { list }, refused_at(12, 2, 257));
        tally.add(&Call::CountPairs { list }, refused(11, 2));
        tally.add(
            &Call::NextPair { list, at: 0 },
            refused_at(11, 2, usize::MAX),
        );
        let missing = tally.not_reached();
        let is_missing = |what: &str| missing.iter().any(|missed| missed == what);
        assert!(!is_missing("check_pairs refused a pair past 255"));
        assert!(!is_missing("check_pairs refused a pair at an odd place"));
        assert!(is_missing("check_pairs refused a pair at 0"));
        assert!(is_missing("check_pairs refused a pair past 65,535"));
        assert!(!is_missing("count_pairs refused a pair at 0"));
        assert!(!is_missing("next_pair refused a pair too far to be shown"));
        assert!(is_missing("decide refused a pair past 255"));
        assert!(!is_missing("read_challenge refused a pair at 0"));
    }

    #[test]
    fn an_entry_is_reached_by_its_mark() {
        let mut tally = Tally::default();
        let answer = |mark, number, field, place| Entry {
            number,
            field,
            place,
            ..Entry::new(0, 0, mark)
        };
        let entries = [
            answer(1, 0, 0, 0),
            answer(2, 13, 2, 301),
            answer(3, 9, 4, 0),
            answer(7, 4, 0, 0),
        ];
        tally.add_entries(&entries);
        assert_eq!(tally.calls(), 0);
        let missing = tally.not_reached();
        let is_missing = |what: &str| missing.iter().any(|missed| missed == what);
        assert!(!is_missing("entry_negotiate answers"));
        assert!(is_missing("entry_challenge answers"));
        assert!(!is_missing("entry_challenge refused 13 field=2"));
        assert!(!is_missing("entry_challenge refused a pair past 255"));
        assert!(is_missing(
            "entry_challenge refused a pair at an even place"
        ));
        assert!(!is_missing("entry_authenticate refused 9 field=4"));
        assert!(!is_missing("entry_other_mark refused 4 field=0"));
        assert!(is_missing("entry_other_mark refused 54 field=0"));
        assert!(!is_missing("entry_other_mark answers"));
        assert!(is_missing("check_messages refused 1 field=0"));
    }
}
