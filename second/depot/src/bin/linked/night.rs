//! A night's messages by one call of the proved library: the buffer from standard
//! input, the index from a file.

use std::io::{self, BufWriter};
use std::path::Path;

use depot::night::{self, Answers, Place, Refused};
use dialtable::{check_messages, Entry, Mark, Refusal, Verdict};

/// Prints the answer of each entry and their count.
pub fn print(index: &Path) -> Result<(), String> {
    let mut out = BufWriter::new(io::stdout().lock());
    let done = night::run(index, &mut io::stdin().lock(), &mut out, check);
    done.map_err(|why| why.to_string())
}

fn check(buffer: &[u8], places: &[Place]) -> Answers {
    let entry = |place: &Place| {
        let mark = match place.mark {
            night::Mark::Negotiate => Mark::Negotiate,
            night::Mark::Challenge => Mark::Challenge,
            night::Mark::Authenticate => Mark::Authenticate,
        };
        Entry::new(place.start, place.length, mark)
    };
    let mut entries: Vec<Entry> = places.iter().map(entry).collect();
    check_messages(buffer, &mut entries).map_err(refused)?;
    Ok(entries.iter().map(answer).collect())
}

/// The refusal of an entry, none where it is taken. One that the call passed over would
/// have number 0, which no refusal has.
fn answer(entry: &Entry) -> Option<Refused> {
    match entry.answer() {
        Verdict::Taken => None,
        Verdict::Refused(refusal) => Some(refused(refusal)),
        Verdict::NotRead => Some(Refused {
            number: 0,
            field: 0,
            place: 0,
        }),
    }
}

fn refused(refusal: Refusal) -> Refused {
    Refused {
        number: u32::from(refusal.number()),
        field: u32::from(refusal.field),
        // A message's place is below 65,536.
        place: u32::try_from(refusal.place).unwrap_or(u32::MAX),
    }
}
