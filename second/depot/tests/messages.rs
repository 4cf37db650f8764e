//! The repository's folder of messages: its table has each file with its line.

use std::fs;
use std::path::Path;

use depot::folder::{Content, Folder};
use depot::form::Kind;
use depot::night;
use depot::words::{self, ReadAs};
use reader::{check_messages, export_header, import_header, Entry, Program, Refusal, LINE_LIMIT};

const MESSAGES: &str = concat!(env!("CARGO_MANIFEST_DIR"), "/../../messages");

/// The rows of the table, each a file's name and what stands under "Line".
fn rows() -> Vec<(String, String)> {
    let readme = fs::read_to_string(Path::new(MESSAGES).join("README.md")).expect("a README");
    let row = |line: &str| {
        let cells: Vec<&str> = line.trim_matches('|').split('|').map(str::trim).collect();
        let [file, _, _, _, printed] = cells.as_slice() else {
            return None;
        };
        let name = file.strip_prefix('`')?.strip_suffix('`')?;
        Some((name.to_owned(), (*printed).to_owned()))
    };
    readme.lines().filter_map(row).collect()
}

fn line(program: Program, message: &[u8]) -> String {
    let mut room = Box::new([0; LINE_LIMIT]);
    let line = program.line(message, &mut room).trim_ascii_end();
    format!("`{}`", line.escape_ascii()).replace("\\\\", "\\")
}

fn printed(message: &[u8]) -> String {
    match Kind::of(message) {
        Kind::Ntlm => line(Program::Ntlm, message),
        Kind::NlAuth => line(Program::NlAuth, message),
        Kind::Unclear => {
            let lines = [Program::Ntlm, Program::NlAuth].map(|p| line(p, message));
            lines.join(" and ")
        }
    }
}

/// The message of a header line's text, which is exported with the same digits.
fn carried(text: &[u8]) -> Result<Vec<u8>, Refusal> {
    let mut message = vec![0; text.len()];
    let len = import_header(text, &mut message)?;
    message.truncate(len);
    let mut again = vec![0; text.len()];
    let len = export_header(&message, &mut again).expect("room");
    assert!(text.ends_with(&again[5..len]));
    Ok(message)
}

#[test]
fn each_file_stands_in_the_table_with_its_line() {
    let folder = Folder::list(Path::new(MESSAGES)).expect("messages");
    let mut found = Vec::new();
    for file in &folder.messages {
        let printed = match file.read_all().expect("a message") {
            Content::Message(_, message) => printed(&message),
            Content::HeaderTexts(texts, _) => {
                let lines = texts.iter().map(|(_, text)| match carried(text) {
                    Ok(message) => printed(&message),
                    Err(refusal) => format!("`{refusal}`"),
                });
                lines.collect::<Vec<_>>().join(", ")
            }
        };
        found.push((file.name.clone(), printed));
    }
    let mut told = rows();
    told.sort();
    assert!(found.len() >= 12);
    assert_eq!(told, found);
}

/// The figures under a refusal are those that the second reader prints of its failed check, and no
/// byte behind the fixed part has a say in them.
#[test]
fn a_refusal_in_words_has_the_second_readers_figures() {
    let folder = Folder::list(Path::new(MESSAGES)).expect("messages");
    let mut tried = 0;
    for file in &folder.messages {
        let Ok((_, message)) = file.read() else {
            continue;
        };
        let checks = line(Program::Explain, &message);
        let Some((_, failed)) = checks.split_once(" failed ") else {
            continue;
        };
        let figure = |name: &str| -> Option<u64> {
            let word = failed
                .split([' ', '\\'])
                .find_map(|word| word.strip_prefix(name))?;
            word.parse().ok()
        };
        let (read_as, program) = match Kind::of(&message) {
            Kind::NlAuth => continue,
            _ => (ReadAs::Ntlm, Program::Ntlm),
        };
        let told = |message: &[u8]| {
            let printed = line(program, message);
            let number = words::number_of(printed.trim_matches('`').as_bytes()).expect("a refusal");
            words::of(number, read_as, message).expect("words")
        };
        let words = told(&message);
        if figure("field=") != Some(0) {
            let (offset, length) = (figure("offset=").unwrap(), figure("length=").unwrap());
            let places = format!("bytes {offset} to {}", offset + length);
            assert!(words.contains(&places), "{}: {words}", file.name);
        }
        if let (Some(at), Some(id)) = (figure("at="), figure("id=")) {
            assert!(words.contains(&format!(" at byte {at}")), "{words}");
            assert!(
                id == 0 || words.contains(&format!("pair {id} (")),
                "{words}"
            );
        }
        // In an AUTHENTICATE the secrets stand behind the fixed part.
        if message.len() > 64 && message[8] == 3 {
            let mut other = message.clone();
            other[64..].fill(b'!');
            assert_eq!(told(&other), words, "{}", file.name);
        }
        tried += 1;
    }
    assert!(tried > 10, "{tried}");
}

/// The night's answers stand in the README as the second reader gives them.
#[test]
fn the_night_stands_there_with_its_answers() {
    let file = Path::new(MESSAGES).join("two-boxes.night");
    let buffer = fs::read(&file).expect("a buffer");
    let mut out = Vec::new();
    let check = |buffer: &[u8], places: &[night::Place]| {
        let entry = |place: &night::Place| Entry::new(place.start, place.length, place.mark as u32);
        let mut entries: Vec<Entry> = places.iter().map(entry).collect();
        check_messages(buffer, &mut entries).expect("a night");
        let answer = |entry: &Entry| {
            (entry.number > 0).then_some(night::Refused {
                number: entry.number,
                field: entry.field,
                place: entry.place,
            })
        };
        Ok(entries.iter().map(answer).collect())
    };
    let index = night::index_of(&file).expect("an index");
    night::run(&index, &mut buffer.as_slice(), &mut out, check).expect("a night");
    let answers = String::from_utf8(out).expect("text");
    let readme = fs::read_to_string(Path::new(MESSAGES).join("README.md")).expect("a README");
    let indented: String = answers
        .lines()
        .map(|line| format!("    {line}\n"))
        .collect();
    assert!(readme.contains(&indented), "{indented}");
}
