//! The names and numbers of include/dialtable.h, which are the crate's too.

use std::fs;

use dialtable::{Reason, Refusal};

fn text(path: &str) -> String {
    fs::read_to_string(format!("{}/{path}", env!("CARGO_MANIFEST_DIR"))).expect("text")
}

fn header() -> String {
    text("../include/dialtable.h")
}

/// A refusal of the header: its name, its number and, where the list has it, its text.
type Listed = (String, u8, Option<String>);

/// What the header lists, as `DIALTABLE_REFUSED_NAME = NUMBER` or as `X(NAME, NUMBER, "text")`.
fn listed(header: &str) -> Vec<Listed> {
    let number = |text: &str| -> Option<u8> {
        let digits: String = text
            .trim()
            .chars()
            .take_while(char::is_ascii_digit)
            .collect();
        digits.parse().ok()
    };
    let is_name = |name: &str| {
        let named = |c: char| c.is_ascii_uppercase() || c.is_ascii_digit() || c == '_';
        !name.is_empty() && name.chars().all(named)
    };
    let mut found = Vec::new();
    for line in header.lines().map(str::trim) {
        if let Some((name, rest)) = line
            .strip_prefix("DIALTABLE_REFUSED_")
            .and_then(|rest| rest.split_once(" = "))
        {
            found.extend(number(rest).map(|number| (name.to_owned(), number, None)));
        } else if let Some((name, rest)) = line.strip_prefix("X(").and_then(|l| l.split_once(',')) {
            let said = rest.split('"').nth(1).map(str::to_owned);
            let number = number(rest).filter(|_| is_name(name));
            found.extend(number.map(|number| (name.to_owned(), number, said)));
        }
    }
    found
}

/// `WRONG_END_PAIR` as Rust spells it: `WrongEndPair`.
fn spelt(name: &str) -> String {
    let word = |word: &str| {
        let (first, rest) = word.split_at(1);
        first.to_owned() + &rest.to_lowercase()
    };
    name.split('_').map(word).collect()
}

#[test]
fn refusals_have_the_headers_names_numbers_and_words() {
    let listed = listed(&header());
    assert_eq!(listed.len(), 33);
    for number in 0..=u8::MAX {
        let reason = Reason::of(number);
        let Some((name, _, said)) = listed.iter().find(|(_, listed, _)| *listed == number) else {
            assert_eq!(reason, Reason::Other(number), "the header has no {number}");
            continue;
        };
        assert_eq!(format!("{reason:?}"), spelt(name), "{number}");
        if let Some(said) = said {
            let refusal = Refusal {
                reason,
                field: 0,
                place: 0,
            };
            let shown = format!("refused {number} field=0 at=0: {said}");
            assert_eq!(refusal.to_string(), shown, "{number}");
        }
    }
}

/// The name and value of a line that names a number: `#define DIALTABLE_NAME VALUE`, or
/// `DIALTABLE_NAME = VALUE` in an enum.
fn named(line: &str) -> Option<(&str, String)> {
    let line = line.trim();
    let (name, value) = match line.strip_prefix("#define DIALTABLE_") {
        Some(rest) => rest.split_once(' ')?,
        None => line.strip_prefix("DIALTABLE_")?.split_once(" = ")?,
    };
    let value = value.split_whitespace().next()?;
    let value = value.trim_end_matches([',', 'u']).to_lowercase();
    value.starts_with(char::is_numeric).then_some((name, value))
}

/// Each number that a caller names is a constant of the crate.
#[test]
fn constants_have_the_headers_values() {
    let source = text("src/constants.rs").replace('_', "").to_lowercase();
    let mut seen = 0;
    for (name, value) in header().lines().filter_map(named) {
        let kinds = ["FLAG_", "PAIR_", "NL_AUTH_BIT_", "MIC_AT"];
        if !kinds.iter().any(|kind| name.starts_with(kind)) {
            continue;
        }
        seen += 1;
        let found = ["u32", "u16", "usize"].iter().any(|kind| {
            let name = name.replace('_', "").to_lowercase();
            source.contains(&format!("pub const {name}: {kind} = {value};"))
        });
        assert!(found, "{name} {value} is no constant of src/constants.rs");
    }
    assert!(seen >= 19, "{seen} numbers are named in the header");
}

/// Each id of a pair, from the header's enum, is a constant of the crate by the same name.
#[test]
fn pairs_have_the_headers_names() {
    let source = text("src/constants.rs");
    let header = header();
    let ids: Vec<&str> = header
        .lines()
        .filter_map(|line| line.strip_prefix("    DIALTABLE_PAIR_"))
        .filter(|rest| rest.contains(" = "))
        .collect();
    assert_eq!(ids.len(), 10);
    for id in ids {
        let (name, value) = id.trim_end_matches(',').split_once(" = ").expect("an id");
        let line = format!("pub const PAIR_{name}: u16 = {value};");
        assert!(source.contains(&line), "{line} is not in src/constants.rs");
    }
}

/// The version is the header's.
#[test]
fn the_version_is_the_headers() {
    let header = header();
    let defined = header
        .lines()
        .find_map(|line| line.strip_prefix("#define DIALTABLE_VERSION "));
    let defined = defined.expect("a version").trim();
    assert_eq!(defined, format!("\"{}\"", dialtable::VERSION));
}

/// What a box asks for is what a sign-in sent.
#[test]
fn the_flags_wanted_are_those_of_a_sign_in() {
    let sent = fs::read(format!(
        "{}/../messages/negotiate-sign-in.bin",
        env!("CARGO_MANIFEST_DIR")
    ));
    let read = dialtable::read_negotiate(&sent.expect("a message")).expect("taken");
    assert_eq!(read.flags, dialtable::FLAGS_WANTED);
}
