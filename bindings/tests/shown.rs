//! `{:?}` of a public type shows no byte of a message, a response, a key or a MIC.

use std::fmt::Debug;
use std::fs;
use std::path::Path;

use dialtable::{
    check_mic, decide, find_pair, mic, nl_auth_name, read_authenticate, read_challenge,
    read_negotiate, read_nl_auth, read_server_names, respond, Entry, Mark, Mic, Parts, Reason,
    Settings, SignIn, Walk,
};

/// Bytes to look for: a letter and one that is none. No length, offset or time here has
/// their digits.
const PLANTED: [u8; 2] = [b'Z', 0xC7];

fn file(name: &str) -> Vec<u8> {
    fs::read(format!("{}/../{name}", env!("CARGO_MANIFEST_DIR"))).expect("a file of the repository")
}

/// The text of a value in both forms, which must have none of the planted bytes: in
/// decimal, in hex or as they are, nor a message's first bytes.
fn shown(name: &'static str, value: &dyn Debug) -> &'static str {
    for text in [format!("{value:?}"), format!("{value:#?}")] {
        for byte in PLANTED {
            for form in [
                format!("{byte}"),
                format!("{byte:x}"),
                format!("{byte:X}"),
                char::from(byte).to_string(),
            ] {
                assert!(!text.contains(&form), "{name} shows {form}: {text}");
            }
        }
        for start in ["78, 84", "4e, 54", "4e54", "4E54", "NTLM"] {
            assert!(!text.contains(start), "{name} shows a message: {text}");
        }
        assert!(text.starts_with(name), "{name} is shown as {text}");
    }
    name
}

/// Every public type that holds such bytes or tells of them, filled with the planted ones.
#[test]
fn no_type_shows_secret_bytes() {
    let [letter, other] = PLANTED;
    let (lm, nt, key) = ([letter; 24], [other; 40], [letter; 16]);
    let parts = Parts {
        version: [other; 8],
        mic: [other; 16],
        lm: &lm,
        nt: &nt,
        domain: &[letter; 4],
        user: &[other; 6],
        workstation: &[letter; 2],
        key: &key,
    };
    let mut challenge = file("messages/challenge-smbd.bin");
    challenge[24..32].fill(other);
    let mut room = [0; 300];
    let answer = respond(&mut room, &challenge, Settings::default(), 1, &parts).expect("answered");
    let seen = [
        shown("Parts", &parts),
        shown("Answer", &answer),
        shown("Mic", &Mic([other; 16])),
        shown(
            "Authenticate",
            &read_authenticate(answer.message).expect("taken"),
        ),
        shown("Challenge", &read_challenge(&challenge).expect("taken")),
        shown("Walk", &Walk::new(&[letter; 20])),
        shown(
            "SignIn",
            &SignIn {
                negotiate: &[letter; 40],
                challenge: &challenge,
                authenticate: answer.message,
            },
        ),
    ];
    assert_eq!(of_source(true), sorted(&seen));
    let lengths =
        "Parts { version: 8 bytes, mic: 16 bytes, lm: 24 bytes, nt: 40 bytes, domain: 4 bytes, \
                   user: 6 bytes, workstation: 2 bytes, key: 16 bytes }";
    assert_eq!(format!("{parts:?}"), lengths);
    let negotiate = file("messages/negotiate-names.bin");
    let list = &challenge[70..];
    let messages = SignIn {
        negotiate: &negotiate,
        challenge: &challenge,
        authenticate: answer.message,
    };
    let request = b"\0\0\0\0\x01\0\0\0ZZZZ\0";
    let refused = nl_auth_name(b"", 1, &mut []).expect_err("a refusal");
    let mut entries = [Entry::new(0, 4, Mark::Negotiate)];
    dialtable::check_messages(b"ZZZZ", &mut entries).expect("checked");
    let others = [
        shown("Settings", &Settings::default()),
        shown(
            "Decision",
            &decide(Settings::default(), &challenge).expect("decided"),
        ),
        shown(
            "Field",
            &read_challenge(&challenge).expect("taken").target_info,
        ),
        shown(
            "ServerNames",
            &read_server_names(&challenge).expect("taken"),
        ),
        shown("Negotiate", &read_negotiate(&negotiate).expect("taken")),
        shown(
            "Pair",
            &find_pair(list, 1).expect("a list").expect("a pair"),
        ),
        shown("Refusal", &refused),
        shown("Entry", &entries[0]),
    ];
    // Choices, which are shown by the name of their variant.
    let choices = [
        (
            "Request",
            "NlAuth",
            &read_nl_auth(request).expect("taken") as &dyn Debug,
        ),
        ("Refused", "Verdict", &entries[0].answer()),
        ("Wrong", "MicCheck", &check_mic(&key, &messages)),
        ("TooShort", "Reason", &Reason::of(2)),
        ("Negotiate", "Mark", &Mark::Negotiate),
        ("Some(", "NlAuthString", &{
            let dialtable::NlAuth::Request { strings, .. } = read_nl_auth(request).expect("taken")
            else {
                panic!("a request");
            };
            strings[0]
        }),
        // What a call hands back, as it is handed back.
        ("Ok(", "", &mic(&key, &messages)),
    ];
    let choices = choices.map(|(start, name, value)| {
        shown(start, value);
        name
    });
    let all: Vec<&str> = [&seen[..], &others[..], &choices[..]].concat();
    let all: Vec<&str> = all.into_iter().filter(|name| !name.is_empty()).collect();
    assert_eq!(of_source(false), sorted(&all));
}

fn sorted(names: &[&str]) -> Vec<String> {
    let mut names: Vec<String> = names.iter().map(|&name| name.to_owned()).collect();
    names.sort();
    names
}

/// The public types of the crate by its sources, or only those that hold bytes: a field
/// of such a type stands in them, or a [`Mic`].
fn of_source(with_bytes: bool) -> Vec<String> {
    let mut names = Vec::new();
    let folder = Path::new(env!("CARGO_MANIFEST_DIR")).join("src");
    for source in fs::read_dir(folder).expect("the sources") {
        let text = fs::read_to_string(source.expect("a source").path()).expect("text");
        for kind in ["pub struct ", "pub enum "] {
            for (at, _) in text.match_indices(kind) {
                let rest = &text[at + kind.len()..];
                let end = rest.find(|c: char| !c.is_alphanumeric()).expect("a name");
                let until = rest.find("\n}").unwrap_or(rest.len());
                let until = rest.find(";\n").map_or(until, |tuple| tuple.min(until));
                let holds = rest[..until].contains("[u8") || rest[..until].contains("Mic>");
                // The macro that makes Reason says its name; raw::Entry is under Entry.
                if holds || !with_bytes {
                    names.push(rest[..end].to_owned());
                }
            }
        }
    }
    names.sort();
    names.dedup();
    names
}

/// A type that holds bytes as they are derives no `Debug`.
#[test]
fn no_debug_is_derived_over_bytes() {
    let folder = Path::new(env!("CARGO_MANIFEST_DIR")).join("src");
    let mut seen = 0;
    for source in fs::read_dir(folder).expect("the sources") {
        let text = fs::read_to_string(source.expect("a source").path()).expect("text");
        for (at, _) in text.match_indices("#[derive(") {
            let rest = &text[at..];
            let Some(body) = rest.find("pub struct ") else {
                continue;
            };
            // Only attributes and comments stand between a derive and its type.
            let between = &rest[..body];
            if between
                .lines()
                .skip(1)
                .any(|line| !line.starts_with(['#', '/']))
            {
                continue;
            }
            let until = rest.find("\n}").unwrap_or(rest.len());
            let until = rest.find(";\n").map_or(until, |tuple| tuple.min(until));
            if rest[..until].contains("[u8") {
                seen += 1;
                assert!(!between.contains("Debug"), "{}", &rest[..until]);
            }
        }
    }
    assert_eq!(seen, 6);
}
