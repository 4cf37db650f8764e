//! The messages of messages/ as the programs of this machine dump them.

use std::fs;
use std::io::Write;
use std::path::Path;
use std::process::{Command, Stdio};

use depot::form::{read, Form, NoMessage};

const MESSAGES: &str = concat!(env!("CARGO_MANIFEST_DIR"), "/../../messages");

/// What a program prints for bytes; none where it is not installed.
fn printed(command: &str, bytes: &[u8]) -> Option<Vec<u8>> {
    let mut words = command.split(' ');
    let mut child = Command::new(words.next()?)
        .args(words)
        .stdin(Stdio::piped())
        .stdout(Stdio::piped())
        .spawn()
        .ok()?;
    let mut input = child.stdin.take().expect("an input");
    input.write_all(bytes).expect("written");
    drop(input);
    Some(child.wait_with_output().expect("an end").stdout)
}

fn messages() -> Vec<Vec<u8>> {
    let mut messages = Vec::new();
    for entry in fs::read_dir(MESSAGES).expect("messages") {
        let path = entry.expect("an entry").path();
        if path.extension().is_some_and(|end| end == "bin") {
            messages.push(fs::read(&path).expect("a message"));
        }
    }
    // Lines that a dump leaves out.
    let mut zeros = b"NTLMSSP\0\x03\0\0\0".to_vec();
    zeros.resize(200, 0);
    zeros.push(1);
    messages.push(zeros);
    messages
}

/// A dump that leaves lines out at its end may be one that nobody can read, and is told as such.
#[test]
fn dumps_are_read_as_they_are_printed() {
    let mut dumped = 0;
    for (command, form) in [
        ("xxd", Form::Dump),
        ("xxd -c 8 -g 1", Form::Dump),
        ("xxd -u", Form::Dump),
        ("xxd -p", Form::Hex),
        ("xxd -i", Form::Hex),
        ("hexdump -C", Form::Dump),
        ("hexdump -v -C", Form::Dump),
        ("od -v -An -tx1", Form::Hex),
        ("od -t x1", Form::Dump),
        ("od -v -t x1", Form::Dump),
        ("od -A x -t x1", Form::Dump),
        ("od -A x -t x1z", Form::Dump),
        ("od -A d -t x1", Form::Dump),
    ] {
        for message in messages() {
            let Some(text) = printed(command, &message) else {
                eprintln!("skipped: {command} can't be run");
                break;
            };
            match read(text) {
                Err(NoMessage::Starred) if !command.contains("-v") => {}
                found => assert_eq!(found, Ok((form, message)), "{command}"),
            }
            dumped += 1;
        }
    }
    assert!(dumped > 100, "{dumped}");
}

/// Words in the order of a machine are told, never read.
#[test]
fn dumps_of_words_are_told() {
    for command in [
        "od",
        "od -v",
        "od -A x -o",
        "od -A d -t o4",
        "od -x",
        "od -A x -t x2",
        "od -t x4",
        "hexdump",
        "xxd -e",
    ] {
        for message in messages() {
            let Some(text) = printed(command, &message) else {
                eprintln!("skipped: {command} can't be run");
                break;
            };
            let told = read(text);
            let sound = matches!(told, Err(NoMessage::Words | NoMessage::Starred));
            assert!(sound, "{command}: {told:?}");
        }
    }
}

/// The dump of a message is the dump of all of it: any line taken out is seen.
#[test]
fn a_line_that_is_missing_is_seen() {
    for command in ["xxd", "hexdump -v -C", "od -v -t x1", "od -v -A x -t x1"] {
        let message = fs::read(Path::new(MESSAGES).join("authenticate-smbclient.bin"));
        let Some(text) = printed(command, &message.expect("a message")) else {
            continue;
        };
        let lines: Vec<&[u8]> = text.split_inclusive(|&byte| byte == b'\n').collect();
        let last = lines.len() - if command == "xxd" { 1 } else { 2 };
        for missing in 1..last {
            let mut left = lines.clone();
            left.remove(missing);
            let told = read(left.concat());
            let Err(NoMessage::OtherText { dump, .. }) = told else {
                panic!("{command}, {missing}: {told:?}");
            };
            assert_eq!((dump.line, dump.column), (missing + 1, 1), "{command}");
        }
    }
}
