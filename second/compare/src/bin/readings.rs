//! Writes what the proved library reads in messages that it and the reader both take,
//! for `tools/peers`, which holds the readings of other programs against it.
//!
//! Each message is a line of JSON with what stands in it by name: numbers, and bytes in
//! hex. A field is its offset, its length, its MaxLen and its bytes; a pair its id and
//! its value; a string of NL_AUTH its offset, its length, its jumps and its text. The
//! last line says how many messages were refused.

#![forbid(unsafe_code)]

use std::env;
use std::ffi::{OsStr, OsString};
use std::fmt::Write as _;
use std::io::{self, IsTerminal, Write};
use std::path::Path;
use std::process::ExitCode;

use compare::captured::{self, Captured};
use compare::command::{seed_and_count, NOT_NUMBERS};
use compare::{cases, wide};
use depot::form::Kind;
use dialtable::{Field, NlAuth, NlAuthString, Walk};
use reader::Program;

const USAGE: &str = "usage: readings SEED N FOLDER..";

const NO_TERMINAL: &str = "messages are not shown on a terminal, since they hold secrets: \
                           tools/peers reads what this prints";

const NOT_ALIKE: &str = "the proved library and the reader don't take the same messages: \
                         make wide shows the difference";

fn main() -> ExitCode {
    depot::plain_end::set();
    let args: Vec<_> = env::args_os().skip(1).collect();
    let done = match args.as_slice() {
        [_, _, _, ..] if io::stdout().is_terminal() => Err(NO_TERMINAL.to_owned()),
        [seed, drawn, folders @ ..] if !folders.is_empty() => print(seed, drawn, folders),
        _ => Err(USAGE.to_owned()),
    };
    match done {
        Ok(()) => ExitCode::SUCCESS,
        Err(why) => {
            // Where standard error is closed, the status still tells.
            let _ = writeln!(io::stderr(), "{why}");
            ExitCode::FAILURE
        }
    }
}

/// The messages of some folders, those at every boundary, and so many drawn ones.
fn messages(seed: u64, drawn: usize, folders: &[OsString]) -> Result<Vec<Captured>, String> {
    let mut all = Vec::new();
    for folder in folders {
        all.extend(captured::messages(Path::new(folder))?);
    }
    let captured: Vec<_> = all.iter().map(|each| each.message.clone()).collect();
    let boundaries = cases(seed, 0).into_iter();
    let boundaries = boundaries.filter(|case| case.program != Program::Explain);
    let numbered = |what: &'static str| {
        move |(number, message): (usize, Vec<u8>)| Captured {
            origin: format!("{what} {number}"),
            message: with_plain_response(message),
        }
    };
    let boundaries = boundaries.map(|case| case.message).enumerate();
    all.extend(boundaries.map(numbered("boundary")));
    let drawn = wide::drawn(seed, drawn, &captured).into_iter().enumerate();
    all.extend(drawn.map(numbered("drawn")));
    Ok(all)
}

/// Prints a line for each message that both take, and one for how many they refuse.
fn print(seed: &OsStr, drawn: &OsStr, folders: &[OsString]) -> Result<(), String> {
    let (seed, drawn) = seed_and_count(seed, drawn).ok_or(NOT_NUMBERS)?;
    let failed = |error: io::Error| {
        format!("what was read can't be printed ({error}): give it an output with room")
    };
    let mut out = io::BufWriter::new(io::stdout().lock());
    let mut refused = 0;
    for Captured { origin, message } in messages(seed, drawn, folders)? {
        if let Some(words) = reading(&message)? {
            let (origin, message) = (text(&origin), hex(&message));
            writeln!(out, "{{\"from\":{origin},\"message\":{message},{words}}}").map_err(failed)?;
        } else {
            refused += 1;
        }
    }
    writeln!(out, "{{\"refused\":{refused}}}").map_err(failed)?;
    out.flush().map_err(failed)
}

/// The message with zeros for its NT response, where it is an AUTHENTICATE that is taken.
/// Other programs take a response apart, and drawn bytes are none; ours looks at its
/// length alone.
fn with_plain_response(mut message: Vec<u8>) -> Vec<u8> {
    if let Ok(read) = dialtable::read_authenticate(&message) {
        let start = read.nt.offset as usize;
        message[start..start + usize::from(read.nt.len)].fill(0);
    }
    message
}

/// What stands in a message, where both take it.
fn reading(message: &[u8]) -> Result<Option<String>, String> {
    let number = message.get(8..12);
    let (ours, second) = match (Kind::of(message), number) {
        (Kind::Ntlm, Some([1, 0, 0, 0])) => {
            (negotiate(message), reader::Negotiate::read(message).is_ok())
        }
        (Kind::Ntlm, Some([2, 0, 0, 0])) => {
            (challenge(message), reader::Challenge::read(message).is_ok())
        }
        (Kind::Ntlm, Some([3, 0, 0, 0])) => (
            authenticate(message),
            reader::Authenticate::read(message).is_ok(),
        ),
        (Kind::NlAuth, _) => (nl_auth(message), reader::NlAuth::read(message).is_ok()),
        _ => (None, false),
    };
    if ours.is_some() == second {
        Ok(ours)
    } else {
        Err(NOT_ALIKE.to_owned())
    }
}

fn negotiate(message: &[u8]) -> Option<String> {
    let read = dialtable::read_negotiate(message).ok()?;
    let fields = [("domain", read.domain), ("workstation", read.workstation)];
    let fields = in_words(message, &fields)?;
    Some(format!("\"type\":1,\"flags\":{}{fields}", read.flags))
}

fn challenge(message: &[u8]) -> Option<String> {
    let read = dialtable::read_challenge(message).ok()?;
    let fields = [
        ("target_name", read.target_name),
        ("target_info", read.target_info),
    ];
    let fields = in_words(message, &fields)?;
    let server_challenge = hex(&read.server_challenge);
    let list = read.target_info.bytes(message);
    let pairs: Result<Vec<String>, _> = Walk::new(list)
        .map(|pair| pair.map(|pair| format!("[{},{}]", pair.id, hex(pair.value(list)))))
        .collect();
    let pairs = pairs.ok()?.join(",");
    let time = dialtable::read_timestamp(message).ok()?;
    let time = time.map_or("null".to_owned(), |time| time.to_string());
    let flags = read.flags;
    Some(format!(
        "\"type\":2,\"flags\":{flags},\"server_challenge\":{server_challenge},\"pairs\":[{pairs}],\"time\":{time}{fields}"
    ))
}

fn authenticate(message: &[u8]) -> Option<String> {
    let read = dialtable::read_authenticate(message).ok()?;
    let fields = [
        ("lm", read.lm),
        ("nt", read.nt),
        ("domain", read.domain),
        ("user", read.user),
        ("workstation", read.workstation),
        ("key", read.key),
    ];
    let fields = in_words(message, &fields)?;
    let mic = read.mic.map_or("null".to_owned(), |mic| hex(&mic.0));
    let flags = read.flags;
    Some(format!(
        "\"type\":3,\"flags\":{flags},\"mic\":{mic}{fields}"
    ))
}

fn nl_auth(message: &[u8]) -> Option<String> {
    let (number, flags, strings) = match dialtable::read_nl_auth(message).ok()? {
        NlAuth::Request { flags, strings } => (0, flags, strings),
        NlAuth::Response => (1, 0, [None; 5]),
    };
    let mut words = format!("\"nl_type\":{number},\"flags\":{flags}");
    for (which, string) in (1..).zip(strings) {
        let letter = ["a", "b", "c", "d", "e"][which as usize - 1];
        let string = match string {
            Some(string) => nl_auth_string(message, which, string)?,
            None => "null".to_owned(),
        };
        let _ = write!(words, ",\"{letter}\":{string}");
    }
    Some(words)
}

fn nl_auth_string(message: &[u8], which: u32, string: NlAuthString) -> Option<String> {
    // An escaped byte is four characters.
    let mut room = vec![0; 4 * message.len() + 1024];
    let name = hex(dialtable::nl_auth_name(message, which, &mut room).ok()?);
    let NlAuthString { offset, len, jumps } = string;
    Some(format!("[{offset},{len},{jumps},{name}]"))
}

/// Each field behind a comma and its name.
fn in_words(message: &[u8], fields: &[(&str, Field)]) -> Option<String> {
    let mut words = String::new();
    let mut room = vec![0; message.len()];
    for (name, field) in fields {
        let bytes = hex(field.copy(message, &mut room).ok()?);
        let Field {
            offset,
            len,
            max_len,
        } = field;
        let _ = write!(words, ",\"{name}\":[{offset},{len},{max_len},{bytes}]");
    }
    Some(words)
}

/// Bytes as a string of hex digits.
fn hex(bytes: &[u8]) -> String {
    let mut digits = String::with_capacity(2 * bytes.len() + 2);
    digits.push('"');
    for byte in bytes {
        let _ = write!(digits, "{byte:02x}");
    }
    digits.push('"');
    digits
}

/// A file's name as a string. It is fit to print, so that it holds no control.
fn text(name: &str) -> String {
    let escaped = name.replace('\\', "\\\\").replace('"', "\\\"");
    format!("\"{escaped}\"")
}
