//! Calls of the proved library, linked in: the canonical form of an AUTHENTICATE
//! from one file to another, the message that a header line's text carries, and a
//! night's messages.

#![forbid(unsafe_code)]

mod night;

use std::env;
use std::ffi::OsString;
use std::io::{self, IsTerminal, Read, Write};
use std::path::Path;
use std::process::ExitCode;

use depot::folder::{printable, MessageFile, NotRead};
use depot::form::Kind;
use depot::secret_file;

const USAGE: &str =
    "usage: linked canonical FILE OUT | linked import < TEXT | linked night INDEX < BUFFER";

const NO_TERMINAL: &str =
    "a message is not shown on a terminal, since it holds secrets: send it on to a program, as \
                           linked import < TEXT | PROGRAM";

fn main() -> ExitCode {
    depot::plain_end::set();
    let args: Vec<OsString> = env::args_os().skip(1).collect();
    let done = match args.as_slice() {
        [command, file, out] if command == "canonical" => {
            canonical(Path::new(file), Path::new(out))
        }
        [command] if command == "import" && io::stdout().is_terminal() => {
            Err(NO_TERMINAL.to_owned())
        }
        [command] if command == "import" => import().map_err(|error| {
            format!("linked: its input can't be read or its line can't be printed ({error}): run it again with a whole input and an output with room")
        }),
        [command, index] if command == "night" => night::print(Path::new(index)),
        _ => return fail(2, USAGE),
    };
    match done {
        Ok(()) => ExitCode::SUCCESS,
        Err(why) => fail(1, &why),
    }
}

/// One plain line on standard error. It never holds any of a message.
fn fail(status: u8, message: &str) -> ExitCode {
    // Where standard error is closed, the status still tells.
    let _ = writeln!(io::stderr(), "{message}");
    ExitCode::from(status)
}

/// Takes all of standard input as the text of a header line, and prints its message in
/// hex or its refusal, on one line. It is for the depot bench, which shows no message, and
/// prints none to a terminal.
fn import() -> io::Result<()> {
    let mut text = Vec::new();
    io::stdin().lock().read_to_end(&mut text)?;
    let mut room = vec![0; reader::MAX_MESSAGE];
    let mut line = Vec::new();
    match dialtable::import_header(&mut room, &text) {
        Ok(message) => {
            for byte in message {
                write!(line, "{byte:02X}")?;
            }
        }
        Err(refusal) => {
            let dialtable::Refusal { field, place, .. } = refusal;
            let number = refusal.number();
            write!(line, "refused {number} field={field} at={place}")?;
        }
    }
    line.push(b'\n');
    let mut out = io::stdout().lock();
    out.write_all(&line)?;
    out.flush()
}

/// Writes the canonical form of a file's AUTHENTICATE to another file and nowhere
/// else, since it holds secrets. The library and the reader must give the same.
fn canonical(file: &Path, out: &Path) -> Result<(), String> {
    let (_, message) = MessageFile::at(file).read().map_err(|why| match why {
        NotRead::Missing => format!(
            "there is no file {}: name a message, as make canonical FILE=message OUT=file",
            printable(file)
        ),
        why => format!("{} is not read: {why}", printable(file)),
    })?;
    // Fields may share bytes, and each is written by itself.
    let mut room = vec![0; reader::MAX_MESSAGE];
    let mut other_room = room.clone();
    let proved = dialtable::canonical_authenticate(&mut room, &message);
    let second = reader::canonical_authenticate(&message, &mut other_room);
    let second = second
        .map(|len| &other_room[..len])
        .map_err(|refusal| (refusal.number(), refusal.field, refusal.place));
    let as_numbers = proved.map_err(|refusal| (refusal.number(), refusal.field, refusal.place));
    if as_numbers != second {
        return Err(format!(
            "the proved library and the second program don't write {} alike: nothing is written; keep the file and tell us",
            printable(file)
        ));
    }
    let written = proved.map_err(|refusal| no_form(file, &message, refusal))?;
    secret_file::write(out, file, written).map_err(|why| why.to_string())
}

/// Why a file's message has no canonical form, and what to do. make explain has the
/// checks of reading alone, and those of an AUTHENTICATE only for a message of type 3.
fn no_form(file: &Path, message: &[u8], refusal: dialtable::Refusal) -> String {
    let file = printable(file);
    let authenticate = [3, 0, 0, 0];
    let is_one = Kind::of(message) != Kind::NlAuth && message.get(8..12) == Some(&authenticate[..]);
    if !is_one {
        return format!(
            "{file} is no AUTHENTICATE, and nothing else has a canonical form: name one, as \
             FILE=messages/authenticate-smbclient.bin"
        );
    }
    let what_to_do = match refusal.number() {
        1..=9 => format!("make explain FILE={file} shows its checks"),
        30 => "with a Version, a MIC and each field by itself it is too long: keep it as it is"
            .to_owned(),
        32 => "no message is written with such a key: keep it as it is".to_owned(),
        _ => "that should never come: keep the file and tell us".to_owned(),
    };
    format!("{file} has no canonical form, {refusal}; {what_to_do}")
}
