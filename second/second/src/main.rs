//! Reads NTLM or NL_AUTH messages from standard input and prints the log line
//! of each, or why an NTLM message is refused; or checks a night's messages; or reads
//! the text of a header line and prints the message that it carries, in hex.

#![forbid(unsafe_code)]

mod hex;

use std::env;
use std::ffi::OsString;
use std::fmt;
use std::io::{self, BufRead, BufReader, BufWriter, IsTerminal, Read, Write};
use std::path::{Path, PathBuf};
use std::process::ExitCode;

use depot::night::{Answers, NoNight, Place, Refused};
use reader::{check_messages, import_header, Entry, Program, Refusal, LINE_LIMIT, MAX_MESSAGE};

const USAGE: &str =
    "usage: second [batch] ntlm | second [batch] nl | second [batch] explain | second night INDEX \
                     | second import";

const NO_TERMINAL: &str =
    "a message is not shown on a terminal, since it holds secrets: send it on to a program, as \
                           second import < TEXT | PROGRAM";

/// How many bytes of input and output a batch holds at a time.
const BATCH_BUFFER: usize = 1 << 18;

fn main() -> ExitCode {
    depot::plain_end::set();
    let args: Vec<OsString> = env::args_os().skip(1).collect();
    let Some(command) = Command::parse(&args) else {
        return fail(2, &USAGE);
    };
    let done = match command {
        Command::One(program) => print_one(program),
        Command::Batch(program) => print_batch(program),
        Command::Night(index) => print_night(&index),
        Command::Import if io::stdout().is_terminal() => return fail(1, &NO_TERMINAL),
        Command::Import => print_imported(),
    };
    match done {
        Ok(()) => ExitCode::SUCCESS,
        Err(failure) => fail(1, &failure),
    }
}

/// One plain line on standard error. It never holds any of the input.
fn fail(status: u8, message: &dyn fmt::Display) -> ExitCode {
    // Where standard error is closed, the status still tells.
    let _ = writeln!(io::stderr(), "{message}");
    ExitCode::from(status)
}

enum Command {
    One(Program),
    Batch(Program),
    Night(PathBuf),
    Import,
}

impl Command {
    fn parse(args: &[OsString]) -> Option<Self> {
        match args {
            [import] if import == "import" => Some(Self::Import),
            [program] => Some(Self::One(parse_program(program)?)),
            [batch, program] if batch == "batch" => Some(Self::Batch(parse_program(program)?)),
            [night, index] if night == "night" => Some(Self::Night(PathBuf::from(index))),
            _ => None,
        }
    }
}

fn parse_program(name: &OsString) -> Option<Program> {
    match name.to_str()? {
        "ntlm" => Some(Program::Ntlm),
        "nl" => Some(Program::NlAuth),
        "explain" => Some(Program::Explain),
        _ => None,
    }
}

enum Failure {
    Io(io::Error),
    NotHex { line: usize },
    Night(NoNight),
}

impl From<io::Error> for Failure {
    fn from(error: io::Error) -> Self {
        Self::Io(error)
    }
}

impl fmt::Display for Failure {
    fn fmt(&self, f: &mut fmt::Formatter<'_>) -> fmt::Result {
        match self {
            Self::Io(error) => write!(
                f,
                "second: its input can't be read or its line can't be printed ({error}): run it again with a whole input and an output with room"
            ),
            Self::NotHex { line } => write!(f, "second: line {line} is not a message in hex"),
            Self::Night(why) => write!(f, "second: {why}"),
        }
    }
}

/// Takes all of standard input as one message.
fn print_one(program: Program) -> Result<(), Failure> {
    let mut input = io::stdin().lock();
    let mut message = Vec::new();
    // One byte past the limit is enough for check 1.
    let kept = MAX_MESSAGE as u64 + 1;
    input.by_ref().take(kept).read_to_end(&mut message)?;
    // The rest is read too, so that whoever writes it can finish.
    io::copy(&mut input, &mut io::sink())?;

    let mut room = Box::new([0; LINE_LIMIT]);
    let mut output = io::stdout().lock();
    output.write_all(program.line(&message, &mut room))?;
    output.flush()?;
    Ok(())
}

/// Takes all of standard input as the text of a header line, and prints its message in
/// hex or its refusal, on one line. The message holds secrets: none goes to a terminal.
fn print_imported() -> Result<(), Failure> {
    let mut text = Vec::new();
    io::stdin().lock().read_to_end(&mut text)?;
    let mut message = vec![0; MAX_MESSAGE];
    let line = match import_header(&text, &mut message) {
        Ok(len) => message[..len].iter().fold(String::new(), |mut line, byte| {
            line.push_str(&format!("{byte:02X}"));
            line
        }),
        Err(refusal) => refusal.to_string(),
    };
    let mut output = io::stdout().lock();
    writeln!(output, "{line}")?;
    output.flush()?;
    Ok(())
}

/// Takes each line of standard input as one message in hex.
fn print_batch(program: Program) -> Result<(), Failure> {
    let mut input = BufReader::with_capacity(BATCH_BUFFER, io::stdin().lock());
    let mut output = BufWriter::with_capacity(BATCH_BUFFER, io::stdout().lock());
    let mut room = Box::new([0; LINE_LIMIT]);
    let mut digits = Vec::new();
    let mut message = Vec::new();
    let mut line = 0;
    while input.read_until(b'\n', &mut digits)? != 0 {
        line += 1;
        if !hex::decode(without_line_end(&digits), &mut message) {
            output.flush()?;
            return Err(Failure::NotHex { line });
        }
        output.write_all(program.line(&message, &mut room))?;
        digits.clear();
    }
    output.flush()?;
    Ok(())
}

fn without_line_end(line: &[u8]) -> &[u8] {
    let line = line.strip_suffix(b"\n").unwrap_or(line);
    line.strip_suffix(b"\r").unwrap_or(line)
}

/// Takes standard input as a night's buffer, whose index is in a file.
fn print_night(index: &Path) -> Result<(), Failure> {
    let mut output = BufWriter::new(io::stdout().lock());
    let input = &mut io::stdin().lock();
    depot::night::run(index, input, &mut output, check).map_err(Failure::Night)
}

fn check(buffer: &[u8], places: &[Place]) -> Answers {
    let entry = |place: &Place| Entry::new(place.start, place.length, place.mark as u32);
    let mut entries: Vec<Entry> = places.iter().map(entry).collect();
    check_messages(buffer, &mut entries).map_err(refused)?;
    let answer = |entry: &Entry| {
        (entry.number != 0).then_some(Refused {
            number: entry.number,
            field: entry.field,
            place: entry.place,
        })
    };
    Ok(entries.iter().map(answer).collect())
}

/// The refusal of a whole night, which is none of a pair.
fn refused(refusal: Refusal) -> Refused {
    Refused {
        number: u32::from(refusal.number()),
        field: u32::from(refusal.field),
        place: 0,
    }
}
