//! The depot bench: runs every message of a folder through the proved program
//! and through the second, prints the line of each, and why an NTLM message is
//! refused, and says where the two differ. It also does the last for one file, and
//! runs a night's messages through both in one call.

#![forbid(unsafe_code)]

use std::env;
use std::ffi::{OsStr, OsString};
use std::fmt;
use std::io::{self, BufWriter, Write};
use std::num::NonZero;
use std::path::{Path, PathBuf};
use std::process::ExitCode;
use std::thread;

use depot::capture::{self, NotCaptured};
use depot::files::{self, About, Files};
use depot::folder::{printable, Content, MessageFile, NoFolder, NotRead};
use depot::form::{self, Kind};
use depot::many;
use depot::night::{index_of, read_index, NoNight};
use depot::program::{Answer, CannotRun, Program, Text};
use depot::progress::Progress;
use depot::report::{self, NoPage, Programs};
use depot::secret_file::{self, NotWritten};
use depot::summary::{Found, Outcome, Summary};
use depot::words::{self, ReadAs};

const USAGE: &str =
    "usage: depot look run FOLDER | depot run FOLDER NTLM_LINE NL_AUTH_LINE NTLM_EXPLAIN SECOND LINKED \
                     | depot look explain FILE | depot explain FILE NTLM_EXPLAIN NL_AUTH_LINE SECOND \
                     | depot look night FILE | depot night FILE LINKED SECOND \
                     | depot look canonical FILE OUT \
                     | depot look capture FILE OUT | depot capture FILE OUT TSHARK \
                     | depot look report FOLDER OUT \
                     | depot report FOLDER OUT NTLM_LINE NL_AUTH_LINE NTLM_EXPLAIN SECOND LINKED";

fn main() -> ExitCode {
    depot::plain_end::set();
    let args: Vec<OsString> = env::args_os().skip(1).collect();
    let done = match args.as_slice() {
        [look, command, input, out @ ..] if look == "look" && out.len() <= 1 => {
            match needs(command, Path::new(input), out.first().map(Path::new)) {
                Some(needs) => needs.and_then(|names| print_names(&names)),
                None => return fail(2, &USAGE),
            }
        }
        [command, folder, ntlm, nl_auth, explain, second, linked] if command == "run" => {
            let programs = [ntlm, nl_auth, explain, second, linked].map(Path::new);
            refused_fails().and_then(|fails| Bench::new(programs).run(Path::new(folder), fails))
        }
        [command, file, explain, nl_auth, second] if command == "explain" => {
            explain_file(Path::new(file), [explain, nl_auth, second].map(Path::new))
        }
        [command, file, linked, second] if command == "night" => {
            let linked_and_second = [linked, second].map(Path::new);
            Night::read(Path::new(file)).and_then(|night| night.run(linked_and_second))
        }
        [command, file, out, tshark] if command == "capture" => {
            capture_file([file, out, tshark].map(Path::new))
        }
        [command, folder, out, ntlm, nl_auth, explain, second, linked] if command == "report" => {
            let programs = [ntlm, nl_auth, explain, second, linked].map(Path::new);
            report(Path::new(folder), Path::new(out), programs)
        }
        _ => return fail(2, &USAGE),
    };
    match done {
        Ok(true) => ExitCode::SUCCESS,
        Ok(false) => ExitCode::FAILURE,
        Err(failure) => fail(1, &failure),
    }
}

/// One plain line on standard error.
fn fail(status: u8, message: &dyn fmt::Display) -> ExitCode {
    // Where standard error is closed, the status still tells.
    let _ = writeln!(io::stderr(), "{message}");
    ExitCode::from(status)
}

/// What ends the bench before its summary.
enum Failure {
    NoFolder(NoFolder),
    NoFile(PathBuf, NotRead),
    NotCaptured(NotCaptured),
    NotAWord(OsString),
    AreRefused(usize),
    AreRefusedOnPage(usize),
    NoBuffer(PathBuf, NotRead),
    NoNight(NoNight),
    CannotRun(CannotRun),
    NoPage(NoPage),
    NotWritten(NotWritten),
    Print(io::Error),
}

impl From<NoFolder> for Failure {
    fn from(why: NoFolder) -> Self {
        Self::NoFolder(why)
    }
}

impl From<NoNight> for Failure {
    fn from(why: NoNight) -> Self {
        Self::NoNight(why)
    }
}

impl From<NotCaptured> for Failure {
    fn from(why: NotCaptured) -> Self {
        Self::NotCaptured(why)
    }
}

impl From<NotWritten> for Failure {
    fn from(why: NotWritten) -> Self {
        Self::NotWritten(why)
    }
}

impl From<CannotRun> for Failure {
    fn from(why: CannotRun) -> Self {
        Self::CannotRun(why)
    }
}

impl From<io::Error> for Failure {
    fn from(error: io::Error) -> Self {
        Self::Print(error)
    }
}

impl fmt::Display for Failure {
    fn fmt(&self, f: &mut fmt::Formatter<'_>) -> fmt::Result {
        match self {
            Self::NoFolder(why) => why.fmt(f),
            Self::NoFile(path, NotRead::Missing) => write!(
                f,
                "there is no file {}: name a message, as FILE=message",
                printable(path)
            ),
            Self::NoFile(path, why) => write!(f, "{} is not read: {why}", printable(path)),
            Self::AreRefused(count) => write!(
                f,
                "REFUSED=fail, and {count} refused: each stands above, with what to look at in it"
            ),
            Self::AreRefusedOnPage(count) => write!(
                f,
                "REFUSED=fail, and {count} refused: the page has them, and what to look at in each"
            ),
            Self::NotAWord(word) => write!(
                f,
                "REFUSED={} is not understood: REFUSED=fail makes a refused message a nonzero status, \
                 without it REFUSED is left out",
                word.to_string_lossy().escape_debug()
            ),
            Self::NoBuffer(path, NotRead::Missing) => write!(
                f,
                "there is no file {}: name a night's buffer, as make night FILE=messages/two-boxes.night",
                printable(path)
            ),
            Self::NoBuffer(path, why) => write!(f, "{} is not read: {why}", printable(path)),
            Self::NoNight(why) => why.fmt(f),
            Self::NotCaptured(why) => why.fmt(f),
            Self::CannotRun(why) => {
                write!(f, "{why}; make builds what is run: call the bench by it, as make run")
            }
            Self::NoPage(why) => why.fmt(f),
            Self::NotWritten(why) => why.fmt(f),
            Self::Print(error) => write!(
                f,
                "what the bench found can't be printed ({error}): give it an output with room, which is read to its end"
            ),
        }
    }
}

/// The names of what a command needs on this input, which are built before it is run: the
/// proved programs, and `linked`, which has the library in it. A wrong input is told here, and a
/// wrong output, before anything is proved. None where there is no such command.
fn needs(
    command: &OsStr,
    input: &Path,
    out: Option<&Path>,
) -> Option<Result<Vec<&'static str>, Failure>> {
    let command = command.to_str()?;
    if out.is_some() && !["canonical", "capture", "report"].contains(&command) {
        return None;
    }
    match command {
        "report" => Some(report_needs(input, out?)),
        "run" => Some(
            refused_fails()
                .and_then(|_| Ok(files::about(input)?))
                .map(|about| tell_looking(&about))
                .and_then(|_| Ok(Needs::of(input)?))
                .map(|needs| needs.names()),
        ),
        "explain" => Some(read(input).map(|message| match Kind::of(&message) {
            Kind::NlAuth => vec!["nl_auth_line"],
            _ => vec!["ntlm_explain"],
        })),
        "night" => Some(Night::read(input).map(|_| vec!["linked"])),
        "canonical" => Some(
            read(input)
                .and_then(|_| out.map_or(Ok(()), |out| Ok(secret_file::look(out, input)?)))
                .map(|()| vec!["linked"]),
        ),
        "capture" => Some(capture::look(input).map_err(Failure::from).map(|()| vec![])),
        _ => None,
    }
}

/// How many files are looked at without a word.
const FEW_FILES: usize = 1000;

/// A word before files are read, where there are many.
fn tell_looking(about: &About) {
    if about.messages > FEW_FILES {
        // Where standard error is closed, nobody wants to know.
        let _ = writeln!(
            io::stderr(),
            "looking at {} files for what they need",
            about.messages
        );
    }
}

/// Prints names on one line.
fn print_names(names: &[&str]) -> Result<bool, Failure> {
    writeln!(io::stdout(), "{}", names.join(" "))?;
    Ok(true)
}

/// Which programs the messages of a folder go through.
#[derive(Default)]
struct Needs {
    ntlm: bool,
    nl_auth: bool,
    import: bool,
}

impl Needs {
    /// A header line's message isn't known before it is imported, so that it may be of any kind.
    fn of(folder: &Path) -> Result<Self, NoFolder> {
        let mut needs = Self::default();
        for file in Files::of(folder) {
            let kind = match file?.read_all() {
                Ok(Content::Message(_, message)) => Kind::of(&message),
                Ok(Content::HeaderTexts(..)) => {
                    needs.import = true;
                    Kind::Unclear
                }
                Err(_) => continue,
            };
            needs.ntlm |= kind != Kind::NlAuth;
            needs.nl_auth |= kind != Kind::Ntlm;
        }
        Ok(needs)
    }

    fn names(&self) -> Vec<&'static str> {
        let names = [
            (self.ntlm, "ntlm_line"),
            (self.nl_auth, "nl_auth_line"),
            (self.ntlm, "ntlm_explain"),
            (self.import, "linked"),
        ];
        let needed = names.into_iter().filter(|(needed, _)| *needed);
        needed.map(|(_, name)| name).collect()
    }
}

/// The message of a file.
fn read(file: &Path) -> Result<Vec<u8>, Failure> {
    match MessageFile::at(file).read() {
        Ok((_, message)) => Ok(message),
        Err(why) => Err(Failure::NoFile(file.to_owned(), why)),
    }
}

/// Whether a refused message is a nonzero status: REFUSED=fail, for the check before a box
/// is closed.
fn refused_fails() -> Result<bool, Failure> {
    match env::var_os("REFUSED") {
        Some(word) if word == "fail" => Ok(true),
        Some(word) if !word.is_empty() => Err(Failure::NotAWord(word)),
        _ => Ok(false),
    }
}

/// Prints the checks of the message in a file, or the line of an NL_AUTH message, and what a
/// refusal means. True where both programs print the same.
fn explain_file(file: &Path, [explain, nl_auth, second]: [&Path; 3]) -> Result<bool, Failure> {
    let message = read(file)?;
    let (pair, what) = match Kind::of(&message) {
        Kind::NlAuth => (Pair::nl_auth(nl_auth, second), "lines"),
        _ => (Pair::explain(explain, second), "checks"),
    };
    let (proved, second) = pair.run(&message)?;
    let mut out = BufWriter::new(io::stdout().lock());
    let same = proved.is_same(&second);
    if same {
        for line in lines(&proved) {
            writeln!(out, "{}", Text(line))?;
        }
        if let Some(words) = in_words(&proved, pair.read_as, &message) {
            writeln!(out, "{words}")?;
            if let Some(told) = form::inside(&message) {
                writeln!(out, "{told}")?;
            }
        }
    } else {
        write_parted(&proved, &second, what, "", &mut out)?;
    }
    out.flush()?;
    Ok(same)
}

/// What a refusal means that a program printed, or the check that failed.
fn in_words(answer: &Answer, read_as: ReadAs, bytes: &[u8]) -> Option<String> {
    let number = lines(answer).find_map(words::number_of)?;
    words::of(number, read_as, bytes)
}

/// Makes messages of a capture. DECODE_AS is a word for tshark, for a server on a port that isn't
/// its own. True where all of it was read.
fn capture_file([file, out, tshark]: [&Path; 3]) -> Result<bool, Failure> {
    let decode_as = env::var_os("DECODE_AS").filter(|word| !word.is_empty());
    let captured = capture::capture(file, out, tshark, decode_as.as_deref())?;
    writeln!(io::stdout(), "{captured}")?;
    if let Some(said) = &captured.broke_off {
        // Where standard error is closed, the status still tells.
        let _ = writeln!(
            io::stderr(),
            "the capture is not read to its end: tshark said: {said}"
        );
    }
    Ok(captured.broke_off.is_none())
}

/// What the page of a folder's messages needs. A page that can't be written is told here.
fn report_needs(folder: &Path, out: &Path) -> Result<Vec<&'static str>, Failure> {
    refused_fails()?;
    report::look(folder, out).map_err(Failure::NoPage)?;
    let needs = Needs::of(folder).map_err(|why| Failure::NoPage(NoPage::NoFolder(why)))?;
    Ok(needs.names())
}

/// Writes the page of a folder's messages. True where all were read and no two programs
/// differ; REFUSED=fail counts as it does for `run`.
fn report(folder: &Path, out: &Path, programs: [&Path; 5]) -> Result<bool, Failure> {
    let refused_fails = refused_fails()?;
    let programs = Programs::new(programs);
    let counts = report::write(folder, out, &programs).map_err(Failure::NoPage)?;
    writeln!(io::stdout(), "{}: {counts}", printable(out))?;
    match counts.refused {
        refused if refused_fails && refused > 0 => Err(Failure::AreRefusedOnPage(refused)),
        _ => Ok(counts.is_good()),
    }
}

/// A night's messages: the buffer, and the file that lists them.
struct Night {
    index: PathBuf,
    entries: usize,
    buffer: Vec<u8>,
}

impl Night {
    /// The night whose buffer is in a file, with its index beside it.
    fn read(file: &Path) -> Result<Self, Failure> {
        let index = index_of(file)?;
        let buffer = MessageFile::at(file)
            .content()
            .map_err(|why| Failure::NoBuffer(file.to_owned(), why))?;
        let entries = read_index(&index)?.len();
        Ok(Self {
            index,
            entries,
            buffer,
        })
    }

    /// Runs the buffer through both programs, and prints the answer of each entry.
    /// True where both give the same.
    fn run(&self, [linked, second]: [&Path; 2]) -> Result<bool, Failure> {
        let words = [OsStr::new("night"), self.index.as_os_str()];
        let proved = Program::of_lines(linked, &words).run(&self.buffer)?;
        let second = Program::of_lines(second, &words).run(&self.buffer)?;
        let mut out = BufWriter::new(io::stdout().lock());
        let same = proved.is_same(&second);
        if same {
            for line in lines(&proved) {
                writeln!(out, "{}", Text(line))?;
            }
        } else {
            write_parted(&proved, &second, "answers", "", &mut out)?;
        }
        let found = if same { "the same" } else { "DIFFERENT" };
        let (bytes, entries) = (self.buffer.len(), self.entries);
        writeln!(out, "{bytes} bytes, {entries} entries: {found}")?;
        out.flush()?;
        Ok(same)
    }
}

/// A proved program and the second one for the same kind of message.
struct Pair {
    kind: &'static str,
    read_as: ReadAs,
    proved: Program,
    second: Program,
}

impl Pair {
    /// The programs that print the line of an NL_AUTH message.
    fn nl_auth(proved: &Path, second: &Path) -> Self {
        let no_words: [&str; 0] = [];
        Self {
            kind: "NL_AUTH",
            read_as: ReadAs::NlAuth,
            proved: Program::new(proved, &no_words),
            second: Program::new(second, &["nl"]),
        }
    }

    /// The programs that tell why an NTLM message is refused.
    fn explain(proved: &Path, second: &Path) -> Self {
        let no_words: [&str; 0] = [];
        Self {
            kind: "NTLM",
            read_as: ReadAs::Ntlm,
            proved: Program::of_lines(proved, &no_words),
            second: Program::of_lines(second, &["explain"]),
        }
    }

    fn run(&self, message: &[u8]) -> Result<(Answer, Answer), CannotRun> {
        Ok((self.proved.run(message)?, self.second.run(message)?))
    }
}

struct Bench {
    ntlm: Pair,
    nl_auth: Pair,
    explain: Pair,
    import: Pair,
}

impl Bench {
    fn new([ntlm, nl_auth, explain, second, linked]: [&Path; 5]) -> Self {
        let no_words: [&str; 0] = [];
        Self {
            ntlm: Pair {
                kind: "NTLM",
                read_as: ReadAs::Ntlm,
                proved: Program::new(ntlm, &no_words),
                second: Program::new(second, &["ntlm"]),
            },
            nl_auth: Pair::nl_auth(nl_auth, second),
            explain: Pair::explain(explain, second),
            import: Pair {
                kind: "header line",
                read_as: ReadAs::HeaderText,
                proved: Program::new(linked, &["import"]),
                second: Program::new(second, &["import"]),
            },
        }
    }

    /// Runs every message, over all cores, and prints in the order of their names. True where all
    /// were read and no two lines differ, and with `refused_fails` none was refused. What is held of
    /// them doesn't grow with their number.
    fn run(&self, folder: &Path, refused_fails: bool) -> Result<bool, Failure> {
        let about = files::about(folder)?;
        self.try_programs(&Needs::of(folder)?)?;
        let mut out = BufWriter::new(io::stdout().lock());
        let mut summary = Summary::default();
        let mut progress = Progress::of(about.messages);
        let work = |file: MessageFile| {
            let mut text = Vec::new();
            let found = self.run_file(&file, &mut text)?;
            Ok((text, found))
        };
        let take = |(text, found): (Vec<u8>, Vec<Found>)| {
            out.write_all(&text)?;
            found.iter().for_each(|found| summary.add(found));
            if progress.add() {
                out.flush()?;
                progress.tell();
            }
            Ok(())
        };
        let cores = thread::available_parallelism().map_or(1, NonZero::get);
        let files = Files::of(folder).map(|file| file.map_err(Failure::from));
        let done = many::in_order(files, cores, work, take);
        progress.end();
        done?;
        for line in about.told_passed_over() {
            writeln!(out, "{line}")?;
        }
        writeln!(out, "{summary}")?;
        out.flush()?;
        match summary.refused() {
            refused if refused_fails && refused > 0 => Err(Failure::AreRefused(refused)),
            _ => Ok(summary.is_good()),
        }
    }

    /// Runs the messages of a file and prints what they came to.
    fn run_file(&self, file: &MessageFile, out: &mut impl Write) -> Result<Vec<Found>, Failure> {
        let found = |name: String, (outcome, why)| Found { outcome, name, why };
        match file.read_all() {
            Ok(Content::Message(form, message)) => {
                write!(out, "{}: {form}, {} bytes, ", file.name, message.len())?;
                let outcome = self.run_message(&message, out)?;
                Ok(vec![found(file.name.clone(), outcome)])
            }
            Ok(Content::HeaderTexts(texts, others)) => {
                let run = |(line, text): &(usize, Vec<u8>)| {
                    let name = format!("{}, {line}", file.name);
                    write!(out, "{name}: header line, ")?;
                    let outcome = self.run_header(text, out)?;
                    Ok(found(name, outcome))
                };
                let all: Result<Vec<Found>, Failure> = texts.iter().map(run).collect();
                if let Some(told) = file.told_other_lines(others) {
                    writeln!(out, "{told}")?;
                }
                all
            }
            Err(why) => {
                writeln!(out, "{}: NOT READ: {why}", file.name)?;
                let outcome = (Outcome::NotRead, why.to_string());
                Ok(vec![found(file.name.clone(), outcome)])
            }
        }
    }

    /// Runs each program that is needed once on nothing, so that one that can't be run is
    /// told before any message is.
    fn try_programs(&self, needs: &Needs) -> Result<(), CannotRun> {
        let pairs = [
            (needs.ntlm, &self.ntlm),
            (needs.nl_auth, &self.nl_auth),
            (needs.ntlm, &self.explain),
            (needs.import, &self.import),
        ];
        for (_, pair) in pairs.into_iter().filter(|(needed, _)| *needed) {
            pair.run(&[])?;
        }
        Ok(())
    }

    /// A header line's message goes through the import of both programs, and then the
    /// way of every message. Nothing of what they import is shown: it holds secrets.
    fn run_header(&self, text: &[u8], out: &mut impl Write) -> Result<(Outcome, String), Failure> {
        let (proved, second) = self.import.run(text)?;
        let answered = imported(&proved).is_some() || proved.is_refusal();
        if !proved.is_same(&second) || !answered {
            let why = "the two don't import it alike";
            writeln!(out, "{} characters", text.len())?;
            writeln!(out, "    DIFFERENT: {why}")?;
            writeln!(out, "    proved: {}", Imported(&proved))?;
            writeln!(out, "    second: {}", Imported(&second))?;
            return Ok((Outcome::Different, why.to_owned()));
        }
        match imported(&proved) {
            Some(message) => {
                write!(out, "{} bytes, ", message.len())?;
                self.run_message(&message, out)
            }
            None => {
                writeln!(out, "{} characters", text.len())?;
                writeln!(out, "    {proved}")?;
                let words = in_words(&proved, self.import.read_as, text).unwrap_or_default();
                writeln!(out, "    {words}")?;
                Ok((Outcome::Refused, words))
            }
        }
    }

    /// A message whose beginning is of no kind goes through both programs: a
    /// damaged signature must not decide which one sees it. Gives what became of it, and
    /// why in words.
    fn run_message(
        &self,
        message: &[u8],
        out: &mut impl Write,
    ) -> Result<(Outcome, String), Failure> {
        let pairs: &[&Pair] = match Kind::of(message) {
            Kind::Ntlm => &[&self.ntlm],
            Kind::NlAuth => &[&self.nl_auth],
            Kind::Unclear => &[&self.ntlm, &self.nl_auth],
        };
        let kinds: Vec<&str> = pairs.iter().map(|pair| pair.kind).collect();
        match kinds.as_slice() {
            [kind] => writeln!(out, "{kind}")?,
            _ => writeln!(
                out,
                "begins like no message, read as {}",
                kinds.join(" and as ")
            )?,
        }
        let mut different = None;
        let mut taken = false;
        let mut refused = String::new();
        for pair in pairs {
            let (proved, second) = pair.run(message)?;
            if proved.is_same(&second) {
                writeln!(out, "    {proved}")?;
                if let Some(words) = in_words(&proved, pair.read_as, message) {
                    writeln!(out, "    {words}")?;
                    refused = if refused.is_empty() { words } else { refused };
                }
            } else {
                let why = difference(&proved, &second);
                writeln!(out, "    DIFFERENT: {why}")?;
                writeln!(out, "    proved: {proved}")?;
                writeln!(out, "    second: {second}")?;
                different = Some(why);
            }
            taken |= !proved.is_refusal();
            if pair.kind == self.explain.kind
                && proved.is_by_a_check()
                && !self.explain(message, out)?
            {
                different = Some("the checks are not the same".to_owned());
            }
        }
        if let Some(told) = form::inside(message).filter(|_| !taken) {
            writeln!(out, "    {told}")?;
            refused = told;
        }
        Ok(match (different, taken) {
            (Some(why), _) => (Outcome::Different, why),
            (None, true) => (Outcome::Taken, String::new()),
            (None, false) => (Outcome::Refused, refused),
        })
    }

    /// Prints the check that failed, under the line of a refused NTLM message.
    /// False where the two programs don't print the same checks, or none failed.
    fn explain(&self, message: &[u8], out: &mut impl Write) -> Result<bool, Failure> {
        let (proved, second) = self.explain.run(message)?;
        if !proved.is_same(&second) {
            write_parted(&proved, &second, "checks", "    ", out)?;
            return Ok(false);
        }
        let failed = lines(&proved).find(|line| is_failed_check(line));
        match failed {
            Some(line) => writeln!(out, "    {}", Text(line))?,
            None => writeln!(out, "    DIFFERENT: refused, but no check failed")?,
        }
        Ok(failed.is_some())
    }
}

/// The message that an import printed in hex; none where it is refused.
fn imported(answer: &Answer) -> Option<Vec<u8>> {
    let Answer::Printed(line) = answer else {
        return None;
    };
    let digits = line.strip_suffix(b"\n")?;
    let (pairs, odd) = digits.as_chunks::<2>();
    let value = |digit: u8| char::from(digit).to_digit(16);
    let byte = |&[high, low]: &[u8; 2]| u8::try_from(value(high)? << 4 | value(low)?).ok();
    let bytes: Option<Vec<u8>> = pairs.iter().map(byte).collect();
    bytes.filter(|_| odd.is_empty())
}

/// What an import gave, without the message.
struct Imported<'a>(&'a Answer);

impl fmt::Display for Imported<'_> {
    fn fmt(&self, f: &mut fmt::Formatter<'_>) -> fmt::Result {
        match imported(self.0) {
            Some(message) => write!(f, "a message of {} bytes", message.len()),
            None if self.0.is_refusal() => self.0.fmt(f),
            None => f.write_str("[the program printed neither a message nor a refusal]"),
        }
    }
}

/// The lines of an answer, each with its 0A; none of a fault.
fn lines(answer: &Answer) -> impl Iterator<Item = &[u8]> {
    let text = match answer {
        Answer::Printed(text) => text.as_slice(),
        Answer::Fault(_) => &[],
    };
    text.split_inclusive(|&byte| byte == b'\n')
}

/// Whether a line is `check D failed ..`.
fn is_failed_check(line: &[u8]) -> bool {
    let mut words = line.split(|&byte| byte == b' ');
    words.next() == Some(b"check") && words.nth(1) == Some(b"failed")
}

/// Prints where two prints of `what` part: the first line of each that the other
/// hasn't there, or the fault.
fn write_parted(
    proved: &Answer,
    second: &Answer,
    what: &str,
    indent: &str,
    out: &mut impl Write,
) -> io::Result<()> {
    if matches!((proved, second), (Answer::Printed(_), Answer::Printed(_))) {
        let alike = lines(proved).zip(lines(second)).take_while(|(a, b)| a == b);
        let at = alike.count();
        writeln!(out, "{indent}DIFFERENT: the {what} part at line {}", at + 1)?;
        for (name, answer) in [("proved", proved), ("second", second)] {
            match lines(answer).nth(at) {
                Some(line) => writeln!(out, "{indent}{name}: {}", Text(line))?,
                None => writeln!(out, "{indent}{name}: [no more {what}]")?,
            }
        }
        return Ok(());
    }
    writeln!(out, "{indent}DIFFERENT: {}", difference(proved, second))?;
    for (name, answer) in [("proved", proved), ("second", second)] {
        if let Answer::Fault(_) = answer {
            writeln!(out, "{indent}{name}: {answer}")?;
        }
    }
    Ok(())
}

/// Where two answers that are not the same part.
fn difference(proved: &Answer, second: &Answer) -> String {
    match (proved, second) {
        (Answer::Printed(proved), Answer::Printed(second)) => {
            let alike = proved.iter().zip(second).take_while(|(a, b)| a == b);
            format!("the lines part at character {}", alike.count() + 1)
        }
        (Answer::Fault(_), Answer::Printed(_)) => "the proved program gave no line".to_owned(),
        (Answer::Printed(_), Answer::Fault(_)) => "the second program gave no line".to_owned(),
        (Answer::Fault(_), Answer::Fault(_)) => "neither program gave a line".to_owned(),
    }
}
