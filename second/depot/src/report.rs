//! A page to look at: every message of a folder with what the proved program and the
//! second one said of it, its bytes, fields, flags, pairs and checks.
//!
//! The picture of a message is the second reader's reading of it; nothing here decides
//! whether it is taken. Secrets are masked, as `layout` has it.

mod gather;
mod grid;
mod html;
mod layout;
mod name;
mod named;
mod page;
mod shape;
mod tables;

use std::fmt;
use std::io;
use std::ops::Range;
use std::path::{Path, PathBuf};

use crate::files;
use crate::folder::{printable, Content, Folder, MessageFile, NoFolder};
use crate::program::{Answer, CannotRun};
use crate::secret_file::{self, NotWritten};
use crate::summary::Outcome;
use crate::words::{number_of, ReadAs};

pub use gather::Programs;
pub use page::page;

/// So many messages have room on a page.
pub const MOST: usize = 2_000;

/// What a page tells of a folder.
#[derive(Debug, Default)]
pub struct Gathered {
    pub items: Vec<Item>,
    /// What was passed over, in words.
    pub passed_over: Vec<String>,
}

/// A message on the page, or what was to be one.
#[derive(Debug)]
pub struct Item {
    /// The file's name.
    pub file: String,
    /// The line of the file that carries it, where it stands in a header line.
    pub line: Option<usize>,
    /// How it stands in the file.
    pub form: String,
    pub found: Found,
}

/// What was found.
#[derive(Debug)]
pub enum Found {
    /// No message, and why.
    NotRead(String),
    /// The text of a header line that carries none: its length, what both programs say,
    /// and what that means.
    NotImported {
        characters: usize,
        proved: String,
        second: String,
        same: bool,
        words: Option<String>,
    },
    /// A message, with what was said of it as one of NTLM, of NL_AUTH, or as both where
    /// its beginning is of no kind.
    Message { bytes: Vec<u8>, said: Vec<Said> },
}

/// What both programs said of a message that they read as one kind.
#[derive(Debug)]
pub struct Said {
    pub read_as: ReadAs,
    pub proved: Answer,
    pub second: Answer,
    /// The checks of an NTLM message that one of them refuses, by both.
    pub checks: Option<[Answer; 2]>,
}

impl Said {
    fn is_refusal(&self) -> bool {
        self.proved.is_refusal()
    }

    /// Whether the proved program took the message.
    pub fn is_taken(&self) -> bool {
        matches!(self.proved, Answer::Printed(_)) && !self.is_refusal()
    }

    /// The number that the proved program refuses by.
    pub fn number(&self) -> Option<u8> {
        match &self.proved {
            Answer::Printed(line) => number_of(line),
            Answer::Fault(_) => None,
        }
    }

    /// Whether both said the same; of each check too where one refuses it, which then failed.
    pub fn is_same(&self) -> bool {
        let checks = match &self.checks {
            Some([proved, second]) => proved.is_same(second) && has_failed(proved),
            None => true,
        };
        checks && self.proved.is_same(&self.second)
    }
}

/// Whether one of the checks that were printed failed.
fn has_failed(printed: &Answer) -> bool {
    match printed {
        Answer::Printed(text) => text
            .split(|&byte| byte == b'\n')
            .any(|line| number_of(line).is_some()),
        Answer::Fault(_) => false,
    }
}

impl Item {
    pub fn state(&self) -> Outcome {
        match &self.found {
            Found::NotRead(_) => Outcome::NotRead,
            Found::NotImported { same: true, .. } => Outcome::Refused,
            Found::NotImported { .. } => Outcome::Different,
            Found::Message { said, .. } if !said.iter().all(Said::is_same) => Outcome::Different,
            Found::Message { said, .. } if said.iter().all(Said::is_refusal) => Outcome::Refused,
            Found::Message { .. } => Outcome::Taken,
        }
    }
}

/// A stretch of a message.
struct Place(Range<usize>);

impl fmt::Display for Place {
    fn fmt(&self, f: &mut fmt::Formatter<'_>) -> fmt::Result {
        let noun = if self.0.len() == 1 { "byte" } else { "bytes" };
        write!(f, "at {}, {} {noun}", self.0.start, self.0.len())
    }
}

/// How many messages came to what.
#[derive(Clone, Copy, Debug, Default, PartialEq, Eq)]
pub struct Counts {
    pub messages: usize,
    pub taken: usize,
    pub refused: usize,
    pub different: usize,
    pub not_read: usize,
}

impl Counts {
    pub fn of(items: &[Item]) -> Self {
        let count = |state| items.iter().filter(|item| item.state() == state).count();
        Self {
            messages: items.len(),
            taken: count(Outcome::Taken),
            refused: count(Outcome::Refused),
            different: count(Outcome::Different),
            not_read: count(Outcome::NotRead),
        }
    }

    /// Whether every message was read, and both programs said the same of each.
    pub const fn is_good(&self) -> bool {
        self.messages > 0 && self.different == 0 && self.not_read == 0
    }
}

impl fmt::Display for Counts {
    fn fmt(&self, f: &mut fmt::Formatter<'_>) -> fmt::Result {
        let Self {
            messages,
            taken,
            refused,
            different,
            not_read,
        } = self;
        let noun = if *messages == 1 {
            "message"
        } else {
            "messages"
        };
        write!(
            f,
            "{messages} {noun}: {taken} taken, {refused} refused, {different} different, {not_read} not read"
        )
    }
}

/// Why there is no page. Each says what to do.
#[derive(Debug)]
pub enum NoPage {
    NoFolder(NoFolder),
    /// The page would stand among the messages.
    Among(PathBuf),
    TooMany(PathBuf, usize),
    CannotRun(CannotRun),
    NotWritten(NotWritten),
}

impl fmt::Display for NoPage {
    fn fmt(&self, f: &mut fmt::Formatter<'_>) -> fmt::Result {
        match self {
            Self::NoFolder(why) => {
                let told = why.to_string();
                f.write_str(&told.replace("make run", "make report"))
            }
            Self::Among(path) => write!(
                f,
                "{} would stand among the messages: name a page in another folder, as OUT=page.html",
                printable(path.as_os_str())
            ),
            Self::TooMany(path, messages) => write!(
                f,
                "the folder {} holds {messages} messages, and a page has room for {MOST}: \
                 put those to look at into a folder of their own",
                printable(path.as_os_str())
            ),
            Self::CannotRun(why) => write!(f, "{why}; make report builds it"),
            Self::NotWritten(why) => why.fmt(f),
        }
    }
}

/// Says why there would be no page, before anything is run.
pub fn look(folder: &Path, out: &Path) -> Result<(), NoPage> {
    let listed = list(folder, out)?;
    let texts = |file: &MessageFile| match file.read_all() {
        Ok(Content::HeaderTexts(texts, _)) => texts.len(),
        _ => 1,
    };
    has_room(folder, listed.messages.iter().map(texts).sum())?;
    secret_file::look(out, folder).map_err(NoPage::NotWritten)
}

/// Writes the page of a folder's messages to the file `out`, which its owner alone may
/// read, and counts them.
pub fn write(folder: &Path, out: &Path, programs: &Programs) -> Result<Counts, NoPage> {
    let listed = list(folder, out)?;
    let about = files::about(folder).map_err(NoPage::NoFolder)?;
    let mut gathered = gather::all(&listed, programs).map_err(NoPage::CannotRun)?;
    has_room(folder, gathered.items.len())?;
    gathered.passed_over.extend(about.told_passed_over());
    let page = page(&folder.to_string_lossy(), &gathered);
    secret_file::write(out, folder, page.as_bytes()).map_err(NoPage::NotWritten)?;
    Ok(Counts::of(&gathered.items))
}

/// The files of a folder for whose messages a page may have room.
fn list(folder: &Path, out: &Path) -> Result<Folder, NoPage> {
    let listed = Folder::list(folder).map_err(NoPage::NoFolder)?;
    if is_in(out, folder).unwrap_or(false) {
        return Err(NoPage::Among(out.to_owned()));
    }
    has_room(folder, listed.messages.len())?;
    Ok(listed)
}

fn has_room(folder: &Path, messages: usize) -> Result<(), NoPage> {
    if messages > MOST {
        return Err(NoPage::TooMany(folder.to_owned(), messages));
    }
    Ok(())
}

/// Whether a file stands, or would stand, in a folder.
fn is_in(file: &Path, folder: &Path) -> io::Result<bool> {
    let parent = match file.parent() {
        Some(parent) if parent != Path::new("") => parent,
        _ => Path::new("."),
    };
    Ok(parent.canonicalize()? == folder.canonicalize()?)
}
