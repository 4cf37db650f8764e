//! The message files of a folder.

use std::ffi::{OsStr, OsString};
use std::fmt;
use std::fs;
use std::io;
use std::path::{Path, PathBuf};

use crate::form::{self, Form, NoMessage};

/// A file larger than this is not read at all. A message over 65,535 bytes is
/// one that the programs refuse, so there is room for those, and as hex text.
const MAX_FILE: u64 = 1 << 24;

/// The files of a folder, in the order of their names.
#[derive(Debug)]
pub struct Folder {
    /// Each is to hold a message.
    pub messages: Vec<MessageFile>,
    /// The names of files that tell about the messages, and of nights.
    pub passed_over: Vec<String>,
}

/// A file that is to hold a message.
#[derive(Debug)]
pub struct MessageFile {
    /// Its name, fit to print.
    pub name: String,
    path: PathBuf,
}

/// What a file holds.
#[derive(Clone, Debug, PartialEq, Eq)]
pub enum Content {
    /// A message, and the form that it has in the file.
    Message(Form, Vec<u8>),
    /// The texts of header lines, each of which is to carry a message, each behind
    /// the number that its line has in the file; and how many other lines it has.
    HeaderTexts(Vec<(usize, Vec<u8>)>, usize),
}

/// Why a folder gives no messages. Each says what to do.
#[derive(Debug)]
pub enum NoFolder {
    Missing(PathBuf),
    NotAFolder(PathBuf),
    Unreadable(PathBuf, io::Error),
    Empty(PathBuf),
}

/// Why a file gives no message. Each says what to do.
#[derive(Debug)]
pub enum NotRead {
    Missing,
    Folder(PathBuf),
    NotAFile,
    TooLarge,
    Unreadable(io::Error),
    NoMessage(NoMessage),
    HeaderLines,
}

impl Folder {
    /// Every file counts as a message but those whose names begin with a dot or
    /// end in .md or .json, and those of a night (.night, .index), which is run by
    /// itself. A folder inside is kept as a file that can't be read, so that
    /// nothing in it is left out without a word.
    pub fn list(path: &Path) -> Result<Self, NoFolder> {
        let failed = |error: io::Error| NoFolder::of(path, error);
        let mut names: Vec<OsString> = Vec::new();
        for entry in fs::read_dir(path).map_err(failed)? {
            names.push(entry.map_err(failed)?.file_name());
        }
        names.sort();
        let (passed_over, messages): (Vec<_>, Vec<_>) =
            names.into_iter().partition(|name| tells_about(name));
        if messages.is_empty() {
            return Err(NoFolder::Empty(path.to_owned()));
        }
        Ok(Self {
            messages: messages
                .into_iter()
                .map(|name| MessageFile::in_folder(path, &name))
                .collect(),
            passed_over: passed_over.iter().map(|name| printable(name)).collect(),
        })
    }
}

impl NoFolder {
    /// Why the folder at a path can't be gone through.
    pub(crate) fn of(path: &Path, error: io::Error) -> Self {
        match error.kind() {
            io::ErrorKind::NotFound => Self::Missing(path.to_owned()),
            io::ErrorKind::NotADirectory => Self::NotAFolder(path.to_owned()),
            _ => Self::Unreadable(path.to_owned(), error),
        }
    }
}

/// Whether a name is that of a file beside the messages.
pub(crate) fn tells_about(name: &OsStr) -> bool {
    let hidden = name.as_encoded_bytes().starts_with(b".");
    let extension = Path::new(name).extension().unwrap_or_default();
    let beside = ["md", "json", "night", "index"];
    hidden || beside.iter().any(|end| extension.eq_ignore_ascii_case(end))
}

/// Whether a character would upset a terminal or a line: a control, the end of a line or of a
/// paragraph, or a change of direction, which shows what stands behind it in another order.
fn upsets(c: char) -> bool {
    let turns = matches!(c, '\u{061C}' | '\u{200E}'..='\u{200F}' | '\u{202A}'..='\u{202E}' | '\u{2066}'..='\u{2069}');
    c.is_control() || turns || matches!(c, '\u{2028}'..='\u{2029}')
}

/// A name, a path or a text of another program as it is printed: on one line, without characters
/// that would upset a terminal.
pub fn printable(name: impl AsRef<OsStr>) -> String {
    let name = name.as_ref().to_string_lossy();
    name.chars()
        .map(|c| if upsets(c) { '?' } else { c })
        .collect()
}

impl MessageFile {
    /// In words that lines of a header block are no header lines with a message.
    pub fn told_other_lines(&self, others: usize) -> Option<String> {
        let lines = if others == 1 { "line" } else { "lines" };
        (others > 0).then(|| format!("{}: {others} other {lines} passed over", self.name))
    }

    /// The file at this path.
    pub fn at(path: &Path) -> Self {
        Self {
            name: printable(path),
            path: path.to_owned(),
        }
    }

    /// The file of a name in a folder.
    pub(crate) fn in_folder(folder: &Path, name: &OsStr) -> Self {
        Self {
            name: printable(name),
            path: folder.join(name),
        }
    }

    /// The message and the form that it has in the file, where it holds one.
    pub fn read(&self) -> Result<(Form, Vec<u8>), NotRead> {
        match self.read_all()? {
            Content::Message(form, message) => Ok((form, message)),
            Content::HeaderTexts(..) => Err(NotRead::HeaderLines),
        }
    }

    /// What the file holds.
    pub fn read_all(&self) -> Result<Content, NotRead> {
        let content = self.content()?;
        if let Some(lines) = form::header_lines(&content) {
            let texts = lines.texts.into_iter();
            let texts = texts.map(|(line, text)| (line, text.to_vec())).collect();
            return Ok(Content::HeaderTexts(texts, lines.others));
        }
        let (form, message) = form::read(content).map_err(NotRead::NoMessage)?;
        Ok(Content::Message(form, message))
    }

    /// All bytes of the file.
    pub fn content(&self) -> Result<Vec<u8>, NotRead> {
        let about = fs::metadata(&self.path).map_err(|error| match error.kind() {
            io::ErrorKind::NotFound => NotRead::Missing,
            _ => NotRead::Unreadable(error),
        })?;
        if about.is_dir() {
            return Err(NotRead::Folder(self.path.clone()));
        }
        // Opening a pipe or a device could wait for ever.
        if !about.is_file() {
            return Err(NotRead::NotAFile);
        }
        if about.len() > MAX_FILE {
            return Err(NotRead::TooLarge);
        }
        fs::read(&self.path).map_err(NotRead::Unreadable)
    }
}

impl fmt::Display for NoFolder {
    fn fmt(&self, f: &mut fmt::Formatter<'_>) -> fmt::Result {
        match self {
            Self::Missing(path) => write!(
                f,
                "there is no folder {}: name one that holds messages, as MESSAGES=folder",
                printable(path)
            ),
            Self::NotAFolder(path) => write!(
                f,
                "{} is no folder: name one that holds messages, as MESSAGES=folder",
                printable(path)
            ),
            Self::Unreadable(path, error) => write!(
                f,
                "the folder {} can't be read ({error}): make it readable and run this again",
                printable(path)
            ),
            Self::Empty(path) => write!(
                f,
                "the folder {} holds no messages: put message files there, \
                 or name another as MESSAGES=folder",
                printable(path)
            ),
        }
    }
}

impl fmt::Display for NotRead {
    fn fmt(&self, f: &mut fmt::Formatter<'_>) -> fmt::Result {
        match self {
            Self::Missing => f.write_str("it leads to no file: take it out of the folder"),
            Self::Folder(path) => write!(
                f,
                "it is a folder: run it by itself, as make run MESSAGES={}",
                printable(path)
            ),
            Self::NotAFile => f.write_str("it is not a plain file: take it out of the folder"),
            Self::TooLarge => write!(
                f,
                "it is larger than {MAX_FILE} bytes, which no message is: \
                 take it out of the folder"
            ),
            Self::Unreadable(error) => {
                write!(f, "{error}: make it readable or take it out of the folder")
            }
            Self::NoMessage(why) => why.fmt(f),
            Self::HeaderLines => f.write_str(
                "it holds header lines, which make run takes: \
                 put the base64 of one message into a file of its own",
            ),
        }
    }
}

#[cfg(test)]
mod tests {
    use super::{printable, tells_about};
    use std::ffi::OsStr;

    #[test]
    fn files_beside_the_messages_go_by_their_names() {
        for name in [
            "README.md",
            "index.json",
            ".gitignore",
            "a.MD",
            "b.Json",
            "a.night",
            "a.index",
        ] {
            assert!(tells_about(OsStr::new(name)), "{name}");
        }
        for name in [
            "box31", "a.bin", "md", "a.md.bin", "json", "a.txt", "a.", "night",
        ] {
            assert!(!tells_about(OsStr::new(name)), "{name}");
        }
    }

    #[test]
    fn names_are_printed_on_one_line() {
        assert_eq!(printable(OsStr::new("a\nb\x1B[1m.bin")), "a?b?[1m.bin");
        for c in [
            '\u{061C}', '\u{200F}', '\u{202E}', '\u{2028}', '\u{2066}', '\u{9B}',
        ] {
            assert_eq!(printable(format!("a{c}nib.exe")), "a?nib.exe");
        }
        assert_eq!(printable("J\u{FC}rgen 7.bin"), "J\u{FC}rgen 7.bin");
    }
}
