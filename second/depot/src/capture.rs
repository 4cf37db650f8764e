//! Messages out of a capture, by tshark: each in a file of its own, which its owner alone
//! may read, in a new folder.
//!
//! tshark prints what it dissected with the raw bytes of each part (`-T jsonraw`), a name on
//! one line and its bytes in hex on the next. An NTLM message is what it calls ntlmssp,
//! wherever it stands. A header field of HTTP is taken as it is, since a message whose
//! signature is damaged is no message to tshark. NL_AUTH is the last part of a DCE/RPC bind.

use std::ffi::OsStr;
use std::fmt;
use std::fs::{self, DirBuilder, OpenOptions};
use std::io::{self, BufRead, BufReader, Read, Write};
use std::os::unix::fs::{DirBuilderExt, OpenOptionsExt};
use std::path::{Path, PathBuf};
use std::process::{Command, ExitStatus, Stdio};
use std::thread;

use crate::folder::printable;
use crate::form::{decode_base64, header_lines, Kind};
use crate::secret_file::make_beside;

/// The frames that may carry a message.
const FILTER: &str =
    "ntlmssp || dcerpc.auth_type == 0x44 || http.authorization || http.www_authenticate \
                      || http.proxy_authorization || http.proxy_authenticate";

/// The header fields' names in what tshark prints.
const HEADERS: [&str; 4] = [
    "http.authorization_raw",
    "http.www_authenticate_raw",
    "http.proxy_authorization_raw",
    "http.proxy_authenticate_raw",
];

/// What to do where there is no capture.
const NAME_ONE: &str = "name a capture, as make capture FILE=x.pcapng OUT=folder";

/// What tshark says of a capture whose last packet isn't whole, as where the program that wrote it
/// was ended: what stands before it is all that the file has.
const CUT_SHORT: &str = "cut short in the middle of a packet";

/// How much of what tshark says is kept.
const SAID: u64 = 1 << 16;

/// What came out of a capture.
#[derive(Debug)]
pub struct Captured {
    pub folder: PathBuf,
    pub messages: usize,
    /// Header fields that carry no NTLM message.
    pub passed_over: usize,
    /// What tshark said last, where the capture is cut short.
    pub broke_off: Option<String>,
}

/// Why nothing came out. Each says what to do.
#[derive(Debug)]
pub enum NotCaptured {
    Missing(PathBuf),
    NotAFile(PathBuf),
    NoTshark(io::Error),
    NotNew(PathBuf),
    Failed(PathBuf, String),
    NotWritten(PathBuf, io::Error),
    Read(io::Error),
    None(PathBuf),
}

impl fmt::Display for Captured {
    fn fmt(&self, f: &mut fmt::Formatter<'_>) -> fmt::Result {
        let folder = printable(&self.folder);
        let messages = if self.messages == 1 {
            "message"
        } else {
            "messages"
        };
        write!(
            f,
            "{} {messages} in {folder}, which you alone may read; ",
            self.messages
        )?;
        if self.passed_over > 0 {
            write!(
                f,
                "header fields without one passed over: {}; ",
                self.passed_over
            )?;
        }
        write!(f, "make run MESSAGES={folder} runs them")
    }
}

impl fmt::Display for NotCaptured {
    fn fmt(&self, f: &mut fmt::Formatter<'_>) -> fmt::Result {
        match self {
            Self::Missing(path) => write!(f, "there is no file {}: {NAME_ONE}", printable(path)),
            Self::NotAFile(path) => write!(f, "{} is no plain file: {NAME_ONE}", printable(path)),
            Self::NoTshark(error) => write!(
                f,
                "tshark can't be run ({error}): install Debian's package tshark and run this again"
            ),
            Self::NotNew(path) => write!(
                f,
                "{} is there already: name a new folder, as OUT=folder",
                printable(path)
            ),
            Self::Failed(path, said) => write!(
                f,
                "tshark can't read {}: {said}; name a capture that it reads, as FILE=x.pcapng",
                printable(path)
            ),
            Self::NotWritten(path, error) => write!(
                f,
                "{} can't be written ({error}): name a new folder in one of your own, as OUT=folder",
                printable(path)
            ),
            Self::Read(error) => write!(
                f,
                "what tshark prints can't be read ({error}): run this again"
            ),
            Self::None(path) => write!(
                f,
                "{} has no message that tshark knows: a server on a port that isn't its own is named, as \
                 DECODE_AS=tcp.port==8080,http or DECODE_AS=tcp.port==1445,nbss",
                printable(path)
            ),
        }
    }
}

/// Says whether there is a capture, before anything is built.
pub fn look(file: &Path) -> Result<(), NotCaptured> {
    match fs::metadata(file) {
        Ok(about) if about.is_file() => Ok(()),
        Ok(_) => Err(NotCaptured::NotAFile(file.to_owned())),
        Err(_) => Err(NotCaptured::Missing(file.to_owned())),
    }
}

/// Writes the messages of a capture into the new folder `out`, which is there only when all of them
/// are. `decode_as` is a word for
/// tshark's `-d`, for a server on a port that isn't its own.
pub fn capture(
    file: &Path,
    out: &Path,
    tshark: &Path,
    decode_as: Option<&OsStr>,
) -> Result<Captured, NotCaptured> {
    look(file)?;
    if fs::symlink_metadata(out).is_ok() {
        return Err(NotCaptured::NotNew(out.to_owned()));
    }
    let not_written = |error| NotCaptured::NotWritten(out.to_owned(), error);
    let make = |path: &Path| DirBuilder::new().mode(0o700).create(path);
    let (path, ()) = make_beside(out, make).map_err(not_written)?;
    let mut folder = MessageFolder {
        path,
        messages: 0,
        passed_over: 0,
    };
    let done = run(file, tshark, decode_as, &mut folder)
        .and_then(|(status, said)| folder.end(file, out, status, said));
    if done.is_err() {
        // What is left of it isn't whole.
        let _ = fs::remove_dir_all(&folder.path);
    }
    done
}

/// Runs tshark and puts every message that it finds. Its status, and what it said last.
fn run(
    file: &Path,
    tshark: &Path,
    decode_as: Option<&OsStr>,
    folder: &mut MessageFolder,
) -> Result<(ExitStatus, String), NotCaptured> {
    let mut child = Command::new(tshark)
        .args(["-n", "-T", "jsonraw", "-Y", FILTER])
        .args(
            decode_as
                .into_iter()
                .flat_map(|word| [OsStr::new("-d"), word]),
        )
        .arg("-r")
        .arg(file)
        .stdin(Stdio::null())
        .stdout(Stdio::piped())
        .stderr(Stdio::piped())
        .spawn()
        .map_err(NotCaptured::NoTshark)?;
    let (printed, errors) = (child.stdout.take(), child.stderr.take());
    let (put, said) = thread::scope(|scope| {
        let said = scope.spawn(|| errors.map(last_line).unwrap_or_default());
        let put = printed.map_or(Ok(()), |printed| put_all(BufReader::new(printed), folder));
        (put, said.join().unwrap_or_default())
    });
    // A child that is still printing ends when its output is closed.
    let status = child.wait().map_err(NotCaptured::Read)?;
    put?;
    // A tshark that was killed had no last word.
    let silent = said.is_empty() || status.code().is_none();
    let said = if silent { status.to_string() } else { said };
    Ok((status, said))
}

/// The last line that was written, fit to print. The rest is read, so that the writer can
/// finish.
fn last_line(mut from: impl Read) -> String {
    let mut bytes = Vec::new();
    let _ = from.by_ref().take(SAID).read_to_end(&mut bytes);
    let _ = io::copy(&mut from, &mut io::sink());
    let text = String::from_utf8_lossy(&bytes);
    let line = text.lines().rfind(|line| !line.trim().is_empty());
    printable(line.unwrap_or_default())
}

/// Puts every message of what tshark prints.
fn put_all(mut printed: impl BufRead, folder: &mut MessageFolder) -> Result<(), NotCaptured> {
    let mut frame = Frame::default();
    let mut name = String::new();
    let mut line = Vec::new();
    while printed
        .read_until(b'\n', &mut line)
        .map_err(NotCaptured::Read)?
        > 0
    {
        let text = line.trim_ascii();
        if let Some(named) = text
            .strip_suffix(b"\": [")
            .and_then(|text| text.strip_prefix(b"\""))
        {
            name = String::from_utf8_lossy(named).into_owned();
        } else if let Some(bytes) = hex(text).filter(|_| !name.is_empty()) {
            if name == "frame_raw" {
                std::mem::take(&mut frame).put(folder)?;
            }
            frame.take(&name, bytes);
            name.clear();
        } else {
            name.clear();
        }
        line.clear();
    }
    frame.put(folder)
}

/// The bytes of `"4e54",`, none where it is anything else.
fn hex(text: &[u8]) -> Option<Vec<u8>> {
    let text = text.strip_suffix(b",").unwrap_or(text);
    let digits = text.strip_prefix(b"\"")?.strip_suffix(b"\"")?;
    let (pairs, odd) = digits.as_chunks::<2>();
    let value = |digit: u8| char::from(digit).to_digit(16);
    let byte = |&[high, low]: &[u8; 2]| Some((value(high)? << 4 | value(low)?) as u8);
    let bytes: Option<Vec<u8>> = pairs.iter().map(byte).collect();
    bytes.filter(|_| odd.is_empty())
}

/// What one frame carries.
#[derive(Default)]
struct Frame {
    messages: Vec<Vec<u8>>,
    /// Header lines whose text isn't base64, as they are.
    lines: Vec<Vec<u8>>,
    passed_over: usize,
    /// How many of the messages come from header fields.
    from_headers: usize,
}

impl Frame {
    /// Takes a part of the frame by the name that tshark gives it.
    fn take(&mut self, name: &str, bytes: Vec<u8>) {
        if HEADERS.contains(&name) {
            self.take_header(&bytes);
        } else if name == "ntlmssp_raw" && !bytes.is_empty() {
            // The one that its header field has is there already.
            if !self.messages[..self.from_headers].contains(&bytes) {
                self.messages.push(bytes);
            }
        } else if name == "dcerpc_raw" {
            self.messages.extend(nl_auth(&bytes).map(<[u8]>::to_vec));
        }
    }

    /// Takes the header line of a field.
    fn take_header(&mut self, line: &[u8]) {
        let lines = header_lines(line);
        let text = lines.as_ref().and_then(|lines| lines.texts.first());
        let scheme =
            text.filter(|(_, text)| text.len() > 4 && text[..5].eq_ignore_ascii_case(b"NTLM "));
        match scheme.map(|(_, text)| decode_base64(text[5..].trim_ascii())) {
            Some(Ok(message)) => {
                self.messages.insert(self.from_headers, message);
                self.from_headers += 1;
            }
            Some(Err(_)) => self.lines.push(line.trim_ascii().to_vec()),
            None => self.passed_over += 1,
        }
    }

    fn put(self, folder: &mut MessageFolder) -> Result<(), NotCaptured> {
        // tshark found the message inside what another scheme carries.
        let inside = self.messages.len() - self.from_headers;
        folder.passed_over += self.passed_over.saturating_sub(inside);
        for message in self.messages {
            folder.put(what(&message), &message)?;
        }
        for mut line in self.lines {
            line.push(b'\n');
            folder.put("header.txt", &line)?;
        }
        Ok(())
    }
}

/// How the file of a message is called.
fn what(message: &[u8]) -> &'static str {
    match (Kind::of(message), message.get(8)) {
        (Kind::NlAuth, _) => "nl-auth.bin",
        (Kind::Ntlm, Some(1)) => "negotiate.bin",
        (Kind::Ntlm, Some(2)) => "challenge.bin",
        (Kind::Ntlm, Some(3)) => "authenticate.bin",
        _ => "unclear.bin",
    }
}

/// The NL_AUTH message of a DCE/RPC bind, alter_context or the answer to one: the last
/// bytes, after a trailer of eight that begins with its type.
fn nl_auth(pdu: &[u8]) -> Option<&[u8]> {
    const BINDS: [u8; 4] = [11, 12, 14, 15];
    const NETLOGON: u8 = 0x44;
    let &[low, high] = pdu.get(10..12)? else {
        return None;
    };
    let little_endian = pdu[4] & 0x10 != 0;
    let length = if little_endian {
        [low, high]
    } else {
        [high, low]
    };
    let length = usize::from(u16::from_le_bytes(length));
    let start = pdu.len().checked_sub(length)?;
    let trailer = pdu.get(start.checked_sub(8)?..start)?;
    let is_one = length > 0 && BINDS.contains(&pdu[2]) && trailer.first() == Some(&NETLOGON);
    is_one.then(|| &pdu[start..])
}

/// The folder that the messages go to. Its name is a hidden one until all are there.
struct MessageFolder {
    path: PathBuf,
    messages: usize,
    passed_over: usize,
}

impl MessageFolder {
    /// Puts one more, in a new file that nobody but its owner could ever open.
    fn put(&mut self, what: &str, bytes: &[u8]) -> Result<(), NotCaptured> {
        let path = self.path.join(format!("{:06}-{what}", self.messages + 1));
        let file = OpenOptions::new()
            .write(true)
            .create_new(true)
            .mode(0o600)
            .open(&path);
        // A disk may tell that it is full only where the bytes must be on it.
        let written = file.and_then(|mut file| {
            file.write_all(bytes)?;
            file.sync_all()
        });
        written.map_err(|error| NotCaptured::NotWritten(path, error))?;
        self.messages += 1;
        Ok(())
    }

    /// Gives the folder its name, where it has all messages of the capture, or of one that is cut short
    /// those before the cut. A tshark that failed or was killed leaves some out, nobody knows which.
    fn end(
        &self,
        file: &Path,
        out: &Path,
        status: ExitStatus,
        said: String,
    ) -> Result<Captured, NotCaptured> {
        if self.messages == 0 && status.success() {
            return Err(NotCaptured::None(file.to_owned()));
        }
        let is_whole = status.success() || said.contains(CUT_SHORT);
        if self.messages == 0 || !is_whole {
            return Err(NotCaptured::Failed(file.to_owned(), said));
        }
        fs::rename(&self.path, out).map_err(|error| match error.kind() {
            io::ErrorKind::DirectoryNotEmpty | io::ErrorKind::NotADirectory => {
                NotCaptured::NotNew(out.to_owned())
            }
            _ => NotCaptured::NotWritten(out.to_owned(), error),
        })?;
        Ok(Captured {
            folder: out.to_owned(),
            messages: self.messages,
            passed_over: self.passed_over,
            broke_off: (!status.success()).then_some(said),
        })
    }
}
