//! Runs a program that reads one message from standard input and prints one
//! line, or some.

#![warn(missing_docs)]

use std::ffi::{OsStr, OsString};
use std::fmt;
use std::io::{self, Write};
use std::path::{Path, PathBuf};
use std::process::{ChildStdin, Command, ExitStatus, Output, Stdio};
use std::thread;

use crate::folder::printable;

/// What every pipe has room for.
const ONE_PAGE: usize = 4096;

/// A program and the words that it is called with.
#[derive(Clone, Debug)]
pub struct Program {
    path: PathBuf,
    words: Vec<OsString>,
    /// Whether it prints one line only.
    one_line: bool,
}

/// What a program made of a message.
#[derive(Clone, Debug, PartialEq, Eq)]
pub enum Answer {
    /// The line that it printed, or the lines, each with its 0A.
    Printed(Vec<u8>),
    /// It printed something else, or did not end well.
    Fault(Fault),
}

/// What was wrong with a run. It holds nothing of what the program wrote, which
/// could hold anything of the message.
#[derive(Clone, Debug, PartialEq, Eq)]
pub enum Fault {
    /// It ended with a status other than 0, or by a signal.
    Status(ExitStatus),
    /// It wrote to standard error.
    StandardError,
    /// It printed nothing, or what it printed does not end with 0A.
    NoLine,
    /// It printed more than its one line.
    MoreLines,
}

/// A program that can't be run at all.
#[derive(Debug)]
pub struct CannotRun {
    path: PathBuf,
    error: io::Error,
}

impl Program {
    /// The program at `path`, called with `words`, which prints one line.
    pub fn new<W: AsRef<OsStr>>(path: &Path, words: &[W]) -> Self {
        Self {
            path: path.to_owned(),
            words: words.iter().map(|word| word.as_ref().to_owned()).collect(),
            one_line: true,
        }
    }

    /// The same of a program that prints one line or more.
    pub fn of_lines<W: AsRef<OsStr>>(path: &Path, words: &[W]) -> Self {
        Self {
            one_line: false,
            ..Self::new(path, words)
        }
    }

    /// Runs the program once, with `message` as its standard input.
    pub fn run(&self, message: &[u8]) -> Result<Answer, CannotRun> {
        self.output(message)
            .map(|output| Answer::of(output, self.one_line))
            .map_err(|error| CannotRun {
                path: self.path.clone(),
                error,
            })
    }

    fn output(&self, message: &[u8]) -> io::Result<Output> {
        let mut child = Command::new(&self.path)
            .args(&self.words)
            .stdin(Stdio::piped())
            .stdout(Stdio::piped())
            .stderr(Stdio::piped())
            .spawn()?;
        let input = child.stdin.take();
        let write = |input: Option<ChildStdin>| {
            if let Some(mut input) = input {
                // A program that stops reading is judged by what it prints.
                let _ = input.write_all(message);
            }
        };
        if message.len() <= ONE_PAGE {
            write(input);
            return child.wait_with_output();
        }
        // A thread of its own writes a longer message, since a program may print
        // before it has read all of it, and a pipe holds only so much.
        thread::scope(|scope| {
            scope.spawn(move || write(input));
            child.wait_with_output()
        })
    }
}

impl Answer {
    /// Whether it is the line of a refusal.
    pub fn is_refusal(&self) -> bool {
        matches!(self, Self::Printed(line) if line.starts_with(b"refused "))
    }

    /// Whether a check of the message refused it. 33 says that its line is too long.
    pub fn is_by_a_check(&self) -> bool {
        let no_room = b"refused 33 ";
        self.is_refusal() && !matches!(self, Self::Printed(line) if line.starts_with(no_room))
    }

    /// A run counts only where it ends with status 0, prints exactly one line, or
    /// some where it may, and writes nothing to standard error. Otherwise two
    /// programs that both print nothing would look alike.
    fn of(output: Output, one_line: bool) -> Self {
        let lines = output.stdout.iter().filter(|&&byte| byte == b'\n').count();
        if !output.status.success() {
            Self::Fault(Fault::Status(output.status))
        } else if !output.stderr.is_empty() {
            Self::Fault(Fault::StandardError)
        } else if output.stdout.last() != Some(&b'\n') {
            Self::Fault(Fault::NoLine)
        } else if one_line && lines != 1 {
            Self::Fault(Fault::MoreLines)
        } else {
            Self::Printed(output.stdout)
        }
    }

    /// Whether both printed the same, byte for byte. A fault is like nothing, not
    /// even another fault.
    pub fn is_same(&self, other: &Self) -> bool {
        matches!((self, other), (Self::Printed(one), Self::Printed(two)) if one == two)
    }
}

/// What was printed, as [`Text`] shows it; or what was wrong, in brackets.
impl fmt::Display for Answer {
    fn fmt(&self, f: &mut fmt::Formatter<'_>) -> fmt::Result {
        match self {
            Self::Printed(text) => Text(text).fmt(f),
            Self::Fault(fault) => write!(f, "[{fault}]"),
        }
    }
}

/// A line without its 0A, bytes outside printable ASCII escaped, another 0A too.
#[derive(Clone, Copy, Debug)]
pub struct Text<'a>(pub &'a [u8]);

impl fmt::Display for Text<'_> {
    fn fmt(&self, f: &mut fmt::Formatter<'_>) -> fmt::Result {
        for &byte in self.0.strip_suffix(b"\n").unwrap_or(self.0) {
            match byte {
                0x20..=0x7E => write!(f, "{}", char::from(byte))?,
                _ => write!(f, "<{byte:02X}>")?,
            }
        }
        Ok(())
    }
}

impl fmt::Display for Fault {
    fn fmt(&self, f: &mut fmt::Formatter<'_>) -> fmt::Result {
        match self {
            Self::Status(status) => write!(f, "the program failed: {status}"),
            Self::StandardError => f.write_str("the program wrote to standard error"),
            Self::NoLine => f.write_str("the program printed no whole line"),
            Self::MoreLines => f.write_str("the program printed more than one line"),
        }
    }
}

impl fmt::Display for CannotRun {
    fn fmt(&self, f: &mut fmt::Formatter<'_>) -> fmt::Result {
        write!(f, "{} can't be run: {}", printable(&self.path), self.error)
    }
}

#[cfg(test)]
mod tests {
    use super::{Answer, Fault, Program};
    use std::path::Path;

    fn shell(script: &str, message: &[u8]) -> Answer {
        Program::new(Path::new("/bin/sh"), &["-c", script])
            .run(message)
            .expect("a shell")
    }

    #[test]
    fn one_line_is_an_answer() {
        assert_eq!(shell("cat", b"one\n"), Answer::Printed(b"one\n".to_vec()));
        assert_eq!(shell("cat", b"\n"), Answer::Printed(b"\n".to_vec()));
    }

    #[test]
    fn anything_else_is_a_fault() {
        let cases = [
            ("cat >/dev/null", Fault::NoLine),
            ("printf one", Fault::NoLine),
            ("printf 'one\\ntwo'", Fault::NoLine),
            ("printf 'one\\ntwo\\n'", Fault::MoreLines),
            ("echo one; echo two >&2", Fault::StandardError),
            ("echo why >&2", Fault::StandardError),
            ("printf one; echo why >&2", Fault::StandardError),
        ];
        for (script, fault) in cases {
            assert_eq!(shell(script, b""), Answer::Fault(fault), "{script}");
        }
        for script in ["echo one; exit 3", "echo one; kill -9 $$"] {
            let answer = shell(script, b"");
            assert!(matches!(answer, Answer::Fault(Fault::Status(_))));
        }
    }

    #[test]
    fn lines_are_an_answer_where_a_program_prints_some() {
        let shell = |script: &str| {
            let program = Program::of_lines(Path::new("/bin/sh"), &["-c", script]);
            program.run(b"").expect("a shell")
        };
        for (script, text) in [("echo one", "one\n"), ("echo 1; echo 2", "1\n2\n")] {
            let expected = Answer::Printed(text.as_bytes().to_vec());
            assert_eq!(shell(script), expected);
        }
        assert_eq!(shell("echo 1; echo 2").to_string(), "1<0A>2");
        for script in [":", "echo 1; printf 2"] {
            assert_eq!(shell(script), Answer::Fault(Fault::NoLine));
        }
        let loud = shell("echo 1; echo 2; echo 3 >&2");
        assert_eq!(loud, Answer::Fault(Fault::StandardError));
    }

    #[test]
    fn faults_are_never_the_same() {
        let none = shell("true", b"");
        assert!(!none.is_same(&none));
        let line = shell("echo one", b"");
        assert!(line.is_same(&line));
        assert!(!line.is_same(&none));
        assert!(!line.is_same(&shell("echo onE", b"")));
    }

    #[test]
    fn a_long_message_and_a_long_line_pass() {
        let mut message = vec![b'x'; 1 << 20];
        message.push(b'\n');
        assert_eq!(shell("cat", &message), Answer::Printed(message.clone()));
    }

    #[test]
    fn a_program_that_does_not_read_is_judged_by_its_line() {
        let answer = shell("echo one", &vec![b'x'; 1 << 20]);
        assert_eq!(answer, Answer::Printed(b"one\n".to_vec()));
    }

    #[test]
    fn a_program_that_is_not_there_cannot_run() {
        let none: [&str; 0] = [];
        let failure = Program::new(Path::new("/no/such/program"), &none).run(b"");
        let text = failure.expect_err("no program").to_string();
        assert!(text.starts_with("/no/such/program can't be run: "));
    }

    #[test]
    fn what_is_shown_is_printable() {
        assert_eq!(shell("printf 'a\\033b\\n'", b"").to_string(), "a<1B>b");
        let none = shell("true", b"").to_string();
        assert_eq!(none, "[the program printed no whole line]");
    }
}
