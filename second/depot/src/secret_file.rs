//! A file that holds secrets: its owner alone may read it.

use std::ffi::OsString;
use std::fmt;
use std::fs::{self, File, OpenOptions};
use std::io::{self, Write};
use std::os::unix::fs::{MetadataExt, OpenOptionsExt};
use std::path::{Path, PathBuf};
use std::process;

use crate::folder::printable;

/// Reading and writing, for the owner.
const OWNER_ALONE: u32 = 0o600;

/// How many names are tried for the new file: one is left behind only where a program was
/// ended while it wrote.
const NAMES: u32 = 100;

/// Why nothing was written. Each says what to do.
#[derive(Debug)]
pub enum NotWritten {
    /// The output is no plain file.
    NotAFile(PathBuf),
    /// The output is the file that the message came from.
    Same(PathBuf),
    /// The output is there and belongs to somebody else.
    NotOwn(PathBuf),
    /// It can't be opened, kept from others or written.
    Failed(PathBuf, io::Error),
}

impl fmt::Display for NotWritten {
    fn fmt(&self, f: &mut fmt::Formatter<'_>) -> fmt::Result {
        match self {
            Self::NotAFile(path) => write!(
                f,
                "{} is there and is no plain file: name another output, as OUT=file",
                printable(path)
            ),
            Self::Same(path) => write!(
                f,
                "{} is the message itself: name another output, as OUT=file",
                printable(path)
            ),
            Self::NotOwn(path) => write!(
                f,
                "{} is there and is somebody else's: name another output, as OUT=file",
                printable(path)
            ),
            Self::Failed(path, error) => write!(
                f,
                "{} can't be written ({error}): name an output of your own in a folder that is there, as OUT=file",
                printable(path)
            ),
        }
    }
}

/// Writes `bytes` to the file `out`. They go to a new file in the same folder, which is
/// its owner's alone from its creation on, and which takes the name of `out` once it is
/// whole: who has open what was there before, or has it under another name, sees nothing
/// of them, and where the writing fails it stays as it was. What was there must be a plain
/// file of the caller's own, and not the file `from` that the bytes were made from.
pub fn write(out: &Path, from: &Path, bytes: &[u8]) -> Result<(), NotWritten> {
    put_at(out, from, |file, new| {
        put(file, bytes).and_then(|()| fs::rename(new, out))
    })
}

/// Says why `write` would fail, before there is anything to write: the new file is made,
/// and taken away again.
pub fn look(out: &Path, from: &Path) -> Result<(), NotWritten> {
    put_at(out, from, |_, new| fs::remove_file(new))
}

/// Makes the new file, and does with it what is to be done.
fn put_at(
    out: &Path,
    from: &Path,
    done: impl FnOnce(File, &Path) -> io::Result<()>,
) -> Result<(), NotWritten> {
    let failed = |error| NotWritten::Failed(out.to_owned(), error);
    let there = there(out, from)?;
    let (new, file) = create_beside(out).map_err(failed)?;
    let done = match (owner(&file), there) {
        (Ok(own), Some(about)) if own != about.uid() => Err(NotWritten::NotOwn(out.to_owned())),
        (Ok(_), _) => done(file, &new).map_err(failed),
        (Err(error), _) => Err(failed(error)),
    };
    if done.is_err() {
        // What is left of it would be cut short.
        let _ = fs::remove_file(&new);
    }
    done
}

/// What is at `out` already; it must be a plain file, and not `from`.
fn there(out: &Path, from: &Path) -> Result<Option<fs::Metadata>, NotWritten> {
    match fs::symlink_metadata(out) {
        Ok(about) if !about.is_file() => Err(NotWritten::NotAFile(out.to_owned())),
        Ok(about) if is(from, &about) => Err(NotWritten::Same(out.to_owned())),
        Ok(about) => Ok(Some(about)),
        Err(error) if error.kind() == io::ErrorKind::NotFound => Ok(None),
        Err(error) => Err(NotWritten::Failed(out.to_owned(), error)),
    }
}

/// Whether the file at a path is the one that `about` tells of.
fn is(path: &Path, about: &fs::Metadata) -> bool {
    fs::metadata(path).is_ok_and(|other| (other.dev(), other.ino()) == (about.dev(), about.ino()))
}

fn owner(file: &File) -> io::Result<u32> {
    Ok(file.metadata()?.uid())
}

/// A new file in the folder of `out`, which nobody but its owner could ever open.
fn create_beside(out: &Path) -> io::Result<(PathBuf, File)> {
    make_beside(out, |new| {
        let mut options = OpenOptions::new();
        options.write(true).create_new(true).mode(OWNER_ALONE);
        options.open(new)
    })
}

/// Makes something new in the folder of `out`, under the first hidden name that is not taken.
pub(crate) fn make_beside<T>(
    out: &Path,
    make: impl Fn(&Path) -> io::Result<T>,
) -> io::Result<(PathBuf, T)> {
    let no_name = || io::Error::new(io::ErrorKind::InvalidInput, "it has no name");
    let mut taken = no_name();
    for count in 0..NAMES {
        let mut name = OsString::from(".");
        name.push(out.file_name().ok_or_else(no_name)?);
        name.push(format!(".{}-{count}", process::id()));
        let new = out.with_file_name(name);
        match make(&new) {
            Ok(made) => return Ok((new, made)),
            Err(error) if error.kind() == io::ErrorKind::AlreadyExists => taken = error,
            Err(error) => return Err(error),
        }
    }
    Err(taken)
}

fn put(mut file: File, bytes: &[u8]) -> io::Result<()> {
    file.write_all(bytes)?;
    file.sync_all()
}

#[cfg(test)]
mod tests {
    use super::{look, write, NotWritten, OWNER_ALONE};
    use std::fs::{self, File, Permissions};
    use std::io::Read;
    use std::os::unix::fs::{chown, symlink, MetadataExt, PermissionsExt};
    use std::path::{Path, PathBuf};

    fn folder(name: &str) -> PathBuf {
        let folder = std::env::temp_dir().join(format!("secret-{name}-{}", std::process::id()));
        let _ = fs::remove_dir_all(&folder);
        fs::create_dir(&folder).expect("a folder");
        folder
    }

    fn count(folder: &Path) -> usize {
        fs::read_dir(folder).expect("a folder").count()
    }

    fn mode(path: &Path) -> u32 {
        fs::metadata(path).expect("a file").permissions().mode() & 0o7777
    }

    #[test]
    fn its_owner_alone_may_read_it() {
        let folder = folder("mode");
        let (from, out) = (folder.join("from"), folder.join("out"));
        fs::write(&from, b"a message").expect("a file");
        write(&out, &from, b"some bytes").expect("written");
        assert_eq!(mode(&out), OWNER_ALONE);
        // One that others could read, and that was longer.
        fs::set_permissions(&out, Permissions::from_mode(0o644)).expect("a mode");
        write(&out, &from, b"less").expect("written");
        assert_eq!(mode(&out), OWNER_ALONE);
        assert_eq!(fs::read(&out).expect("a file"), b"less");
        assert_eq!(count(&folder), 2);
        fs::remove_dir_all(folder).expect("taken away");
    }

    /// What others have open, or have under another name, stays what it was.
    #[test]
    fn what_others_hold_shows_nothing() {
        let folder = folder("held");
        let (from, out, other) = (
            folder.join("from"),
            folder.join("out"),
            folder.join("other"),
        );
        fs::write(&from, b"a message").expect("a file");
        fs::write(&out, b"old").expect("a file");
        fs::set_permissions(&out, Permissions::from_mode(0o644)).expect("a mode");
        fs::hard_link(&out, &other).expect("a link");
        let mut held = File::open(&out).expect("open");
        write(&out, &from, b"some bytes").expect("written");
        let mut seen = Vec::new();
        held.read_to_end(&mut seen).expect("read");
        assert_eq!(seen, b"old");
        assert_eq!(fs::read(&other).expect("a file"), b"old");
        assert_eq!((mode(&other), mode(&out)), (0o644, OWNER_ALONE));
        assert_eq!(fs::read(&out).expect("a file"), b"some bytes");
        fs::remove_dir_all(folder).expect("taken away");
    }

    #[test]
    fn what_is_there_is_not_lost() {
        let folder = folder("kept");
        let (from, link) = (folder.join("from"), folder.join("link"));
        let (hard, nowhere) = (folder.join("hard"), folder.join("nowhere"));
        fs::write(&from, b"a message").expect("a file");
        symlink(&from, &link).expect("a link");
        symlink(folder.join("none"), &nowhere).expect("a link");
        fs::hard_link(&from, &hard).expect("a link");
        for (out, from) in [(&from, &from), (&from, &link), (&hard, &from)] {
            let refused = write(out, from, b"x");
            assert!(matches!(refused, Err(NotWritten::Same(_))));
            assert!(matches!(look(out, from), Err(NotWritten::Same(_))));
        }
        for other in [&link, &nowhere, &folder] {
            let refused = write(other, &from, b"x");
            assert!(matches!(refused, Err(NotWritten::NotAFile(_))));
        }
        for other in ["none/out", "from/out", ".."] {
            assert!(write(&folder.join(other), &from, b"x").is_err());
            assert!(look(&folder.join(other), &from).is_err());
        }
        for other in [&from, &link, &hard, &nowhere, &folder] {
            assert!(look(other, &from).is_err());
        }
        for other in [&folder.join("new"), Path::new("no-such-file-here")] {
            assert!(look(other, &from).is_ok());
        }
        assert_eq!(fs::read(&from).expect("a file"), b"a message");
        assert_eq!(fs::read_link(&link).expect("a link"), from);
        assert_eq!(count(&folder), 4);
        fs::remove_dir_all(folder).expect("taken away");
    }

    /// Only root may give a file away: for others there is nothing to try.
    #[test]
    fn somebody_elses_file_is_left_alone() {
        let folder = folder("another");
        let (from, out) = (folder.join("from"), folder.join("out"));
        fs::write(&from, b"a message").expect("a file");
        fs::write(&out, b"not ours").expect("a file");
        let own = fs::metadata(&out).expect("a file").uid();
        if chown(&out, Some(own + 1), None).is_ok() {
            let refused = write(&out, &from, b"x");
            assert!(matches!(refused, Err(NotWritten::NotOwn(_))));
            assert_eq!(fs::read(&out).expect("a file"), b"not ours");
            assert_eq!(fs::metadata(&out).expect("a file").uid(), own + 1);
            assert_eq!(count(&folder), 2);
        }
        fs::remove_dir_all(folder).expect("taken away");
    }

    /// A name that is taken, by a link too, is passed over and left as it is.
    #[test]
    fn a_name_that_is_taken_is_passed_over() {
        let folder = folder("name");
        let (from, out) = (folder.join("from"), folder.join("out"));
        fs::write(&from, b"a message").expect("a file");
        let first = folder.join(format!(".out.{}-0", std::process::id()));
        symlink(&from, &first).expect("a link");
        write(&out, &from, b"some bytes").expect("written");
        assert_eq!(fs::read(&out).expect("a file"), b"some bytes");
        assert_eq!(fs::read(&from).expect("a file"), b"a message");
        assert_eq!(count(&folder), 3);
        fs::remove_dir_all(folder).expect("taken away");
    }
}
