//! The message files of a folder of any size, in the order of their names: a part of the names
//! is held at a time, and the folder is gone through again for the next.

use std::collections::BinaryHeap;
use std::ffi::OsString;
use std::fs;
use std::io;
use std::path::{Path, PathBuf};
use std::vec;

use crate::folder::{printable, tells_about, MessageFile, NoFolder};

/// How many names are held at a time.
const PART: usize = 8192;

/// How many of the files that are passed over are named.
const NAMED: usize = 100;

/// What a folder holds.
#[derive(Debug, PartialEq, Eq)]
pub struct About {
    /// How many files are to hold messages.
    pub messages: usize,
    /// How many tell about the messages, or are a night's.
    pub passed_over: usize,
    /// The first of their names.
    pub named: Vec<String>,
    /// Whether a night's buffer is among them.
    pub has_night: bool,
}

impl About {
    /// The files that were passed over, in words, each on a line; nothing where there are none.
    pub fn told_passed_over(&self) -> Vec<String> {
        if self.passed_over == 0 {
            return Vec::new();
        }
        let named = self.named.join(", ");
        let mut told = vec![match self.passed_over - self.named.len() {
            0 => format!("passed over: {named}"),
            more => format!("passed over: {named} and {more} more"),
        }];
        if self.has_night {
            told.push("a night is run by itself, as make night FILE=file".to_owned());
        }
        told
    }
}

/// Goes through a folder once.
pub fn about(folder: &Path) -> Result<About, NoFolder> {
    let mut about = About {
        messages: 0,
        passed_over: 0,
        named: Vec::new(),
        has_night: false,
    };
    let mut first = Smallest::new(NAMED);
    each_name(folder, |name| {
        if tells_about(&name) {
            about.passed_over += 1;
            about.has_night |= printable(&name).ends_with(".night");
            first.add(name);
        } else {
            about.messages += 1;
        }
    })?;
    about.named = first.sorted().iter().map(|name| printable(name)).collect();
    if about.messages == 0 {
        return Err(NoFolder::Empty(folder.to_owned()));
    }
    Ok(about)
}

/// Every name in a folder, in no order.
fn each_name(folder: &Path, mut take: impl FnMut(OsString)) -> Result<(), NoFolder> {
    let failed = |error: io::Error| NoFolder::of(folder, error);
    for entry in fs::read_dir(folder).map_err(failed)? {
        take(entry.map_err(failed)?.file_name());
    }
    Ok(())
}

/// The smallest of the names that are added, so many at most.
struct Smallest {
    most: usize,
    names: BinaryHeap<OsString>,
}

impl Smallest {
    fn new(most: usize) -> Self {
        Self {
            most,
            names: BinaryHeap::new(),
        }
    }

    fn add(&mut self, name: OsString) {
        if self.names.len() < self.most {
            self.names.push(name);
        } else if let Some(mut largest) = self.names.peek_mut() {
            if name < *largest {
                *largest = name;
            }
        }
    }

    fn sorted(self) -> Vec<OsString> {
        self.names.into_sorted_vec()
    }
}

/// The message files of a folder, in the order of their names.
#[derive(Debug)]
pub struct Files {
    folder: PathBuf,
    most: usize,
    part: vec::IntoIter<OsString>,
    /// The last name that was held.
    last: Option<OsString>,
    ended: bool,
}

impl Files {
    pub fn of(folder: &Path) -> Self {
        Self::in_parts(folder, PART)
    }

    fn in_parts(folder: &Path, most: usize) -> Self {
        Self {
            folder: folder.to_owned(),
            most,
            part: Vec::new().into_iter(),
            last: None,
            ended: false,
        }
    }

    /// Holds the names that come after the last one.
    fn next_part(&mut self) -> Result<(), NoFolder> {
        let mut next = Smallest::new(self.most);
        each_name(&self.folder, |name| {
            let is_after = self.last.as_ref().is_none_or(|last| name > *last);
            if is_after && !tells_about(&name) {
                next.add(name);
            }
        })?;
        let names = next.sorted();
        self.ended = names.len() < self.most;
        self.last = names.last().cloned().or(self.last.take());
        self.part = names.into_iter();
        Ok(())
    }
}

impl Iterator for Files {
    type Item = Result<MessageFile, NoFolder>;

    fn next(&mut self) -> Option<Self::Item> {
        if self.part.len() == 0 && !self.ended {
            if let Err(why) = self.next_part() {
                self.ended = true;
                return Some(Err(why));
            }
        }
        let name = self.part.next()?;
        Some(Ok(MessageFile::in_folder(&self.folder, &name)))
    }
}

#[cfg(test)]
mod tests {
    use super::{about, Files, NAMED};
    use crate::folder::{Folder, NoFolder};
    use std::fs;
    use std::path::{Path, PathBuf};

    fn folder(name: &str, names: &[String]) -> PathBuf {
        let folder = std::env::temp_dir().join(format!("files-{name}-{}", std::process::id()));
        let _ = fs::remove_dir_all(&folder);
        fs::create_dir(&folder).expect("a folder");
        for name in names {
            fs::write(folder.join(name), b"").expect("a file");
        }
        folder
    }

    fn names(folder: &Path, most: usize) -> Vec<String> {
        let files = Files::in_parts(folder, most);
        files.map(|file| file.expect("a file").name).collect()
    }

    #[test]
    fn the_order_is_that_of_the_whole_list() {
        let written: Vec<String> = (0..23).map(|k| format!("{}.bin", k * 7 % 23)).collect();
        let folder = folder("order", &[&written[..], &["a.md".to_owned()]].concat());
        let list = Folder::list(&folder).expect("a folder");
        let listed: Vec<String> = list.messages.into_iter().map(|file| file.name).collect();
        assert_eq!(listed.len(), 23);
        for most in [1, 2, 22, 23, 24, 100] {
            assert_eq!(names(&folder, most), listed, "{most}");
        }
        fs::remove_dir_all(folder).expect("taken away");
    }

    #[test]
    fn what_is_passed_over_is_counted_and_the_first_are_named() {
        let mut written: Vec<String> = (0..NAMED + 5).map(|k| format!("{k:03}.md")).collect();
        written.extend(["a.bin".to_owned(), "z.night".to_owned()]);
        let folder = folder("about", &written);
        let found = about(&folder).expect("a folder");
        assert_eq!((found.messages, found.passed_over), (1, NAMED + 6));
        assert!(found.has_night);
        assert_eq!(found.named, written[..NAMED]);
        fs::remove_dir_all(folder).expect("taken away");
    }

    #[test]
    fn a_folder_that_goes_away_is_told() {
        let folder = folder("gone", &["a".to_owned(), "b".to_owned()]);
        let mut files = Files::in_parts(&folder, 1);
        assert!(matches!(files.next(), Some(Ok(_))));
        fs::remove_dir_all(&folder).expect("taken away");
        assert!(matches!(files.next(), Some(Err(NoFolder::Missing(_)))));
        assert!(files.next().is_none());
        assert!(matches!(about(&folder), Err(NoFolder::Missing(_))));
    }
}
