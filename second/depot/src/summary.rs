//! What a run of the bench came to: counts, and once more the messages to look at.

use std::fmt;

/// How many messages of one kind are named again, at most.
const NAMED: usize = 100;

/// What became of a message.
#[derive(Clone, Copy, Debug, PartialEq, Eq)]
pub enum Outcome {
    Taken,
    Refused,
    Different,
    NotRead,
}

/// One message, as the summary tells it.
#[derive(Clone, Debug, PartialEq, Eq)]
pub struct Found {
    pub outcome: Outcome,
    /// The file, with its line for a header line.
    pub name: String,
    /// In words why it wasn't taken.
    pub why: String,
}

/// The counts of a run. What it holds doesn't grow with the messages.
#[derive(Debug, Default)]
pub struct Summary {
    taken: usize,
    refused: Listed,
    different: Listed,
    not_read: Listed,
}

/// Messages that were not taken: the first of them, and how many there were.
#[derive(Debug, Default)]
struct Listed {
    count: usize,
    lines: Vec<String>,
}

impl Summary {
    pub fn add(&mut self, found: &Found) {
        let listed = match found.outcome {
            Outcome::Taken => {
                self.taken += 1;
                return;
            }
            Outcome::Refused => &mut self.refused,
            Outcome::Different => &mut self.different,
            Outcome::NotRead => &mut self.not_read,
        };
        listed.count += 1;
        if listed.lines.len() < NAMED {
            listed.lines.push(format!("{}: {}", found.name, found.why));
        }
    }

    pub fn messages(&self) -> usize {
        self.taken + self.refused.count + self.different.count + self.not_read.count
    }

    pub fn refused(&self) -> usize {
        self.refused.count
    }

    /// Nothing is good about a run that read no message.
    pub fn is_good(&self) -> bool {
        self.messages() > 0 && self.different.count == 0 && self.not_read.count == 0
    }
}

/// `refused:` and its messages, each on a line.
impl Listed {
    fn write(&self, what: &str, f: &mut fmt::Formatter<'_>) -> fmt::Result {
        if self.count == 0 {
            return Ok(());
        }
        writeln!(f, "{what}:")?;
        for line in &self.lines {
            writeln!(f, "    {line}")?;
        }
        let more = self.count - self.lines.len();
        if more > 0 {
            writeln!(f, "    and {more} more, which stand above")?;
        }
        Ok(())
    }
}

/// The lists, and the line of counts last.
impl fmt::Display for Summary {
    fn fmt(&self, f: &mut fmt::Formatter<'_>) -> fmt::Result {
        self.refused.write("refused", f)?;
        self.not_read.write("not read", f)?;
        self.different.write("different", f)?;
        let (messages, taken, refused) = (self.messages(), self.taken, self.refused.count);
        let noun = if messages == 1 { "message" } else { "messages" };
        write!(
            f,
            "{messages} {noun}: {} the same in both programs ({taken} taken, {refused} refused), \
             {} different, {} not read",
            taken + refused,
            self.different.count,
            self.not_read.count
        )
    }
}

#[cfg(test)]
mod tests {
    use super::{Found, Outcome, Summary, NAMED};

    fn found(outcome: Outcome, name: &str) -> Found {
        let (name, why) = (name.to_owned(), "why".to_owned());
        Found { outcome, name, why }
    }

    #[test]
    fn what_was_not_taken_is_named_again() {
        let mut summary = Summary::default();
        assert!(!summary.is_good());
        summary.add(&found(Outcome::Taken, "a"));
        assert!(summary.is_good());
        let line =
            "1 message: 1 the same in both programs (1 taken, 0 refused), 0 different, 0 not read";
        assert_eq!(summary.to_string(), line);
        summary.add(&found(Outcome::Refused, "b"));
        assert!(summary.is_good() && summary.refused() == 1);
        summary.add(&found(Outcome::NotRead, "c"));
        assert!(!summary.is_good());
        summary.add(&found(Outcome::Different, "d"));
        assert_eq!(
            summary.to_string(),
            "refused:\n    b: why\nnot read:\n    c: why\ndifferent:\n    d: why\n\
             4 messages: 2 the same in both programs (1 taken, 1 refused), 1 different, 1 not read"
        );
    }

    #[test]
    fn a_long_list_is_cut_with_a_word() {
        let mut summary = Summary::default();
        for name in 0..NAMED + 3 {
            summary.add(&found(Outcome::Refused, &name.to_string()));
        }
        let told = summary.to_string();
        assert_eq!(told.lines().count(), NAMED + 3);
        assert!(told.contains("    99: why\n    and 3 more, which stand above\n103 messages: "));
    }
}
