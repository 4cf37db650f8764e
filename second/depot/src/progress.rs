//! How far a long run is, on standard error.

use std::io::{self, IsTerminal, Write};
use std::time::{Duration, Instant};

/// How long a run is silent where lines are written one after the other.
const BETWEEN_LINES: Duration = Duration::from_secs(5);

/// How long a line stands that is written over.
const BETWEEN_CHANGES: Duration = Duration::from_millis(200);

/// The progress of a run over some files.
#[derive(Debug)]
pub struct Progress {
    all: usize,
    done: usize,
    start: Instant,
    last: Instant,
    /// Whether one line is written over: on a terminal that nothing else goes to.
    over: bool,
    /// How long that line is.
    shown: usize,
}

impl Progress {
    /// A run that begins now.
    pub fn of(all: usize) -> Self {
        let over = io::stderr().is_terminal() && !io::stdout().is_terminal();
        Self::at(Instant::now(), all, over)
    }

    fn at(now: Instant, all: usize, over: bool) -> Self {
        Self {
            all,
            done: 0,
            start: now,
            last: now,
            over,
            shown: 0,
        }
    }

    /// One file more is done. True where it is time to tell.
    pub fn add(&mut self) -> bool {
        self.add_at(Instant::now())
    }

    fn add_at(&mut self, now: Instant) -> bool {
        self.done += 1;
        let between = if self.over {
            BETWEEN_CHANGES
        } else {
            BETWEEN_LINES
        };
        let due = now.duration_since(self.last) >= between;
        if due {
            self.last = now;
        }
        due
    }

    /// Tells how far the run is. Where standard error is closed, nobody wants to know.
    pub fn tell(&mut self) {
        let text = self.text(self.last);
        let _ = io::stderr().write_all(text.as_bytes());
    }

    fn text(&mut self, now: Instant) -> String {
        let Self { all, done, .. } = *self;
        let left = all.saturating_sub(done) as u128;
        let elapsed = now.duration_since(self.start).as_millis();
        let more = (elapsed * left)
            .checked_div(done as u128 * 1000)
            .unwrap_or(0);
        let line = format!("{done} of {all} files, about {more} s more");
        if !self.over {
            return line + "\n";
        }
        let shown = std::mem::replace(&mut self.shown, line.len());
        format!("\r{line:shown$}")
    }

    /// Takes the line away that was written over.
    pub fn end(&mut self) {
        if self.shown > 0 {
            let _ = write!(io::stderr(), "\r{:1$}\r", "", self.shown);
            self.shown = 0;
        }
    }
}

#[cfg(test)]
mod tests {
    use super::{Progress, BETWEEN_CHANGES, BETWEEN_LINES};
    use std::time::{Duration, Instant};

    #[test]
    fn a_line_comes_every_few_seconds() {
        let start = Instant::now();
        let mut progress = Progress::at(start, 1000, false);
        let just_before = start + BETWEEN_LINES - Duration::from_millis(1);
        for _ in 0..199 {
            assert!(!progress.add_at(just_before));
        }
        let due = start + BETWEEN_LINES;
        assert!(progress.add_at(due));
        assert_eq!(progress.text(due), "200 of 1000 files, about 20 s more\n");
        assert!(!progress.add_at(due));
        assert!(progress.add_at(due + BETWEEN_LINES));
    }

    #[test]
    fn a_line_on_a_terminal_is_written_over() {
        let start = Instant::now();
        let mut progress = Progress::at(start, 9, true);
        assert!(!progress.add_at(start));
        let due = start + BETWEEN_CHANGES;
        assert!(progress.add_at(due));
        assert_eq!(progress.text(due), "\r2 of 9 files, about 0 s more");
        progress.shown += 2;
        assert_eq!(progress.text(due), "\r2 of 9 files, about 0 s more  ");
    }
}
