//! The comparison of a program's lines with the reader's.

use std::fmt;
use std::io::{self, Write};
use std::sync::atomic::{AtomicUsize, Ordering};
use std::sync::Mutex;
use std::thread;

use depot::program::Answer;
use reader::LINE_LIMIT;

use crate::cases::Case;
use crate::hex::Hex;
use crate::report::{print_counts, print_differences};
use crate::tally::Tally;

/// A message on which the two did not print the same line.
#[derive(Clone, Debug)]
pub struct Difference {
    /// Which of the messages it is, the first being 0.
    pub index: usize,
    pub proved: Answer,
    pub second: Answer,
}

/// What a comparison found.
#[derive(Clone, Debug, Default)]
pub struct Report {
    /// The reader's answers.
    pub tally: Tally,
    /// In the order of the messages.
    pub different: Vec<Difference>,
}

/// Holds the answer that `proved` gives for each message against the reader's,
/// byte for byte, on so many threads. Ends early where `proved` can't be run.
pub fn compare<E: Send>(
    cases: &[Case],
    threads: usize,
    proved: impl Fn(&Case) -> Result<Answer, E> + Sync,
) -> Result<Report, E> {
    let next = AtomicUsize::new(0);
    let report = Mutex::new(Ok(Report::default()));
    let work = || {
        let mut room = Box::new([0; LINE_LIMIT]);
        loop {
            let index = next.fetch_add(1, Ordering::Relaxed);
            let Some(case) = cases.get(index) else {
                return;
            };
            let line = case.program.line(&case.message, &mut room);
            let answer = proved(case);
            let mut report = report.lock().expect("no thread panics");
            match (&mut *report, answer) {
                (Ok(report), Ok(proved)) => report.add(index, proved, line),
                (Ok(_), Err(error)) => *report = Err(error),
                (Err(_), _) => return,
            }
        }
    };
    thread::scope(|scope| {
        for _ in 0..threads.max(1) {
            scope.spawn(work);
        }
    });
    let mut report = report.into_inner().expect("no thread panics")?;
    report.different.sort_by_key(|difference| difference.index);
    Ok(report)
}

impl Report {
    fn add(&mut self, index: usize, proved: Answer, line: &[u8]) {
        self.tally.add(line);
        let second = Answer::Printed(line.to_vec());
        if !proved.is_same(&second) {
            self.different.push(Difference {
                index,
                proved,
                second,
            });
        }
    }

    /// Prints the counts, the differences and last 'N passed, M failed', and
    /// gives M: each kind of answer that was missed is one that failed.
    pub fn print(&self, seed: u64, cases: &[Case], out: &mut impl Write) -> io::Result<usize> {
        writeln!(out, "{} messages from seed {seed}:", cases.len())?;
        write!(out, "{}", self.tally)?;
        let shown = self.different.iter().map(|difference| {
            let case = &cases[difference.index];
            (case.message.len(), Shown { difference, case })
        });
        print_differences(shown.collect(), self.different.len(), out)?;
        let not_reached = self.tally.not_reached().into_iter();
        let not_expected = self.tally.not_expected().into_iter();
        let missed: Vec<String> = not_reached
            .map(|kind| format!("NOT REACHED: {kind}"))
            .chain(not_expected.map(|kind| format!("NOT EXPECTED: {kind}")))
            .collect();
        print_counts(cases.len(), self.different.len(), &missed, out)
    }
}

/// A difference with its message, whole.
struct Shown<'a> {
    difference: &'a Difference,
    case: &'a Case,
}

impl fmt::Display for Shown<'_> {
    fn fmt(&self, f: &mut fmt::Formatter<'_>) -> fmt::Result {
        let Difference {
            index,
            proved,
            second,
        } = self.difference;
        let Case { program, message } = self.case;
        let len = message.len();
        writeln!(f, "DIFFERENT: message {index}, {program:?}, {len} bytes")?;
        writeln!(f, "    message: {}", Hex(message))?;
        writeln!(f, "    proved: {proved}")?;
        write!(f, "    second: {second}")
    }
}

#[cfg(test)]
mod tests {
    use super::compare;
    use crate::cases::{cases, Case};
    use depot::program::Answer;
    use reader::{Program, LINE_LIMIT};
    use std::convert::Infallible;

    fn reader_line(case: &Case) -> Vec<u8> {
        let mut room = Box::new([0; LINE_LIMIT]);
        case.program.line(&case.message, &mut room).to_vec()
    }

    #[test]
    fn every_kind_of_answer_is_reached_without_drawn_messages() {
        for seed in [0, 1, 5, u64::MAX] {
            let report = compare(&cases(seed, 0), 2, |case| {
                Ok::<_, Infallible>(Answer::Printed(reader_line(case)))
            });
            let report = report.expect("no error");
            assert!(report.different.is_empty());
            assert_eq!(report.tally.not_reached(), []);
            assert_eq!(report.tally.not_expected(), []);
        }
    }

    #[test]
    fn one_planted_difference_is_found() {
        let cases = cases(1, 20);
        for planted in [0, cases.len() / 2, cases.len() - 1] {
            let report = compare(&cases, 2, |case| {
                let mut line = reader_line(case);
                if case == &cases[planted] {
                    line.insert(1, b' ');
                }
                Ok::<_, Infallible>(Answer::Printed(line))
            });
            let found = report.expect("no error").different;
            assert!(found.iter().any(|difference| difference.index == planted));
            let same = |index: usize| cases[index] == cases[planted];
            assert!(found.iter().all(|difference| same(difference.index)));
        }
    }

    #[test]
    fn a_program_that_cannot_be_run_ends_the_comparison() {
        let cases = cases(1, 0);
        let report = compare(&cases, 2, |_| Err("not there"));
        assert_eq!(report.expect_err("an error"), "not there");
    }

    /// What is printed for these messages where the program says `line` to all.
    fn printed(cases: &[Case], line: &[u8]) -> (usize, String) {
        let report = compare(cases, 2, |_| {
            Ok::<_, Infallible>(Answer::Printed(line.to_vec()))
        });
        let mut out = Vec::new();
        let failed = report.expect("no error").print(3, cases, &mut out);
        let out = String::from_utf8(out).expect("text");
        (failed.expect("room for the text"), out)
    }

    #[test]
    fn a_difference_is_printed_whole_and_counted() {
        let case = |message: &[u8]| Case {
            program: Program::NlAuth,
            message: message.to_vec(),
        };
        let cases = [case(b"\x02\0\0\0\0\0\0\0\x5C"), case(b"\xAB")];
        let (failed, out) = printed(&cases, b"refused 2 field=0 at=0\n");
        assert!(out.starts_with("2 messages from seed 3:\n"));
        assert!(out.contains(
            "\nDIFFERENT: message 0, NlAuth, 9 bytes\n    message: 02000000000000005C\n    \
             proved: refused 2 field=0 at=0\n    second: refused 4 field=0 at=0\n"
        ));
        assert!(!out.contains("DIFFERENT: message 1"));
        // Two kinds of answer were reached, and one message differs.
        let missed = out.matches("NOT REACHED: ").count();
        assert_eq!(failed, missed + 1);
        assert!(out.ends_with(&format!("\n1 passed, {failed} failed\n")));
    }

    #[test]
    fn the_shortest_differences_are_printed_and_all_are_counted() {
        let cases: Vec<Case> = (0..100)
            .map(|len| Case {
                program: Program::Ntlm,
                message: vec![0; 100 - len],
            })
            .collect();
        let (failed, out) = printed(&cases, b"none\n");
        assert_eq!(out.matches("DIFFERENT: ").count(), 20);
        assert!(out.contains("DIFFERENT: message 99, Ntlm, 1 bytes\n    message: 00\n"));
        assert!(out.contains("\nand 80 more that differ\n"));
        assert!(failed >= 100);
        assert!(out.ends_with(&format!("\n0 passed, {failed} failed\n")));
    }
}
