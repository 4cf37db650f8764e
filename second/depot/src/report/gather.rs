//! What a page tells: every message of a folder, and what both programs say of it.

use std::path::Path;

use super::{Found, Gathered, Item, Said};
use crate::folder::{Content, Folder};
use crate::form::Kind;
use crate::program::{Answer, CannotRun, Program};
use crate::words::{self, ReadAs};

/// The proved program and the second one for the same messages.
struct Pair([Program; 2]);

impl Pair {
    fn run(&self, message: &[u8]) -> Result<[Answer; 2], CannotRun> {
        let [proved, second] = &self.0;
        Ok([proved.run(message)?, second.run(message)?])
    }
}

/// The programs that messages go through.
pub struct Programs {
    ntlm: Pair,
    nl_auth: Pair,
    explain: Pair,
    import: Pair,
}

impl Programs {
    /// The programs at these paths.
    pub fn new([ntlm, nl_auth, explain, second, linked]: [&Path; 5]) -> Self {
        let none: [&str; 0] = [];
        let one_line =
            |proved, word| Pair([Program::new(proved, &none), Program::new(second, &[word])]);
        Self {
            ntlm: one_line(ntlm, "ntlm"),
            nl_auth: one_line(nl_auth, "nl"),
            explain: Pair([
                Program::of_lines(explain, &none),
                Program::of_lines(second, &["explain"]),
            ]),
            import: Pair([
                Program::new(linked, &["import"]),
                Program::new(second, &["import"]),
            ]),
        }
    }

    /// What is said of a message. One whose beginning is of no kind is read as both.
    fn said(&self, message: &[u8]) -> Result<Vec<Said>, CannotRun> {
        let kind = Kind::of(message);
        let mut said = Vec::new();
        if kind != Kind::NlAuth {
            let [proved, second] = self.ntlm.run(message)?;
            let checks = if proved.is_by_a_check() {
                Some(self.explain.run(message)?)
            } else {
                None
            };
            said.push(Said {
                read_as: ReadAs::Ntlm,
                proved,
                second,
                checks,
            });
        }
        if kind != Kind::Ntlm {
            let [proved, second] = self.nl_auth.run(message)?;
            said.push(Said {
                read_as: ReadAs::NlAuth,
                proved,
                second,
                checks: None,
            });
        }
        Ok(said)
    }

    /// What a header line's text carries. Nothing of what both import is shown.
    fn carried(&self, text: &[u8]) -> Result<Found, CannotRun> {
        let [proved, second] = self.import.run(text)?;
        if let (Some(bytes), true) = (imported(&proved), proved.is_same(&second)) {
            let said = self.said(&bytes)?;
            return Ok(Found::Message { bytes, said });
        }
        let number = refusal(&proved);
        Ok(Found::NotImported {
            characters: text.len(),
            same: proved.is_same(&second) && proved.is_refusal(),
            words: number.and_then(|number| words::of(number, ReadAs::HeaderText, text)),
            proved: without_message(&proved),
            second: without_message(&second),
        })
    }
}

/// What a page tells, in the order of the files' names.
pub fn all(folder: &Folder, programs: &Programs) -> Result<Gathered, CannotRun> {
    let mut gathered = Gathered::default();
    let items = &mut gathered.items;
    for file in &folder.messages {
        let item = |line, form: &str, found| Item {
            file: file.name.clone(),
            line,
            form: form.to_owned(),
            found,
        };
        match file.read_all() {
            Ok(Content::Message(form, bytes)) => {
                let said = programs.said(&bytes)?;
                let found = Found::Message { bytes, said };
                items.push(item(None, &form.to_string(), found));
            }
            Ok(Content::HeaderTexts(texts, others)) => {
                gathered.passed_over.extend(file.told_other_lines(others));
                for (line, text) in &texts {
                    let found = programs.carried(text)?;
                    items.push(item(Some(*line), "header line", found));
                }
            }
            Err(why) => items.push(item(None, "", Found::NotRead(why.to_string()))),
        }
    }
    Ok(gathered)
}

/// The message that an import printed in hex; none where it is refused.
fn imported(answer: &Answer) -> Option<Vec<u8>> {
    let Answer::Printed(line) = answer else {
        return None;
    };
    let (pairs, odd) = line.strip_suffix(b"\n")?.as_chunks::<2>();
    let value = |digit: u8| char::from(digit).to_digit(16);
    let byte = |&[high, low]: &[u8; 2]| u8::try_from(value(high)? << 4 | value(low)?).ok();
    let bytes: Option<Vec<u8>> = pairs.iter().map(byte).collect();
    bytes.filter(|_| odd.is_empty())
}

fn refusal(answer: &Answer) -> Option<u8> {
    match answer {
        Answer::Printed(line) => words::number_of(line),
        Answer::Fault(_) => None,
    }
}

/// What an import gave, without the message.
fn without_message(answer: &Answer) -> String {
    match (answer, imported(answer)) {
        (_, Some(message)) => format!("a message of {} bytes", message.len()),
        (Answer::Printed(_), None) if !answer.is_refusal() => {
            "[the program printed neither a message nor a refusal]".to_owned()
        }
        _ => answer.to_string(),
    }
}
