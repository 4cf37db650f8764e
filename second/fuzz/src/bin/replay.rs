//! Replays inputs on the library that is linked in, as it is shipped.
//!
//!     replay INPUTS..                 texts of inputs, folders of them, or files
//!     replay --show INPUT             one input, with all that differed in a file beside it
//!     replay --seeds MESSAGES TEXT OUT   the seeds of a folder of messages and the inputs of a
//!                                 text, where it is there, to a folder

use std::cell::RefCell;
use std::env;
use std::ffi::OsString;
use std::fs;
use std::io::{self, Write};
use std::path::Path;
use std::process::ExitCode;

use compare::command::{fail, finish};
use compare::wide::fault::{watch, without_bytes};
use compare::wide::library::library;
use fuzz::calls::Calls;
use fuzz::corpus::{self, Named};
use fuzz::replay::replay;
use fuzz::seeds::Messages;

const USAGE: &str =
    "usage: replay INPUTS.. | replay --show INPUT | replay --seeds MESSAGES TEXT OUT";

fn main() -> ExitCode {
    depot::plain_end::set();
    let args: Vec<OsString> = env::args_os().skip(1).collect();
    let first = args.first().map(|word| word.as_encoded_bytes());
    match (first, &args[..]) {
        (Some(b"--show"), [_, input]) => show(input.as_ref()),
        (Some(b"--seeds"), [_, messages, text, out]) => {
            seeds(messages.as_ref(), text.as_ref(), out.as_ref())
        }
        (Some([b'-', ..]) | None, _) => fail(2, &USAGE),
        _ => replay_all(&args),
    }
}

fn replay_all(paths: &[OsString]) -> ExitCode {
    let mut inputs = Vec::new();
    for path in paths {
        match corpus::read(path.as_ref()) {
            Ok(more) => inputs.extend(more),
            Err(error) => return fail(1, &error),
        }
    }
    if inputs.is_empty() {
        return fail(1, &"there is no input to replay");
    }
    watch(faulted);
    let replay = replay(library, &inputs, |name| AT.set(name.to_owned()));
    finish(|mut out| replay.print(&mut out))
}

thread_local! {
    /// The name of the input whose calls are made.
    static AT: RefCell<String> = const { RefCell::new(String::new()) };
}

/// A fault of the library ends the replay. One line tells the input, without its bytes.
fn faulted(text: &str) {
    let name = AT.with_borrow(Clone::clone);
    let line = format!("different: {name}: {}", without_bytes(text));
    let _ = writeln!(io::stdout(), "{line}\n0 passed, 1 failed");
}

/// Tells what differs in one input in a line for each call. All of it, with the
/// message's bytes, goes to a file beside the input that its owner alone may read.
fn show(path: &Path) -> ExitCode {
    let inputs = match corpus::read(path) {
        Ok(inputs) => inputs,
        Err(error) => return fail(1, &error),
    };
    let [Named { input, .. }] = &inputs[..] else {
        return fail(2, &USAGE);
    };
    AT.set(depot::folder::printable(path));
    watch(faulted);
    let mut calls = Calls::new(library);
    calls.hold_input(input);
    let differences = &calls.holder.differences;
    let whole: String = differences
        .iter()
        .map(|one| format!("{}\n", one.text))
        .collect();
    let shown = path.with_extension("shown");
    if !differences.is_empty() {
        if let Err(error) = depot::secret_file::write(&shown, path, whole.as_bytes()) {
            return fail(1, &error);
        }
    }
    finish(|out| {
        for one in differences {
            writeln!(out, "different: {}", one.brief)?;
        }
        match differences.len() {
            0 => writeln!(out, "nothing differs\n1 passed, 0 failed")?,
            _ => writeln!(
                out,
                "with all bytes: {}\n0 passed, 1 failed",
                shown.display()
            )?,
        }
        Ok(differences.len())
    })
}

/// Writes the seeds of a folder of messages, and those of a text, a file each.
fn seeds(messages: &Path, text: &Path, out: &Path) -> ExitCode {
    let written = Messages::read(messages).and_then(|messages| {
        let mut seeds: Vec<Named> = messages.seeds().into_iter().map(Named::new).collect();
        if text.exists() {
            seeds.extend(corpus::read(text)?);
        }
        let failed = |error| format!("{} can't be written: {error}", out.display());
        fs::create_dir_all(out).map_err(failed)?;
        for Named { name, input } in seeds {
            fs::write(out.join(name), input).map_err(failed)?;
        }
        Ok(())
    });
    match written {
        Ok(()) => ExitCode::SUCCESS,
        Err(error) => fail(1, &error),
    }
}
