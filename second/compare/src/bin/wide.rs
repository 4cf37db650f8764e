//! Holds every call of the proved library, linked in, against the reader.

use std::env;
use std::io::{self, Write};
use std::path::Path;
use std::process::ExitCode;

use compare::captured;
use compare::command::{fail, finish, seed_and_count};
use compare::wide::fault::watch;
use compare::wide::library::library;
use compare::wide::{run, Until};

const USAGE: &str = "usage: wide MESSAGES SEED N, or wide MESSAGES SEED calls CALLS";
const NOT_NUMBERS: &str =
    "SEED, N and CALLS are whole numbers, as in make wide SEED=7 N=1000 or CALLS=1000000";

fn main() -> ExitCode {
    depot::plain_end::set();
    let args: Vec<_> = env::args_os().skip(1).collect();
    let (folder, seed, count, calls) = match args.as_slice() {
        [folder, seed, drawn] => (folder, seed, drawn, false),
        [folder, seed, word, calls] if word == "calls" => (folder, seed, calls, true),
        _ => return fail(2, &USAGE),
    };
    let Some((seed, count)) = seed_and_count(seed, count) else {
        return fail(2, &NOT_NUMBERS);
    };
    let until = match calls {
        false => Until::Drawn(count),
        true => Until::Calls(count as u64),
    };
    let captured = match captured::messages(Path::new(folder)) {
        Ok(captured) => captured
            .into_iter()
            .map(|each| each.message)
            .collect::<Vec<_>>(),
        Err(error) => return fail(1, &error),
    };
    watch(faulted);
    let report = run(library, seed, until, &captured, &mut io::stderr());
    finish(|mut out| report.print(&mut out))
}

/// A fault of the library is all that is said, and one that failed.
fn faulted(text: &str) {
    let _ = writeln!(io::stdout(), "{text}\n0 passed, 1 failed");
}
