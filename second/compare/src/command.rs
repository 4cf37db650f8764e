//! What the two programs of this package share: the words that they are called
//! with, and how they end.

use std::ffi::OsStr;
use std::fmt;
use std::io::{self, Write};
use std::process::ExitCode;

/// What a program says to a seed or a count that is none.
pub const NOT_NUMBERS: &str = "SEED and N are whole numbers, as in make compare SEED=7 N=1000";

/// The seed, and how many cases are drawn.
pub fn seed_and_count(seed: &OsStr, drawn: &OsStr) -> Option<(u64, usize)> {
    let seed = seed.to_str()?.parse().ok()?;
    let drawn = drawn.to_str()?.parse().ok()?;
    Some((seed, drawn))
}

/// One plain line on standard error, and the count that is always last.
pub fn fail(status: u8, message: &dyn fmt::Display) -> ExitCode {
    // Where these can't be printed, the status still tells.
    let _ = writeln!(io::stderr(), "{message}");
    let _ = writeln!(io::stdout(), "0 passed, 1 failed");
    ExitCode::from(status)
}

/// Prints a report to standard output: `print` gives how many failed.
pub fn finish(print: impl FnOnce(&mut dyn Write) -> io::Result<usize>) -> ExitCode {
    let mut out = io::BufWriter::new(io::stdout().lock());
    let printed = print(&mut out).and_then(|failed| out.flush().map(|()| failed));
    match printed {
        Ok(0) => ExitCode::SUCCESS,
        Ok(_) => ExitCode::FAILURE,
        Err(error) => fail(
            1,
            &format_args!("what was found can't be printed ({error}): give it an output with room"),
        ),
    }
}
