//! How both comparisons report what they found.

use std::fmt;
use std::io::{self, Write};

/// How many differences are printed whole. A message may be 66,000 bytes, and
/// a broken program differs on all of them.
const SHOWN: usize = 20;

/// Prints the shortest of the differences, which are the easiest to look into,
/// and how many more there are: each comes with its size, and `all` counts also
/// those that are not among them.
pub fn print_differences<D: fmt::Display>(
    mut differences: Vec<(usize, D)>,
    all: usize,
    out: &mut impl Write,
) -> io::Result<()> {
    differences.sort_by_key(|(size, _)| *size);
    for (_, difference) in differences.iter().take(SHOWN) {
        writeln!(out, "{difference}")?;
    }
    if all > SHOWN {
        writeln!(out, "and {} more that differ", all - SHOWN)?;
    }
    Ok(())
}

/// Prints what was missed and last 'N passed, M failed', and gives M: each case
/// is one test, and all that was missed are tests that failed.
pub fn print_counts(
    cases: usize,
    failed: usize,
    missed: &[String],
    out: &mut impl Write,
) -> io::Result<usize> {
    for missed in missed {
        writeln!(out, "{missed}")?;
    }
    let passed = cases - failed;
    let failed = failed + missed.len();
    writeln!(out, "{passed} passed, {failed} failed")?;
    Ok(failed)
}
