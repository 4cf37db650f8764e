//! The library and the second reader fuzzed together, guided by the edges of both, which
//! tools/fuzz builds instrumented, with libFuzzer's runtime.
//!
//!     guided run FOUND WORD..    libFuzzer with these words. At the first difference the
//!                                input goes to the folder FOUND, and one line tells of it
//!     guided choose INPUTS..     of these inputs as few as show all their edges, about as
//!                                often, and all answers of each call, as text
//!     guided edges INPUTS..      every edge: its place in the program, and whether these
//!                                inputs reach it

mod compared;
mod edges;
mod runtime;

use std::cell::RefCell;
use std::collections::HashMap;
use std::env;
use std::ffi::OsString;
use std::io::{self, Write};
use std::process::ExitCode;

use compare::command::fail;
use compare::wide::call::{refusal, Call};
use compare::wide::hold::Library;
use fuzz::calls::Calls;
use fuzz::corpus::{self, packed, Named};

const USAGE: &str =
    "usage: guided run FOUND WORD.. | guided choose INPUTS.. | guided edges INPUTS..";

/// The library; with the feature `planted`, with the fault that PLANTED names.
fn library() -> impl Library {
    #[cfg(feature = "planted")]
    return planted::planted(
        env::var("PLANTED").ok().as_deref(),
        compare::wide::library::library,
    );
    #[cfg(not(feature = "planted"))]
    compare::wide::library::library
}

fn main() -> ExitCode {
    let args: Vec<OsString> = env::args_os().collect();
    let command = args.get(1).map(|word| word.as_encoded_bytes());
    match (command, args.get(2..)) {
        (Some(b"run"), Some([found, words @ ..])) => runtime::run(found.as_ref(), &args[0], words),
        (Some(b"choose"), Some(paths @ [_, ..])) => told(paths, |inputs, out| {
            out.write_all(packed(choose(inputs)).as_bytes())
        }),
        (Some(b"edges"), Some(paths @ [_, ..])) => told(paths, tell_edges),
        _ => fail(2, &USAGE),
    }
}

/// Prints what is to be told of inputs.
fn told(
    paths: &[OsString],
    tell: impl FnOnce(Vec<Named>, &mut dyn Write) -> io::Result<()>,
) -> ExitCode {
    let mut inputs = Vec::new();
    for path in paths {
        match corpus::read(path.as_ref()) {
            Ok(more) => inputs.extend(more),
            Err(error) => return fail(1, &error),
        }
    }
    let mut out = io::BufWriter::new(io::stdout().lock());
    match tell(inputs, &mut out).and_then(|()| out.flush()) {
        Ok(()) => ExitCode::SUCCESS,
        Err(error) => fail(1, &error),
    }
}

/// What an input shows: an edge with how often it was taken, or behind the edges a call
/// with its refusal.
type Shown = (usize, u16);

/// Of inputs as few as show all that they show together, short ones first: each that shows
/// something which none before it does, and of these, from the last on, those without
/// which something would be lost.
fn choose(mut inputs: Vec<Named>) -> Vec<Named> {
    inputs.sort_by_key(|named| named.input.len());
    let answers = RefCell::new(Vec::new());
    let library = library();
    let mut calls = Calls::new(|call: &Call<'_>, out: &mut [u8], numbers: &mut [u64]| {
        let answer = library(call, out, numbers);
        let refusal =
            refusal(answer).map_or(0, |(number, field)| u16::from_le_bytes([field, number]));
        answers
            .borrow_mut()
            .push((edges::count() + call.index(), refusal));
        answer
    });
    let mut times: HashMap<Shown, usize> = HashMap::new();
    let mut kept = Vec::new();
    for named in inputs {
        let edges = edges::reached(|| calls.hold_input(&named.input)).into_iter();
        let mut shown: Vec<Shown> = edges.map(|(edge, often)| (edge, often.into())).collect();
        shown.append(&mut answers.borrow_mut());
        shown.sort_unstable();
        shown.dedup();
        if shown.iter().any(|one| !times.contains_key(one)) {
            for &one in &shown {
                *times.entry(one).or_default() += 1;
            }
            kept.push((Named::new(named.input), shown));
        }
    }
    kept.reverse();
    kept.retain(|(_, shown)| {
        let needed = shown.iter().any(|one| times[one] == 1);
        for one in shown.iter().filter(|_| !needed) {
            *times.get_mut(one).expect("counted") -= 1;
        }
        needed
    });
    kept.into_iter().map(|(named, _)| named).collect()
}

/// Tells every edge by its place in the program, in the order of the places, with 1
/// where it is reached and 0 where not.
fn tell_edges(inputs: Vec<Named>, out: &mut dyn Write) -> io::Result<()> {
    let mut calls = Calls::new(library());
    let mut hit = vec![false; edges::count()];
    for named in &inputs {
        for (edge, _) in edges::reached(|| calls.hold_input(&named.input)) {
            hit[edge] = true;
        }
    }
    let mut all: Vec<(usize, bool)> = edges::places().into_iter().zip(hit).collect();
    all.sort_unstable();
    for (place, hit) in all {
        writeln!(out, "{place:016x} {}", u8::from(hit))?;
    }
    Ok(())
}
