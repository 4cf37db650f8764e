//! Holds the three proved programs against the reader on messages from a seed.

#![forbid(unsafe_code)]

use std::env;
use std::path::Path;
use std::process::ExitCode;
use std::thread;

use compare::command::{fail, finish, seed_and_count, NOT_NUMBERS};
use compare::{cases, compare};
use depot::program::Program;

const USAGE: &str = "usage: compare NTLM_LINE NL_AUTH_LINE NTLM_EXPLAIN SEED N";

/// More threads than processors would only wait for each other.
const MAX_THREADS: usize = 4;

fn main() -> ExitCode {
    depot::plain_end::set();
    let args: Vec<_> = env::args_os().skip(1).collect();
    let [ntlm, nl_auth, explain, seed, drawn] = args.as_slice() else {
        return fail(2, &USAGE);
    };
    let Some((seed, drawn)) = seed_and_count(seed, drawn) else {
        return fail(2, &NOT_NUMBERS);
    };
    let no_words: [&str; 0] = [];
    let ntlm = Program::new(Path::new(ntlm), &no_words);
    let nl_auth = Program::new(Path::new(nl_auth), &no_words);
    let explain = Program::of_lines(Path::new(explain), &no_words);

    let cases = cases(seed, drawn);
    let threads = thread::available_parallelism().map_or(1, |many| many.get().min(MAX_THREADS));
    let report = compare(&cases, threads, |case| {
        let program = match case.program {
            reader::Program::Ntlm => &ntlm,
            reader::Program::NlAuth => &nl_auth,
            reader::Program::Explain => &explain,
        };
        program.run(&case.message)
    });
    match report {
        Ok(report) => finish(|mut out| report.print(seed, &cases, &mut out)),
        Err(cannot_run) => fail(1, &cannot_run),
    }
}
