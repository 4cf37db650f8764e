//! A run finds the same by any number of threads.

use std::io::sink;
use std::num::NonZero;

use super::super::call::{refusal, Call};
use super::super::chunks::{Found, Plan, Until};
use super::super::hold::Library;
use super::super::second;
use super::captured;

/// What so many threads find.
fn found(library: impl Library + Sync, given: &[Vec<u8>], until: Until, threads: usize) -> Found {
    let plan = Plan {
        seed: 9,
        given,
        captured: &captured(),
        until,
        chunk: 20,
        threads: NonZero::new(threads).expect("a thread"),
    };
    plan.run(library, &mut sink())
}

/// All of it as text.
fn shown(found: &Found) -> String {
    let Found {
        cases,
        failed,
        tally,
        different,
        ..
    } = found;
    let texts: Vec<_> = found.differences().collect();
    format!("{cases} cases, {failed} failed, {different} differ\n{tally}{texts:?}")
}

/// A library that differs in some cases of each chunk.
fn faulty(call: &Call<'_>, out: &mut [u8], numbers: &mut [u64]) -> u64 {
    let answer = second(call, out, numbers);
    match call {
        Call::ReadTimestamp { message } if message.len() % 16 == 3 => answer ^ 1,
        _ => answer,
    }
}

/// So many short messages.
fn short(len: usize) -> Vec<Vec<u8>> {
    (0..len).map(|at| vec![7; at % 40]).collect()
}

#[test]
fn one_thread_and_three_find_the_same() {
    // Three chunks that are given and five that are drawn.
    let given = short(42);
    let one = found(faulty, &given, Until::Drawn(81), 1);
    let three = found(faulty, &given, Until::Drawn(81), 3);
    assert_eq!(one.cases, 123);
    assert!(one.failed > 3 && one.different >= one.failed);
    assert_eq!(shown(&one), shown(&three));
}

#[test]
fn a_run_up_to_so_many_calls_ends_with_a_whole_chunk() {
    let given = short(10);
    let ended = |calls, threads| found(second, &given, Until::Calls(calls), threads);
    // Those that are given are always held.
    let least = ended(0, 3);
    assert_eq!((least.cases, least.failed), (10, 0));
    let held = least.tally.calls();
    let more = ended(held + 1, 3);
    assert_eq!(more.cases, 30);
    assert_eq!(shown(&more), shown(&ended(more.tally.calls(), 1)));
    let most = ended(more.tally.calls() + 1, 3);
    assert_eq!(most.cases, 50);
}

#[test]
fn no_case_and_one_case_are_runs_too() {
    let none = found(second, &[], Until::Drawn(0), 3);
    assert_eq!((none.cases, none.tally.calls()), (0, 0));
    let one = found(second, &[], Until::Drawn(1), 3);
    assert_eq!((one.cases, one.failed), (1, 0));
    assert!(one.tally.calls() > 100);
}

/// The texts stay few, and are those of the shortest calls, however many differ.
#[test]
fn differences_are_counted_and_the_shortest_are_kept() {
    let refuses_all = |call: &Call<'_>, out: &mut [u8], numbers: &mut [u64]| {
        let answer = second(call, out, numbers);
        match call {
            Call::CheckPairs { .. } if refusal(answer).is_none() => 1 << 63 | 10 << 8 | 2,
            Call::CheckPairs { .. } => 0,
            _ => answer,
        }
    };
    let given = short(300);
    let found = found(refuses_all, &given, Until::Drawn(0), 2);
    assert_eq!(found.failed, 300);
    // Each is held at two rooms.
    assert_eq!(found.different, 600);
    let sizes: Vec<usize> = found.differences().map(|(size, _)| size).collect();
    assert_eq!(sizes.len(), 500);
    assert!(sizes.is_sorted());
}
