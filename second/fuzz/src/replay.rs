//! Inputs replayed: the calls of each, once.

use std::io::{self, Write};

use compare::wide::hold::{Difference, Library};

use crate::calls::Calls;
use crate::corpus::Named;

/// What a replay found.
pub struct Replay {
    /// How many inputs were replayed.
    pub inputs: usize,
    /// How many calls were held.
    pub calls: u64,
    /// The names of the inputs that differed, each with its first difference.
    pub different: Vec<(String, Difference)>,
}

/// Replays inputs on a library. `at` is given the name of each before its calls are made.
pub fn replay<'a>(
    library: impl Library,
    inputs: &'a [Named],
    mut at: impl FnMut(&'a str),
) -> Replay {
    let mut calls = Calls::new(library);
    let (mut held, mut different) = (0, Vec::new());
    for Named { name, input } in inputs {
        at(name);
        calls.hold_input(input);
        // Taken after each input: the holder keeps only so many differences.
        let (tally, differences, _) = calls.holder.take();
        held += tally.calls();
        different.extend(
            differences
                .into_iter()
                .take(1)
                .map(|one| (name.clone(), one)),
        );
    }
    Replay {
        inputs: inputs.len(),
        calls: held,
        different,
    }
}

impl Replay {
    /// Prints a line for each input that differed, and last 'N passed, M failed'. Where no
    /// call was held, nothing has passed.
    pub fn print(&self, out: &mut impl Write) -> io::Result<usize> {
        for (name, difference) in &self.different {
            writeln!(out, "different: {name}: {}", difference.brief)?;
        }
        writeln!(out, "{} inputs, {} calls held", self.inputs, self.calls)?;
        let (passed, failed) = match (self.calls, self.different.len()) {
            (0, _) => (0, 1),
            (_, failed) => (self.inputs - failed, failed),
        };
        writeln!(out, "{passed} passed, {failed} failed")?;
        Ok(failed)
    }
}

#[cfg(test)]
mod tests {
    use std::cell::RefCell;
    use std::path::Path;

    use compare::wide::call::{refusal, refused_at, Call, NAMES};
    use compare::wide::second;

    use super::replay;
    use crate::corpus::{packed, read, unpacked, Named};
    use crate::input::{split, Group};

    /// What the fuzzer chose, which `make test` replays.
    fn fixed() -> Vec<Named> {
        let text = "../../tests/fuzz/corpus.txt";
        read(&Path::new(env!("CARGO_MANIFEST_DIR")).join(text)).expect("inputs")
    }

    #[test]
    fn the_text_is_in_order_and_small() {
        let inputs = fixed();
        let text = packed(inputs.clone());
        assert_eq!(unpacked(&text).as_ref(), Ok(&inputs));
        assert!(text.len() <= 300_000, "{} bytes", text.len());
        for group in Group::ALL {
            let of =
                |named: &Named| split(&named.input).is_some_and(|(head, _)| head.group == group);
            assert!(inputs.iter().any(of), "{}", group.name());
        }
        for named in inputs {
            assert_eq!(Named::new(named.input.clone()), named);
        }
    }

    /// Every call is made, and answered and refused where it can be.
    #[test]
    fn every_call_is_reached() {
        let reached = RefCell::new([[0; 2]; NAMES.len()]);
        let library = |call: &Call<'_>, out: &mut [u8], numbers: &mut [u64]| {
            let answer = second(call, out, numbers);
            reached.borrow_mut()[call.index()][usize::from(refusal(answer).is_some())] += 1;
            answer
        };
        let inputs = fixed();
        let replay = replay(library, &inputs, |_| ());
        assert!(replay.different.is_empty());
        assert_eq!(replay.inputs, inputs.len());
        for (name, [answered, refused]) in NAMES.iter().zip(reached.into_inner()) {
            assert!(answered > 0, "{name} isn't answered");
            assert!(refused > 0, "{name} isn't refused");
        }
    }

    /// A fault in what a call gave: the call, its answer, its bytes and its numbers.
    type Fault = fn(&Call<'_>, &mut u64, &mut [u8], &mut [u64]);

    /// Faults that a library might have, each of which the inputs must show.
    const FAULTS: [(&str, Fault); 9] = [
        ("a MaxLen", |call, answer, _, numbers| {
            if matches!(call, Call::ReadChallenge { .. }) && refusal(*answer).is_none() {
                numbers[6] = numbers[4];
            }
        }),
        ("a place of a bad pair", |_, answer, _, _| {
            if let Some((13, field)) = refusal(*answer) {
                *answer = refused_at(13, field, 0);
            }
        }),
        ("16 jumps", |call, answer, _, _| {
            if let (Call::ReadNlAuth { .. }, Some((52, field))) = (call, refusal(*answer)) {
                *answer = refused_at(51, field, 0);
            }
        }),
        ("a line's last byte", |call, answer, out, _| {
            if let (Call::Line { .. }, None, Some(len)) =
                (call, refusal(*answer), (*answer as usize).checked_sub(1))
            {
                out[len] ^= 1;
            }
        }),
        ("a byte changed by a refusal", |_, answer, out, _| {
            if let (Some((33, _)), Some(byte)) = (refusal(*answer), out.first_mut()) {
                *byte ^= 1;
            }
        }),
        ("a MIC that is nearly right", |call, answer, _, _| {
            if let (Call::CheckMic { .. }, 0) = (call, *answer) {
                *answer = 1;
            }
        }),
        ("the last entry of a night", |call, answer, _, numbers| {
            if let (Call::CheckMessages { .. }, None, Some(last)) =
                (call, refusal(*answer), numbers.last_mut())
            {
                *last ^= 1 << 32;
            }
        }),
        ("a text that is no base64", |_, answer, _, _| {
            if let Some((58, field)) = refusal(*answer) {
                *answer = refused_at(57, field, 0);
            }
        }),
        ("a time", |call, answer, _, numbers| {
            if matches!(call, Call::Respond { .. }) && refusal(*answer).is_none() {
                numbers[0] ^= 1 << 63;
            }
        }),
    ];

    #[test]
    fn a_planted_difference_is_found() {
        let inputs = fixed();
        for (name, fault) in FAULTS {
            let library = |call: &Call<'_>, out: &mut [u8], numbers: &mut [u64]| {
                let mut answer = second(call, out, numbers);
                fault(call, &mut answer, out, numbers);
                answer
            };
            let replay = replay(library, &inputs, |_| ());
            assert!(!replay.different.is_empty(), "{name} isn't found");
            let mut printed = Vec::new();
            let failed = replay.print(&mut printed).expect("memory");
            let printed = String::from_utf8(printed).expect("text");
            let passed = inputs.len() - failed;
            assert_eq!(failed, replay.different.len());
            assert!(printed.ends_with(&format!("\n{passed} passed, {failed} failed\n")));
            // One line for each input, and none of its bytes.
            assert_eq!(printed.lines().count(), failed + 2);
            assert!(printed.lines().all(|line| line.len() < 200), "{printed}");
        }
    }
    /// More differences than a holder keeps: each input is still counted.
    #[test]
    fn every_input_that_differs_is_counted() {
        let inputs = fixed();
        let replay = replay(|_, _, _| u64::MAX, &inputs, |_| ());
        assert_eq!(replay.different.len(), inputs.len());
        let names = replay.different.iter().map(|(name, _)| name);
        assert!(names.eq(inputs.iter().map(|named| &named.name)));
    }

    #[test]
    fn a_replay_without_calls_fails() {
        let inputs = [Named::new(vec![0; 7])];
        let replay = replay(second, &inputs, |_| ());
        let mut printed = Vec::new();
        assert_eq!(replay.print(&mut printed).expect("memory"), 1);
        assert_eq!(printed, b"1 inputs, 0 calls held\n0 passed, 1 failed\n");
    }
}
