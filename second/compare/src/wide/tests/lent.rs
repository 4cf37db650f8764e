//! A library that touches what it is not lent. At a closed page it ends the process,
//! so that each such fault is tried in a process of its own.

#![allow(unsafe_code)]

use std::cell::RefCell;
use std::collections::{BTreeMap, BTreeSet};
use std::env;
use std::process::Command;

use super::super::call::{Call, NAMES};
use super::super::fault::watch;
use super::super::given::MOST_INPUTS;
use super::super::hold::{Holder, Lent, Library};
use super::super::memory::{Side, Sides};
use super::super::{second, Run};
use super::captured;
use crate::random::Random;

/// What the process of a fault is told: which fault, and on which side it is lent.
const FAULT: &str = "DIALTABLE_PLANTED_FAULT";
const SIDE: &str = "DIALTABLE_LENT_SIDE";

/// Faults by their name, with what must be said at the page after and at that before.
const FAULTS: [(&str, Option<&str>, Option<&str>); 10] = [
    ("none", None, None),
    ("read after", Some("at byte 1 after message"), None),
    ("read before", None, Some("at byte 1 before message")),
    ("write after", Some("at byte 1 after the output"), None),
    ("write before", None, Some("at byte 1 before the output")),
    ("number after", Some("at byte 1 after the numbers"), None),
    ("number before", None, Some("at byte 8 before the numbers")),
    ("empty read after", Some("at byte 1 after message"), None),
    ("far after", Some("at byte 4096 after message"), None),
    (
        "nowhere",
        Some("far from what is lent"),
        Some("far from what is lent"),
    ),
];

const MESSAGE: &[u8] = b"NTLMSSP\0\x03";

/// The second reader with a fault.
fn faulty(fault: &str, call: &Call<'_>, out: &mut [u8], numbers: &mut [u64]) -> u64 {
    let answer = second(call, out, numbers);
    let message = call.inputs()[0].1;
    let (out, numbers) = (out.as_mut_ptr_range(), numbers.as_mut_ptr_range());
    // It is what is tried: nothing of this is lent.
    unsafe {
        match fault {
            "read after" => drop(message.as_ptr_range().end.read_volatile()),
            "read before" => drop(message.as_ptr().wrapping_sub(1).read_volatile()),
            "write after" => out.end.write_volatile(1),
            "write before" => out.start.wrapping_sub(1).write_volatile(1),
            "number after" => numbers.end.write_volatile(1),
            "number before" => numbers.start.wrapping_sub(1).write_volatile(1),
            "far after" => drop(
                message
                    .as_ptr_range()
                    .end
                    .wrapping_add(4095)
                    .read_volatile(),
            ),
            "nowhere" => drop(std::ptr::without_provenance::<u8>(64).read_volatile()),
            _ => {}
        }
    }
    answer
}

/// Holds one call, on one side, and gives what differs.
fn differences(fault: &str, side: Side, message: &[u8]) -> Vec<String> {
    let library =
        |call: &Call<'_>, out: &mut [u8], numbers: &mut [u64]| faulty(fault, call, out, numbers);
    let mut holder = Holder::new(library, &mut Random::new(3));
    holder.sides = Sides::All(side);
    let lent = Lent {
        room: 16,
        numbers: 20,
    };
    holder.hold(&Call::ReadAuthenticate { message }, lent);
    let differences = holder.differences.into_iter();
    differences.map(|difference| difference.text).collect()
}

#[test]
#[ignore = "a process of its own for the tests below"]
fn faulting() {
    let Ok(fault) = env::var(FAULT) else {
        return;
    };
    let side = match env::var(SIDE).as_deref() {
        Ok("before") => Side::Before,
        _ => Side::After,
    };
    watch(|text| println!("\n{text}"));
    let (fault, message) = match fault.strip_prefix("empty ") {
        Some(fault) => (fault, &[][..]),
        None => (fault.as_str(), MESSAGE),
    };
    let differ = differences(fault, side, message);
    println!("\nheld, {} differ", differ.len());
}

/// What the process of a fault says, and its status.
fn process(fault: &str, side: &str) -> (Option<i32>, String) {
    let program = env::current_exe().expect("this program");
    let output = Command::new(program)
        .args(["--ignored", "--exact", "wide::tests::lent::faulting"])
        .args(["--nocapture", "--test-threads=1"])
        .envs([(FAULT, fault), (SIDE, side)])
        .output()
        .expect("it runs");
    let out = String::from_utf8(output.stdout).expect("text");
    (output.status.code(), out)
}

#[test]
fn what_touches_a_closed_page_is_told_and_ends() {
    for (fault, after, before) in FAULTS {
        for (side, told) in [("after", after), ("before", before)] {
            let (status, out) = process(fault, side);
            let Some(told) = told else {
                assert_eq!(status, Some(0), "{fault}, {side}: {out}");
                assert!(out.contains("\nheld, "), "{fault}, {side}: {out}");
                continue;
            };
            let message = match fault.starts_with("empty ") {
                true => "",
                false => "4E544C4D5353500003",
            };
            let line = format!(
                "\nFAULT {told}: read_authenticate message={message}; lent: 16 bytes, 20 numbers\n"
            );
            assert!(out.contains(&line), "{fault}, {side}: {out}");
            assert_eq!(status, Some(1), "{fault}, {side}");
        }
    }
}

#[test]
fn what_is_written_beside_the_output_is_found() {
    for (fault, side) in [
        ("write after", Side::Before),
        ("write before", Side::After),
        ("number after", Side::Before),
        ("number before", Side::After),
    ] {
        let differ = differences(fault, side, MESSAGE);
        let start = "WROTE BESIDE ITS OUTPUT: read_authenticate message=4E54";
        assert!(differ[0].starts_with(start), "{fault}: {differ:?}");
    }
    for side in [Side::Before, Side::After] {
        assert!(differences("none", side, MESSAGE).is_empty());
    }
}

/// Where two calls are held against each other, each by itself is looked at too.
#[test]
fn what_is_changed_by_one_of_two_calls_is_found() {
    let other = &[7; 9][..];
    let found = |fault: fn(&Call<'_>, &mut [u64])| {
        let library = |call: &Call<'_>, out: &mut [u8], numbers: &mut [u64]| {
            if let Call::ReadAuthenticate { message } = call {
                if *message == other {
                    fault(call, numbers);
                }
            }
            second(call, out, numbers)
        };
        let mut holder = Holder::new(library, &mut Random::new(3));
        holder.sides = Sides::All(Side::Before);
        let calls = [MESSAGE, other].map(|message| Call::ReadAuthenticate { message });
        let lent = Lent {
            room: 16,
            numbers: 20,
        };
        holder.hold_alike(&calls[0], &calls[1], lent, |_| Vec::new());
        holder.differences.swap_remove(0).text
    };
    // It is what is tried: the memory can be written.
    let beside = found(|_, numbers| unsafe { numbers.as_mut_ptr_range().end.write_volatile(1) });
    assert!(beside.starts_with("WROTE BESIDE ITS OUTPUT: read_authenticate message=0707"));
    let input = found(|call, _| unsafe {
        call.inputs()[0].1.as_ptr().cast_mut().write_volatile(8);
    });
    assert!(input.starts_with("INPUT CHANGED: read_authenticate message=0707"));
}

/// The smallest page.
const PAGE: usize = 4096;

/// A case of each message with what is lent all on one side.
fn run(library: impl Library, side: Side) -> Holder<impl Library> {
    let mut run = Run::new(library, 7);
    run.holder.sides = Sides::All(side);
    for message in captured() {
        run.case(&message);
    }
    run.holder
}

#[test]
fn every_buffer_of_every_call_lies_against_a_page() {
    for side in [Side::Before, Side::After] {
        let edge = |start: usize, len: usize| match side {
            Side::Before => start,
            Side::After => start + len,
        };
        let made = RefCell::new(BTreeSet::new());
        let at_edge = |call: &Call<'_>, out: &mut [u8], numbers: &mut [u64]| {
            for (name, bytes) in call.inputs() {
                let edge = edge(bytes.as_ptr() as usize, bytes.len());
                assert_eq!(edge % PAGE, 0, "{name} of {}", call.name());
            }
            let numbers_len = size_of_val(numbers);
            assert_eq!(edge(out.as_ptr() as usize, out.len()) % PAGE, 0);
            assert_eq!(edge(numbers.as_ptr() as usize, numbers_len) % PAGE, 0);
            made.borrow_mut().insert(call.name());
            second(call, out, numbers)
        };
        let holder = run(at_edge, side);
        assert_eq!(holder.different, 0);
        assert!(made.borrow().iter().eq(&BTreeSet::from(NAMES)));
    }
}

/// The names of a call's byte inputs, as the header declares them.
fn declared(header: &str, name: &str) -> Vec<String> {
    let start = format!("\nuint64_t dialtable_{name}(");
    let (_, rest) = header.split_once(&start).expect("its declaration");
    let (arguments, _) = rest.split_once(");").expect("its end");
    let inputs = arguments.split(',').filter_map(|argument| {
        let input = argument.trim().strip_prefix("const uint8_t ")?;
        let name = input.trim_start_matches('*');
        Some(name.split('[').next()?.replace("msg", "message"))
    });
    inputs.collect()
}

#[test]
fn the_inputs_of_every_call_are_those_of_the_header() {
    let header = concat!(env!("CARGO_MANIFEST_DIR"), "/../../include/dialtable.h");
    let header = std::fs::read_to_string(header).expect("the header");
    let seen = RefCell::new(BTreeMap::new());
    let names = |call: &Call<'_>, out: &mut [u8], numbers: &mut [u64]| {
        let names: Vec<_> = call.inputs().iter().map(|(name, _)| *name).collect();
        seen.borrow_mut().insert(call.name(), names);
        second(call, out, numbers)
    };
    run(names, Side::After);
    for name in NAMES {
        assert_eq!(seen.borrow()[name], declared(&header, name), "{name}");
    }
    let most = seen.borrow().values().map(Vec::len).max();
    assert_eq!(most, Some(MOST_INPUTS));
}

#[test]
fn a_changed_input_is_found_whichever_it_is() {
    let seen = RefCell::new(BTreeSet::new());
    for nth in 0..MOST_INPUTS {
        let changes = |call: &Call<'_>, out: &mut [u8], numbers: &mut [u64]| {
            let answer = second(call, out, numbers);
            if let Some((name, bytes @ [first, ..])) = call.inputs().get(nth) {
                seen.borrow_mut().insert((call.name(), *name));
                // It is what is tried: the memory can be written.
                unsafe { bytes.as_ptr().cast_mut().write_volatile(!*first) };
            }
            answer
        };
        for side in [Side::Before, Side::After] {
            seen.borrow_mut().clear();
            let holder = run(changes, side);
            let texts = holder.differences.iter().map(|difference| &difference.text);
            let found: BTreeSet<&str> = texts
                .filter_map(|text| text.strip_prefix("INPUT CHANGED: "))
                .filter_map(|text| text.split(' ').next())
                .collect();
            let changed: BTreeSet<&str> = seen.borrow().iter().map(|(call, _)| *call).collect();
            assert_eq!(found, changed, "input {nth}");
            assert!(!changed.is_empty());
        }
    }
}

#[test]
fn a_longer_input_than_there_is_room_for_is_lent_too() {
    let long = vec![7; 3_000_000];
    for side in [Side::Before, Side::After] {
        assert!(differences("none", side, &long).is_empty());
    }
}
