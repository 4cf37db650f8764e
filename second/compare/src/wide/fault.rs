//! A call that touches a page which it was not lent ends the process. What it was
//! given is said first.

#![allow(unsafe_code)]

use std::cell::Cell;
use std::ffi::{c_int, c_void};
use std::ops::Range;
use std::ptr;
use std::sync::atomic::{AtomicBool, Ordering};
use std::sync::OnceLock;
use std::thread;

use super::call::Call;

/// `SIGBUS` and `SIGSEGV` of Linux.
const SIGNALS: [c_int; 2] = [7, 11];

/// `SA_SIGINFO`: the handler is given the place.
const WITH_PLACE: c_int = 4;

/// `struct sigaction` of glibc.
#[repr(C)]
struct Action {
    handler: usize,
    mask: [u64; 16],
    flags: c_int,
    restorer: usize,
}

/// The beginning of `siginfo_t`.
#[repr(C)]
struct Info {
    head: [c_int; 4],
    place: usize,
}

extern "C" {
    fn sigaction(signal: c_int, action: *const Action, old: *mut Action) -> c_int;
    fn _exit(status: c_int) -> !;
}

/// How far from a buffer a fault is still said to be beside it: the smallest page.
const NEAR: usize = 4096;

/// A call of the library that is being made, with what it is lent.
pub struct Made<'a> {
    pub call: &'a Call<'a>,
    pub out: Range<*const u8>,
    pub numbers: Range<*const u64>,
}

thread_local! {
    static MADE: Cell<*const Made<'static>> = const { Cell::new(ptr::null()) };
}

/// What is done with the text of a fault, before the process ends with status 1.
static TELL: OnceLock<fn(&str)> = OnceLock::new();

/// Whether a fault is told already.
static TOLD: AtomicBool = AtomicBool::new(false);

/// From now on a fault within a call is given to `tell`, in one line, and ends the
/// process with status 1. Any other fault ends it as before.
pub fn watch(tell: fn(&str)) {
    if TELL.set(tell).is_ok() {
        let handler: extern "C" fn(c_int, *const Info, *mut c_void) = faulted;
        for signal in SIGNALS {
            act(signal, handler as usize, WITH_PLACE);
        }
    }
}

fn act(signal: c_int, handler: usize, flags: c_int) {
    let action = Action {
        handler,
        mask: [0; 16],
        flags,
        restorer: 0,
    };
    let status = unsafe { sigaction(signal, &raw const action, ptr::null_mut()) };
    assert!(status == 0, "no signal can be watched");
}

/// Makes a call.
pub fn during<R>(made: &Made<'_>, make: impl FnOnce() -> R) -> R {
    // Another one is set, or none, before this one goes.
    let _end = End;
    MADE.set(ptr::from_ref(made).cast());
    make()
}

struct End;

impl Drop for End {
    fn drop(&mut self) {
        MADE.set(ptr::null());
    }
}

/// The fault comes from the call itself, which holds no lock, so that memory may be
/// taken and a line printed as anywhere.
extern "C" fn faulted(signal: c_int, info: *const Info, _: *mut c_void) {
    // What is set is there until the call ends.
    let made = unsafe { MADE.get().as_ref() };
    let (Some(made), Some(tell)) = (made, TELL.get()) else {
        // It comes again when this returns, and nothing is done about it then.
        return act(signal, 0, 0);
    };
    // A second fault, while this one is told, is not told.
    MADE.set(ptr::null());
    if TOLD.swap(true, Ordering::Relaxed) {
        // Another thread's fault is told, and ends the process.
        loop {
            thread::park();
        }
    }
    tell(&made.text(unsafe { (*info).place }));
    unsafe { _exit(1) }
}

impl Made<'_> {
    /// The line that tells of a fault at a place.
    fn text(&self, place: usize) -> String {
        let inputs = self.call.inputs().into_iter();
        let inputs = inputs.map(|(name, bytes)| (name, addresses(&bytes.as_ptr_range())));
        let outputs = [
            ("the output", addresses(&self.out)),
            ("the numbers", addresses(&self.numbers)),
        ];
        let beside = outputs
            .into_iter()
            .chain(inputs)
            .find_map(|(name, buffer)| beside(name, &buffer, place));
        format!(
            "FAULT {}: {}; lent: {} bytes, {} numbers",
            beside.as_deref().unwrap_or("far from what is lent"),
            self.call,
            addresses(&self.out).len(),
            addresses(&self.numbers).len() / size_of::<u64>(),
        )
    }
}

/// The text of a fault as far as the call's name: what it was given is left out.
pub fn without_bytes(text: &str) -> String {
    let words = text.split(' ').take_while(|word| !word.contains('='));
    words.collect::<Vec<_>>().join(" ")
}

fn addresses<T>(buffer: &Range<*const T>) -> Range<usize> {
    buffer.start as usize..buffer.end as usize
}

/// Where a place is, if it is beside this buffer.
fn beside(name: &str, buffer: &Range<usize>, place: usize) -> Option<String> {
    let after = place.wrapping_sub(buffer.end);
    let before = buffer.start.wrapping_sub(place);
    if after < NEAR {
        Some(format!("at byte {} after {name}", after + 1))
    } else if (1..=NEAR).contains(&before) {
        Some(format!("at byte {before} before {name}"))
    } else {
        None
    }
}

#[cfg(test)]
mod tests {
    use super::{beside, without_bytes, Made, NEAR};
    use crate::wide::call::Call;

    #[test]
    fn a_fault_can_be_told_without_bytes() {
        let (key, which) = ([0xAB; 16].as_slice(), 3);
        let messages = reader::SignIn {
            negotiate: key,
            challenge: key,
            authenticate: key,
        };
        for call in [
            Call::Mic { key, messages },
            Call::ReadAuthenticate { message: key },
            Call::NlAuthName {
                message: key,
                which,
            },
        ] {
            let made = Made {
                call: &call,
                out: key.as_ptr_range(),
                numbers: [0; 0].as_ptr_range(),
            };
            let text = made.text(key.as_ptr_range().end as usize);
            assert!(text.contains("=abab") || text.contains("=ABAB"), "{text}");
            let told = format!("FAULT at byte 1 after the output: {}", call.name());
            assert_eq!(without_bytes(&text), told);
        }
    }

    #[test]
    fn a_place_is_named_by_its_buffer() {
        let at = |place| beside("key", &(8_192..8_208), place);
        assert_eq!(at(8_208).as_deref(), Some("at byte 1 after key"));
        assert_eq!(at(8_191).as_deref(), Some("at byte 1 before key"));
        assert_eq!(at(8_192 - NEAR).as_deref(), Some("at byte 4096 before key"));
        for elsewhere in [0, 8_191 - NEAR, 8_192, 8_207, 8_208 + NEAR] {
            assert_eq!(at(elsewhere), None);
        }
    }
}
