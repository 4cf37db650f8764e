//! How a program ends that can't go on: where memory runs out, or where it has a fault of its own, with
//! one plain line on standard error and status 1. Rust's own end is a signal, and words for those who
//! wrote the program.
//!
//! Every program that links this crate has its allocator; `set` is for the rest.

#![warn(missing_docs)]

use std::alloc::{GlobalAlloc, Layout, System};
use std::fmt;
use std::io::{self, Write};
use std::panic::{self, Location};
use std::sync::atomic::{AtomicBool, Ordering};
use std::thread;
use std::time::Duration;

struct Memory;

#[global_allocator]
static MEMORY: Memory = Memory;

/// Whether a thread is at its last line already.
static ENDS: AtomicBool = AtomicBool::new(false);

/// From here on a panic is one plain line. It has the place of the fault and nothing of what the
/// program worked on, which could be a secret.
pub fn set() {
    panic::set_hook(Box::new(|about| {
        end(&Broken {
            place: about.location(),
        })
    }));
}

struct Broken<'a> {
    place: Option<&'a Location<'a>>,
}

impl fmt::Display for Broken<'_> {
    fn fmt(&self, f: &mut fmt::Formatter<'_>) -> fmt::Result {
        f.write_str("the program broke off")?;
        if let Some(place) = self.place {
            write!(f, " at {}:{}", place.file(), place.line())?;
        }
        f.write_str(": give it more memory and more processes, and tell us where that doesn't help")
    }
}

extern "C" {
    /// The C library's: nothing that waits for anything, and nothing that takes memory, is done any more.
    fn _exit(status: i32) -> !;
}

/// Ends the program. Nothing here takes memory, and Rust's own exit is passed by: it would wait for
/// standard output where memory runs out while that is made.
fn end(why: &dyn fmt::Display) -> ! {
    if ENDS.swap(true, Ordering::SeqCst) {
        // Another thread has the line, and ends all.
        thread::sleep(Duration::from_secs(1));
    } else {
        // Where standard error is closed, the status still tells.
        let _ = writeln!(io::stderr(), "{why}");
    }
    unsafe { _exit(1) }
}

/// The memory that was asked for, where there is any.
fn given(memory: *mut u8, size: usize) -> *mut u8 {
    if memory.is_null() {
        end(&format_args!(
            "there is no memory for {size} bytes more: give the program more, or less to work on"
        ));
    }
    memory
}

// The system's allocator, whose contract these are.
unsafe impl GlobalAlloc for Memory {
    unsafe fn alloc(&self, layout: Layout) -> *mut u8 {
        given(unsafe { System.alloc(layout) }, layout.size())
    }

    unsafe fn alloc_zeroed(&self, layout: Layout) -> *mut u8 {
        given(unsafe { System.alloc_zeroed(layout) }, layout.size())
    }

    unsafe fn realloc(&self, memory: *mut u8, layout: Layout, size: usize) -> *mut u8 {
        given(unsafe { System.realloc(memory, layout, size) }, size)
    }

    unsafe fn dealloc(&self, memory: *mut u8, layout: Layout) {
        unsafe { System.dealloc(memory, layout) }
    }
}
