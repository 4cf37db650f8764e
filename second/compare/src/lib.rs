//! Messages from a seed, sound and damaged, and the comparison of a program's
//! lines with the reader's on each.
//!
//! The messages are built here byte by byte. Nothing is taken from the reader,
//! neither its writers nor its tests.

// Lent memory, what is done at a fault, and the library's entries say themselves why
// they are sound.
#![deny(unsafe_code)]

mod authenticate;
pub mod captured;
mod cases;
mod challenge;
pub mod command;
mod dns_names;
mod headers;
mod hex;
mod lines;
mod names;
mod negotiate;
mod nl_auth;
mod ntlm;
mod pairs;
mod random;
mod report;
pub mod tally;
pub mod wide;
mod wire;

pub use cases::{cases, Case};
pub use lines::{compare, Difference, Report};
pub use random::Random;
