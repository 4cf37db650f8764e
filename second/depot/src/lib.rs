//! What the depot bench reads and runs: the message files of a folder and the message
//! that each holds, a night's messages, and programs that print a line; a refusal in words,
//! the summary of a run, a page of it, and messages out of a capture.

#![forbid(unsafe_code)]

pub mod capture;
pub mod dump;
pub mod files;
pub mod folder;
pub mod form;
pub mod many;
pub mod night;
pub mod program;
pub mod progress;
pub mod report;
pub mod secret_file;
pub mod summary;
pub mod words;

/// For the programs that use this library: each calls its `set` first.
pub use plain_end;
