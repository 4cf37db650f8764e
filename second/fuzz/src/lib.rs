//! Bytes as calls of the library: what a fuzzer changes, and what is replayed.
//!
//! An input is a head of eight bytes and a payload (`input`). Its group says which
//! calls are made on the payload (`calls`); each is held by `compare`'s own holder.
//! `mutate` changes an input as its group has it, `seeds` makes the first ones, and
//! `corpus` keeps them as text.

#![forbid(unsafe_code)]

pub mod calls;
pub mod corpus;
pub mod input;
pub mod mutate;
pub mod replay;
pub mod seeds;
