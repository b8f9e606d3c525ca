//! The proved text without its contracts: what `bindings/rust/erase` of the repository leaves of the sources of the
//! calls for C, with their names and comments.
//!
//! Keys have 64 bits on every platform, and no export takes an allocator, of no bytes, which some platforms would pass.
//! What its text says of proofs, contracts and counts is proved of the sources; that erasing these changes nothing else
//! is trusted.
#![allow(clippy::all)] // the sources follow their own rules
#![deny(clippy::incompatible_msrv)]
#![allow(missing_docs, dead_code, unused_imports, rustdoc::broken_intra_doc_links)]
// An export's name is one in the whole program, which the lint counts as unsafe; erase refuses any other `unsafe`.
#![allow(unsafe_code)]

pub mod c;
pub mod pages;
