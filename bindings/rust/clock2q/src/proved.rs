//! The proved text without its contracts: what `bindings/rust/erase` of the repository leaves of the sources that
//! are proved, with their names and comments.
//!
//! Other than [`clock2q::Cache`](crate::Cache), this [`cache::Cache`] keeps the keys that left and are remembered,
//! and what it removed until another key has the slot. Its calls that return a key that leaves need keys that can be
//! copied, and it may be broken by a `Drop` of a key or value that panics. What its text says of proofs, contracts and counts is proved of the
//! sources; that erasing these changes nothing else is trusted.
#![allow(clippy::all)] // the sources follow their own rules
#![deny(clippy::incompatible_msrv)]
#![allow(missing_docs, dead_code, unused_imports, unused_variables)]
#![allow(rustdoc::private_intra_doc_links)] // their comments link what only they see

pub mod cache;
pub mod count;
pub mod directory;
pub mod handles;
pub mod queues;
pub mod rattle;
