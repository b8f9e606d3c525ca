//! The C library `clock2q` in Rust alone, for platforms without the proved one: `bindings/c/clock2q.h` is its header.
//!
//! [`proved`] has the proved text of the calls without its contracts. What is written by hand is the handle in it, and
//! `memory`, the allocator that C may choose, which is the one module with raw pointers and `unsafe` code.
#![deny(
    missing_docs,
    unsafe_code,
    unsafe_op_in_unsafe_fn,
    clippy::incompatible_msrv
)]

mod memory;
#[rustfmt::skip] // written by erase
pub mod proved;

pub use memory::{clock2q_use_memory, Memory};
