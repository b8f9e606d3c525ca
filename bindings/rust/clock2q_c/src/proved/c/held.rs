// Written by bindings/rust/erase from crates/clock2q_c/src/held.rt; change that, and run erase.
//! What a handle points to.
use clock2q::proved::cache::{Cache, DefaultHashBuilder};
use clock2q::proved::rattle::Allocator;

/// A cache of keys, without values: what a key means is the caller's. For C, its memory comes from
/// `malloc`; tests pass an allocator that counts.
pub(crate) struct Held<A: Allocator> {
    pub(crate) cache: Cache<u64, (), DefaultHashBuilder, A>,
}
