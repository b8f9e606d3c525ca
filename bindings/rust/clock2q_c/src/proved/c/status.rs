// Written by bindings/rust/erase from crates/clock2q_c/src/status.rt; change that, and run erase.
//! The status numbers that constructors and growth return.

use clock2q::proved::cache::CacheError;

/// The cache was made, or has grown.
pub const DONE: u32 = 0;
/// A request for memory was refused, and what was taken is given back.
pub const NO_MEMORY: u32 = 1;
/// The capacity is 0 or above 16,777,215.
pub const BAD_CAPACITY: u32 = 2;
/// The shares leave Main no slot or don't fit together, or one is smaller than that of the cache that was to grow.
pub const BAD_POLICY: u32 = 3;

/// Returns the status of a refusal.
#[inline]
pub(crate) fn status_of(refusal: CacheError) -> u32 {
    match refusal {
        CacheError::Memory => NO_MEMORY,
        CacheError::Capacity => BAD_CAPACITY,
        CacheError::Policy => BAD_POLICY,
    }
}
