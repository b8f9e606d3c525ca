// Written by bindings/rust/erase from crates/clock2q_cache/src/error.rt; change that, and run erase.
//! The errors of making a cache, or of running a list of commands.

use crate::proved::rattle::AllocError;

/// The reason why a cache wasn't made or its capacity wasn't raised, or a list of commands wasn't run.
///
/// Nothing was done then. Memory that was taken for a new cache is given back, a cache is as it was,
/// and no command has run.
///
/// # Example
///
/// ```
/// # #![allow(unused)]
/// # use clock2q::proved::rattle::Global;
/// # use clock2q::proved::cache::{Cache, CacheError, Entered, MAX_CAPACITY, Occupant};
/// # use std::num::NonZeroUsize;
/// let too_large = NonZeroUsize::new(MAX_CAPACITY + 1).ok_or("not zero")?;
/// let refused = Cache::<u64, u64, _>::new(Global, too_large);
/// assert_eq!(refused.err(), Some(CacheError::Capacity));
/// # Ok::<(), Box<dyn std::error::Error>>(())
/// ```
#[derive(Debug, Clone, Copy, PartialEq, Eq)]
pub enum CacheError {
    /// A request for memory was refused.
    Memory,
    /// The capacity is above [`MAX_CAPACITY`](crate::proved::cache::MAX_CAPACITY). Only constructors,
    /// [`grow`](crate::proved::cache::Cache::grow) and [`grow_with_history`](crate::proved::cache::Cache::grow_with_history) return it.
    Capacity,
    /// The chosen shares don't fit together, or one of them is smaller than that of the cache that was
    /// to grow.
    Policy,
}

impl From<AllocError> for CacheError {
    #[inline]
    fn from(_refused: AllocError) -> Self {
        CacheError::Memory
    }
}

impl core::fmt::Display for CacheError {
    fn fmt(&self, f: &mut core::fmt::Formatter<'_>) -> core::fmt::Result {
        f.write_str(match self {
            CacheError::Memory => "no memory",
            CacheError::Capacity => "capacity refused",
            CacheError::Policy => "policy refused",
        })
    }
}

#[cfg(feature = "std")]
impl std::error::Error for CacheError {}
