// Written by bindings/rust/erase from crates/clock2q_cache/src/entered.rt; change that, and run erase.
//! What a call did for the slot of a key.

/// What [`enter`](crate::proved::cache::Cache::enter) did for a key. A hit evicts nothing.
///
/// # Example
///
/// ```
/// # #![allow(unused)]
/// # use clock2q::proved::rattle::Global;
/// # use clock2q::proved::cache::{Cache, CacheError, Entered, MAX_CAPACITY, Occupant};
/// # let mut frames: Cache<u64, Option<u64>> = Cache::new(Global, 10.try_into()?)?;
/// # let number = 7;
/// # let read = |slot: usize, number: u64| {};
/// # let write = |slot: usize, number: Option<u64>| {};
/// let (slot, page, entered) = frames.enter(number, || None);
/// if entered.has_evicted {
///     write(slot, *page);
/// }
/// if !entered.is_hit {
///     *page = Some(number);
///     read(slot, number);
/// }
/// # assert_eq!(*page, Some(7));
/// # Ok::<(), Box<dyn std::error::Error>>(())
/// ```
#[derive(Clone, Copy, Debug, PartialEq)]
pub struct Entered {
    /// Whether the key was resident, and was hit.
    pub is_hit: bool,
    /// Whether another resident was evicted, whose slot the key got.
    pub has_evicted: bool,
}
