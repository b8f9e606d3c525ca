// Written by bindings/rust/erase from crates/clock2q_cache/src/occupant.rt; change that, and run erase.
//! Who had a slot before a key got it.

/// Who had the slot of a key until [`Cache::put_slot`](crate::proved::cache::Cache::put_slot) was called.
///
/// # Example
///
/// ```
/// # #![allow(unused)]
/// # use clock2q::proved::rattle::Global;
/// # use clock2q::proved::cache::{Cache, CacheError, Entered, MAX_CAPACITY, Occupant};
/// # let mut cache: Cache<u64, ()> = Cache::new(Global, 10.try_into()?)?;
/// # let (number, mut frames) = (7, [0; 10]);
/// # let read = |number: u64| number * 2;
/// # let write = |number: u64, frame: &u64| assert_eq!(*frame, read(number));
/// let (slot, occupant) = cache.put_slot(number, ());
/// if let Occupant::Other(evicted) = occupant {
///     write(evicted, &frames[slot]);
/// }
/// if occupant != Occupant::Itself {
///     frames[slot] = read(number);
/// }
/// # assert_eq!(frames[slot], 14);
/// # Ok::<(), Box<dyn std::error::Error>>(())
/// ```
#[derive(Clone, Copy, Debug, PartialEq)]
pub enum Occupant<K> {
    /// The key itself, which was hit.
    Itself,
    /// No key, since the slot was free.
    Nobody,
    /// This key, which was evicted.
    Other(K),
}
