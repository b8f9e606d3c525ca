//! Caches of fixed capacity with Clock2Q+ replacement, of which the core is a proved text without its contracts.
//!
//! A [`Cache`] is a map of any hashable keys, and a [`WeightedCache`] one whose pairs have weights; threads
//! share those of `sync`. A [`PageCache`] gives numbers slots, for arrays of the caller's, and a [`Table`] finds
//! what the caller keeps by hashes. [`proved`] has the core.
//!
//! ```
//! use clock2q::Cache;
//!
//! let mut cache = Cache::new(1000)?;
//! cache.insert("seven", 7);
//! assert_eq!(cache.get("seven"), Some(&7));
//! # Ok::<(), clock2q::Refused>(())
//! ```
//!
//! Without the feature `std`, which is on if nothing else is said, the crate needs `alloc` alone. There is no random
//! hasher then, and nothing that threads share.
#![no_std]
#![forbid(unsafe_code)]
#![deny(missing_docs, clippy::incompatible_msrv)]

extern crate alloc;
#[cfg(feature = "std")]
extern crate std;

mod before;
mod cache;
mod cause;
mod collect;
mod entries;
mod entry;
#[cfg(feature = "std")]
mod expiring;
mod iter;
mod pages;
#[rustfmt::skip] // written by erase
pub mod proved;
mod refused;
mod slots;
mod store;
#[cfg(feature = "std")]
pub mod sync;
mod weighted;
mod weights;

pub use cache::Cache;
pub use cause::Cause;
pub use entry::{Entry, OccupiedEntry, VacantEntry};
#[cfg(feature = "std")]
pub use expiring::{Builder, Clock, ExpiringCache, SystemClock, TurnedClock};
pub use iter::{Drain, IntoIter, Iter, IterMut, Keys, Values, ValuesMut};
pub use pages::{PageCache, Place};
pub use proved::cache::MAX_CAPACITY;
pub use proved::handles::{Candidates, Table, TableError};
pub use refused::Refused;
pub use weighted::{WeightedCache, WeightedEntry, WeightedOccupiedEntry, WeightedVacantEntry};

/// The builder of hashers that a cache has if nothing else is said.
#[cfg(feature = "std")]
pub type DefaultHashBuilder = std::collections::hash_map::RandomState;

/// The builder of hashers that a cache has if nothing else is said. Its seed is fixed: whoever chooses the keys can
/// choose ones that collide.
#[cfg(not(feature = "std"))]
pub use proved::cache::DefaultHashBuilder;
