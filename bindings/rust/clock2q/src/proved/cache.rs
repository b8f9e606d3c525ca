// Written by bindings/rust/erase from crates/clock2q_cache/src/lib.rt; change that, and run erase.
//! A fixed-capacity key-value cache with Clock2Q+ replacement.
//!
//! A new key enters Small, a short queue, or Main while the cache isn't full and Small has its
//! share. A key in Small stays young for a window of further admissions to Small. A key that
//! reaches the end of Small moves on to Main if it was hit there when it was no longer young, and
//! is evicted otherwise. Main is a ring with a hand. The hand evicts the first entry without a hit,
//! and clears the hits of those that it passes. A key that Small evicts is remembered in the
//! history, without its value, and enters Main at once if it comes back. A key that Main evicts
//! isn't remembered.
//!
//! | Share | Of a capacity C |
//! |---|---|
//! | Small | a tenth of C, at least 1; at C = 1 none |
//! | Main | the rest |
//! | window | half of Small, rounded up |
//! | history | half of C |
//!
//! A half and a tenth are rounded down unless stated otherwise. The page of `clock2q` has these
//! numbers for some capacities, and [`Cache::with_policy`] takes other ones.

mod cache;
mod entered;
mod error;
mod occupant;
pub(crate) mod shares;

pub use cache::{Cache, DefaultHashBuilder, Iter, Keys, MAX_CAPACITY, Values};
pub use entered::Entered;
pub use error::CacheError;
pub use occupant::Occupant;
