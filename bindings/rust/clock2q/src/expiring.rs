//! Pairs that expire, and a listener that hears which pairs leave, and why.

mod builder;
mod cache;
mod clock;
pub(crate) mod timed;

use crate::Cause;
pub use builder::Builder;
pub use cache::ExpiringCache;
pub use clock::{Clock, SystemClock, TurnedClock};

/// The listener of a cache that has no other: it does nothing.
pub(crate) fn nobody<K, V>(_: &K, _: &V, _: Cause) {}
