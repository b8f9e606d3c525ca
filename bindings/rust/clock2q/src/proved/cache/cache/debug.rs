// Written by bindings/rust/erase from crates/clock2q_cache/src/cache/debug.rt; change that, and run erase.
//! How a cache is shown for debugging.
use crate::proved::cache::cache::Cache;
use crate::proved::rattle::Allocator;
use core::fmt::{self, Debug, Formatter};
use core::hash::{BuildHasher, Hash};

/// Shows the number of keys in the cache and in each of its lists, and the capacity.
impl<K: Hash + Eq, V, S: BuildHasher, A: Allocator> Debug for Cache<K, V, S, A> {
    #[inline]
    fn fmt(&self, f: &mut Formatter<'_>) -> fmt::Result {
        f.debug_struct("Cache")
            .field("len", &self.len())
            .field("capacity", &self.capacity())
            .field("small", &self.queues.small_len())
            .field("small_capacity", &self.shares.small)
            .field("main", &self.queues.main_len())
            .field("main_capacity", &self.shares.main())
            .field("ghost", &self.directory.remembered_len())
            .field("ghost_capacity", &self.shares.history)
            .finish()
    }
}
