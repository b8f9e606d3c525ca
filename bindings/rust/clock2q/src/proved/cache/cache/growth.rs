// Written by bindings/rust/erase from crates/clock2q_cache/src/cache/growth.rt; change that, and run erase.
//! Raising the capacity of a cache that is in use.
use crate::proved::cache::cache::{Cache, MAX_CAPACITY};
use crate::proved::cache::error::CacheError;
use crate::proved::cache::shares::Shares;
use crate::proved::rattle::Allocator;
use core::hash::{BuildHasher, Hash};
use core::num::NonZeroUsize;

impl<K: Hash + Eq, V, S: BuildHasher, A: Allocator + Copy> Cache<K, V, S, A> {
    /// Raises the capacity to `capacity` keys, with the shares of a cache that [`new`](Cache::new)
    /// makes.
    ///
    /// No key leaves. Each resident keeps its slot, its value, its place in its queue and its hits,
    /// and each evicted key that is remembered stays remembered. Only the index is laid out anew.
    ///
    /// # Errors
    ///
    /// `Capacity` above [`MAX_CAPACITY`], or else `Policy` if Small, Main, the window or the history
    /// would be smaller than it is, as they would with a smaller capacity. Both are returned before any
    /// memory is taken. `Memory` if a request for memory is refused. The cache is as it was in each
    /// case.
    ///
    /// # Cost
    ///
    /// Time in proportion to the new capacity, with at most six accesses to links for each key of the
    /// old one. No key is hashed, compared or dropped. While the call runs, the memory of the queues and
    /// the index is taken twice.
    #[inline]
    pub fn grow(&mut self, capacity: NonZeroUsize) -> Result<(), CacheError> {
        if capacity.get() > MAX_CAPACITY {
            return Err(CacheError::Capacity);
        }
        self.grow_to(Shares::usual(capacity.get()))
    }

    /// Raises the capacity as [`grow`](Cache::grow) does, with the shares of a cache that
    /// [`with_history`](Cache::with_history) makes.
    ///
    /// # Errors
    ///
    /// Those of [`grow`](Cache::grow), and `Policy` if [`with_history`](Cache::with_history) returns it
    /// for these shares.
    ///
    /// # Cost
    ///
    /// That of [`grow`](Cache::grow).
    #[inline]
    pub fn grow_with_history(
        &mut self,
        capacity: NonZeroUsize,
        small: usize,
        window: usize,
        history: usize,
    ) -> Result<(), CacheError> {
        if capacity.get() > MAX_CAPACITY {
            return Err(CacheError::Capacity);
        }
        let Some(shares) = Shares::new(capacity.get(), small, window, history) else {
            return Err(CacheError::Policy);
        };
        self.grow_to(shares)
    }

    /// Raises the capacity, unless one of these shares is smaller than it is now.
    #[inline]
    fn grow_to(&mut self, shares: Shares) -> Result<(), CacheError> {
        if !shares.is_at_least(self.shares) {
            return Err(CacheError::Policy);
        }
        let alloc = *self.free.allocator();
        let slots = shares.capacity;
        self.free.reserve_exact(slots - self.free.len())?;
        let queues = self
            .queues
            .grown(alloc, slots as u32, shares.window as u32)?;
        self.directory.grow(alloc, slots, shares.history)?;
        self.queues = queues;
        self.shares = shares;
        Ok(())
    }
}
