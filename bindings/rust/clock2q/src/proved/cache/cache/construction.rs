// Written by bindings/rust/erase from crates/clock2q_cache/src/cache/construction.rt; change that, and run erase.
//! Making a cache: with the default shares, or with the caller's.
use crate::proved::rattle::Vec;
use crate::proved::cache::cache::{Cache, DefaultHashBuilder, MAX_CAPACITY};
use crate::proved::cache::error::CacheError;
use crate::proved::cache::shares::Shares;
use crate::proved::directory::directory::Directory;
use crate::proved::queues::queues::Queues;
use crate::proved::rattle::Allocator;
use core::hash::{BuildHasher, BuildHasherDefault, Hash};
use core::num::NonZeroUsize;

impl<K: Hash + Eq, V, A: Allocator + Copy> Cache<K, V, DefaultHashBuilder, A> {
    /// Makes an empty cache for `capacity` keys. It takes all the memory that the cache will use
    /// unless it [grows](Cache::grow), for `capacity` keys with their values and for half as many evicted
    /// keys.
    ///
    /// The hasher's seed is fixed ([`DefaultHashBuilder`]), so whoever chooses the keys can make
    /// calls slow. If strangers do, use [`with_hasher`](Cache::with_hasher).
    ///
    /// # Errors
    ///
    /// `Capacity` above [`MAX_CAPACITY`], before any memory is taken. `Memory` if a request for
    /// memory is refused. What was taken before is given back.
    ///
    /// # Cost
    ///
    /// Time and memory in proportion to `capacity`, in at most eleven requests for memory.
    #[inline]
    pub fn new(alloc: A, capacity: NonZeroUsize) -> Result<Self, CacheError> {
        Cache::with_hasher(alloc, capacity, BuildHasherDefault::default())
    }
}

impl<K: Hash + Eq, V, S: BuildHasher, A: Allocator + Copy> Cache<K, V, S, A> {
    /// Makes an empty cache as [`new`](Cache::new) does, with the caller's hasher, which should be
    /// a `RandomState` if strangers choose the keys.
    ///
    /// # Errors
    ///
    /// Those of [`new`](Cache::new).
    ///
    /// # Cost
    ///
    /// That of [`new`](Cache::new).
    #[inline]
    pub fn with_hasher(alloc: A, capacity: NonZeroUsize, hasher: S) -> Result<Self, CacheError> {
        if capacity.get() > MAX_CAPACITY {
            return Err(CacheError::Capacity);
        }
        Cache::with_shares(alloc, Shares::usual(capacity.get()), hasher)
    }

    /// Makes an empty cache in which Small has `small` slots and a key is young for `window`
    /// admissions.
    ///
    /// # Errors
    ///
    /// `Capacity` above [`MAX_CAPACITY`], or else `Policy` if Small leaves Main no slot, or one of
    /// `small` and `window` is 0 and the other isn't, or the window is longer than Small. Both are
    /// returned before any memory is taken. `Memory` if a request for memory is refused.
    ///
    /// # Cost
    ///
    /// That of [`new`](Cache::new).
    #[inline]
    pub fn with_policy(
        alloc: A,
        capacity: NonZeroUsize,
        small: usize,
        window: usize,
        hasher: S,
    ) -> Result<Self, CacheError> {
        let history = Shares::usual_history(capacity.get());
        Cache::with_history(alloc, capacity, small, window, history, hasher)
    }

    /// Makes an empty cache as [`with_policy`](Cache::with_policy) does, whose history remembers up
    /// to `history` evicted keys in place of half the capacity.
    ///
    /// A full cache admits a loop of new keys if Small and the history have room for it, so a
    /// history of `capacity - small` admits every loop that fits beside the keys that were hit. 0
    /// remembers nothing. Each key of the history takes memory as long as it is remembered.
    ///
    /// # Errors
    ///
    /// Those of [`with_policy`](Cache::with_policy), and `Policy` if `history` is more than
    /// `capacity`.
    ///
    /// # Cost
    ///
    /// That of [`new`](Cache::new), with room for `history` evicted keys.
    #[inline]
    pub fn with_history(
        alloc: A,
        capacity: NonZeroUsize,
        small: usize,
        window: usize,
        history: usize,
        hasher: S,
    ) -> Result<Self, CacheError> {
        if capacity.get() > MAX_CAPACITY {
            return Err(CacheError::Capacity);
        }
        let Some(shares) = Shares::new(capacity.get(), small, window, history) else {
            return Err(CacheError::Policy);
        };
        Cache::with_shares(alloc, shares, hasher)
    }

    /// Makes an empty cache with these shares.
    #[inline]
    fn with_shares(alloc: A, shares: Shares, hasher: S) -> Result<Self, CacheError> {
        let slots = shares.capacity;
        let free = Vec::with_capacity(alloc, slots)?;
        let queues = Queues::new(alloc, slots as u32, shares.window as u32)?;
        let directory = Directory::new(alloc, slots, shares.history)?;
        Ok(Cache {
            shares,
            queues,
            directory,
            free,
            hasher,
        })
    }
}
