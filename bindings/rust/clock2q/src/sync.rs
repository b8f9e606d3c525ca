//! Caches that threads share.

mod expiring;
mod flight;
mod keyed;
mod shard;
mod shards;
mod weighted;

use crate::slots::Shares;
use crate::store::Store;
use crate::{DefaultHashBuilder, Refused};
pub use expiring::ExpiringCache;
use shard::Pairs;
use shards::{count_for, slots_of_part, usual_count, Shards};
use std::fmt;
use std::sync::{Mutex, MutexGuard, PoisonError};
use std::vec::{self, Vec};
pub use weighted::WeightedCache;

/// A map of fixed capacity that threads share: shards, each a [`Cache`](crate::Cache) under a lock of its
/// own. The high bits of a key's hash choose its shard.
///
/// The capacity is divided among the shards, so a key may have to leave a full shard while another one has
/// room. A call of one key locks one shard; [`len`](Cache::len), [`clear`](Cache::clear),
/// [`resize`](Cache::resize) and those like them lock all of them in turn, and what they return may have
/// changed meanwhile.
///
/// `Hash` and the closure of [`get_or_insert_with`](Cache::get_or_insert_with) run without a lock, and keys and
/// values are dropped without one. `Eq`, `Clone` and the closures of [`get_with`](Cache::get_with),
/// [`get_mut_with`](Cache::get_mut_with), [`peek_mut_with`](Cache::peek_mut_with), [`peek_with`](Cache::peek_with), [`retain`](Cache::retain) and [`for_each`](Cache::for_each) run under the
/// lock of a shard: if one of them uses this cache, it may wait for ever or panic. After a panic the cache is
/// whole, and no lock is poisoned.
///
/// ```
/// fn send_and_share<T: Send + Sync>(_: T) {}
/// send_and_share(clock2q::sync::Cache::<String, Vec<u8>>::new(2));
/// ```
///
/// ```compile_fail,E0277
/// fn share<T: Sync>(_: T) {}
/// share(clock2q::sync::Cache::<String, std::rc::Rc<u8>>::new(2));
/// ```
///
/// # Example
///
/// ```
/// use clock2q::sync::Cache;
/// use std::thread;
///
/// let cache = Cache::new(1000)?;
/// thread::scope(|scope| {
///     for _ in 0..4 {
///         // One of the threads makes the value, and the others wait for it.
///         scope.spawn(|| assert_eq!(cache.get_or_insert_with("seven", || 7), 7));
///     }
/// });
/// assert_eq!(cache.get("seven"), Some(7));
/// # Ok::<(), clock2q::Refused>(())
/// ```
pub struct Cache<K, V, S = DefaultHashBuilder> {
    shards: Shards<Store<K, V>, K, V>,
    hasher: S,
    /// How many keys there may be. Whoever changes it has this lock meanwhile.
    capacity: Mutex<usize>,
}

impl<K, V> Pairs<K, V> for Store<K, V> {
    fn find(&mut self, hash: u64, key: &K) -> Option<&V>
    where
        K: Eq,
    {
        self.find_value(hash, key).map(|value| &*value)
    }

    fn peek(&self, hash: u64, key: &K) -> Option<&V>
    where
        K: Eq,
    {
        let (_, value) = Store::peek(self, hash, key)?;
        Some(value)
    }

    fn len(&self) -> usize {
        Store::len(self)
    }

    fn reserve(&mut self, capacity: usize) -> Result<(), Refused> {
        Store::reserve(self, capacity)
    }

    fn resize(&mut self, limit: usize) -> Result<Vec<(K, V)>, Refused> {
        Store::resize(self, limit)
    }

    fn evict(&mut self) -> Option<(K, V)> {
        Store::evict(self).map(|(_, pair)| pair)
    }

    fn visit(&self, mut see: impl FnMut(&K, &V)) {
        self.entries.iter().for_each(|(key, value)| see(key, value));
    }

    fn retain(&mut self, mut keep: impl FnMut(&K, &V) -> bool, left: &mut Vec<(K, V)>) {
        Store::retain(self, |key, value| keep(key, value), |pair| left.push(pair));
    }

    fn take_all(&mut self) -> Vec<(K, V)> {
        Store::take_all(self)
    }
}

/// Locks what no code of users runs under.
fn locked<T>(number: &Mutex<T>) -> MutexGuard<'_, T> {
    number.lock().unwrap_or_else(PoisonError::into_inner)
}

impl<K, V> Cache<K, V> {
    /// Makes a cache for `capacity` keys, which are hashed with random numbers. It has 16 shards, or
    /// fewer if those were for less than 64 keys each.
    ///
    /// # Errors
    ///
    /// [`Refused::Capacity`] and [`Refused::Memory`].
    pub fn new(capacity: usize) -> Result<Cache<K, V>, Refused> {
        Cache::with_hasher(capacity, DefaultHashBuilder::default())
    }

    /// Makes a cache in which `small` slots are for new keys, each young until `window` more were
    /// admitted. All three are divided among the shards, of which there are fewer if each could have no part of one.
    ///
    /// # Errors
    ///
    /// Those of [`new`](Cache::new), and [`Refused::Policy`] unless `small < capacity`,
    /// `window <= small`, and both or neither of them are 0.
    pub fn with_policy(
        capacity: usize,
        small: usize,
        window: usize,
    ) -> Result<Cache<K, V>, Refused> {
        Cache::with_policy_and_hasher(capacity, small, window, DefaultHashBuilder::default())
    }

    /// Makes a cache with the shares of [`with_policy`](Cache::with_policy) that remembers up to `history` evicted
    /// keys in place of half the capacity. They are divided among the shards too.
    ///
    /// # Errors
    ///
    /// Those of [`with_policy`](Cache::with_policy), and [`Refused::Policy`] unless `history <= capacity`.
    ///
    /// ```
    /// // A loop of new keys that fits beside the keys that were hit is admitted, however long it is.
    /// let cache = clock2q::sync::Cache::<u64, u64>::with_history(1000, 100, 50, 900)?;
    /// assert_eq!(cache.capacity(), 1000);
    /// # Ok::<(), clock2q::Refused>(())
    /// ```
    pub fn with_history(
        capacity: usize,
        small: usize,
        window: usize,
        history: usize,
    ) -> Result<Cache<K, V>, Refused> {
        let hasher = DefaultHashBuilder::default();
        Cache::with_history_and_hasher(capacity, small, window, history, hasher)
    }
}

impl<K, V, S> Cache<K, V, S> {
    /// Makes a cache for `capacity` keys, which `hasher` hashes.
    ///
    /// # Errors
    ///
    /// Those of [`new`](Cache::new).
    pub fn with_hasher(capacity: usize, hasher: S) -> Result<Cache<K, V, S>, Refused> {
        Cache::with_shards_and_hasher(capacity, usual_count(capacity), hasher)
    }

    /// Makes a cache of that many shards, or of one for each key if there are fewer keys. The capacities
    /// of the shards differ by at most 1.
    ///
    /// # Errors
    ///
    /// Those of [`new`](Cache::new), and [`Refused::Capacity`] if `shards` is 0.
    pub fn with_shards_and_hasher(
        capacity: usize,
        shards: usize,
        hasher: S,
    ) -> Result<Cache<K, V, S>, Refused> {
        Cache::made(capacity, shards, &Shares::default(), hasher)
    }

    /// Makes a cache with the shares of [`with_policy`](Cache::with_policy) and a hasher.
    ///
    /// # Errors
    ///
    /// Those of [`with_policy`](Cache::with_policy).
    pub fn with_policy_and_hasher(
        capacity: usize,
        small: usize,
        window: usize,
        hasher: S,
    ) -> Result<Cache<K, V, S>, Refused> {
        let shares = Shares::of_policy(small, window);
        Cache::made(capacity, count_for(capacity, &shares)?, &shares, hasher)
    }

    /// Makes a cache with the history of [`with_history`](Cache::with_history) and a hasher.
    ///
    /// # Errors
    ///
    /// Those of [`with_history`](Cache::with_history).
    pub fn with_history_and_hasher(
        capacity: usize,
        small: usize,
        window: usize,
        history: usize,
        hasher: S,
    ) -> Result<Cache<K, V, S>, Refused> {
        let shares = Shares::of_history(small, window, history);
        Cache::made(capacity, count_for(capacity, &shares)?, &shares, hasher)
    }

    fn made(
        capacity: usize,
        shards: usize,
        shares: &Shares,
        hasher: S,
    ) -> Result<Cache<K, V, S>, Refused> {
        let shards = Shards::new(capacity, shards, |at, count| {
            Store::new(slots_of_part(capacity, shares, at, count)?)
        })?;
        Ok(Cache {
            shards,
            hasher,
            capacity: Mutex::new(capacity),
        })
    }

    /// Returns how many keys there are.
    pub fn len(&self) -> usize {
        self.shards.pairs_len()
    }

    /// Returns true if there is no key.
    pub fn is_empty(&self) -> bool {
        self.len() == 0
    }

    /// Returns how many keys there can be: as many as asked for last, when the cache was made or
    /// [resized](Cache::resize).
    pub fn capacity(&self) -> usize {
        *locked(&self.capacity)
    }

    /// Has the cache hold `capacity` keys at most, divided among the shards as at first, of which there are as many as
    /// before. Each shard does what [`Cache::resize`](crate::Cache::resize) does. Pairs that leave are kept in a vector
    /// until all shards are through, and are dropped without a lock.
    ///
    /// # Errors
    ///
    /// [`Refused::Capacity`] if it is less than the number of shards, or if the part of one would be above
    /// [`MAX_CAPACITY`](crate::MAX_CAPACITY), and [`Refused::Memory`]. The cache has the same pairs and capacity then.
    pub fn resize(&self, capacity: usize) -> Result<(), Refused> {
        self.shards.resize(&self.capacity, capacity).map(drop)
    }

    /// Returns how many shards there are.
    pub fn shards(&self) -> usize {
        self.shards.len()
    }

    /// Returns how many look-ups found their key, since the cache was made. Those of
    /// [`get`](Cache::get), [`get_with`](Cache::get_with), [`get_mut_with`](Cache::get_mut_with),
    /// [`get_key_value`](Cache::get_key_value),
    /// [`get_or_insert_with`](Cache::get_or_insert_with) and
    /// [`try_get_or_insert_with`](Cache::try_get_or_insert_with) are counted.
    pub fn hits(&self) -> u64 {
        self.shards.iter().map(|shard| shard.lock().hits).sum()
    }

    /// Returns how many of these look-ups didn't.
    pub fn misses(&self) -> u64 {
        self.shards.iter().map(|shard| shard.lock().misses).sum()
    }

    /// Returns the hasher.
    pub fn hasher(&self) -> &S {
        &self.hasher
    }

    /// Removes the pair that would have to leave next from the shard that has most pairs, and returns it; nothing if no
    /// shard has one. Its key is remembered as those of pairs that left for others are.
    pub fn evict(&self) -> Option<(K, V)> {
        self.shards.evict()
    }

    /// Removes all keys, and forgets those that left. The pairs of each shard are kept in a vector until it has none.
    pub fn clear(&self) {
        self.clear_with(|key, value| drop((key, value)));
    }

    fn clear_with(&self, mut gone: impl FnMut(K, V)) {
        self.shards.iter().for_each(|shard| shard.clear(&mut gone));
    }

    /// Removes all keys, forgets those that left, and returns the pairs, in any order.
    pub fn drain(&self) -> vec::IntoIter<(K, V)> {
        let mut left = Vec::new();
        self.clear_with(|key, value| left.push((key, value)));
        left.into_iter()
    }

    /// Removes the pairs for which `keep` returns false, shard by shard, each under its lock, and drops them without it.
    /// It records no hit. Values that are being made meanwhile are returned to those that asked, but not stored.
    ///
    /// ```
    /// let cache = clock2q::sync::Cache::new(100)?;
    /// (0..10).for_each(|key| drop(cache.insert(key, key * key)));
    /// cache.retain(|_, square| square % 2 == 0);
    /// assert_eq!(cache.len(), 5);
    /// # Ok::<(), clock2q::Refused>(())
    /// ```
    pub fn retain(&self, mut keep: impl FnMut(&K, &V) -> bool) {
        let mut gone = |key, value| drop((key, value));
        self.shards
            .iter()
            .for_each(|shard| shard.retain(&mut keep, &mut gone));
    }

    /// Calls `see` with each pair, shard by shard, each under its lock, in any order. It records no hit.
    pub fn for_each(&self, mut see: impl FnMut(&K, &V)) {
        self.shards
            .iter()
            .for_each(|shard| shard.lock().visit(&mut see));
    }

    /// Returns clones of the pairs, in any order. Those of one shard are made at once under its lock, as soon as those
    /// of the shards before it were returned, and are returned without a lock, so that the cache may be used meanwhile.
    /// It records no hit.
    ///
    /// ```
    /// let cache = clock2q::sync::Cache::new(100)?;
    /// cache.insert("seven", 7);
    /// for (key, value) in cache.iter() {
    ///     cache.insert(key, value + 1);
    /// }
    /// assert_eq!(cache.peek("seven"), Some(8));
    /// # Ok::<(), clock2q::Refused>(())
    /// ```
    pub fn iter(&self) -> impl Iterator<Item = (K, V)> + '_
    where
        K: Clone,
        V: Clone,
    {
        self.shards.iter().flat_map(|shard| shard.pairs())
    }
}

impl<K, V, S> fmt::Debug for Cache<K, V, S> {
    fn fmt(&self, formatter: &mut fmt::Formatter<'_>) -> fmt::Result {
        formatter
            .debug_struct("Cache")
            .field("len", &self.len())
            .field("capacity", &self.capacity())
            .finish()
    }
}
