//! Pairs with weights.

mod collect;
mod entry;
mod keyed;

use crate::slots::{Found, Shares, Slots};
use crate::weights::{tell_all, Stored, WeightedStore};
use crate::{Cause, DefaultHashBuilder, Iter, Refused};
use alloc::vec;
use core::fmt;
pub use entry::{WeightedEntry, WeightedOccupiedEntry, WeightedVacantEntry};

/// A [`Cache`](crate::Cache) whose pairs have weights, of which the sum is limited too.
///
/// A function of the cache's owner, the weigher, is called once for each pair that is to be stored, before
/// anything changes. Then others leave, in the order in which they would for new keys, until there is room for it
/// under both limits. A pair that is heavier than the limit alone isn't stored, and no other leaves for it.
///
/// What [`Cache`](crate::Cache) says of memory, panics and threads holds here too, but that pairs which leave for a heavier one
/// are kept in a vector until it is stored.
///
/// # Example
///
/// ```
/// use clock2q::WeightedCache;
///
/// // A thousand texts, of at most a million bytes together.
/// let mut texts = WeightedCache::new(1000, 1_000_000, |_: &u32, text: &String| text.len() as u64)?;
/// assert_eq!(texts.insert(7, "seven".to_string()), Ok(None));
/// assert_eq!(texts.get(&7).map(String::as_str), Some("seven"));
/// assert_eq!(texts.weight(), 5);
/// assert!(texts.insert(8, "8".repeat(1_000_001)).is_err());
/// # Ok::<(), clock2q::Refused>(())
/// ```
pub struct WeightedCache<K, V, W, S = DefaultHashBuilder, L = fn(&K, &V, Cause)> {
    store: WeightedStore<K, V>,
    weigher: W,
    hasher: S,
    listener: Option<L>,
}

#[cfg(feature = "std")]
impl<K, V, W: Fn(&K, &V) -> u64> WeightedCache<K, V, W> {
    /// Makes a cache for `capacity` pairs, whose weights are at most `max_weight` together.
    ///
    /// # Errors
    ///
    /// Those of [`Cache::new`](crate::Cache::new).
    pub fn new(capacity: usize, max_weight: u64, weigher: W) -> Result<Self, Refused> {
        WeightedCache::with_hasher(capacity, max_weight, weigher, DefaultHashBuilder::default())
    }

    /// Makes a cache with the shares of [`Cache::with_policy`](crate::Cache::with_policy).
    ///
    /// # Errors
    ///
    /// Those of [`Cache::with_policy`](crate::Cache::with_policy).
    pub fn with_policy(
        capacity: usize,
        small: usize,
        window: usize,
        max_weight: u64,
        weigher: W,
    ) -> Result<Self, Refused> {
        let shares = Shares::of_policy(small, window);
        let hasher = DefaultHashBuilder::default();
        WeightedCache::made(capacity, shares, max_weight, weigher, hasher)
    }

    /// Makes a cache with the history of [`Cache::with_history`](crate::Cache::with_history).
    ///
    /// # Errors
    ///
    /// Those of [`Cache::with_history`](crate::Cache::with_history).
    pub fn with_history(
        capacity: usize,
        small: usize,
        window: usize,
        history: usize,
        max_weight: u64,
        weigher: W,
    ) -> Result<Self, Refused> {
        let shares = Shares::of_history(small, window, history);
        let hasher = DefaultHashBuilder::default();
        WeightedCache::made(capacity, shares, max_weight, weigher, hasher)
    }
}

impl<K, V, W: Fn(&K, &V) -> u64, S> WeightedCache<K, V, W, S> {
    /// Makes a cache whose keys `hasher` hashes.
    ///
    /// # Errors
    ///
    /// Those of [`Cache::new`](crate::Cache::new).
    pub fn with_hasher(
        capacity: usize,
        max_weight: u64,
        weigher: W,
        hasher: S,
    ) -> Result<Self, Refused> {
        WeightedCache::made(capacity, Shares::default(), max_weight, weigher, hasher)
    }

    fn made(
        capacity: usize,
        shares: Shares,
        max_weight: u64,
        weigher: W,
        hasher: S,
    ) -> Result<Self, Refused> {
        let slots = Slots::with_shares(capacity, shares)?;
        Ok(WeightedCache {
            store: WeightedStore::new(slots, max_weight)?,
            weigher,
            hasher,
            listener: None,
        })
    }
}

impl<K, V, W, S, L> WeightedCache<K, V, W, S, L> {
    /// Has `listener` hear each pair that leaves from now on, and why, last in the call that has it leave, when the cache
    /// is whole. If it panics, what the call did stays done.
    ///
    /// ```
    /// use clock2q::{Cause, WeightedCache};
    ///
    /// let mut left = Vec::new();
    /// let texts = WeightedCache::new(1000, 10, |_: &u32, text: &&str| text.len() as u64)?;
    /// let mut texts = texts.heard_by(|key, _, cause| left.push((*key, cause)));
    /// texts.insert(7, "seven").expect("it is light");
    /// texts.insert(8, "eightyeight").expect_err("it is too heavy");
    /// texts.insert(9, "nineteen").expect("it is light");
    /// texts.remove(&9);
    /// drop(texts);
    /// assert_eq!(left, [(7, Cause::Evicted), (9, Cause::Removed)]);
    /// # Ok::<(), clock2q::Refused>(())
    /// ```
    pub fn heard_by<M: FnMut(&K, &V, Cause)>(self, listener: M) -> WeightedCache<K, V, W, S, M> {
        WeightedCache {
            store: self.store,
            weigher: self.weigher,
            hasher: self.hasher,
            listener: Some(listener),
        }
    }

    /// Returns how many pairs there are.
    pub fn len(&self) -> usize {
        self.store.pairs.len()
    }

    /// Returns true if there is no pair.
    pub fn is_empty(&self) -> bool {
        self.len() == 0
    }

    /// Returns how many pairs there can be, whatever their weights.
    pub fn capacity(&self) -> usize {
        self.store.pairs.capacity()
    }

    /// Returns the sum of the weights of all pairs.
    pub fn weight(&self) -> u64 {
        self.store.weight
    }

    /// Returns the most that the sum of the weights may be.
    pub fn max_weight(&self) -> u64 {
        self.store.max_weight
    }

    /// Returns how many look-ups found their key, of those that record hits.
    pub fn hits(&self) -> u64 {
        self.store.pairs.hits
    }

    /// Returns how many of these look-ups didn't.
    pub fn misses(&self) -> u64 {
        self.store.pairs.misses
    }

    /// Returns the hasher.
    pub fn hasher(&self) -> &S {
        &self.hasher
    }

    /// Returns the pair that [`evict`](WeightedCache::evict) would remove. Records no hit.
    pub fn next_victim(&mut self) -> Option<(&K, &V)> {
        let (key, weighed) = self.store.pairs.next_victim()?;
        Some((key, &weighed.value))
    }

    /// Returns the pairs, in any order. It records no hit.
    pub fn iter(&self) -> impl ExactSizeIterator<Item = (&K, &V)> {
        let pairs = &self.store.pairs.entries;
        Iter::new(pairs.iter(), self.len()).map(|(key, held)| (key, &held.value))
    }

    /// Returns the pair at a slot that a key has.
    fn pair_at(&self, slot: usize) -> (&K, &V) {
        let pair = self.store.pairs.entries.pair(slot);
        let (key, held) = pair.expect("a pair is at its slot");
        (key, &held.value)
    }

    /// Returns the keys, in any order.
    pub fn keys(&self) -> impl ExactSizeIterator<Item = &K> {
        self.iter().map(|(key, _)| key)
    }

    /// Returns the values, in any order. It records no hit.
    pub fn values(&self) -> impl ExactSizeIterator<Item = &V> {
        self.iter().map(|(_, value)| value)
    }
}

impl<K, V, W, S, L: FnMut(&K, &V, Cause)> WeightedCache<K, V, W, S, L> {
    /// Has the cache hold `capacity` pairs at most, as [`Cache::resize`](crate::Cache::resize) does.
    ///
    /// # Errors
    ///
    /// Those of [`Cache::resize`](crate::Cache::resize).
    pub fn resize(&mut self, capacity: usize) -> Result<(), Refused> {
        let left = self.store.resize(capacity)?;
        tell_all(&mut self.listener, &left, Cause::Evicted);
        Ok(())
    }

    /// Has the sum of the weights be at most `max_weight` from now on. Pairs leave as by
    /// [`evict`](WeightedCache::evict) until it is, and are dropped then.
    pub fn set_max_weight(&mut self, max_weight: u64) {
        let left = self.store.set_max_weight(max_weight);
        tell_all(&mut self.listener, &left, Cause::Evicted);
    }

    /// Removes the pair that would have to leave next, and returns it; nothing if there is none.
    pub fn evict(&mut self) -> Option<(K, V)> {
        let left = self.store.evict();
        tell_all(&mut self.listener, &left, Cause::Evicted);
        left
    }

    /// Removes all pairs, and forgets those that left. If there is a listener, they are kept in a vector until it has
    /// heard them.
    pub fn clear(&mut self) {
        match self.listener {
            Some(_) => drop(self.drain()),
            None => self.store.clear(),
        }
    }

    /// Removes all pairs, forgets those that left, and returns the pairs, in any order.
    pub fn drain(&mut self) -> vec::IntoIter<(K, V)> {
        let left = self.store.take_all();
        tell_all(&mut self.listener, &left, Cause::Cleared);
        left.into_iter()
    }

    /// Stores a pair, for whose key a look-up returned `found`, and has the listener hear which left.
    fn store_at(
        &mut self,
        found: Found,
        hash: u64,
        pair: (K, V),
        weight: u64,
    ) -> Result<Stored<K, V>, (K, V)> {
        let stored = self.store.push_at(found, hash, pair, weight)?;
        stored.tell(&mut self.listener);
        Ok(stored)
    }

    /// Removes the pair at a slot that a key has, and returns it.
    fn remove_at(&mut self, slot: usize) -> (K, V) {
        let removed = self.store.remove_at(slot);
        tell_all(&mut self.listener, &removed, Cause::Removed);
        removed.expect("a pair is at its slot")
    }

    /// Removes the pairs for which `keep` returns false, each as soon as it does. It records no hit.
    pub fn retain(&mut self, keep: impl FnMut(&K, &V) -> bool) {
        let listener = &mut self.listener;
        let gone = |pair| tell_all(listener, [&pair], Cause::Removed);
        self.store.retain(keep, gone);
    }
}

impl<K, V, W, S, L> fmt::Debug for WeightedCache<K, V, W, S, L> {
    fn fmt(&self, formatter: &mut fmt::Formatter<'_>) -> fmt::Result {
        formatter
            .debug_struct("WeightedCache")
            .field("len", &self.len())
            .field("capacity", &self.capacity())
            .field("weight", &self.weight())
            .field("max_weight", &self.max_weight())
            .finish()
    }
}
