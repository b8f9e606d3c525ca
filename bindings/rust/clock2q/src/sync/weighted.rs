//! Pairs with weights, which threads share.

mod keyed;

use super::locked;
use super::shard::Pairs;
use super::shards::{count_for, part, slots_of_part, usual_count, Shards};
use crate::slots::Shares;
use crate::weights::{tell_all, WeightedStore};
use crate::{Cause, DefaultHashBuilder, Refused};
use std::fmt;
use std::sync::Mutex;
use std::vec::{self, Vec};

/// A [`sync::Cache`](super::Cache) whose pairs have weights, of which the sum is limited too, as that of a
/// [`WeightedCache`](crate::WeightedCache) is.
///
/// Both limits are divided among the shards. A pair that is heavier than its shard's share of
/// [`max_weight`](WeightedCache::max_weight) isn't stored: for heavy pairs, ask for few shards.
///
/// The weigher is called once for each pair that is to be stored, without a lock, but under the lock of a shard
/// for what [`get_or_insert_with`](WeightedCache::get_or_insert_with) made. What
/// [`sync::Cache`](super::Cache) says of locks and panics holds here too.
///
/// # Example
///
/// ```
/// use clock2q::sync::WeightedCache;
///
/// // A thousand texts, of at most a million bytes together.
/// let texts = WeightedCache::new(1000, 1_000_000, |_: &u32, text: &String| text.len() as u64)?;
/// assert_eq!(texts.insert(7, "seven".to_string()), Ok(None));
/// assert_eq!(texts.get(&7).as_deref(), Some("seven"));
/// assert_eq!(texts.weight(), 5);
/// # Ok::<(), clock2q::Refused>(())
/// ```
pub struct WeightedCache<K, V, W, S = DefaultHashBuilder, L = fn(&K, &V, Cause)> {
    shards: Shards<WeightedStore<K, V>, K, V>,
    weigher: W,
    hasher: S,
    listener: Option<L>,
    /// How many keys there may be. Whoever changes it has this lock meanwhile.
    capacity: Mutex<usize>,
    /// The most that the weights may be together. Whoever changes it has this lock meanwhile.
    max_weight: Mutex<u64>,
}

impl<K, V> Pairs<K, V> for WeightedStore<K, V> {
    fn find(&mut self, hash: u64, key: &K) -> Option<&V>
    where
        K: Eq,
    {
        WeightedStore::find(self, hash, key)
    }

    fn peek(&self, hash: u64, key: &K) -> Option<&V>
    where
        K: Eq,
    {
        WeightedStore::peek(self, hash, key)
    }

    fn len(&self) -> usize {
        self.pairs.len()
    }

    fn reserve(&mut self, capacity: usize) -> Result<(), Refused> {
        self.pairs.reserve(capacity)
    }

    fn resize(&mut self, limit: usize) -> Result<Vec<(K, V)>, Refused> {
        WeightedStore::resize(self, limit)
    }

    fn evict(&mut self) -> Option<(K, V)> {
        WeightedStore::evict(self)
    }

    fn visit(&self, mut see: impl FnMut(&K, &V)) {
        let pairs = self.pairs.entries.iter();
        pairs.for_each(|(key, held)| see(key, &held.value));
    }

    fn retain(&mut self, keep: impl FnMut(&K, &V) -> bool, left: &mut Vec<(K, V)>) {
        WeightedStore::retain(self, keep, |pair| left.push(pair));
    }

    fn take_all(&mut self) -> Vec<(K, V)> {
        WeightedStore::take_all(self)
    }
}

impl<K, V, W: Fn(&K, &V) -> u64> WeightedCache<K, V, W> {
    /// Makes a cache for `capacity` pairs, whose weights are at most `max_weight` together. It has as many shards
    /// as a [`sync::Cache`](super::Cache).
    ///
    /// # Errors
    ///
    /// [`Refused::Capacity`] and [`Refused::Memory`].
    pub fn new(capacity: usize, max_weight: u64, weigher: W) -> Result<Self, Refused> {
        WeightedCache::with_hasher(capacity, max_weight, weigher, DefaultHashBuilder::default())
    }

    /// Makes a cache with the shares of [`sync::Cache::with_policy`](super::Cache::with_policy).
    ///
    /// # Errors
    ///
    /// Those of [`sync::Cache::with_policy`](super::Cache::with_policy).
    pub fn with_policy(
        capacity: usize,
        small: usize,
        window: usize,
        max_weight: u64,
        weigher: W,
    ) -> Result<Self, Refused> {
        let shares = Shares::of_policy(small, window);
        let shards = count_for(capacity, &shares)?;
        let hasher = DefaultHashBuilder::default();
        WeightedCache::made(capacity, max_weight, shards, &shares, weigher, hasher)
    }

    /// Makes a cache with the history of [`sync::Cache::with_history`](super::Cache::with_history).
    ///
    /// # Errors
    ///
    /// Those of [`sync::Cache::with_history`](super::Cache::with_history).
    pub fn with_history(
        capacity: usize,
        small: usize,
        window: usize,
        history: usize,
        max_weight: u64,
        weigher: W,
    ) -> Result<Self, Refused> {
        let shares = Shares::of_history(small, window, history);
        let shards = count_for(capacity, &shares)?;
        let hasher = DefaultHashBuilder::default();
        WeightedCache::made(capacity, max_weight, shards, &shares, weigher, hasher)
    }
}

impl<K, V, W: Fn(&K, &V) -> u64, S> WeightedCache<K, V, W, S> {
    /// Makes a cache whose keys `hasher` hashes.
    ///
    /// # Errors
    ///
    /// Those of [`new`](WeightedCache::new).
    pub fn with_hasher(
        capacity: usize,
        max_weight: u64,
        weigher: W,
        hasher: S,
    ) -> Result<Self, Refused> {
        let shards = usual_count(capacity);
        WeightedCache::with_shards_and_hasher(capacity, max_weight, shards, weigher, hasher)
    }

    /// Makes a cache of that many shards, or of one for each key if there are fewer keys. Their shares of each
    /// limit differ by at most 1.
    ///
    /// # Errors
    ///
    /// Those of [`new`](WeightedCache::new), and [`Refused::Capacity`] if `shards` is 0.
    pub fn with_shards_and_hasher(
        capacity: usize,
        max_weight: u64,
        shards: usize,
        weigher: W,
        hasher: S,
    ) -> Result<Self, Refused> {
        let shares = Shares::default();
        WeightedCache::made(capacity, max_weight, shards, &shares, weigher, hasher)
    }

    fn made(
        capacity: usize,
        max_weight: u64,
        shards: usize,
        shares: &Shares,
        weigher: W,
        hasher: S,
    ) -> Result<Self, Refused> {
        let shards = Shards::new(capacity, shards, |at, count| {
            let slots = slots_of_part(capacity, shares, at, count)?;
            WeightedStore::new(slots, part(max_weight, at, count))
        })?;
        Ok(WeightedCache {
            shards,
            weigher,
            hasher,
            listener: None,
            capacity: Mutex::new(capacity),
            max_weight: Mutex::new(max_weight),
        })
    }
}

impl<K, V, W, S, L> WeightedCache<K, V, W, S, L> {
    /// Has `listener` hear each pair that leaves from now on, and why. The thread whose call has a pair leave calls it
    /// last, without a lock, so several threads may call it at once.
    ///
    /// ```
    /// use clock2q::{sync::WeightedCache, Cause};
    /// use std::sync::Mutex;
    ///
    /// let left = Mutex::new(Vec::new());
    /// let texts = WeightedCache::new(100, 10, |_: &u32, text: &&str| text.len() as u64)?;
    /// let texts = texts.heard_by(|key, _, cause| left.lock().unwrap().push((*key, cause)));
    /// texts.insert(7, "seven").expect("it is light");
    /// texts.insert(8, "nineteen").expect("it is light");
    /// texts.clear();
    /// assert_eq!(*left.lock().unwrap(), [(7, Cause::Evicted), (8, Cause::Cleared)]);
    /// # Ok::<(), clock2q::Refused>(())
    /// ```
    pub fn heard_by<M: Fn(&K, &V, Cause)>(self, listener: M) -> WeightedCache<K, V, W, S, M> {
        WeightedCache {
            shards: self.shards,
            weigher: self.weigher,
            hasher: self.hasher,
            listener: Some(listener),
            capacity: self.capacity,
            max_weight: self.max_weight,
        }
    }

    /// Returns how many pairs there are.
    pub fn len(&self) -> usize {
        self.shards.pairs_len()
    }

    /// Returns true if there is no pair.
    pub fn is_empty(&self) -> bool {
        self.len() == 0
    }

    /// Returns how many pairs there can be, whatever their weights: as many as asked for last, when the cache was made
    /// or [resized](WeightedCache::resize).
    pub fn capacity(&self) -> usize {
        *locked(&self.capacity)
    }

    /// Returns how many shards there are.
    pub fn shards(&self) -> usize {
        self.shards.len()
    }

    /// Returns the sum of the weights of all pairs.
    pub fn weight(&self) -> u64 {
        self.shards.iter().map(|shard| shard.lock().weight).sum()
    }

    /// Returns the most that the sum of the weights may be.
    pub fn max_weight(&self) -> u64 {
        *locked(&self.max_weight)
    }

    /// Returns how many look-ups found their key, of those that record hits.
    pub fn hits(&self) -> u64 {
        self.shards
            .iter()
            .map(|shard| shard.lock().pairs.hits)
            .sum()
    }

    /// Returns how many of these look-ups didn't.
    pub fn misses(&self) -> u64 {
        self.shards
            .iter()
            .map(|shard| shard.lock().pairs.misses)
            .sum()
    }

    /// Returns the hasher.
    pub fn hasher(&self) -> &S {
        &self.hasher
    }

    /// Calls `see` with each pair, shard by shard, each under its lock, in any order. It records no hit.
    pub fn for_each(&self, mut see: impl FnMut(&K, &V)) {
        self.shards
            .iter()
            .for_each(|shard| shard.lock().visit(&mut see));
    }

    /// Returns clones of the pairs, as [`sync::Cache::iter`](super::Cache::iter) does.
    pub fn iter(&self) -> impl Iterator<Item = (K, V)> + '_
    where
        K: Clone,
        V: Clone,
    {
        self.shards.iter().flat_map(|shard| shard.pairs())
    }
}

impl<K, V, W, S, L: Fn(&K, &V, Cause)> WeightedCache<K, V, W, S, L> {
    /// Has the listener hear pairs that left. No lock is held.
    fn tell<'a>(&self, left: impl IntoIterator<Item = &'a (K, V)>, cause: Cause)
    where
        K: 'a,
        V: 'a,
    {
        tell_all(&mut self.listener.as_ref(), left, cause);
    }

    /// Has the cache hold `capacity` pairs at most, as [`sync::Cache::resize`](super::Cache::resize) does.
    ///
    /// # Errors
    ///
    /// Those of [`sync::Cache::resize`](super::Cache::resize).
    pub fn resize(&self, capacity: usize) -> Result<(), Refused> {
        let left = self.shards.resize(&self.capacity, capacity)?;
        self.tell(&left, Cause::Evicted);
        Ok(())
    }

    /// Has the sum of the weights be at most `max_weight` from now on, divided among the shards. Pairs leave each
    /// as by [`WeightedCache::set_max_weight`](crate::WeightedCache::set_max_weight), and are dropped without a
    /// lock.
    pub fn set_max_weight(&self, max_weight: u64) {
        let mut left = Vec::new();
        let mut present = locked(&self.max_weight);
        for (at, shard) in self.shards.iter().enumerate() {
            let limit = part(max_weight, at, self.shards.len());
            left.extend(shard.lock().set_max_weight(limit));
        }
        *present = max_weight;
        drop(present);
        self.tell(&left, Cause::Evicted);
    }

    /// Removes the pair that would have to leave next from the shard that has most pairs, and returns it; nothing if no
    /// shard has one.
    pub fn evict(&self) -> Option<(K, V)> {
        let left = self.shards.evict();
        self.tell(&left, Cause::Evicted);
        left
    }

    /// Removes all pairs, and forgets those that left. Those of each shard are kept in a vector until it has none.
    pub fn clear(&self) {
        self.clear_with(drop);
    }

    fn clear_with(&self, mut gone: impl FnMut((K, V))) {
        let mut heard = |key, value| {
            let pair = (key, value);
            self.tell([&pair], Cause::Cleared);
            gone(pair);
        };
        self.shards.iter().for_each(|shard| shard.clear(&mut heard));
    }

    /// Removes all pairs, forgets those that left, and returns the pairs, in any order.
    pub fn drain(&self) -> vec::IntoIter<(K, V)> {
        let mut left = Vec::new();
        self.clear_with(|pair| left.push(pair));
        left.into_iter()
    }

    /// Removes the pairs for which `keep` returns false, as [`sync::Cache::retain`](super::Cache::retain) does.
    pub fn retain(&self, mut keep: impl FnMut(&K, &V) -> bool) {
        let mut gone = |key, value| self.tell([&(key, value)], Cause::Removed);
        self.shards
            .iter()
            .for_each(|shard| shard.retain(&mut keep, &mut gone));
    }
}

impl<K, V, W, S, L> fmt::Debug for WeightedCache<K, V, W, S, L> {
    fn fmt(&self, formatter: &mut fmt::Formatter<'_>) -> fmt::Result {
        formatter
            .debug_struct("WeightedCache")
            .field("len", &self.len())
            .field("capacity", &self.capacity())
            .field("weight", &self.weight())
            .field("max_weight", &self.max_weight())
            .finish()
    }
}
