//! Pairs that may expire, which threads share.

mod keyed;

use super::locked;
use super::shard::Pairs;
use super::shards::{count_for, slots_of_part, Shards};
use crate::expiring::timed::{moment, Gone, Timed};
use crate::expiring::Builder;
use crate::store::Store;
use crate::{Cause, Clock, DefaultHashBuilder, Refused, SystemClock};
use std::fmt;
use std::sync::{Arc, Mutex};
use std::time::Duration;
use std::vec::Vec;

/// A [`sync::Cache`](super::Cache) whose pairs may expire, and whose listener hears each pair that leaves, and why, as
/// an [`ExpiringCache`](crate::ExpiringCache)'s does. [`Builder::build_shared`] makes it.
///
/// The thread whose call has a pair leave calls the listener, without a lock. The clock is read under the lock of a shard.
///
/// # Example
///
/// ```
/// use clock2q::Builder;
/// use std::time::Duration;
///
/// let builder = Builder::new(1000).time_to_live(Duration::from_secs(60));
/// let cache = builder
///     .shared_listener(|key: &&str, _: &u32, cause| println!("{key} left: {cause:?}"))
///     .build_shared()?;
/// assert_eq!(cache.get_or_insert_with("seven", || 7), 7);
/// assert_eq!(cache.remove("seven"), Some(7));
/// # Ok::<(), clock2q::Refused>(())
/// ```
pub struct ExpiringCache<K, V, L = fn(&K, &V, Cause), C = SystemClock, S = DefaultHashBuilder> {
    shards: Shards<TimedPairs<K, V, C>, K, Timed<V>>,
    time_to_live: Option<Duration>,
    listener: L,
    clock: Arc<C>,
    hasher: S,
    /// How many keys there may be. Whoever changes it has this lock meanwhile.
    capacity: Mutex<usize>,
}

/// The pairs of a shard, and what says whether their time is over.
struct TimedPairs<K, V, C> {
    store: Store<K, Timed<V>>,
    clock: Arc<C>,
}

impl<K, V, C: Clock> TimedPairs<K, V, C> {
    fn now(&self) -> u64 {
        moment(self.clock.now())
    }
}

impl<K, V, C: Clock> Pairs<K, Timed<V>> for TimedPairs<K, V, C> {
    /// A pair whose time is over isn't found, and stays.
    fn find(&mut self, hash: u64, key: &K) -> Option<&Timed<V>>
    where
        K: Eq,
    {
        let now = self.now();
        let store = &mut self.store;
        let Some(slot) = store.slot(hash, key) else {
            store.misses += 1;
            return None;
        };
        if store.is_over(slot, now) {
            store.misses += 1;
            return None;
        }
        store.hit(slot);
        store.hits += 1;
        let (_, held) = store.entries.pair(slot)?;
        Some(held)
    }

    fn peek(&self, hash: u64, key: &K) -> Option<&Timed<V>>
    where
        K: Eq,
    {
        self.store.peek_timed(hash, key, self.now())
    }

    fn len(&self) -> usize {
        self.store.len()
    }

    fn reserve(&mut self, capacity: usize) -> Result<(), Refused> {
        self.store.reserve(capacity)
    }

    fn resize(&mut self, limit: usize) -> Result<Vec<(K, Timed<V>)>, Refused> {
        self.store.resize(limit)
    }

    fn evict(&mut self) -> Option<(K, Timed<V>)> {
        let now = self.now();
        self.store.evict_timed(now)
    }

    fn visit(&self, mut see: impl FnMut(&K, &Timed<V>)) {
        let now = self.now();
        let pairs = self.store.entries.iter();
        let fresh = pairs.filter(|(_, held)| !held.is_over(now));
        fresh.for_each(|(key, held)| see(key, held));
    }

    fn retain(
        &mut self,
        mut keep: impl FnMut(&K, &Timed<V>) -> bool,
        left: &mut Vec<(K, Timed<V>)>,
    ) {
        let now = self.now();
        self.store.retain(
            |key, held| !held.is_over(now) && keep(key, held),
            |pair| left.push(pair),
        );
    }

    fn take_all(&mut self) -> Vec<(K, Timed<V>)> {
        self.store.take_all()
    }
}

impl<K, V> ExpiringCache<K, V> {
    /// Makes a cache for `capacity` keys, each of which expires so long after it was inserted, by the system's clock.
    ///
    /// # Errors
    ///
    /// Those of [`sync::Cache::new`](super::Cache::new).
    pub fn new(capacity: usize, time_to_live: Duration) -> Result<ExpiringCache<K, V>, Refused> {
        Builder::new(capacity)
            .time_to_live(time_to_live)
            .build_shared()
    }
}

impl<K, V, L, C, S> ExpiringCache<K, V, L, C, S> {
    pub(crate) fn of(builder: Builder<K, V, L, C, S>) -> Result<Self, Refused> {
        let (capacity, clock) = (builder.capacity, Arc::new(builder.clock));
        let shares = &builder.shares;
        let shards = Shards::new(capacity, count_for(capacity, shares)?, |at, count| {
            let slots = slots_of_part(capacity, shares, at, count)?;
            Ok(TimedPairs {
                store: Store::new(slots)?,
                clock: Arc::clone(&clock),
            })
        })?;
        Ok(ExpiringCache {
            shards,
            time_to_live: builder.time_to_live,
            listener: builder.listener,
            clock,
            hasher: builder.hasher,
            capacity: Mutex::new(capacity),
        })
    }

    /// Returns how many keys there can be.
    pub fn capacity(&self) -> usize {
        *locked(&self.capacity)
    }

    /// Returns how many shards there are.
    pub fn shards(&self) -> usize {
        self.shards.len()
    }

    /// Returns how many look-ups found a value whose time wasn't over, of those that record hits.
    pub fn hits(&self) -> u64 {
        let shards = self.shards.iter();
        shards.map(|shard| shard.lock().store.hits).sum()
    }

    /// Returns how many of these look-ups didn't.
    pub fn misses(&self) -> u64 {
        let shards = self.shards.iter();
        shards.map(|shard| shard.lock().store.misses).sum()
    }
}

impl<K, V, L, C: Clock, S> ExpiringCache<K, V, L, C, S> {
    fn now(&self) -> u64 {
        moment(self.clock.now())
    }

    /// Returns how many pairs there are, with those whose time is over and that no call has met.
    pub fn len(&self) -> usize {
        self.shards.pairs_len()
    }

    /// Returns true if there is no pair.
    pub fn is_empty(&self) -> bool {
        self.len() == 0
    }

    /// Calls `see` with each pair whose time isn't over, shard by shard, each under its lock. It records no hit.
    pub fn for_each(&self, mut see: impl FnMut(&K, &V)) {
        for shard in self.shards.iter() {
            shard.lock().visit(|key, held| see(key, &held.value));
        }
    }

    /// Returns clones of the pairs whose time isn't over, as [`sync::Cache::iter`](super::Cache::iter) does. Those of a
    /// shard that expire meanwhile are returned too, unless their time is over before they are asked for.
    pub fn iter(&self) -> impl Iterator<Item = (K, V)> + '_
    where
        K: Clone,
        V: Clone,
    {
        let pairs = self.shards.iter().flat_map(|shard| shard.pairs());
        let fresh = pairs.filter(|(_, held)| !held.is_over(self.now()));
        fresh.map(|(key, held)| (key, held.value))
    }
}

impl<K, V, L: Fn(&K, &V, Cause), C: Clock, S> ExpiringCache<K, V, L, C, S> {
    /// Has the listener hear a pair that left, and returns it if its time wasn't over.
    fn tell(&self, pair: (K, Timed<V>), cause: Cause, now: u64) -> Option<(K, V, Cause)> {
        let mut gone = Gone::new();
        gone.add(pair, cause, now);
        gone.tell(&self.listener)
    }

    /// Removes the pairs whose time is over, and returns how many they were.
    pub fn expire(&self) -> usize {
        let (now, mut expired) = (self.now(), 0);
        for shard in self.shards.iter() {
            // Before the lock, so that they are dropped after it.
            let mut left = Vec::new();
            shard.lock().retain(|_, _| true, &mut left);
            expired += left.len();
            for pair in left {
                self.tell(pair, Cause::Expired, now);
            }
        }
        expired
    }

    /// Removes the pairs for which `keep` returns false, as [`sync::Cache::retain`](super::Cache::retain) does, and those
    /// whose time is over.
    pub fn retain(&self, mut keep: impl FnMut(&K, &V) -> bool) {
        let mut keep = |key: &K, held: &Timed<V>| keep(key, &held.value);
        let mut gone = |key, held| drop(self.tell((key, held), Cause::Removed, self.now()));
        for shard in self.shards.iter() {
            shard.retain(&mut keep, &mut gone);
        }
    }

    /// Removes the pair that would have to leave next from the shard that has most pairs, and returns it; nothing if no
    /// shard has one. Pairs whose time is over leave before, and aren't returned.
    pub fn evict(&self) -> Option<(K, V)> {
        loop {
            let pair = self.shards.evict()?;
            if let Some((key, value, _)) = self.tell(pair, Cause::Evicted, self.now()) {
                return Some((key, value));
            }
        }
    }

    /// Removes all pairs, and forgets those that left. The pairs of each shard are kept in a vector until it has none.
    pub fn clear(&self) {
        let mut gone = |key, held| drop(self.tell((key, held), Cause::Cleared, self.now()));
        for shard in self.shards.iter() {
            shard.clear(&mut gone);
        }
    }

    /// Has the cache hold `capacity` keys at most, as [`sync::Cache::resize`](super::Cache::resize) does.
    ///
    /// # Errors
    ///
    /// Those of [`sync::Cache::resize`](super::Cache::resize).
    pub fn resize(&self, capacity: usize) -> Result<(), Refused> {
        let now = self.now();
        for pair in self.shards.resize(&self.capacity, capacity)? {
            self.tell(pair, Cause::Evicted, now);
        }
        Ok(())
    }
}

impl<K, V, L, C: Clock, S> fmt::Debug for ExpiringCache<K, V, L, C, S> {
    fn fmt(&self, formatter: &mut fmt::Formatter<'_>) -> fmt::Result {
        formatter
            .debug_struct("ExpiringCache")
            .field("len", &self.len())
            .field("capacity", &self.capacity())
            .finish()
    }
}
