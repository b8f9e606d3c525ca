//! A map whose pairs may expire.

use super::timed::{moment, Gone, Timed};
use super::{Builder, Clock, SystemClock};
use crate::slots::Found;
use crate::store::{hash_of, Store};
use crate::{Cause, DefaultHashBuilder, Refused};
use std::borrow::Borrow;
use std::fmt;
use std::hash::{BuildHasher, Hash};
use std::time::Duration;
use std::vec::Vec;

/// A [`Cache`](crate::Cache) whose pairs may expire, and whose listener hears each pair that leaves, and why. A
/// [`Builder`] makes it.
///
/// No value is returned from the moment on at which its time is over. A pair whose time is over leaves as a removed one
/// does, as soon as a call that may change the cache meets it, or by [`expire`](ExpiringCache::expire). Until then it has
/// its slot, and is counted by [`len`](ExpiringCache::len). There is no thread that looks for such pairs.
///
/// The listener is called last, when the cache is whole. If it panics, what the call did stays done.
///
/// # Example
///
/// ```
/// use clock2q::ExpiringCache;
/// use std::time::Duration;
///
/// let mut cache = ExpiringCache::new(1000, Duration::from_secs(60))?;
/// cache.insert("seven", 7);
/// cache.insert_for("eight", 8, Some(Duration::ZERO));
/// assert_eq!(cache.get("seven"), Some(&7));
/// assert_eq!(cache.get("eight"), None);
/// assert_eq!(cache.len(), 1);
/// # Ok::<(), clock2q::Refused>(())
/// ```
pub struct ExpiringCache<K, V, L = fn(&K, &V, Cause), C = SystemClock, S = DefaultHashBuilder> {
    store: Store<K, Timed<V>>,
    time_to_live: Option<Duration>,
    listener: L,
    clock: C,
    hasher: S,
}

impl<K, V> ExpiringCache<K, V> {
    /// Makes a cache for `capacity` keys, each of which expires so long after it was inserted, by the system's clock.
    ///
    /// # Errors
    ///
    /// Those of [`Cache::new`](crate::Cache::new).
    pub fn new(capacity: usize, time_to_live: Duration) -> Result<ExpiringCache<K, V>, Refused> {
        Builder::new(capacity).time_to_live(time_to_live).build()
    }
}

impl<K, V, L, C, S> ExpiringCache<K, V, L, C, S> {
    pub(super) fn of(store: Store<K, Timed<V>>, builder: Builder<K, V, L, C, S>) -> Self {
        ExpiringCache {
            store,
            time_to_live: builder.time_to_live,
            listener: builder.listener,
            clock: builder.clock,
            hasher: builder.hasher,
        }
    }

    /// Returns how many pairs there are, with those whose time is over and that no call has met.
    pub fn len(&self) -> usize {
        self.store.len()
    }

    /// Returns true if there is no pair.
    pub fn is_empty(&self) -> bool {
        self.len() == 0
    }

    /// Returns how many keys there can be.
    pub fn capacity(&self) -> usize {
        self.store.capacity()
    }

    /// Returns how many look-ups found a value whose time wasn't over, of those that record hits.
    pub fn hits(&self) -> u64 {
        self.store.hits
    }

    /// Returns how many of these look-ups didn't.
    pub fn misses(&self) -> u64 {
        self.store.misses
    }
}

impl<K, V, L, C: Clock, S> ExpiringCache<K, V, L, C, S> {
    fn now(&self) -> u64 {
        moment(self.clock.now())
    }

    /// Returns the pairs whose time isn't over, in any order. It records no hit.
    pub fn iter(&self) -> impl Iterator<Item = (&K, &V)> {
        let now = self.now();
        let pairs = self.store.entries.iter();
        let fresh = pairs.filter(move |(_, held)| !held.is_over(now));
        fresh.map(|(key, held)| (key, &held.value))
    }
}

impl<K, V, L: FnMut(&K, &V, Cause), C: Clock, S> ExpiringCache<K, V, L, C, S> {
    /// Removes the pairs whose time is over, and returns how many they were.
    ///
    /// # Cost
    ///
    /// A look at each slot.
    pub fn expire(&mut self) -> usize {
        let len = self.len();
        self.retain(|_, _| true);
        len - self.len()
    }

    /// Removes the pairs for which `keep` returns false, and those whose time is over, which it isn't shown. Each leaves as
    /// soon as it does, and the listener hears it then.
    pub fn retain(&mut self, mut keep: impl FnMut(&K, &mut V) -> bool) {
        let now = self.now();
        for slot in 0..self.store.entries.bound() {
            let left = self.store.reject(slot, now, &mut keep);
            self.tell(left, Cause::Removed, now);
        }
    }

    /// Removes the pair that would have to leave next, and returns it; nothing if there is none. Pairs whose time is
    /// over leave before, and aren't returned.
    pub fn evict(&mut self) -> Option<(K, V)> {
        let now = self.now();
        self.evict_at(now)
    }

    fn evict_at(&mut self, now: u64) -> Option<(K, V)> {
        loop {
            let pair = self.store.evict_timed(now)?;
            if let Some((key, value, _)) = self.tell(Some(pair), Cause::Evicted, now) {
                return Some((key, value));
            }
        }
    }

    /// Has the cache hold `capacity` keys at most, as [`Cache::resize`](crate::Cache::resize) does.
    ///
    /// # Errors
    ///
    /// Those of [`Cache::resize`](crate::Cache::resize).
    pub fn resize(&mut self, capacity: usize) -> Result<(), Refused> {
        self.store.reserve(capacity)?;
        let now = self.now();
        while self.len() > capacity {
            let pair = self.store.evict_timed(now);
            self.tell(pair, Cause::Evicted, now);
        }
        self.store.resize(capacity).map(drop)
    }

    /// Removes all pairs, which are kept in a vector until the listener has heard them, and forgets those that left.
    pub fn clear(&mut self) {
        let now = self.now();
        let left: Vec<(K, Timed<V>)> = self.store.take_all();
        for pair in left {
            self.tell(Some(pair), Cause::Cleared, now);
        }
    }

    /// Has the listener hear a pair that left, and returns it if its time wasn't over.
    fn tell(
        &mut self,
        pair: Option<(K, Timed<V>)>,
        cause: Cause,
        now: u64,
    ) -> Option<(K, V, Cause)> {
        let mut gone = Gone::new();
        gone.add(pair?, cause, now);
        gone.tell(&mut self.listener)
    }
}

impl<K: Hash + Eq, V, L, C: Clock, S: BuildHasher> ExpiringCache<K, V, L, C, S> {
    /// Returns the value of a key. It records no hit.
    pub fn peek<Q>(&self, key: &Q) -> Option<&V>
    where
        K: Borrow<Q>,
        Q: Hash + Eq + ?Sized,
    {
        let (now, hash) = (self.now(), hash_of(&self.hasher, key));
        let held = self.store.peek_timed(hash, key, now)?;
        Some(&held.value)
    }

    /// Returns true if the key is here. It records no hit.
    pub fn contains_key<Q>(&self, key: &Q) -> bool
    where
        K: Borrow<Q>,
        Q: Hash + Eq + ?Sized,
    {
        self.peek(key).is_some()
    }
}

impl<K: Hash + Eq, V, L: FnMut(&K, &V, Cause), C: Clock, S: BuildHasher>
    ExpiringCache<K, V, L, C, S>
{
    /// Returns the value of a key, after a hit.
    pub fn get<Q>(&mut self, key: &Q) -> Option<&V>
    where
        K: Borrow<Q>,
        Q: Hash + Eq + ?Sized,
    {
        self.get_mut(key).map(|value| &*value)
    }

    /// Returns the value of a key to write to, after a hit. Its time stays as it is.
    pub fn get_mut<Q>(&mut self, key: &Q) -> Option<&mut V>
    where
        K: Borrow<Q>,
        Q: Hash + Eq + ?Sized,
    {
        let (now, hash) = (self.now(), hash_of(&self.hasher, key));
        match self.store.meet(hash, key, now) {
            Ok(slot) => self.value_at(slot),
            Err(left) => {
                self.tell(left, Cause::Expired, now);
                None
            }
        }
    }

    /// Stores a value for a key, and returns the one before, if the key was here. Its time begins now.
    pub fn insert(&mut self, key: K, value: V) -> Option<V> {
        self.insert_for(key, value, self.time_to_live)
    }

    /// Stores a value for a key that expires after so long a time, or never, and returns the one before, if the key was
    /// here.
    pub fn insert_for(&mut self, key: K, value: V, time_to_live: Option<Duration>) -> Option<V> {
        let (now, hash) = (self.now(), hash_of(&self.hasher, &key));
        let held = Timed::new(value, now, time_to_live);
        let found = self.store.look_up(hash, &key);
        let gone = self.store.put_timed(found, hash, (key, held), now);
        let last = gone.tell(&mut self.listener);
        let replaced = last.filter(|(_, _, cause)| *cause == Cause::Replaced);
        replaced.map(|(_, value, _)| value)
    }

    /// Returns the value of a key, after a hit or after storing what `make` returns, whose time begins when it is made.
    pub fn get_or_insert_with(&mut self, key: K, make: impl FnOnce() -> V) -> &mut V {
        let (now, hash) = (self.now(), hash_of(&self.hasher, &key));
        let slot = match self.store.meet(hash, &key, now) {
            Ok(slot) => slot,
            Err(left) => {
                self.tell(left, Cause::Expired, now);
                let value = make();
                self.admit(hash, key, value)
            }
        };
        self.value_at(slot).expect("a pair is at its slot")
    }

    /// Stores a pair whose key isn't here, and returns its slot.
    fn admit(&mut self, hash: u64, key: K, value: V) -> usize {
        let now = self.now();
        let held = Timed::new(value, now, self.time_to_live);
        let found = self.store.look_up_absent(hash);
        let (slot, left) = self.store.admit(found, hash, key, held);
        let second = self.store.take_second();
        self.tell(left, Cause::Evicted, now);
        self.tell(second, Cause::Evicted, now);
        slot
    }

    /// Removes a key, and returns its value. A key that isn't here is forgotten.
    pub fn remove<Q>(&mut self, key: &Q) -> Option<V>
    where
        K: Borrow<Q>,
        Q: Hash + Eq + ?Sized,
    {
        let (now, hash) = (self.now(), hash_of(&self.hasher, key));
        let found: Found = self.store.look_up(hash, key);
        let left = self.store.remove_found(&found, hash);
        let removed = self.tell(left, Cause::Removed, now);
        removed.map(|(_, value, _)| value)
    }

    fn value_at(&mut self, slot: usize) -> Option<&mut V> {
        let (_, held) = self.store.entries.pair_mut(slot)?;
        Some(&mut held.value)
    }
}

impl<K, V, L, C, S> fmt::Debug for ExpiringCache<K, V, L, C, S> {
    fn fmt(&self, formatter: &mut fmt::Formatter<'_>) -> fmt::Result {
        formatter
            .debug_struct("ExpiringCache")
            .field("len", &self.len())
            .field("capacity", &self.capacity())
            .finish()
    }
}
