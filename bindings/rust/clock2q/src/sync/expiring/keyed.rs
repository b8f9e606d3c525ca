//! The calls of one key, each of which locks one shard.

use super::{ExpiringCache, TimedPairs};
use crate::expiring::timed::{moment, Gone, Timed};
use crate::store::hash_of;
use crate::{Cause, Clock};
use std::borrow::Borrow;
use std::convert::Infallible;
use std::hash::{BuildHasher, Hash};
use std::time::Duration;

impl<K: Hash + Eq, V, L, C: Clock, S: BuildHasher> ExpiringCache<K, V, L, C, S> {
    /// Returns a clone of the value of a key. It records no hit.
    pub fn peek<Q>(&self, key: &Q) -> Option<V>
    where
        K: Borrow<Q>,
        Q: Hash + Eq + ?Sized,
        V: Clone,
    {
        self.peek_with(key, V::clone)
    }

    /// Returns what `read` makes of the value of a key. It records no hit.
    pub fn peek_with<Q, R>(&self, key: &Q, read: impl FnOnce(&V) -> R) -> Option<R>
    where
        K: Borrow<Q>,
        Q: Hash + Eq + ?Sized,
    {
        let hash = hash_of(&self.hasher, key);
        let pairs = self.shards.of(hash).lock();
        let held = pairs.store.peek_timed(hash, key, pairs.now())?;
        Some(read(&held.value))
    }

    /// Returns true if the key is here. It records no hit.
    pub fn contains_key<Q>(&self, key: &Q) -> bool
    where
        K: Borrow<Q>,
        Q: Hash + Eq + ?Sized,
    {
        self.peek_with(key, |_| ()).is_some()
    }
}

impl<K: Hash + Eq, V, L: Fn(&K, &V, Cause), C: Clock, S: BuildHasher> ExpiringCache<K, V, L, C, S> {
    /// Returns a clone of the value of a key, after a hit.
    pub fn get<Q>(&self, key: &Q) -> Option<V>
    where
        K: Borrow<Q>,
        Q: Hash + Eq + ?Sized,
        V: Clone,
    {
        self.get_with(key, V::clone)
    }

    /// Returns what `read` makes of the value of a key, after a hit.
    pub fn get_with<Q, R>(&self, key: &Q, read: impl FnOnce(&V) -> R) -> Option<R>
    where
        K: Borrow<Q>,
        Q: Hash + Eq + ?Sized,
    {
        let hash = hash_of(&self.hasher, key);
        let mut pairs = self.shards.of(hash).lock();
        let now = pairs.now();
        let left = match pairs.store.meet(hash, key, now) {
            Ok(slot) => {
                let (_, held) = pairs.store.entries.pair(slot)?;
                return Some(read(&held.value));
            }
            Err(left) => left?,
        };
        drop(pairs);
        self.tell(left, Cause::Expired, now);
        None
    }

    /// Stores a value for a key, and returns the one before, if the key was here. Its time begins now.
    pub fn insert(&self, key: K, value: V) -> Option<V> {
        self.insert_for(key, value, self.time_to_live)
    }

    /// Stores a value for a key that expires after so long a time, or never, and returns the one before, if the key was
    /// here.
    pub fn insert_for(&self, key: K, value: V, time_to_live: Option<Duration>) -> Option<V> {
        let hash = hash_of(&self.hasher, &key);
        let mut pairs = self.shards.of(hash).lock();
        // The clock and `Eq` may panic in these three, while the lock is dropped before what this thread owns.
        let now = pairs.now();
        let found = pairs.store.look_up(hash, &key);
        let outdated = pairs.outdate(hash, &key);
        let held = Timed::new(value, now, time_to_live);
        let gone = pairs.store.put_timed(found, hash, (key, held), now);
        drop(pairs);
        drop(outdated);
        let last = gone.tell(&self.listener);
        let replaced = last.filter(|(_, _, cause)| *cause == Cause::Replaced);
        replaced.map(|(_, value, _)| value)
    }

    /// Returns a clone of the value of a key, after a hit or after storing what `make` returns, whose time begins when it
    /// is stored. Those that ask meanwhile wait for it, as [`sync::Cache::get_or_insert_with`] says, and get it too,
    /// however short its time is.
    ///
    /// [`sync::Cache::get_or_insert_with`]: super::super::Cache::get_or_insert_with
    ///
    /// # Panics
    ///
    /// If `make` asks for this key. If `make` panics, the next of those that wait makes the value.
    pub fn get_or_insert_with(&self, key: K, make: impl FnOnce() -> V) -> V
    where
        V: Clone,
    {
        match self.try_get_or_insert_with(key, || Ok::<V, Infallible>(make())) {
            Ok(value) => value,
            Err(never) => match never {},
        }
    }

    /// Does what [`get_or_insert_with`](ExpiringCache::get_or_insert_with) does, with a `make` that may fail.
    ///
    /// # Errors
    ///
    /// That of `make`. Nothing is stored, and the next of those that wait makes the value.
    ///
    /// # Panics
    ///
    /// If `make` asks for this key.
    pub fn try_get_or_insert_with<E>(
        &self,
        key: K,
        make: impl FnOnce() -> Result<V, E>,
    ) -> Result<V, E>
    where
        V: Clone,
    {
        let hash = hash_of(&self.hasher, &key);
        let time_to_live = self.time_to_live;
        let mut gone = Gone::new();
        let push = |pairs: &mut TimedPairs<K, V, C>, pair: &mut Option<(K, Timed<V>)>| {
            let now = moment(pairs.clock.now());
            let (key, _) = pair.as_ref()?;
            let found = pairs.store.look_up(hash, key);
            let (key, held) = pair.take()?;
            let held = Timed::new(held.value, now, time_to_live);
            gone = pairs.store.put_timed(found, hash, (key, held), now);
            Some(())
        };
        let make = || make().map(|value| Timed::new(value, 0, None));
        let held = self.shards.of(hash).value_or_make(hash, key, make, push)?;
        gone.tell(&self.listener);
        Ok(held.value)
    }

    /// Removes a key, and returns its value. A key that isn't here is forgotten.
    pub fn remove<Q>(&self, key: &Q) -> Option<V>
    where
        K: Borrow<Q>,
        Q: Hash + Eq + ?Sized,
    {
        let hash = hash_of(&self.hasher, key);
        let mut pairs = self.shards.of(hash).lock();
        let now = pairs.now();
        let found = pairs.store.look_up(hash, key);
        let outdated = pairs.outdate(hash, key);
        let left = pairs.store.remove_found(&found, hash);
        drop(pairs);
        drop(outdated);
        let removed = self.tell(left?, Cause::Removed, now);
        removed.map(|(_, value, _)| value)
    }
}
