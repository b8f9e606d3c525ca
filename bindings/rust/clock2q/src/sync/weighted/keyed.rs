//! The calls of one key, each of which locks one shard.

use super::WeightedCache;
use crate::store::hash_of;
use crate::weights::{Stored, WeightedStore};
use crate::Cause;
use std::borrow::Borrow;
use std::convert::Infallible;
use std::hash::{BuildHasher, Hash};
use std::vec::Vec;

impl<K: Hash + Eq, V, W, S: BuildHasher, L> WeightedCache<K, V, W, S, L> {
    /// Returns a clone of the value of a key, after a hit.
    pub fn get<Q>(&self, key: &Q) -> Option<V>
    where
        K: Borrow<Q>,
        Q: Hash + Eq + ?Sized,
        V: Clone,
    {
        self.get_with(key, V::clone)
    }

    /// Returns what `read` makes of the value of a key, after a hit.
    pub fn get_with<Q, R>(&self, key: &Q, read: impl FnOnce(&V) -> R) -> Option<R>
    where
        K: Borrow<Q>,
        Q: Hash + Eq + ?Sized,
    {
        let hash = hash_of(&self.hasher, key);
        self.shards.of(hash).lock().find(hash, key).map(read)
    }

    /// Returns a clone of the value of a key. It records no hit.
    pub fn peek<Q>(&self, key: &Q) -> Option<V>
    where
        K: Borrow<Q>,
        Q: Hash + Eq + ?Sized,
        V: Clone,
    {
        self.peek_with(key, V::clone)
    }

    /// Returns what `read` makes of the value of a key. It records no hit.
    pub fn peek_with<Q, R>(&self, key: &Q, read: impl FnOnce(&V) -> R) -> Option<R>
    where
        K: Borrow<Q>,
        Q: Hash + Eq + ?Sized,
    {
        let hash = hash_of(&self.hasher, key);
        let store = self.shards.of(hash).lock();
        WeightedStore::peek(&store, hash, key).map(read)
    }

    /// Returns true if the key is here. It records no hit.
    pub fn contains_key<Q>(&self, key: &Q) -> bool
    where
        K: Borrow<Q>,
        Q: Hash + Eq + ?Sized,
    {
        let hash = hash_of(&self.hasher, key);
        self.shards.of(hash).lock().peek(hash, key).is_some()
    }
}

impl<K: Hash + Eq, V, W, S: BuildHasher, L: Fn(&K, &V, Cause)> WeightedCache<K, V, W, S, L> {
    /// Removes a key, and returns its value. A key that isn't here is forgotten.
    pub fn remove<Q>(&self, key: &Q) -> Option<V>
    where
        K: Borrow<Q>,
        Q: Hash + Eq + ?Sized,
    {
        self.remove_entry(key).map(|(_, value)| value)
    }

    /// Removes a key, and returns it with its value. A key that isn't here is forgotten.
    pub fn remove_entry<Q>(&self, key: &Q) -> Option<(K, V)>
    where
        K: Borrow<Q>,
        Q: Hash + Eq + ?Sized,
    {
        let hash = hash_of(&self.hasher, key);
        let mut store = self.shards.of(hash).lock();
        let found = store.look_up(hash, key);
        let outdated = store.outdate(hash, key);
        let removed = store.remove_found(&found, hash);
        drop(store);
        drop(outdated);
        self.tell(&removed, Cause::Removed);
        removed
    }
}

impl<K: Hash + Eq, V, W, S: BuildHasher, L> WeightedCache<K, V, W, S, L>
where
    W: Fn(&K, &V) -> u64,
    L: Fn(&K, &V, Cause),
{
    /// Stores a value for a key, and returns the one before, if the key was here and didn't have to leave for its own
    /// new value. The pairs that leave are dropped.
    ///
    /// # Errors
    ///
    /// The pair, if it is heavier than its shard's share of [`max_weight`](WeightedCache::max_weight). The cache is
    /// as it was.
    pub fn insert(&self, key: K, value: V) -> Result<Option<V>, (K, V)> {
        let stored = self.store_pair(key, value)?;
        Ok(stored.before.map(|(_, value)| value))
    }

    /// Stores a value for a key, and returns the pairs that left for it, and last `key` and its value before, if it
    /// was here and still is.
    ///
    /// # Errors
    ///
    /// Those of [`insert`](WeightedCache::insert).
    pub fn push(&self, key: K, value: V) -> Result<Vec<(K, V)>, (K, V)> {
        Ok(self.store_pair(key, value)?.into_pairs())
    }

    fn store_pair(&self, key: K, value: V) -> Result<Stored<K, V>, (K, V)> {
        let weight = (self.weigher)(&key, &value);
        let hash = hash_of(&self.hasher, &key);
        let mut store = self.shards.of(hash).lock();
        if weight > store.max_weight {
            return Err((key, value));
        }
        // `Eq` may panic in these two, while the lock is dropped before what this thread owns.
        let found = store.look_up(hash, &key);
        let outdated = store.outdate(hash, &key);
        let stored = store.push_at(found, hash, (key, value), weight);
        drop(store);
        drop(outdated);
        if let Ok(stored) = &stored {
            stored.tell(&mut self.listener.as_ref());
        }
        stored
    }

    /// Returns a clone of the value of a key, after a hit or after storing what `make` returns, if that isn't too
    /// heavy. If several threads ask for a key at once, one of them makes the value, which the others wait for. If the
    /// key is inserted or removed meanwhile, or all are, the value is returned to all of these, but not stored.
    ///
    /// `make` may use this cache, but not ask for this key, or wait for a thread that does.
    ///
    /// # Panics
    ///
    /// If `make` asks for this key. If `make` panics, the next of those that wait makes the value.
    pub fn get_or_insert_with(&self, key: K, make: impl FnOnce() -> V) -> V
    where
        V: Clone,
    {
        match self.try_get_or_insert_with(key, || Ok::<V, Infallible>(make())) {
            Ok(value) => value,
            Err(never) => match never {},
        }
    }

    /// Does what [`get_or_insert_with`](WeightedCache::get_or_insert_with) does, with a `make` that may fail.
    ///
    /// # Errors
    ///
    /// That of `make`. Nothing is stored, and the next of those that wait makes the value.
    ///
    /// # Panics
    ///
    /// If `make` asks for this key.
    pub fn try_get_or_insert_with<E>(
        &self,
        key: K,
        make: impl FnOnce() -> Result<V, E>,
    ) -> Result<V, E>
    where
        V: Clone,
    {
        let hash = hash_of(&self.hasher, &key);
        let mut stored = None;
        let push = |store: &mut WeightedStore<K, V>, pair: &mut Option<(K, V)>| {
            let (key, value) = pair.as_ref()?;
            let weight = (self.weigher)(key, value);
            let found = store.look_up(hash, key);
            stored = Some(store.push_at(found, hash, pair.take()?, weight));
            Some(())
        };
        let value = self.shards.of(hash).value_or_make(hash, key, make, push)?;
        if let Some(Ok(stored)) = &stored {
            stored.tell(&mut self.listener.as_ref());
        }
        Ok(value)
    }
}

/// Inserts a copy of each pair that isn't too heavy.
impl<'a, K: Hash + Eq + Copy, V: Copy, W, S: BuildHasher, L> Extend<(&'a K, &'a V)>
    for WeightedCache<K, V, W, S, L>
where
    W: Fn(&K, &V) -> u64,
    L: Fn(&K, &V, Cause),
{
    fn extend<I: IntoIterator<Item = (&'a K, &'a V)>>(&mut self, pairs: I) {
        self.extend(pairs.into_iter().map(|(key, value)| (*key, *value)));
    }
}

/// Inserts each pair that isn't too heavy, and drops the others.
impl<K: Hash + Eq, V, W, S: BuildHasher, L> Extend<(K, V)> for WeightedCache<K, V, W, S, L>
where
    W: Fn(&K, &V) -> u64,
    L: Fn(&K, &V, Cause),
{
    fn extend<I: IntoIterator<Item = (K, V)>>(&mut self, pairs: I) {
        for (key, value) in pairs {
            drop(self.insert(key, value));
        }
    }
}
