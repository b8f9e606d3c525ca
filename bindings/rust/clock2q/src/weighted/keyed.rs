//! The calls of one key.

use super::{WeightedCache, WeightedEntry};
use crate::store::hash_of;
use crate::weights::{tell_all, Stored};
use crate::Cause;
use alloc::vec::Vec;
use core::borrow::Borrow;
use core::hash::{BuildHasher, Hash};

impl<K: Hash + Eq, V, W, S: BuildHasher, L> WeightedCache<K, V, W, S, L> {
    /// Returns the value of a key, after a hit.
    #[inline]
    pub fn get<Q>(&mut self, key: &Q) -> Option<&V>
    where
        K: Borrow<Q>,
        Q: Hash + Eq + ?Sized,
    {
        self.store.find(hash_of(&self.hasher, key), key)
    }

    /// Returns the value of a key. It records no hit.
    pub fn peek<Q>(&self, key: &Q) -> Option<&V>
    where
        K: Borrow<Q>,
        Q: Hash + Eq + ?Sized,
    {
        self.store.peek(hash_of(&self.hasher, key), key)
    }

    /// Returns true if the key is here. It records no hit.
    pub fn contains_key<Q>(&self, key: &Q) -> bool
    where
        K: Borrow<Q>,
        Q: Hash + Eq + ?Sized,
    {
        self.peek(key).is_some()
    }
}

impl<K: Hash + Eq, V, W, S: BuildHasher, L: FnMut(&K, &V, Cause)> WeightedCache<K, V, W, S, L> {
    /// Removes a key, and returns its value. A key that isn't here is forgotten.
    pub fn remove<Q>(&mut self, key: &Q) -> Option<V>
    where
        K: Borrow<Q>,
        Q: Hash + Eq + ?Sized,
    {
        self.remove_entry(key).map(|(_, value)| value)
    }

    /// Removes a key, and returns it with its value. A key that isn't here is forgotten.
    pub fn remove_entry<Q>(&mut self, key: &Q) -> Option<(K, V)>
    where
        K: Borrow<Q>,
        Q: Hash + Eq + ?Sized,
    {
        let hash = hash_of(&self.hasher, key);
        let found = self.store.look_up(hash, key);
        let removed = self.store.remove_found(&found, hash);
        tell_all(&mut self.listener, &removed, Cause::Removed);
        removed
    }
}

impl<K: Hash + Eq, V, W, S: BuildHasher, L> WeightedCache<K, V, W, S, L>
where
    W: Fn(&K, &V) -> u64,
    L: FnMut(&K, &V, Cause),
{
    /// Stores a value for a key, and returns the one before, if the key was here and didn't have to leave for its own
    /// new value. The pairs that leave are dropped.
    ///
    /// # Errors
    ///
    /// The pair, if it is heavier than [`max_weight`](WeightedCache::max_weight). The cache is as it was.
    pub fn insert(&mut self, key: K, value: V) -> Result<Option<V>, (K, V)> {
        let stored = self.store_pair(key, value)?;
        Ok(stored.before.map(|(_, value)| value))
    }

    /// Stores a value for a key, and returns the pairs that left for it, and last `key` and its value before, if it
    /// was here and still is.
    ///
    /// # Errors
    ///
    /// Those of [`insert`](WeightedCache::insert).
    pub fn push(&mut self, key: K, value: V) -> Result<Vec<(K, V)>, (K, V)> {
        Ok(self.store_pair(key, value)?.into_pairs())
    }

    /// Returns where a key belongs, after a hit if it is here.
    ///
    /// ```
    /// use clock2q::{WeightedCache, WeightedEntry};
    ///
    /// let mut texts = WeightedCache::new(1000, 10, |_: &u32, text: &String| text.len() as u64)?;
    /// assert_eq!(texts.entry(7).or_insert_with(|| "seven".to_string()), Ok(&"seven".to_string()));
    /// match texts.entry(7) {
    ///     WeightedEntry::Occupied(entry) => assert_eq!(entry.remove(), "seven"),
    ///     WeightedEntry::Vacant(_) => unreachable!(),
    /// }
    /// # Ok::<(), clock2q::Refused>(())
    /// ```
    pub fn entry(&mut self, key: K) -> WeightedEntry<'_, K, V, W, S, L> {
        let hash = hash_of(&self.hasher, &key);
        let found = self.store.pairs.look_up_counted(hash, &key);
        WeightedEntry::new(self, found, hash, key)
    }

    /// Returns the value of a key, after a hit or after storing what `make` returns. The pairs that leave are dropped.
    ///
    /// # Errors
    ///
    /// The pair, if it is heavier than [`max_weight`](WeightedCache::max_weight). The cache is as it was, but for the
    /// count of misses.
    pub fn get_or_insert_with(&mut self, key: K, make: impl FnOnce() -> V) -> Result<&V, (K, V)> {
        self.entry(key).or_insert_with(make)
    }

    /// Does what [`get_or_insert_with`](WeightedCache::get_or_insert_with) does, with a `make` that may fail.
    ///
    /// # Errors
    ///
    /// That of `make`; or else what [`get_or_insert_with`](WeightedCache::get_or_insert_with) returns, within `Ok`. The
    /// cache is as it was, but for the count of misses.
    pub fn try_get_or_insert_with<E>(
        &mut self,
        key: K,
        make: impl FnOnce() -> Result<V, E>,
    ) -> Result<Result<&V, (K, V)>, E> {
        match self.entry(key) {
            WeightedEntry::Occupied(entry) => Ok(Ok(entry.into_ref())),
            WeightedEntry::Vacant(entry) => Ok(entry.insert(make()?)),
        }
    }

    fn store_pair(&mut self, key: K, value: V) -> Result<Stored<K, V>, (K, V)> {
        let weight = (self.weigher)(&key, &value);
        let hash = hash_of(&self.hasher, &key);
        let found = self.store.look_up(hash, &key);
        self.store_at(found, hash, (key, value), weight)
    }
}
