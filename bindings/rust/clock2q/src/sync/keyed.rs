//! The calls of one key, each of which locks one shard.

use super::Cache;
use crate::before::Before;
use crate::store::{hash_of, Store};
use std::borrow::Borrow;
use std::convert::Infallible;
use std::hash::{BuildHasher, Hash};

impl<K: Hash + Eq, V, S: BuildHasher> Cache<K, V, S> {
    /// Returns a clone of the value of a key, after a hit.
    pub fn get<Q>(&self, key: &Q) -> Option<V>
    where
        K: Borrow<Q>,
        Q: Hash + Eq + ?Sized,
        V: Clone,
    {
        self.get_with(key, V::clone)
    }

    /// Returns what `read` makes of the value of a key, after a hit.
    pub fn get_with<Q, R>(&self, key: &Q, read: impl FnOnce(&V) -> R) -> Option<R>
    where
        K: Borrow<Q>,
        Q: Hash + Eq + ?Sized,
    {
        let hash = hash_of(&self.hasher, key);
        let mut store = self.shards.of(hash).lock();
        let value = store.find_value(hash, key)?;
        Some(read(value))
    }

    /// Returns clones of the key that is here and of its value, after a hit.
    pub fn get_key_value<Q>(&self, key: &Q) -> Option<(K, V)>
    where
        K: Borrow<Q> + Clone,
        Q: Hash + Eq + ?Sized,
        V: Clone,
    {
        let hash = hash_of(&self.hasher, key);
        // Before the lock, so that it is dropped after it if the value's clone panics.
        let own;
        let mut store = self.shards.of(hash).lock();
        let (key, value) = store.find_pair(hash, key)?;
        own = key.clone();
        let value = value.clone();
        Some((own, value))
    }

    /// Has `change` change the value of a key, after a hit, and returns what it returns.
    ///
    /// ```
    /// let cache = clock2q::sync::Cache::new(100)?;
    /// cache.insert("seven", 7);
    /// cache.get_mut_with("seven", |value| *value += 1);
    /// assert_eq!(cache.get("seven"), Some(8));
    /// # Ok::<(), clock2q::Refused>(())
    /// ```
    pub fn get_mut_with<Q, R>(&self, key: &Q, change: impl FnOnce(&mut V) -> R) -> Option<R>
    where
        K: Borrow<Q>,
        Q: Hash + Eq + ?Sized,
    {
        let hash = hash_of(&self.hasher, key);
        let mut store = self.shards.of(hash).lock();
        store.find_value(hash, key).map(change)
    }

    /// Has `change` change the value of a key, and returns what it returns. It records no hit.
    pub fn peek_mut_with<Q, R>(&self, key: &Q, change: impl FnOnce(&mut V) -> R) -> Option<R>
    where
        K: Borrow<Q>,
        Q: Hash + Eq + ?Sized,
    {
        let hash = hash_of(&self.hasher, key);
        let mut store = self.shards.of(hash).lock();
        let (_, value) = store.peek_mut(hash, key)?;
        Some(change(value))
    }

    /// Returns a clone of the value of a key. It records no hit.
    pub fn peek<Q>(&self, key: &Q) -> Option<V>
    where
        K: Borrow<Q>,
        Q: Hash + Eq + ?Sized,
        V: Clone,
    {
        self.peek_with(key, V::clone)
    }

    /// Returns what `read` makes of the value of a key. It records no hit.
    pub fn peek_with<Q, R>(&self, key: &Q, read: impl FnOnce(&V) -> R) -> Option<R>
    where
        K: Borrow<Q>,
        Q: Hash + Eq + ?Sized,
    {
        let hash = hash_of(&self.hasher, key);
        let store = self.shards.of(hash).lock();
        let (_, value) = Store::peek(&store, hash, key)?;
        Some(read(value))
    }

    /// Returns true if the key is here. It records no hit.
    pub fn contains_key<Q>(&self, key: &Q) -> bool
    where
        K: Borrow<Q>,
        Q: Hash + Eq + ?Sized,
    {
        let hash = hash_of(&self.hasher, key);
        let store = self.shards.of(hash).lock();
        store.slot(hash, key).is_some()
    }

    /// Stores a value for a key, and returns the one before, if the key was here. A pair that has to leave
    /// for a new key is dropped.
    pub fn insert(&self, key: K, value: V) -> Option<V> {
        self.store_pair(key, value).replaced()
    }

    /// Stores a value for a key, and returns what had its slot: `key` and its value before, or the pair
    /// that had to leave for it.
    pub fn push(&self, key: K, value: V) -> Option<(K, V)> {
        self.store_pair(key, value).pair()
    }

    fn store_pair(&self, key: K, value: V) -> Before<K, V> {
        let hash = hash_of(&self.hasher, &key);
        let mut store = self.shards.of(hash).lock();
        // `Eq` may panic in these two, while the lock is dropped before what this thread owns.
        let found = store.look_up(hash, &key);
        let outdated = store.outdate(hash, &key);
        let before = store.push_at(found, hash, key, value);
        let second = store.take_second();
        drop(store);
        drop((outdated, second));
        before
    }

    /// Returns a clone of the value of a key, after a hit or after storing what `make` returns. If
    /// several threads ask for a key at once, one of them makes the value, which the others wait for. If
    /// the key is inserted or removed meanwhile, or all are, the value is returned to all of these, but not stored.
    ///
    /// `make` may use this cache, but not ask for this key, or wait for a thread that does.
    ///
    /// # Panics
    ///
    /// If `make` asks for this key. If `make` panics, the next of those that wait makes the value.
    pub fn get_or_insert_with(&self, key: K, make: impl FnOnce() -> V) -> V
    where
        V: Clone,
    {
        match self.try_get_or_insert_with(key, || Ok::<V, Infallible>(make())) {
            Ok(value) => value,
            Err(never) => match never {},
        }
    }

    /// Does what [`get_or_insert_with`](Cache::get_or_insert_with) does, with a `make` that may fail.
    ///
    /// # Errors
    ///
    /// That of `make`. Nothing is stored, and the next of those that wait makes the value.
    ///
    /// # Panics
    ///
    /// If `make` asks for this key.
    pub fn try_get_or_insert_with<E>(
        &self,
        key: K,
        make: impl FnOnce() -> Result<V, E>,
    ) -> Result<V, E>
    where
        V: Clone,
    {
        let hash = hash_of(&self.hasher, &key);
        let push = |store: &mut Store<K, V>, pair: &mut Option<(K, V)>| {
            let (key, _) = pair.as_ref()?;
            let found = store.look_up(hash, key);
            let (key, value) = pair.take()?;
            Some((store.push_at(found, hash, key, value), store.take_second()))
        };
        self.shards.of(hash).value_or_make(hash, key, make, push)
    }

    /// Removes a key, and returns its value. A key that isn't here is forgotten.
    pub fn remove<Q>(&self, key: &Q) -> Option<V>
    where
        K: Borrow<Q>,
        Q: Hash + Eq + ?Sized,
    {
        self.remove_entry(key).map(|(_, value)| value)
    }

    /// Removes a key, and returns it with its value. A key that isn't here is forgotten.
    pub fn remove_entry<Q>(&self, key: &Q) -> Option<(K, V)>
    where
        K: Borrow<Q>,
        Q: Hash + Eq + ?Sized,
    {
        let hash = hash_of(&self.hasher, key);
        let mut store = self.shards.of(hash).lock();
        let found = store.look_up(hash, key);
        let outdated = store.outdate(hash, key);
        let removed = store.remove_found(&found, hash);
        drop(store);
        drop(outdated);
        removed
    }
}

/// Inserts a copy of each pair.
impl<'a, K: Hash + Eq + Copy, V: Copy, S: BuildHasher> Extend<(&'a K, &'a V)> for Cache<K, V, S> {
    fn extend<I: IntoIterator<Item = (&'a K, &'a V)>>(&mut self, pairs: I) {
        self.extend(pairs.into_iter().map(|(key, value)| (*key, *value)));
    }
}

/// Inserts each pair.
impl<K: Hash + Eq, V, S: BuildHasher> Extend<(K, V)> for Cache<K, V, S> {
    fn extend<I: IntoIterator<Item = (K, V)>>(&mut self, pairs: I) {
        for (key, value) in pairs {
            self.insert(key, value);
        }
    }
}
