//! Caches made of pairs, and pairs of caches.

use crate::store::hash_of;
use crate::{Cache, IntoIter, Iter, IterMut};
use alloc::vec::Vec;
use core::hash::{BuildHasher, Hash};

/// Inserts each pair.
impl<K: Hash + Eq, V, S: BuildHasher> Extend<(K, V)> for Cache<K, V, S> {
    fn extend<I: IntoIterator<Item = (K, V)>>(&mut self, pairs: I) {
        for (key, value) in pairs {
            self.insert(key, value);
        }
    }
}

/// Inserts a copy of each pair.
impl<'a, K: Hash + Eq + Copy, V: Copy, S: BuildHasher> Extend<(&'a K, &'a V)> for Cache<K, V, S> {
    fn extend<I: IntoIterator<Item = (&'a K, &'a V)>>(&mut self, pairs: I) {
        self.extend(pairs.into_iter().map(|(key, value)| (*key, *value)));
    }
}

/// Two caches are equal if they have equal pairs, whatever they would have leave next.
impl<K: Hash + Eq, V: PartialEq, S: BuildHasher> PartialEq for Cache<K, V, S> {
    fn eq(&self, other: &Cache<K, V, S>) -> bool {
        let has = |(key, value): (&K, &V)| other.peek(key) == Some(value);
        self.len() == other.len() && self.iter().all(has)
    }
}

impl<K: Hash + Eq, V: Eq, S: BuildHasher> Eq for Cache<K, V, S> {}

/// Makes a cache for as many keys as there are pairs, or for one if there are none.
///
/// # Panics
///
/// If there are more pairs than [`MAX_CAPACITY`](crate::MAX_CAPACITY), or no memory for the cache.
impl<K: Hash + Eq, V, S: BuildHasher + Default> FromIterator<(K, V)> for Cache<K, V, S> {
    fn from_iter<I: IntoIterator<Item = (K, V)>>(pairs: I) -> Cache<K, V, S> {
        let pairs: Vec<(K, V)> = pairs.into_iter().collect();
        let made = Cache::with_hasher(pairs.len().max(1), S::default());
        let mut cache = made.expect("a cache has room for the pairs");
        cache.extend(pairs);
        cache
    }
}

/// Makes a cache of the same capacity and shares, with clones of the pairs and the same counts. It takes all
/// keys for new: which of them were hit, and which keys left, is not cloned.
///
/// # Panics
///
/// If there is no memory for the cache.
impl<K: Clone + Hash + Eq, V: Clone, S: Clone + BuildHasher> Clone for Cache<K, V, S> {
    fn clone(&self) -> Cache<K, V, S> {
        let store = self.store.empty_one();
        let mut cache = Cache {
            store: store.expect("there is memory for a clone"),
            hasher: self.hasher.clone(),
        };
        for (key, value) in self {
            let (key, value) = (key.clone(), value.clone());
            let hash = hash_of(&cache.hasher, &key);
            cache.store.push(hash, key, value);
        }
        cache
    }
}

impl<K, V, S> IntoIterator for Cache<K, V, S> {
    type Item = (K, V);
    type IntoIter = IntoIter<K, V>;

    fn into_iter(self) -> IntoIter<K, V> {
        let len = self.len();
        IntoIter::new(self.store.entries.into_pairs(), len)
    }
}

impl<'a, K, V, S> IntoIterator for &'a Cache<K, V, S> {
    type Item = (&'a K, &'a V);
    type IntoIter = Iter<'a, K, V>;

    fn into_iter(self) -> Iter<'a, K, V> {
        self.iter()
    }
}

impl<'a, K, V, S> IntoIterator for &'a mut Cache<K, V, S> {
    type Item = (&'a K, &'a mut V);
    type IntoIter = IterMut<'a, K, V>;

    fn into_iter(self) -> IterMut<'a, K, V> {
        self.iter_mut()
    }
}
