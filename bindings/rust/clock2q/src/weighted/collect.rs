//! Weighted caches that pairs are added to, and that are compared.

use super::WeightedCache;
use crate::Cause;
use core::hash::{BuildHasher, Hash};

/// Inserts each pair that isn't too heavy, and drops the others.
impl<K: Hash + Eq, V, W, S: BuildHasher, L> Extend<(K, V)> for WeightedCache<K, V, W, S, L>
where
    W: Fn(&K, &V) -> u64,
    L: FnMut(&K, &V, Cause),
{
    fn extend<I: IntoIterator<Item = (K, V)>>(&mut self, pairs: I) {
        for (key, value) in pairs {
            drop(self.insert(key, value));
        }
    }
}

/// Inserts a copy of each pair that isn't too heavy.
impl<'a, K: Hash + Eq + Copy, V: Copy, W, S: BuildHasher, L> Extend<(&'a K, &'a V)>
    for WeightedCache<K, V, W, S, L>
where
    W: Fn(&K, &V) -> u64,
    L: FnMut(&K, &V, Cause),
{
    fn extend<I: IntoIterator<Item = (&'a K, &'a V)>>(&mut self, pairs: I) {
        self.extend(pairs.into_iter().map(|(key, value)| (*key, *value)));
    }
}

/// Two caches are equal if they have equal pairs, whatever these weigh and would have leave next.
impl<K: Hash + Eq, V: PartialEq, W, S: BuildHasher, L> PartialEq for WeightedCache<K, V, W, S, L> {
    fn eq(&self, other: &Self) -> bool {
        let has = |(key, value): (&K, &V)| other.peek(key) == Some(value);
        self.len() == other.len() && self.iter().all(has)
    }
}

impl<K: Hash + Eq, V: Eq, W, S: BuildHasher, L> Eq for WeightedCache<K, V, W, S, L> {}
