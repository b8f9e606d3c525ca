//! A key of a weighted cache, and where it belongs.

use super::WeightedCache;
use crate::slots::Found;
use crate::{Cause, DefaultHashBuilder};
use core::fmt;

/// What [`WeightedCache::entry`] finds of a key.
pub enum WeightedEntry<'a, K, V, W, S = DefaultHashBuilder, L = fn(&K, &V, Cause)> {
    /// The key is here.
    Occupied(WeightedOccupiedEntry<'a, K, V, W, S, L>),
    /// It isn't.
    Vacant(WeightedVacantEntry<'a, K, V, W, S, L>),
}

/// A key that is here, with its value, which is only read, so that its weight stays.
pub struct WeightedOccupiedEntry<'a, K, V, W, S = DefaultHashBuilder, L = fn(&K, &V, Cause)> {
    cache: &'a mut WeightedCache<K, V, W, S, L>,
    slot: usize,
}

/// A key that isn't here. Dropped, it leaves the cache as it was.
pub struct WeightedVacantEntry<'a, K, V, W, S = DefaultHashBuilder, L = fn(&K, &V, Cause)> {
    cache: &'a mut WeightedCache<K, V, W, S, L>,
    /// Where the key would go.
    found: Found,
    hash: u64,
    key: K,
}

impl<'a, K, V, W, S, L> WeightedEntry<'a, K, V, W, S, L> {
    pub(super) fn new(
        cache: &'a mut WeightedCache<K, V, W, S, L>,
        found: Found,
        hash: u64,
        key: K,
    ) -> Self {
        match found {
            Found::Resident(slot) => WeightedEntry::Occupied(WeightedOccupiedEntry {
                cache,
                slot: slot as usize,
            }),
            found => WeightedEntry::Vacant(WeightedVacantEntry {
                cache,
                found,
                hash,
                key,
            }),
        }
    }

    /// Returns the key.
    pub fn key(&self) -> &K {
        match self {
            WeightedEntry::Occupied(entry) => entry.key(),
            WeightedEntry::Vacant(entry) => entry.key(),
        }
    }
}

impl<'a, K, V, W, S, L> WeightedEntry<'a, K, V, W, S, L>
where
    W: Fn(&K, &V) -> u64,
    L: FnMut(&K, &V, Cause),
{
    /// Returns the value, which `make` makes if the key isn't here.
    ///
    /// # Errors
    ///
    /// The pair, if it is heavier than [`max_weight`](WeightedCache::max_weight). The cache is as it was.
    pub fn or_insert_with(self, make: impl FnOnce() -> V) -> Result<&'a V, (K, V)> {
        match self {
            WeightedEntry::Occupied(entry) => Ok(entry.into_ref()),
            WeightedEntry::Vacant(entry) => entry.insert(make()),
        }
    }
}

impl<'a, K, V, W, S, L> WeightedOccupiedEntry<'a, K, V, W, S, L> {
    /// Returns the key that the cache has.
    pub fn key(&self) -> &K {
        self.cache.pair_at(self.slot).0
    }

    /// Returns its value.
    pub fn get(&self) -> &V {
        self.cache.pair_at(self.slot).1
    }

    /// Returns its value, for as long as the cache is borrowed.
    pub fn into_ref(self) -> &'a V {
        self.cache.pair_at(self.slot).1
    }

    /// Removes the key, and returns its value.
    pub fn remove(self) -> V
    where
        L: FnMut(&K, &V, Cause),
    {
        self.remove_entry().1
    }

    /// Removes the key, and returns it with its value.
    pub fn remove_entry(self) -> (K, V)
    where
        L: FnMut(&K, &V, Cause),
    {
        self.cache.remove_at(self.slot)
    }
}

impl<'a, K, V, W, S, L> WeightedVacantEntry<'a, K, V, W, S, L> {
    /// Returns the key.
    pub fn key(&self) -> &K {
        &self.key
    }

    /// Returns the key, and stores nothing.
    pub fn into_key(self) -> K {
        self.key
    }

    /// Stores a value for the key, and returns it. The pairs that have to leave are dropped.
    ///
    /// # Errors
    ///
    /// The pair, if it is heavier than [`max_weight`](WeightedCache::max_weight). The cache is as it was.
    pub fn insert(self, value: V) -> Result<&'a V, (K, V)>
    where
        W: Fn(&K, &V) -> u64,
        L: FnMut(&K, &V, Cause),
    {
        let weight = (self.cache.weigher)(&self.key, &value);
        let pair = (self.key, value);
        let slot = self
            .cache
            .store_at(self.found, self.hash, pair, weight)?
            .slot;
        Ok(self.cache.pair_at(slot).1)
    }
}

impl<K: fmt::Debug, V: fmt::Debug, W, S, L> fmt::Debug for WeightedEntry<'_, K, V, W, S, L> {
    fn fmt(&self, formatter: &mut fmt::Formatter<'_>) -> fmt::Result {
        match self {
            WeightedEntry::Occupied(entry) => entry.fmt(formatter),
            WeightedEntry::Vacant(entry) => entry.fmt(formatter),
        }
    }
}

impl<K: fmt::Debug, V: fmt::Debug, W, S, L> fmt::Debug
    for WeightedOccupiedEntry<'_, K, V, W, S, L>
{
    fn fmt(&self, formatter: &mut fmt::Formatter<'_>) -> fmt::Result {
        formatter
            .debug_struct("WeightedOccupiedEntry")
            .field("key", self.key())
            .field("value", self.get())
            .finish()
    }
}

impl<K: fmt::Debug, V, W, S, L> fmt::Debug for WeightedVacantEntry<'_, K, V, W, S, L> {
    fn fmt(&self, formatter: &mut fmt::Formatter<'_>) -> fmt::Result {
        formatter
            .debug_tuple("WeightedVacantEntry")
            .field(&self.key)
            .finish()
    }
}
