//! A key and where it belongs.

use crate::slots::Found;
use crate::store::Store;
use core::fmt;
use core::mem;

/// What [`Cache::entry`](crate::Cache::entry) finds of a key.
///
/// ```
/// use clock2q::Cache;
///
/// let mut counts = Cache::new(100)?;
/// for word in ["a", "b", "a"] {
///     *counts.entry(word).or_insert(0) += 1;
/// }
/// assert_eq!(counts.peek("a"), Some(&2));
/// # Ok::<(), clock2q::Refused>(())
/// ```
#[derive(Debug)]
pub enum Entry<'a, K, V> {
    /// The key is here.
    Occupied(OccupiedEntry<'a, K, V>),
    /// It isn't.
    Vacant(VacantEntry<'a, K, V>),
}

/// A key that is here, with its value.
pub struct OccupiedEntry<'a, K, V> {
    store: &'a mut Store<K, V>,
    slot: usize,
}

/// A key that isn't here. Dropped, it leaves the cache as it was.
pub struct VacantEntry<'a, K, V> {
    store: &'a mut Store<K, V>,
    /// Where the key would go.
    found: Found,
    hash: u64,
    key: K,
}

impl<'a, K: Eq, V> Entry<'a, K, V> {
    /// Looks a key up, after which it is counted, and records a hit if it is here.
    #[inline]
    pub(crate) fn new(store: &'a mut Store<K, V>, hash: u64, key: K) -> Entry<'a, K, V> {
        match store.look_up_counted(hash, &key) {
            Found::Resident(slot) => Entry::Occupied(OccupiedEntry {
                store,
                slot: slot as usize,
            }),
            found => Entry::Vacant(VacantEntry {
                store,
                found,
                hash,
                key,
            }),
        }
    }
}

impl<'a, K, V> Entry<'a, K, V> {
    /// Returns the value, which is `value` if the key wasn't here.
    #[inline]
    pub fn or_insert(self, value: V) -> &'a mut V {
        self.or_insert_with(|| value)
    }

    /// Returns the value, which `make` makes if the key isn't here.
    #[inline]
    pub fn or_insert_with(self, make: impl FnOnce() -> V) -> &'a mut V {
        self.or_insert_with_key(|_| make())
    }

    /// Returns the value, which `make` makes of the key if it isn't here.
    #[inline]
    pub fn or_insert_with_key(self, make: impl FnOnce(&K) -> V) -> &'a mut V {
        match self {
            Entry::Occupied(entry) => entry.into_mut(),
            Entry::Vacant(entry) => {
                let value = make(&entry.key);
                entry.insert(value)
            }
        }
    }

    /// Returns the value, which is the type's usual one if the key wasn't here.
    #[inline]
    pub fn or_default(self) -> &'a mut V
    where
        V: Default,
    {
        self.or_insert_with(V::default)
    }

    /// Has `change` change the value, if the key is here.
    #[inline]
    pub fn and_modify(mut self, change: impl FnOnce(&mut V)) -> Self {
        if let Entry::Occupied(entry) = &mut self {
            change(entry.get_mut());
        }
        self
    }

    /// Returns the key.
    pub fn key(&self) -> &K {
        match self {
            Entry::Occupied(entry) => entry.key(),
            Entry::Vacant(entry) => entry.key(),
        }
    }
}

impl<'a, K, V> OccupiedEntry<'a, K, V> {
    /// Returns the key that the cache has.
    pub fn key(&self) -> &K {
        self.pair().0
    }

    /// Returns its value.
    pub fn get(&self) -> &V {
        self.pair().1
    }

    /// Returns its value to write to.
    pub fn get_mut(&mut self) -> &mut V {
        let pair = self.store.entries.pair_mut(self.slot);
        &mut pair.expect("a pair is at its slot").1
    }

    /// Returns its value to write to, for as long as the cache is borrowed.
    #[inline]
    pub fn into_mut(self) -> &'a mut V {
        let pair = self.store.entries.pair_mut(self.slot);
        &mut pair.expect("a pair is at its slot").1
    }

    /// Stores another value, and returns the one before.
    pub fn insert(&mut self, value: V) -> V {
        mem::replace(self.get_mut(), value)
    }

    /// Removes the key, and returns its value.
    pub fn remove(self) -> V {
        self.remove_entry().1
    }

    /// Removes the key, and returns it with its value.
    pub fn remove_entry(self) -> (K, V) {
        let pair = self.store.remove_at(self.slot);
        pair.expect("a pair is at its slot")
    }

    fn pair(&self) -> (&K, &V) {
        let pair = self.store.entries.pair(self.slot);
        let (key, value) = pair.expect("a pair is at its slot");
        (key, value)
    }
}

impl<'a, K, V> VacantEntry<'a, K, V> {
    /// Returns the key.
    pub fn key(&self) -> &K {
        &self.key
    }

    /// Returns the key, and stores nothing.
    pub fn into_key(self) -> K {
        self.key
    }

    /// Stores a value for the key, and returns it. The pair that has to leave is dropped.
    #[inline(never)]
    pub fn insert(self, value: V) -> &'a mut V {
        let (slot, left) = self.store.admit(self.found, self.hash, self.key, value);
        drop((left, self.store.take_second()));
        let pair = self.store.entries.pair_mut(slot);
        &mut pair.expect("a pair is at its slot").1
    }
}

impl<K: fmt::Debug, V: fmt::Debug> fmt::Debug for OccupiedEntry<'_, K, V> {
    fn fmt(&self, formatter: &mut fmt::Formatter<'_>) -> fmt::Result {
        formatter
            .debug_struct("OccupiedEntry")
            .field("key", self.key())
            .field("value", self.get())
            .finish()
    }
}

impl<K: fmt::Debug, V> fmt::Debug for VacantEntry<'_, K, V> {
    fn fmt(&self, formatter: &mut fmt::Formatter<'_>) -> fmt::Result {
        formatter
            .debug_tuple("VacantEntry")
            .field(&self.key)
            .finish()
    }
}
