//! Keys and their values.

use crate::before::Before;
use crate::slots::{Shares, Slots};
use crate::store::{hash_of, Store};
use crate::{DefaultHashBuilder, Drain, Entry, Iter, IterMut, Keys, Refused, Values, ValuesMut};
use core::borrow::Borrow;
use core::convert::Infallible;
use core::fmt;
use core::hash::{BuildHasher, Hash};

/// A map of fixed capacity: if it is full, a new key takes the place of another one.
///
/// It is the proved cache of the [core](crate::proved), with your own keys: they are compared where the index says that
/// a key of their hash may be, and each has a slot of its own, however many have one hash. A key that leaves is yours
/// again, or is dropped, so the history knows it by its 64-bit hash. Keys of one hash are compared one by one, so
/// whoever can choose such keys makes the cache slow, which a random hasher prevents.
///
/// `Eq`, `Hash`, closures and `Drop` run only while the cache is whole: if one of them panics, it is as it
/// was before or after the call. Keys and values that leave are dropped last, unless they are returned.
///
/// All memory is taken when a cache is made, and no other call takes any but [`resize`](Cache::resize).
///
/// # Threads
///
/// A cache may be sent to another thread if its keys, values and hasher may be, and threads may share it for
/// calls that only read, such as [`peek`](Cache::peek), if they may share those. Whatever records a hit
/// needs it alone; [`sync::Cache`](crate::sync::Cache) is for threads that all do.
///
/// ```
/// fn send_and_share<T: Send + Sync>(_: T) {}
/// send_and_share(clock2q::Cache::<String, Vec<u8>>::new(2));
/// ```
///
/// ```compile_fail,E0277
/// fn share<T: Sync>(_: T) {}
/// share(clock2q::Cache::<String, std::cell::Cell<u8>>::new(2));
/// ```
///
/// ```compile_fail,E0277
/// fn send<T: Send>(_: T) {}
/// send(clock2q::Cache::<std::rc::Rc<u8>, String>::new(2));
/// ```
///
/// ```compile_fail,E0277
/// fn send<T: Send>(_: T) {}
/// send(clock2q::Cache::<u8, u8, _>::with_hasher(2, std::rc::Rc::new("a hasher")));
/// ```
///
/// # Example
///
/// ```
/// use clock2q::Cache;
///
/// let mut cache: Cache<String, usize> = Cache::new(100)?;
/// cache.insert("seven".to_string(), 7);
/// assert_eq!(cache.get("seven"), Some(&7));
/// assert_eq!(*cache.get_or_insert_with("eight".to_string(), || 8), 8);
/// assert_eq!((cache.hits(), cache.misses()), (1, 1));
/// # Ok::<(), clock2q::Refused>(())
/// ```
pub struct Cache<K, V, S = DefaultHashBuilder> {
    pub(crate) store: Store<K, V>,
    pub(crate) hasher: S,
}

#[cfg(feature = "std")]
impl<K, V> Cache<K, V> {
    /// Makes a cache for `capacity` keys, which are hashed with random numbers.
    ///
    /// # Errors
    ///
    /// [`Refused::Capacity`] and [`Refused::Memory`].
    pub fn new(capacity: usize) -> Result<Cache<K, V>, Refused> {
        Cache::with_hasher(capacity, DefaultHashBuilder::default())
    }

    /// Makes a cache in which `small` slots are for new keys, each young until `window` more were
    /// admitted.
    ///
    /// # Errors
    ///
    /// Those of [`new`](Cache::new), and [`Refused::Policy`] unless `small < capacity`,
    /// `window <= small`, and both or neither of them are 0.
    pub fn with_policy(
        capacity: usize,
        small: usize,
        window: usize,
    ) -> Result<Cache<K, V>, Refused> {
        Cache::with_policy_and_hasher(capacity, small, window, DefaultHashBuilder::default())
    }

    /// Makes a cache with the shares of [`with_policy`](Cache::with_policy) that remembers up to `history` evicted
    /// keys, by their hashes, in place of half the capacity. If they are `capacity - small`, a full cache admits
    /// every loop of new keys that fits beside the keys that were hit.
    ///
    /// # Errors
    ///
    /// Those of [`with_policy`](Cache::with_policy), and [`Refused::Policy`] unless `history <= capacity`.
    pub fn with_history(
        capacity: usize,
        small: usize,
        window: usize,
        history: usize,
    ) -> Result<Cache<K, V>, Refused> {
        let hasher = DefaultHashBuilder::default();
        Cache::with_history_and_hasher(capacity, small, window, history, hasher)
    }
}

impl<K, V, S> Cache<K, V, S> {
    /// Makes a cache for `capacity` keys, which `hasher` hashes.
    ///
    /// # Errors
    ///
    /// Those of [`new`](Cache::new).
    pub fn with_hasher(capacity: usize, hasher: S) -> Result<Cache<K, V, S>, Refused> {
        Ok(Cache {
            store: Store::new(Slots::new(capacity)?)?,
            hasher,
        })
    }

    /// Makes a cache with the shares of [`with_policy`](Cache::with_policy) and a hasher.
    ///
    /// # Errors
    ///
    /// Those of [`with_policy`](Cache::with_policy).
    pub fn with_policy_and_hasher(
        capacity: usize,
        small: usize,
        window: usize,
        hasher: S,
    ) -> Result<Cache<K, V, S>, Refused> {
        Ok(Cache {
            store: Store::new(Slots::with_shares(
                capacity,
                Shares::of_policy(small, window),
            )?)?,
            hasher,
        })
    }

    /// Makes a cache with the history of [`with_history`](Cache::with_history) and a hasher.
    ///
    /// # Errors
    ///
    /// Those of [`with_history`](Cache::with_history).
    pub fn with_history_and_hasher(
        capacity: usize,
        small: usize,
        window: usize,
        history: usize,
        hasher: S,
    ) -> Result<Cache<K, V, S>, Refused> {
        let shares = Shares::of_history(small, window, history);
        Ok(Cache {
            store: Store::new(Slots::with_shares(capacity, shares)?)?,
            hasher,
        })
    }

    /// Returns how many keys there are.
    pub fn len(&self) -> usize {
        self.store.len()
    }

    /// Returns true if there is no key.
    pub fn is_empty(&self) -> bool {
        self.len() == 0
    }

    /// Returns how many keys there can be: as many as asked for last, when the cache was made or
    /// [resized](Cache::resize).
    pub fn capacity(&self) -> usize {
        self.store.capacity()
    }

    /// Returns how many calls of [`get`](Cache::get), [`get_mut`](Cache::get_mut),
    /// [`get_key_value`](Cache::get_key_value), [`entry`](Cache::entry),
    /// [`get_or_insert_with`](Cache::get_or_insert_with) and
    /// [`try_get_or_insert_with`](Cache::try_get_or_insert_with) found their key, since the cache was
    /// made.
    pub fn hits(&self) -> u64 {
        self.store.hits
    }

    /// Returns how many of these calls didn't.
    pub fn misses(&self) -> u64 {
        self.store.misses
    }

    /// Returns the hasher.
    pub fn hasher(&self) -> &S {
        &self.hasher
    }

    /// Removes the pair that would have to leave next for a new key, and returns it; nothing if there is none.
    /// Its key is remembered as those of pairs that left for others are.
    pub fn evict(&mut self) -> Option<(K, V)> {
        self.store.evict().map(|(_, pair)| pair)
    }

    /// Returns the pair that [`evict`](Cache::evict) would remove: if the cache is full, the one that leaves for
    /// a key that is unknown. Records no hit. Takes
    /// time in proportion to the pairs that were hit and would be passed over.
    pub fn next_victim(&mut self) -> Option<(&K, &V)> {
        let (key, value) = self.store.next_victim()?;
        Some((key, value))
    }

    /// Has the cache hold `capacity` keys at most.
    ///
    /// If it was for fewer, no pair leaves: those that are here stay in their order, with their hits, and keys that left
    /// stay remembered. Small, its window and the history grow with the capacity, unless their sizes were asked for. A
    /// cache takes more memory if it never had this capacity.
    ///
    /// If it was for more, pairs leave as by [`evict`](Cache::evict) until there are no more, are kept in a vector until
    /// then, and are dropped; later a key may take the place of two, of which [`push`](Cache::push) returns one. The cache
    /// keeps its memory, and as many slots for new keys.
    ///
    /// # Errors
    ///
    /// [`Refused::Capacity`] if it is 0 or above [`MAX_CAPACITY`](crate::MAX_CAPACITY), and [`Refused::Memory`]. Nothing
    /// has changed then.
    ///
    /// # Cost
    ///
    /// Time in proportion to the new capacity if the cache never had it. No key is hashed or compared.
    ///
    /// ```
    /// let mut cache = clock2q::Cache::new(2)?;
    /// cache.extend([(7, "seven"), (8, "eight")]);
    /// cache.resize(1000)?;
    /// cache.insert(9, "nine");
    /// assert_eq!(cache.len(), 3);
    /// # Ok::<(), clock2q::Refused>(())
    /// ```
    pub fn resize(&mut self, capacity: usize) -> Result<(), Refused> {
        self.store.resize(capacity).map(drop)
    }

    /// Removes all keys, and forgets those that left.
    pub fn clear(&mut self) {
        self.store.clear();
    }

    /// Removes all keys, forgets those that left, and returns the pairs, in any order.
    pub fn drain(&mut self) -> Drain<'_, K, V> {
        let (entries, len) = self.store.drain();
        Drain::new(entries, len)
    }

    /// Returns the pairs, in any order. It records no hit.
    pub fn iter(&self) -> Iter<'_, K, V> {
        Iter::new(self.store.entries.iter(), self.len())
    }

    /// Returns the pairs, with values to write to, in any order. It records no hit.
    pub fn iter_mut(&mut self) -> IterMut<'_, K, V> {
        let len = self.len();
        IterMut::new(self.store.entries.iter_mut(), len)
    }

    /// Returns the keys, in any order.
    pub fn keys(&self) -> Keys<'_, K, V> {
        Keys::new(self.store.entries.iter(), self.len())
    }

    /// Returns the values, in any order. It records no hit.
    pub fn values(&self) -> Values<'_, K, V> {
        Values::new(self.store.entries.iter(), self.len())
    }

    /// Returns the values to write to, in any order. It records no hit.
    pub fn values_mut(&mut self) -> ValuesMut<'_, K, V> {
        let len = self.len();
        ValuesMut::new(self.store.entries.iter_mut(), len)
    }
}

impl<K: Hash + Eq, V, S: BuildHasher> Cache<K, V, S> {
    /// Returns the value of a key, after a hit.
    #[inline]
    pub fn get<Q>(&mut self, key: &Q) -> Option<&V>
    where
        K: Borrow<Q>,
        Q: Hash + Eq + ?Sized,
    {
        self.get_mut(key).map(|value| &*value)
    }

    /// Returns the value of a key to write to, after a hit.
    #[inline]
    pub fn get_mut<Q>(&mut self, key: &Q) -> Option<&mut V>
    where
        K: Borrow<Q>,
        Q: Hash + Eq + ?Sized,
    {
        self.store.find_value(hash_of(&self.hasher, key), key)
    }

    /// Returns the key that is here and its value, after a hit.
    pub fn get_key_value<Q>(&mut self, key: &Q) -> Option<(&K, &V)>
    where
        K: Borrow<Q>,
        Q: Hash + Eq + ?Sized,
    {
        let (key, value) = self.store.find_pair(hash_of(&self.hasher, key), key)?;
        Some((key, value))
    }

    /// Returns the value of a key. It records no hit.
    pub fn peek<Q>(&self, key: &Q) -> Option<&V>
    where
        K: Borrow<Q>,
        Q: Hash + Eq + ?Sized,
    {
        let hash = hash_of(&self.hasher, key);
        let (_, value) = self.store.peek(hash, key)?;
        Some(value)
    }

    /// Returns the value of a key to write to. It records no hit.
    pub fn peek_mut<Q>(&mut self, key: &Q) -> Option<&mut V>
    where
        K: Borrow<Q>,
        Q: Hash + Eq + ?Sized,
    {
        let hash = hash_of(&self.hasher, key);
        let (_, value) = self.store.peek_mut(hash, key)?;
        Some(value)
    }

    /// Returns true if the key is here. It records no hit.
    pub fn contains_key<Q>(&self, key: &Q) -> bool
    where
        K: Borrow<Q>,
        Q: Hash + Eq + ?Sized,
    {
        self.peek(key).is_some()
    }

    /// Stores a value for a key, and returns the one before, if the key was here. As in a `HashMap`, the
    /// key that was here stays. A pair that has to leave for a new key is dropped.
    #[inline(never)]
    pub fn insert(&mut self, key: K, value: V) -> Option<V> {
        self.store_pair(key, value).replaced()
    }

    /// Stores a value for a key, and returns what had its slot: `key` and its value before, or the pair
    /// that had to leave for it.
    pub fn push(&mut self, key: K, value: V) -> Option<(K, V)> {
        self.store_pair(key, value).pair()
    }

    #[inline(always)]
    fn store_pair(&mut self, key: K, value: V) -> Before<K, V> {
        let hash = hash_of(&self.hasher, &key);
        self.store.push(hash, key, value)
    }

    /// Returns where a key belongs, after a hit if it is here.
    #[inline]
    pub fn entry(&mut self, key: K) -> Entry<'_, K, V> {
        let hash = hash_of(&self.hasher, &key);
        Entry::new(&mut self.store, hash, key)
    }

    /// Returns the value of a key, after a hit or after storing what `make` returns.
    #[inline]
    pub fn get_or_insert_with(&mut self, key: K, make: impl FnOnce() -> V) -> &mut V {
        match self.try_get_or_insert_with(key, || Ok::<V, Infallible>(make())) {
            Ok(value) => value,
            Err(never) => match never {},
        }
    }

    /// Returns the value of a key, after a hit or after storing what `make` returns.
    ///
    /// # Errors
    ///
    /// That of `make`. The cache is then as it was, but for the count of misses.
    #[inline]
    pub fn try_get_or_insert_with<E>(
        &mut self,
        key: K,
        make: impl FnOnce() -> Result<V, E>,
    ) -> Result<&mut V, E> {
        match self.entry(key) {
            Entry::Occupied(entry) => Ok(entry.into_mut()),
            Entry::Vacant(entry) => Ok(entry.insert(make()?)),
        }
    }

    /// Removes a key, and returns its value. A key that isn't here is forgotten.
    pub fn remove<Q>(&mut self, key: &Q) -> Option<V>
    where
        K: Borrow<Q>,
        Q: Hash + Eq + ?Sized,
    {
        self.remove_entry(key).map(|(_, value)| value)
    }

    /// Removes a key, and returns it with its value. A key that isn't here is forgotten.
    pub fn remove_entry<Q>(&mut self, key: &Q) -> Option<(K, V)>
    where
        K: Borrow<Q>,
        Q: Hash + Eq + ?Sized,
    {
        self.store.remove(hash_of(&self.hasher, key), key)
    }

    /// Removes the pairs for which `keep` returns false, each as soon as it does. It records no hit.
    pub fn retain(&mut self, keep: impl FnMut(&K, &mut V) -> bool) {
        self.store.retain(keep, drop);
    }
}

impl<K, V, S> fmt::Debug for Cache<K, V, S> {
    fn fmt(&self, formatter: &mut fmt::Formatter<'_>) -> fmt::Result {
        formatter
            .debug_struct("Cache")
            .field("len", &self.len())
            .field("capacity", &self.capacity())
            .finish()
    }
}
