// Written by bindings/rust/erase from crates/clock2q_cache/src/cache.rt; change that, and run erase.
//! The cache itself: lookups, hits and `put`.

mod construction;
mod debug;
mod evicting;
mod fetching;
mod filling;
mod growth;
mod insertion;
mod iteration;
mod removal;
mod slots;

use crate::proved::rattle::Vec;
use crate::proved::cache::shares::Shares;
use crate::proved::directory::directory::Directory;
use crate::proved::directory::handle::Found;
use crate::proved::queues::queues::Queues;
pub use iteration::{Iter, Keys, Values};
use crate::proved::rattle::{Allocator, Global};
use core::hash::{BuildHasher, BuildHasherDefault, Hash};
use crate::proved::rattle::FoldHasher;

/// The largest capacity that a cache can have, in keys: 16,777,215.
pub const MAX_CAPACITY: usize = (1 << 24) - 1;

/// The builder of the hashers that [`Cache::new`] uses.
///
/// Its seed is fixed, so whoever chooses the keys can choose ones that collide. The replies stay
/// the same, but 20,000 such keys took 250 times as long as others. If strangers choose the keys,
/// pass a `RandomState` of `std::hash` to [`Cache::with_hasher`].
pub type DefaultHashBuilder = BuildHasherDefault<FoldHasher>;

/// A key-value cache of fixed capacity.
///
/// No reply depends on a hash, since only `Eq` decides whether two keys are the same. The
/// constructor takes all memory, and only [`grow`](Cache::grow) and
/// [`grow_with_history`](Cache::grow_with_history) ask for more.
///
/// # Cost
///
/// A call that takes a key, except [`get_at`](Cache::get_at), hashes it once and compares it only
/// with its candidates, the resident and remembered keys whose hashes have the same home and
/// fingerprint. Inspections by the hand are paid for. Since the cache was made, there have been no
/// more of them than keys that Main evicted and bits of Main that hits set. A call reads and writes
/// few slots of the index if hashes are well spread. Keys whose hashes collide cost more, by the
/// length of their walks and runs. A call that may change the cache is charged at most for these,
/// and its contract bounds them in the state before it.
///
/// # Example
///
/// ```
/// # #![allow(unused)]
/// # use clock2q::proved::rattle::Global;
/// # use clock2q::proved::cache::{Cache, CacheError, Entered, MAX_CAPACITY, Occupant};
/// # let capacity = 100.try_into()?;
/// let mut cache: Cache<u64, u64> = Cache::new(Global, capacity)?;
/// cache.put(1, 10);
/// assert_eq!(cache.get(&1), Some(&10));
/// assert_eq!(cache.get(&2), None);
/// # Ok::<(), Box<dyn std::error::Error>>(())
/// ```
pub struct Cache<K: Hash + Eq, V, S: BuildHasher = DefaultHashBuilder, A: Allocator = Global> {
    shares: Shares,
    queues: Queues<A>,
    pub(crate) directory: Directory<K, V, A>,
    free: Vec<u32, A>,
    hasher: S,
}

impl<K: Hash + Eq, V, S: BuildHasher, A: Allocator> Cache<K, V, S, A> {
    /// Returns the capacity that the cache was made with, in keys.
    #[inline]
    pub fn capacity(&self) -> usize {
        self.shares.capacity
    }

    /// Returns the number of keys in the cache, at most its capacity. Evicted keys don't count.
    #[inline]
    pub fn len(&self) -> usize {
        self.queues.small_len() + self.queues.main_len()
    }

    /// Returns true if the cache holds no key.
    #[inline]
    pub fn is_empty(&self) -> bool {
        self.len() == 0
    }

    /// Returns true if the key is resident. It records no hit, and so changes no later eviction.
    ///
    /// # Cost
    ///
    /// One hash of the key, one walk of the index, and at most one comparison with each candidate among
    /// the residents.
    #[inline]
    pub fn contains(&self, key: &K) -> bool {
        self.slot_of(key).is_some()
    }

    /// Returns the value of a resident key, or `None`. It records no hit, and so changes no later
    /// eviction.
    ///
    /// # Cost
    ///
    /// That of [`contains`](Cache::contains).
    #[inline]
    pub fn peek(&self, key: &K) -> Option<&V> {
        let slot = self.slot_of(key)?;
        Some(self.value(slot))
    }

    /// Returns the value of a resident key and records a hit, which may save the key from a later
    /// eviction.
    ///
    /// Returns `None` and changes nothing if the key isn't resident.
    ///
    /// # Cost
    ///
    /// That of [`contains`](Cache::contains). A hit sets one bit, and accesses no link.
    #[inline]
    pub fn get(&mut self, key: &K) -> Option<&V> {
        let hash = self.hash(key);
        let slot = self.find(hash, key)?;
        // before the bit is set, so that the entries' position isn't read twice
        let value = self.directory.value(slot);
        self.queues.hit(slot);
        Some(value)
    }

    /// Returns the slot of a resident key and records a hit, as [`get`](Cache::get) does. The key
    /// keeps its slot until it is evicted or removed, so slots, which are below the capacity, can
    /// number the elements of the caller's own arrays.
    ///
    /// Returns `None` and changes nothing if the key isn't resident.
    ///
    /// # Cost
    ///
    /// That of [`get`](Cache::get).
    #[inline]
    pub fn slot(&mut self, key: &K) -> Option<usize> {
        Some(self.hit(key)? as usize)
    }

    /// Returns the value of a key that is resident at this slot and records a hit, as
    /// [`get`](Cache::get) does.
    ///
    /// Any number is allowed. Returns `None` and changes nothing if the key isn't resident there.
    ///
    /// # Cost
    ///
    /// No hash, at most one comparison, with the key at that slot, and no access to a link.
    #[inline]
    pub fn get_at(&mut self, slot: usize, key: &K) -> Option<&V> {
        let found = self.find_at(slot, key)?;
        // before the bit is set, so that the entries' position isn't read twice
        let stored = self.directory.value(found);
        self.queues.hit(found);
        Some(stored)
    }

    /// Returns the value of a resident key to write to and records a hit, as [`get`](Cache::get)
    /// does.
    ///
    /// Returns `None` and changes nothing if the key isn't resident.
    ///
    /// # Cost
    ///
    /// That of [`get`](Cache::get).
    #[inline]
    pub fn get_mut(&mut self, key: &K) -> Option<&mut V> {
        let resident = self.hit(key)?;
        Some(self.value_mut(resident))
    }

    /// Returns the value of a slot to write to.
    #[inline]
    fn value_mut(&mut self, slot: u32) -> &mut V {
        self.directory.value_mut(slot)
    }

    /// Returns the slot if the key is resident there.
    #[inline]
    fn find_at(&mut self, slot: usize, key: &K) -> Option<u32> {
        if !self.queues.is_resident(slot) {
            return None;
        }
        let slot = slot as u32;
        self.directory.key_equals(slot, key).then_some(slot)
    }

    /// Returns the hash of a key.
    #[inline]
    pub(crate) fn hash(&self, key: &K) -> u64 {
        self.hasher.hash_one(key)
    }

    /// Returns the slot of a resident key, and counts no comparison.
    #[inline]
    fn slot_of(&self, key: &K) -> Option<u32> {
        self.directory.slot_of(self.hash(key), key)
    }

    /// Returns the slot of a resident key.
    #[inline]
    pub(crate) fn find(&mut self, hash: u64, key: &K) -> Option<u32> {
        self.directory.find_resident(hash, key)
    }

    /// Looks a key up among the residents and in the history.
    #[inline(always)]
    pub(crate) fn lookup(&mut self, hash: u64, key: &K) -> Found {
        self.directory.lookup(hash, key)
    }

    /// Looks a key that is not resident up in the history.
    #[inline]
    pub(crate) fn find_place(&mut self, hash: u64, key: &K) -> Found {
        Found::from_place(self.directory.find_remembered(hash, key))
    }

    /// Returns the slot of a resident key, and records a hit on it.
    #[inline]
    fn hit(&mut self, key: &K) -> Option<u32> {
        let hash = self.hash(key);
        let slot = self.find(hash, key)?;
        self.record_hit(slot, key);
        Some(slot)
    }

    /// Records a hit on the key that is resident at a slot.
    #[inline]
    pub(crate) fn record_hit(&mut self, resident: u32, key: &K) {
        let _ = key;
        self.queues.hit(resident);
    }

    /// Removes the key, for which a lookup found `found`, from the history, and returns true if it
    /// was there.
    #[inline]
    pub(crate) fn forget(&mut self, hash: u64, key: &K, found: &Found) -> bool {
        self.directory.forget(hash, key, found)
    }

    /// Returns the value of a slot.
    #[inline]
    fn value(&self, slot: u32) -> &V {
        self.directory.value(slot)
    }
}

impl<K: Hash + Eq, V, S: BuildHasher, A: Allocator> Cache<K, V, S, A> {
    /// Stores a value for a key, and returns the one that it replaces.
    ///
    /// If the key is resident, this records a hit, keeps the stored key and drops `key`. Otherwise
    /// it inserts the key and returns `None`. One resident is evicted if the cache is full, or if
    /// the history has the key and Main is full.
    ///
    /// # Cost
    ///
    /// One hash of the key, one lookup in the index, and at most one comparison with each candidate
    /// among the residents and in the history. No link is accessed if the key is resident.
    /// Otherwise there are at most 29 more accesses to links than inspections by the hand. The
    /// index changes at most four times, twice under the key's hash, once under that of the key
    /// that leaves, and once under that of the oldest remembered key. A lookup reads at most the
    /// walk of its hash, and a change reads and writes at most that and twice its run with one more
    /// slot.
    #[inline(never)]
    pub fn put(&mut self, key: K, value: V) -> Option<V> {
        // out of line, so that a caller's loop keeps its own values in registers
        let hash = self.hash(&key);
        let found = self.lookup(hash, &key);
        let Found::Resident(slot) = found else {
            self.insert(hash, key, value, found);
            return None;
        };
        self.record_hit(slot, &key);
        Some(self.replace_value(slot, value))
    }

    /// Replaces the value of a slot, and returns the old one.
    #[inline]
    fn replace_value(&mut self, slot: u32, value: V) -> V {
        self.directory.replace_value(slot, value)
    }
}
