// Written by bindings/rust/erase from crates/clock2q_cache/src/cache/slots.rt; change that, and run erase.
//! Calls by slot or by hash, for a caller that compares its keys itself, between two calls.
use crate::proved::cache::cache::Cache;
use crate::proved::rattle::Allocator;
use core::hash::{BuildHasher, Hash};

impl<K: Hash + Eq, V, S: BuildHasher, A: Allocator> Cache<K, V, S, A> {
    /// Returns the slot of a resident key, or `None`. It records no hit, and so changes no later
    /// eviction.
    ///
    /// # Cost
    ///
    /// That of [`contains`](Cache::contains).
    #[inline]
    pub fn peek_slot(&self, key: &K) -> Option<usize> {
        Some(self.slot_of(key)? as usize)
    }

    /// Returns the slot that comes after `nth` others among those of the residents whose keys have
    /// this hash, or `None` if there are no more. It compares no key and records no hit. The order
    /// is the same until a key enters or leaves.
    ///
    /// # Cost
    ///
    /// No hash and no comparison. It reads each candidate up to the one that it returns.
    #[inline]
    pub fn slot_with_hash(&self, hash: u64, nth: usize) -> Option<usize> {
        Some(self.with_hash(hash, nth)? as usize)
    }

    /// Records a hit on the resident at this slot and returns true. Any number is allowed. Returns
    /// false and changes nothing if no resident is there.
    ///
    /// # Cost
    ///
    /// No hash, no comparison, and no access to a link.
    #[inline]
    pub fn hit_slot(&mut self, slot: usize) -> bool {
        if !self.is_resident(slot) {
            return false;
        }
        self.queues.hit(slot as u32);
        true
    }

    /// Removes the key that is resident at this slot, as [`remove`](Cache::remove) does, and
    /// returns true. Any number is allowed. Returns false and changes nothing if no resident is
    /// there.
    ///
    /// # Cost
    ///
    /// No hash and no comparison. At most eight accesses to links, and one change of the index.
    #[inline]
    pub fn remove_slot(&mut self, slot: usize) -> bool {
        if !self.is_resident(slot) {
            return false;
        }
        self.vacate(slot as u32);
        true
    }

    /// Returns slot number `nth` of those of the residents whose keys have a hash.
    #[inline(always)]
    fn with_hash(&self, hash: u64, nth: usize) -> Option<u32> {
        self.directory.slot_with_hash(hash, nth)
    }
}

impl<K: Hash + Eq, V, S: BuildHasher, A: Allocator> Cache<K, V, S, A> {
    /// Inserts a key with a value if no resident's key has its hash, and returns its slot and true.
    /// Otherwise returns the slot that [`slot_with_hash`](Cache::slot_with_hash) returns first, and
    /// false. Nothing changes then, and `key` and `value` are dropped.
    ///
    /// # Cost
    ///
    /// One hash of the key, and at most one comparison with each candidate in the history. If the key
    /// is inserted, that of [`put`](Cache::put), and one more walk of the index, the first, which
    /// `costs` leaves out.
    #[inline]
    pub fn slot_with_hash_or_insert(&mut self, key: K, value: V) -> (usize, bool) {
        let hash = self.hash(&key);
        if let Some(slot) = self.with_hash(hash, 0) {
            return (slot as usize, false);
        }
        let found = self.find_place(hash, &key);
        (self.insert(hash, key, value, found) as usize, true)
    }
}
