// Written by bindings/rust/erase from crates/clock2q_cache/src/cache/removal.rt; change that, and run erase.
//! Removal of one key, of those that a closure picks, and of all.

use crate::proved::rattle::Vec;
use crate::proved::cache::cache::Cache;
use crate::proved::directory::handle::Found;
use crate::proved::rattle::Allocator;
use core::hash::{BuildHasher, Hash};

impl<K: Hash + Eq, V, S: BuildHasher, A: Allocator> Cache<K, V, S, A> {
    /// Removes a key, and returns true if it was resident.
    ///
    /// A resident's slot becomes the next free slot to be taken, and keeps its value until then.
    /// The history stays as it is, since a resident is never in it. A key that isn't resident is
    /// removed from the history, so that it counts as new when it comes back.
    ///
    /// # Cost
    ///
    /// One hash of the key, and at most one comparison with each candidate. At most eight accesses to
    /// links, one lookup in the index and one change of it, both under the key's hash, and no
    /// inspection by the hand.
    #[inline]
    pub fn remove(&mut self, key: &K) -> bool {
        let hash = self.hash(key);
        let found = self.lookup(hash, key);
        let Found::Resident(slot) = found else {
            self.forget(hash, key, &found);
            return false;
        };
        self.vacate(slot);
        true
    }

    /// Keeps the residents for which `keep` returns true, and removes the others.
    ///
    /// `keep` is called once for each resident, in ascending order of slots. The history stays as
    /// it is.
    ///
    /// # Cost
    ///
    /// At most eight accesses to links and one change of the index for each resident that is
    /// removed. No key is hashed.
    #[inline]
    pub fn retain<F: FnMut(&K, &V) -> bool>(&mut self, mut keep: F) {
        for slot in 0..self.made() {
            if self.is_resident(slot as usize) {
                let stays = keep(self.key(slot), self.value(slot));
                if !stays {
                    self.vacate(slot);
                }
            }
        }
    }

    /// Returns the number of slots that have a value, whether a resident's or an earlier one.
    #[inline]
    pub(super) fn made(&self) -> u32 {
        self.directory.made() as u32
    }

    /// Returns true if there is a resident at this slot. Any number is allowed.
    #[inline]
    pub(super) fn is_resident(&self, slot: usize) -> bool {
        self.queues.is_resident(slot)
    }

    /// Returns the key of the resident at a slot.
    #[inline]
    pub(super) fn key(&self, slot: u32) -> &K {
        self.directory.key(slot)
    }

    /// Removes the resident at a slot, and frees the slot.
    #[inline]
    pub(super) fn vacate(&mut self, slot: u32) {
        self.directory.leave(slot);
        self.queues.leave(slot);
        free_slot(&mut self.free, slot);
    }
}

impl<K: Hash + Eq, V, S: BuildHasher, A: Allocator> Cache<K, V, S, A> {
    /// Removes every key with its value, and the history. The cache is then as new, but keeps its
    /// memory.
    ///
    /// # Cost
    ///
    /// Time in proportion to the capacity: one access to each slot of the index. No key is hashed.
    #[inline]
    pub fn clear(&mut self) {
        self.directory.clear();
        self.queues.clear();
        self.free.clear();
    }
}

/// Adds a slot to the free ones. It is the next to be taken.
#[inline]
pub(super) fn free_slot<A: Allocator>(free: &mut Vec<u32, A>, slot: u32) {
    free.push_reserved(slot);
}
