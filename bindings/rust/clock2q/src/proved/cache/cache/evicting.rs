// Written by bindings/rust/erase from crates/clock2q_cache/src/cache/evicting.rt; change that, and run erase.
//! Eviction: which resident leaves next, the eviction of one though no key comes, a `put` that hands
//! over what it replaces or evicts, and one that says who had the slot.
use crate::proved::cache::cache::Cache;
use crate::proved::cache::cache::removal::free_slot;
use crate::proved::cache::occupant::Occupant;
use crate::proved::directory::handle::Found;
use crate::proved::directory::newcomer::Newcomer;
use crate::proved::rattle::Allocator;
use core::hash::{BuildHasher, Hash};

impl<K: Hash + Eq, V, S: BuildHasher, A: Allocator> Cache<K, V, S, A> {
    /// Returns the resident that leaves next, with its slot: the one that [`evict`](Cache::evict) would
    /// evict, and in a full cache the one that leaves for a key that the cache doesn't know. Returns
    /// `None` if the cache is empty.
    ///
    /// No hit is recorded, and the hand stays where it is. Only counts that contracts see change. A
    /// key that the history has goes to Main, and so another resident may leave for it.
    ///
    /// # Cost
    ///
    /// No hash and no comparison. If Small's tail leaves next, there is no walk. Otherwise each
    /// call walks along Main, from the hand to the first resident whose bit is clear, which is at
    /// most all of Main. There is one access to a link for the tail, and one for each resident that
    /// an eviction now would inspect.
    #[inline]
    pub fn next_victim(&mut self) -> Option<(&K, usize)> {
        let slot = self.queues.next_victim()?;
        Some((self.directory.key(slot), slot as usize))
    }
}

impl<K: Hash + Eq + Copy, V, S: BuildHasher, A: Allocator> Cache<K, V, S, A> {
    /// Evicts a resident though no key comes, and returns its key with its slot. Returns `None` if
    /// the cache is empty.
    ///
    /// In a full cache it is the resident that would leave for a new key. A key that leaves Small
    /// goes into the history, so the one that is returned is a copy. The slot becomes the next free
    /// slot to be taken, and keeps its value until then.
    ///
    /// # Cost
    ///
    /// No hash and no comparison. At most 19 more accesses to links than inspections by the hand,
    /// and at most two changes of the index, one under the hash of the key that leaves and one
    /// under that of the oldest remembered key.
    #[inline]
    pub fn evict(&mut self) -> Option<(K, usize)> {
        if self.victim_leaves() {
            return Some(self.evict_victim());
        }
        self.retire_tail()
    }

    /// Returns true if a resident of Main leaves next, rather than Small's tail.
    #[inline]
    fn victim_leaves(&mut self) -> bool {
        self.queues.victim_leaves()
    }

    /// Evicts Main's victim, while Small's tail moves on to Main.
    #[inline]
    fn evict_victim(&mut self) -> (K, usize) {
        let slot = self.queues.take_victim();
        let key = *self.directory.key(slot);
        self.directory.leave(slot);
        free_slot(&mut self.free, slot);
        let Some(tail) = self.queues.take_tail() else {
            return (key, slot as usize);
        };
        self.queues.append(tail);
        (key, slot as usize)
    }

    /// Evicts Small's tail, which is remembered.
    #[inline]
    fn retire_tail(&mut self) -> Option<(K, usize)> {
        let tail = self.queues.take_tail()?;
        let key = self.directory.retire(tail);
        free_slot(&mut self.free, tail);
        Some((key, tail as usize))
    }
}

impl<K: Hash + Eq + Copy, V, S: BuildHasher, A: Allocator> Cache<K, V, S, A> {
    /// Stores a value for a key as [`put`](Cache::put) does, and hands over what it replaces or
    /// evicts: `key` with the value that it had, or the resident that leaves, with its value.
    ///
    /// A write-back cache writes what leaves. A key that leaves Small goes into the history, so the
    /// one that is handed over is a copy.
    ///
    /// # Cost
    ///
    /// That of [`put`](Cache::put).
    #[inline]
    pub fn put_evicting(&mut self, key: K, value: V) -> Option<(K, V)> {
        let hash = self.hash(&key);
        let found = self.lookup(hash, &key);
        let Found::Resident(slot) = found else {
            return self.insert_evicting(hash, key, value, found);
        };
        self.record_hit(slot, &key);
        Some((key, self.replace_value(slot, value)))
    }

    /// Inserts a key that is not resident, for which a lookup found `found`, and hands over the
    /// resident that leaves.
    #[inline]
    fn insert_evicting(&mut self, hash: u64, key: K, value: V, found: Found) -> Option<(K, V)> {
        let admission = self.choose_queue(hash, &key, &found);
        let gap = found.gap();
        if self.makes_slot(admission) {
            let newcomer = Newcomer {
                gap,
                hash,
                key,
                value: Some(value),
            };
            self.insert_unknown(newcomer, admission, |_| ());
            return None;
        }
        let newcomer = Newcomer {
            gap,
            hash,
            key,
            value: None,
        };
        let (slot, left) = self.insert_unknown(newcomer, admission, |key| *key);
        let before = self.replace_value(slot, value);
        left.map(|evicted| (evicted, before))
    }

    /// Stores a value for a key as [`put`](Cache::put) does, and returns the key's slot and who had
    /// that slot until now. The key keeps its slot until it leaves the cache, so a caller can keep
    /// what belongs to a key in an array of its own. A key that is evicted is handed over as a copy.
    ///
    /// # Cost
    ///
    /// That of [`get_or_insert_mut`](Cache::get_or_insert_mut).
    #[inline]
    pub fn put_slot(&mut self, key: K, value: V) -> (usize, Occupant<K>) {
        let hash = self.hash(&key);
        if let Some(slot) = self.find(hash, &key) {
            self.record_hit(slot, &key);
            self.replace_value(slot, value);
            return (slot as usize, Occupant::Itself);
        }
        let (slot, occupant) = self.insert_at_slot(hash, key, value);
        (slot as usize, occupant)
    }

    /// Inserts a key that is not resident, whether or not the history has it, and returns its slot
    /// and who had that. It is out of line, so that a hit spills few registers.
    #[cold]
    #[inline(never)]
    fn insert_at_slot(&mut self, hash: u64, key: K, value: V) -> (u32, Occupant<K>) {
        let found = self.find_place(hash, &key);
        let admission = self.choose_queue(hash, &key, &found);
        let newcomer = Newcomer {
            gap: found.gap(),
            hash,
            key,
            value: Some(value),
        };
        let (slot, left) = self.insert_unknown(newcomer, admission, |key| *key);
        match left {
            Some(evicted) => (slot, Occupant::Other(evicted)),
            None => (slot, Occupant::Nobody),
        }
    }
}
