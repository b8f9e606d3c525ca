// Written by bindings/rust/erase from crates/clock2q_cache/src/cache/insertion.rt; change that, and run erase.
//! Insertion of a key that is not resident.
use crate::proved::cache::cache::Cache;
use crate::proved::directory::handle::Found;
use crate::proved::directory::newcomer::Newcomer;
use crate::proved::rattle::Allocator;
use core::hash::{BuildHasher, Hash};

/// The queue that a new resident goes into.
#[derive(Clone, Copy)]
pub(super) enum Admission {
    /// Small, as its newest slot.
    Small,
    /// Main, just before the hand.
    Main,
}

impl<K: Hash + Eq, V, S: BuildHasher, A: Allocator> Cache<K, V, S, A> {
    /// Inserts a key that is not resident, for which a lookup found `found`.
    #[inline]
    pub(crate) fn insert(&mut self, hash: u64, key: K, value: V, found: Found) -> u32 {
        let admission = self.choose_queue(hash, &key, &found);
        let newcomer = Newcomer {
            gap: found.gap(),
            hash,
            key,
            value: Some(value),
        };
        self.insert_unknown(newcomer, admission, |_| ()).0
    }

    /// Inserts a key that is not resident, whether or not the history has it. A slot that was made
    /// before keeps its value, and a new one gets what `make` returns. Also returns whether another
    /// resident was evicted. It is out of line, so that a hit spills few registers.
    #[cold]
    #[inline(never)]
    pub(crate) fn insert_reusing<F: FnOnce() -> V>(
        &mut self,
        hash: u64,
        key: K,
        make: F,
    ) -> (u32, bool) {
        let found = self.find_place(hash, &key);
        let admission = self.choose_queue(hash, &key, &found);
        let value = self.makes_slot(admission).then(make);
        let newcomer = Newcomer {
            gap: found.gap(),
            hash,
            key,
            value,
        };
        let (slot, left) = self.insert_unknown(newcomer, admission, |_| ());
        (slot, left.is_some())
    }

    /// Inserts a key that is not known into the queue that was chosen. If a resident leaves, `leaves`
    /// is called with its key, and what it returns comes back beside the slot.
    #[inline]
    pub(super) fn insert_unknown<R, F: FnOnce(&K) -> R>(
        &mut self,
        newcomer: Newcomer<K, V>,
        admission: Admission,
        leaves: F,
    ) -> (u32, Option<R>) {
        if self.has_room(admission) {
            return (self.join(newcomer, admission), None);
        }
        match admission {
            Admission::Main => self.replace_victim(newcomer, leaves),
            Admission::Small => {
                if self.tail_is_promoted() {
                    self.promote_tail(newcomer, leaves)
                } else {
                    self.replace_tail(newcomer, leaves)
                }
            }
        }
    }

    /// Returns true if a slot is made for a key that goes into this queue.
    #[inline]
    pub(super) fn makes_slot(&self, admission: Admission) -> bool {
        self.free.is_empty()
            && self.directory.made() < self.shares.capacity
            && self.has_room(admission)
    }

    /// Returns true if a key can go into a queue without taking another's slot.
    #[inline]
    fn has_room(&self, admission: Admission) -> bool {
        match admission {
            Admission::Main => self.queues.main_len() != self.shares.main(),
            Admission::Small => {
                self.directory.made() < self.shares.capacity || !self.free.is_empty()
            }
        }
    }

    /// Chooses the queue for a key that is not resident, for which a lookup found `found`, and erases
    /// the key from the history.
    #[inline]
    pub(super) fn choose_queue(&mut self, hash: u64, key: &K, found: &Found) -> Admission {
        if self.forget(hash, key, found) {
            return Admission::Main;
        }
        // without a vacancy a key goes to Small if that has a share
        let in_small = if self.has_room(Admission::Small) {
            self.queues.small_len()
        } else {
            0
        };
        if self.shares.small <= in_small {
            return Admission::Main;
        }
        Admission::Small
    }

    /// Inserts a key into a full Main, in place of its victim.
    #[inline]
    fn replace_victim<R, F: FnOnce(&K) -> R>(
        &mut self,
        newcomer: Newcomer<K, V>,
        leaves: F,
    ) -> (u32, Option<R>) {
        let victim = self.queues.replace_victim();
        let old = self.directory.replace(victim, newcomer);
        (victim, Some(leaves(&old.1)))
    }

    /// Inserts a key into a queue that has room, at a vacancy.
    #[inline(always)]
    fn join(&mut self, newcomer: Newcomer<K, V>, admission: Admission) -> u32 {
        // the slot that was freed last, otherwise the lowest that has no value yet
        let slot = self.free.pop().unwrap_or(self.directory.made() as u32);
        self.directory.enter(slot, newcomer);
        match admission {
            Admission::Main => {
                self.queues.append(slot);
                slot
            }
            Admission::Small => {
                self.queues.admit(slot);
                slot
            }
        }
    }

    /// Returns true if Small's tail moves on to Main.
    #[inline]
    pub(super) fn tail_is_promoted(&mut self) -> bool {
        self.queues.tail_is_promoted()
    }

    /// Inserts a key into Small in the slot of its tail, which is evicted and remembered.
    #[inline]
    fn replace_tail<R, F: FnOnce(&K) -> R>(
        &mut self,
        newcomer: Newcomer<K, V>,
        leaves: F,
    ) -> (u32, Option<R>) {
        let tail = self.queues.replace_tail();
        let left = leaves(self.directory.key(tail));
        self.directory.replace_remembering(tail, newcomer);
        (tail, Some(left))
    }

    /// Inserts a key into Small in the slot of Main's victim, while Small's tail moves on to Main.
    #[inline]
    fn promote_tail<R, F: FnOnce(&K) -> R>(
        &mut self,
        newcomer: Newcomer<K, V>,
        leaves: F,
    ) -> (u32, Option<R>) {
        let slot = self.queues.take_victim();
        // the caller has seen that Small isn't empty
        let Some(tail) = self.queues.take_tail() else {
            unreachable!()
        };
        self.queues.append(tail);
        let old = self.directory.replace(slot, newcomer);
        self.queues.admit(slot);
        (slot, Some(leaves(&old.1)))
    }
}
