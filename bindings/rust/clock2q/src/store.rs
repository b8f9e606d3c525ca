//! Pairs by the hashes of their keys.

use crate::before::Before;
use crate::entries::{Drained, Entries};
use crate::slots::{AtHome, Found, Slots};
use crate::{Refused, MAX_CAPACITY};
use alloc::vec::Vec;
use core::borrow::Borrow;
use core::hash::{BuildHasher, Hash};
use core::mem;

/// Returns the hash of a key.
#[inline]
pub(crate) fn hash_of<Q, S>(hasher: &S, key: &Q) -> u64
where
    Q: Hash + ?Sized,
    S: BuildHasher,
{
    hasher.hash_one(key)
}

/// Pairs at the slots of their keys. There is a pair at a slot if and only if a key has it: so it is whenever a key
/// is compared, or a key or value dropped.
pub(crate) struct Store<K, V> {
    slots: Slots,
    pub(crate) entries: Entries<K, V>,
    /// How many pairs there are at most, or `usize::MAX` if one at each slot.
    limit: usize,
    /// The second pair that left for the one stored last, if two did. Whoever stored that takes it out, and drops it
    /// without a lock. There is room for it once the cache was resized.
    second: Vec<(K, V)>,
    pub(crate) hits: u64,
    pub(crate) misses: u64,
}

impl<K, V> Store<K, V> {
    pub(crate) fn new(slots: Slots) -> Result<Store<K, V>, Refused> {
        Ok(Store {
            entries: Entries::new(slots.capacity())?,
            slots,
            limit: usize::MAX,
            second: Vec::new(),
            hits: 0,
            misses: 0,
        })
    }

    /// Makes one of this capacity and these shares, without pairs, that has counted as much.
    pub(crate) fn empty_one(&self) -> Result<Store<K, V>, Refused> {
        let mut store = Store::new(self.slots.empty_one()?)?;
        store.limit = self.limit;
        store.hits = self.hits;
        store.misses = self.misses;
        Ok(store)
    }

    #[inline]
    pub(crate) fn len(&self) -> usize {
        self.slots.len()
    }

    #[inline]
    pub(crate) fn capacity(&self) -> usize {
        self.slots.capacity().min(self.limit)
    }

    /// Has slots for as many pairs, of which there may be no more than before. If it is refused, nothing has changed.
    pub(crate) fn reserve(&mut self, capacity: usize) -> Result<(), Refused> {
        if capacity == 0 || capacity > MAX_CAPACITY {
            return Err(Refused::Capacity);
        }
        let slots = self.slots.capacity();
        self.second
            .try_reserve_exact(1)
            .map_err(|_| Refused::Memory)?;
        if capacity > slots {
            self.entries.reserve(capacity)?;
            self.slots.grow(capacity)?;
            self.limit = self.limit.min(slots);
        }
        Ok(())
    }

    /// Has as many pairs at most from now on, with more slots if there are fewer. Returns those above, which leave.
    pub(crate) fn resize(&mut self, limit: usize) -> Result<Vec<(K, V)>, Refused> {
        self.reserve(limit)?;
        let mut left = Vec::new();
        while self.len() > limit {
            left.extend(self.evict().map(|(_, pair)| pair));
        }
        self.limit = match limit < self.slots.capacity() {
            true => limit,
            false => usize::MAX,
        };
        Ok(left)
    }

    /// Removes all pairs, and drops them last.
    pub(crate) fn clear(&mut self) {
        drop(self.drain());
    }

    /// Removes all pairs, and returns them.
    #[cfg(feature = "std")] // as threads need it
    pub(crate) fn take_all(&mut self) -> Vec<(K, V)> {
        let mut left = Vec::with_capacity(self.len());
        left.extend(self.drain().0);
        left
    }

    /// Removes all pairs, and returns them with their number.
    pub(crate) fn drain(&mut self) -> (Drained<'_, K, V>, usize) {
        let len = self.len();
        self.slots.clear();
        (self.entries.drain(), len)
    }

    /// Returns true if there may be more pairs.
    #[inline(always)]
    fn has_room(&self) -> bool {
        self.limit == usize::MAX || self.len() < self.limit
    }

    /// Returns the second pair that left for the one stored last, if two did.
    #[inline]
    pub(crate) fn take_second(&mut self) -> Option<(K, V)> {
        self.second.pop()
    }

    /// Stores a pair whose key isn't here, for which a look-up returned `found`, and returns its slot and the pair that
    /// left for it. If two left, [`take_second`](Store::take_second) returns the other.
    #[inline]
    pub(crate) fn admit(
        &mut self,
        found: Found,
        hash: u64,
        key: K,
        value: V,
    ) -> (usize, Option<(K, V)>) {
        if !self.has_room() {
            return self.admit_to_fewer(hash, key, value);
        }
        let slot = self.slots.enter(hash, found);
        (slot, self.entries.put(slot, key, value))
    }

    /// Does what `admit` does in place of another pair though there are slots, since there may not be more pairs.
    #[cold]
    #[inline(never)]
    fn admit_to_fewer(&mut self, hash: u64, key: K, value: V) -> (usize, Option<(K, V)>) {
        let gone = self.evict().map(|(_, pair)| pair);
        let found = self.slots.look_up_absent(hash);
        let slot = self.slots.enter(hash, found);
        match self.entries.put(slot, key, value) {
            None => (slot, gone),
            left => {
                self.second.extend(gone);
                (slot, left)
            }
        }
    }

    /// Stores a pair, for whose key a look-up returned `found`, and returns what was replaced or left. It runs no code of
    /// users, and drops nothing.
    #[inline(always)]
    pub(crate) fn push_at(&mut self, found: Found, hash: u64, key: K, value: V) -> Before<K, V> {
        if let Found::Resident(slot) = found {
            return self.replace(slot as usize, key, value);
        }
        Before::evicted(self.admit(found, hash, key, value).1)
    }

    /// Stores a value for a key that is at a slot, after a hit, and returns this key and the value before.
    #[inline(always)]
    fn replace(&mut self, slot: usize, key: K, value: V) -> Before<K, V> {
        self.slots.hit(slot);
        let (_, before) = self.entries.pair_mut(slot).expect("a pair is at its slot");
        Before::Replaced(key, mem::replace(before, value))
    }

    /// Removes the pair of a key of this hash, for which a look-up returned `found`, and returns it. A key that has none
    /// is forgotten.
    pub(crate) fn remove_found(&mut self, found: &Found, hash: u64) -> Option<(K, V)> {
        match found {
            Found::Resident(slot) => self.remove_at(*slot as usize),
            found => {
                self.slots.forget(hash, found);
                None
            }
        }
    }

    /// Returns what a look-up of a key of this hash would return that has no pair, whatever others of this hash have one.
    pub(crate) fn look_up_absent(&self, hash: u64) -> Found {
        self.slots.look_up_absent(hash)
    }

    /// Records a hit of the pair at a slot.
    #[inline]
    pub(crate) fn hit(&mut self, slot: usize) {
        self.slots.hit(slot);
    }

    /// Removes the pair that would leave next, and returns the slot that it had.
    pub(crate) fn evict(&mut self) -> Option<(usize, (K, V))> {
        let slot = self.slots.evict()?;
        Some((slot, self.entries.take(slot)?))
    }

    /// Returns the slot of the pair that would leave next.
    #[cfg(feature = "std")] // as caches with a clock need it
    pub(crate) fn next_victim_slot(&mut self) -> Option<usize> {
        self.slots.next_victim()
    }

    /// Returns the pair that would leave next.
    pub(crate) fn next_victim(&mut self) -> Option<&(K, V)> {
        self.entries.pair(self.slots.next_victim()?)
    }

    /// Removes the pairs for which `keep` returns false, each as soon as it does, and calls `gone` with it then.
    pub(crate) fn retain(
        &mut self,
        mut keep: impl FnMut(&K, &mut V) -> bool,
        mut gone: impl FnMut((K, V)),
    ) {
        for slot in 0..self.entries.bound() {
            if let Some((key, value)) = self.entries.pair_mut(slot) {
                if !keep(key, value) {
                    self.remove_at(slot).into_iter().for_each(&mut gone);
                }
            }
        }
    }

    /// Removes the pair at a slot.
    pub(crate) fn remove_at(&mut self, slot: usize) -> Option<(K, V)> {
        self.slots.remove(slot);
        self.entries.take(slot)
    }
}

impl<K: Eq, V> Store<K, V> {
    /// Returns the slot of a key. Whatever `Eq` does, nothing has changed.
    #[inline(always)]
    pub(crate) fn slot<Q>(&self, hash: u64, key: &Q) -> Option<usize>
    where
        K: Borrow<Q>,
        Q: Eq + ?Sized,
    {
        self.slots.find(hash, |slot| self.entries.has(slot, key))
    }

    /// Returns the slot of a key, or where it would go. Whatever `Eq` does, nothing has changed.
    #[inline(always)]
    pub(crate) fn look_up<Q>(&self, hash: u64, key: &Q) -> Found
    where
        K: Borrow<Q>,
        Q: Eq + ?Sized,
    {
        self.slots.look_up(hash, |slot| self.entries.has(slot, key))
    }

    /// Returns the pair of a key. It records no hit.
    #[inline]
    pub(crate) fn peek<Q>(&self, hash: u64, key: &Q) -> Option<&(K, V)>
    where
        K: Borrow<Q>,
        Q: Eq + ?Sized,
    {
        self.entries.pair(self.slot(hash, key)?)
    }

    /// Returns the pair of a key to write to. It records no hit.
    #[inline]
    pub(crate) fn peek_mut<Q>(&mut self, hash: u64, key: &Q) -> Option<&mut (K, V)>
    where
        K: Borrow<Q>,
        Q: Eq + ?Sized,
    {
        let slot = self.slot(hash, key)?;
        self.entries.pair_mut(slot)
    }

    /// Returns the slot of a key, after a hit, or where it would go, and counts.
    #[inline]
    pub(crate) fn look_up_counted<Q>(&mut self, hash: u64, key: &Q) -> Found
    where
        K: Borrow<Q>,
        Q: Eq + ?Sized,
    {
        let found = self.look_up(hash, key);
        match found {
            Found::Resident(slot) => {
                self.slots.hit(slot as usize);
                self.hits += 1;
            }
            _ => self.misses += 1,
        }
        found
    }

    /// Returns the value of a key, after a hit, and counts.
    #[inline(always)]
    pub(crate) fn find_value<Q>(&mut self, hash: u64, key: &Q) -> Option<&mut V>
    where
        K: Borrow<Q>,
        Q: Eq + ?Sized,
    {
        let is_it = |slot| self.entries.has(slot, key);
        match self.slots.find_at_home(hash, is_it) {
            AtHome::Found(slot) => {
                let (_, value) = self.entries.pair_mut(slot)?;
                self.slots.hit(slot);
                self.hits += 1;
                Some(value)
            }
            AtHome::Absent => {
                self.misses += 1;
                None
            }
            AtHome::Unknown => self.find_value_further(hash, key),
        }
    }

    /// Does so wherever the key is.
    #[cold]
    #[inline(never)]
    fn find_value_further<Q>(&mut self, hash: u64, key: &Q) -> Option<&mut V>
    where
        K: Borrow<Q>,
        Q: Eq + ?Sized,
    {
        let (_, value) = self.find_pair(hash, key)?;
        Some(value)
    }

    /// Returns the pair of a key, after a hit, and counts.
    #[inline(always)]
    pub(crate) fn find_pair<Q>(&mut self, hash: u64, key: &Q) -> Option<&mut (K, V)>
    where
        K: Borrow<Q>,
        Q: Eq + ?Sized,
    {
        let Some(slot) = self.slot(hash, key) else {
            self.misses += 1;
            return None;
        };
        let pair = self.entries.pair_mut(slot)?;
        self.slots.hit(slot);
        self.hits += 1;
        Some(pair)
    }

    /// Stores a pair, after a hit if its key is here, and returns what was replaced or left. A second pair that left is
    /// dropped.
    #[inline(always)]
    pub(crate) fn push(&mut self, hash: u64, key: K, value: V) -> Before<K, V> {
        if self.limit != usize::MAX {
            return self.push_to_fewer(hash, key, value);
        }
        let found = self.look_up(hash, &key);
        if let Found::Resident(slot) = found {
            return self.replace(slot as usize, key, value);
        }
        let slot = self.slots.enter(hash, found);
        Before::evicted(self.entries.put(slot, key, value))
    }

    /// Does so if there may not be a pair at each slot.
    #[cold]
    #[inline(never)]
    fn push_to_fewer(&mut self, hash: u64, key: K, value: V) -> Before<K, V> {
        let found = self.look_up(hash, &key);
        let before = self.push_at(found, hash, key, value);
        drop(self.take_second());
        before
    }

    /// Removes a key, and returns the pair. A key that isn't here is forgotten.
    pub(crate) fn remove<Q>(&mut self, hash: u64, key: &Q) -> Option<(K, V)>
    where
        K: Borrow<Q>,
        Q: Eq + ?Sized,
    {
        let found = self.look_up(hash, key);
        self.remove_found(&found, hash)
    }
}
