// Written by bindings/rust/erase from crates/clock2q_directory/src/directory/changes.rt; change that, and run erase.
//! What happens to a key: it enters, leaves, is remembered or forgotten.
use crate::proved::directory::directory::Directory;
use crate::proved::directory::handle::Found;
use crate::proved::directory::keys::Entry;
use crate::proved::directory::newcomer::Newcomer;
use crate::proved::rattle::Allocator;

impl<K: Eq, V, A: Allocator> Directory<K, V, A> {
    /// Makes the next slot, with a key and a value. The key is not resident, and the slot waits for
    /// one that [enters](Directory::enter).
    #[inline]
    pub fn prepare(&mut self, hash: u64, key: K, value: V) {
        self.residents.push(hash, key, value);
    }

    /// Removes the resident at a slot from the index. Its key and value stay at the slot until
    /// another key enters there.
    #[inline]
    pub fn leave(&mut self, slot: u32) {
        self.index.remove_slot(self.residents.hash(slot), slot);
    }

    /// Removes the resident at a slot from the index, remembers its key as the newest, and returns
    /// it. Its value and a copy of the key stay at the slot until another key enters there. If the
    /// history is full, the oldest remembered key is forgotten.
    #[inline]
    pub fn retire(&mut self, slot: u32) -> K
    where
        K: Copy,
    {
        let key = *self.residents.key(slot);
        let hash = self.residents.hash(slot);
        let Some(retired) = self.history.push(hash, key) else {
            self.index.remove_slot(hash, slot);
            return key;
        };
        self.index.forget(retired.oldest, retired.place);
        self.index.remember(hash, slot, retired.place);
        key
    }

    /// Forgets a key that is not resident, for which a lookup found `found`, and returns true if it
    /// was remembered.
    #[inline]
    pub fn forget(&mut self, hash: u64, key: &K, found: &Found) -> bool {
        let _ = key;
        let _ = self.history.order.len();
        let Found::Remembered(place) = *found else {
            return false;
        };
        self.index.forget(Some(hash), place);
        self.history.order.unlink(place);
        true
    }

    /// Forgets every key, and drops them with the residents' values.
    ///
    /// # Cost
    ///
    /// Linear in the number of keys that the index may hold, since all of it is reset.
    #[inline]
    pub fn clear(&mut self) {
        self.residents.clear();
        self.index.clear();
        self.history.clear();
    }
}

impl<K: Eq, V, A: Allocator> Directory<K, V, A> {
    /// Makes a key the resident of a slot that has none, with a new value, or with the one that the
    /// slot had.
    #[inline(always)]
    pub fn enter(&mut self, slot: u32, newcomer: Newcomer<K, V>) {
        let Newcomer {
            gap,
            hash,
            key,
            value,
        } = newcomer;
        self.residents.put(slot, Entry { hash, key, value });
        self.index.add_slot(gap, hash, slot);
    }

    /// Makes a key the resident of a slot in place of another, which is no longer known, with a new
    /// value, or with the one that the slot had. Returns the other's hash and key.
    #[inline(always)]
    pub fn replace(&mut self, slot: u32, newcomer: Newcomer<K, V>) -> (u64, K) {
        let Newcomer {
            gap,
            hash,
            key,
            value,
        } = newcomer;
        let old = self.residents.replace(slot, Entry { hash, key, value });
        self.index.replace(gap, hash, slot, old.0);
        old
    }

    /// Makes a key the resident of a slot in place of another, which is remembered as the newest.
    /// If the history is full, the oldest remembered key is forgotten.
    #[inline(always)]
    pub fn replace_remembering(&mut self, slot: u32, newcomer: Newcomer<K, V>) {
        let Newcomer {
            gap,
            hash,
            key,
            value,
        } = newcomer;
        let entry = Entry { hash, key, value };
        let (old_hash, old_key) = self.residents.replace(slot, entry);
        let Some(retired) = self.history.push(old_hash, old_key) else {
            self.index.replace(gap, hash, slot, old_hash);
            return;
        };
        self.index.replace_remembering(gap, hash, slot, retired);
    }
}
