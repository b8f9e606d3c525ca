// Written by bindings/rust/erase from crates/clock2q_directory/src/directory.rt; change that, and run erase.
//! The directory itself, and access to keys and values by slot.

mod changes;
mod growth;
mod lookups;

use crate::proved::directory::history::Ghost;
use crate::proved::directory::index::Index;
use crate::proved::directory::keys::Keys;
use crate::proved::queues::order::Order;
use crate::proved::rattle::{AllocError, Allocator, Global};

/// The keys that a cache knows, and the index of all of them. A resident's key is at its slot, with
/// its hash and its value, and a remembered key is at a place, with its hash. The index has the
/// slot or the place of each under the key's hash.
///
/// The caller passes a key's hash with the key, the same hash each time, and says which slots are
/// used. If hashes are well spread, a call compares few keys and costs the same however many are
/// known.
///
/// # Example
///
/// ```
/// # #![allow(unused)]
/// # use clock2q::proved::rattle::Global;
/// # use clock2q::proved::directory::{directory::Directory, handle::Handle, index::Index, keys::{Entry, Keys}, newcomer::Newcomer};
/// # let hash_of = |key: u64| key;
/// let mut directory: Directory<u64, u64> = Directory::new(Global, 1, 2)?;
/// directory.enter(0, Newcomer { gap: None, hash: hash_of(1), key: 1, value: Some(10) });
/// directory.replace_remembering(0, Newcomer { gap: None, hash: hash_of(2), key: 2, value: Some(20) });
/// let found = directory.lookup(hash_of(1), &1);
/// assert!(directory.forget(hash_of(1), &1, &found));
/// assert_eq!(*directory.value(0), 20);
/// # Ok::<(), Box<dyn std::error::Error>>(())
/// ```
pub struct Directory<K: Eq, V, A: Allocator = Global> {
    pub(crate) index: Index<A>,
    pub(crate) history: Ghost<K, A>,
    residents: Keys<K, V, A>,
}

impl<K: Eq, V, A: Allocator + Copy> Directory<K, V, A> {
    /// Returns an empty directory for up to `slots` residents and `limit` remembered keys. It takes
    /// all the memory that it will need until it [grows](Directory::grow).
    ///
    /// # Errors
    ///
    /// `AllocError` if a request for memory is refused. Memory taken so far is given back.
    ///
    /// # Cost
    ///
    /// Linear in `slots` and `limit`.
    #[inline]
    pub fn new(alloc: A, slots: usize, limit: usize) -> Result<Self, AllocError> {
        Ok(Directory {
            index: Index::new(alloc, slots, limit)?,
            history: Ghost {
                order: Order::new(alloc, limit as u32)?,
                keys: Keys::new(alloc, limit)?,
            },
            residents: Keys::new(alloc, slots)?,
        })
    }
}

impl<K: Eq, V, A: Allocator> Directory<K, V, A> {
    /// Returns the number of remembered keys.
    #[inline]
    pub fn remembered_len(&self) -> usize {
        self.history.order.len() as usize
    }

    /// Returns the number of slots that have a key and a value, with a resident or without.
    #[inline]
    pub fn made(&self) -> usize {
        self.residents.len()
    }

    /// Returns the key at a slot. Comparisons that the caller makes aren't counted.
    #[inline]
    pub fn key(&self, slot: u32) -> &K {
        self.residents.key(slot)
    }

    /// Returns the value at a slot.
    #[inline]
    pub fn value(&self, slot: u32) -> &V {
        self.residents.value(slot)
    }

    /// Returns a mutable reference to the value at a slot.
    #[inline]
    pub fn value_mut(&mut self, slot: u32) -> &mut V {
        self.residents.value_mut(slot)
    }

    /// Replaces the value at a slot, and returns the old one.
    #[inline]
    pub fn replace_value(&mut self, slot: u32, value: V) -> V {
        self.residents.replace_value(slot, value)
    }

    /// Returns true if `key` equals the key at a slot, and counts the comparison.
    #[inline]
    pub fn key_equals(&mut self, slot: u32, key: &K) -> bool {
        self.residents.key_equals(slot, key)
    }

    /// Raises the count of comparisons by an amount that the proof of the call picks. A caller that
    /// has to state the count exactly raises it to its bound with this.
    #[inline]
    pub fn charge(&mut self) {
        self.residents.charge();
    }
}
