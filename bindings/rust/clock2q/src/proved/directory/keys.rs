// Written by bindings/rust/erase from crates/clock2q_directory/src/keys.rt; change that, and run erase.
//! Keys with their hashes and values, each at a place, lookups through an index, and the counts of
//! comparisons and writes.

mod hashed;

use crate::proved::rattle::Vec;
use crate::proved::directory::handle::Handle;
use crate::proved::count::Count;
use crate::proved::handles::Candidates;
use crate::proved::rattle::{AllocError, Allocator, Global};
use core::mem;

/// A key with its hash, and a value that belongs to it.
pub struct Entry<K, V> {
    pub hash: u64,
    pub key: K,
    pub value: V,
}

/// A key at each place, with its hash and a value. Places are numbered from 0, in the order in
/// which they are first used.
///
/// Two functions compare keys, and count each comparison. Two functions write keys, and count each
/// write.
///
/// # Example
///
/// ```
/// # #![allow(unused)]
/// # use clock2q::proved::rattle::Global;
/// # use clock2q::proved::directory::{directory::Directory, handle::Handle, index::Index, keys::{Entry, Keys}, newcomer::Newcomer};
/// let mut keys: Keys<u64, u64> = Keys::new(Global, 2)?;
/// keys.push(7, 70, 700);
/// assert!(keys.key_equals(0, &70));
/// let entry = Entry { hash: 9, key: 90, value: None };
/// assert_eq!(keys.replace(0, entry), (7, 70));
/// assert_eq!(*keys.key(0), 90);
/// assert_eq!(*keys.value(0), 700);
/// # Ok::<(), Box<dyn std::error::Error>>(())
/// ```
pub struct Keys<K, V, A: Allocator = Global> {
    entries: Vec<Entry<K, V>, A>,
    writes: Count,
    comparisons: Count,
}

impl<K, V, A: Allocator> Keys<K, V, A> {
    /// Returns places for up to `room` keys, with no key yet. It takes all the memory that the
    /// places will ever need.
    ///
    /// # Errors
    ///
    /// `AllocError` if the request for memory is refused.
    #[inline]
    pub fn new(alloc: A, room: usize) -> Result<Self, AllocError> {
        Ok(Keys {
            entries: Vec::with_capacity(alloc, room)?,
            writes: Count::new(),
            comparisons: Count::new(),
        })
    }

    /// Returns the number of places that have a key.
    #[inline]
    pub fn len(&self) -> usize {
        self.entries.len()
    }

    /// Returns the hash of the key at a place.
    #[inline]
    pub fn hash(&self, place: u32) -> u64 {
        self.entries[place as usize].hash
    }

    /// Returns the key at a place. Comparisons that the caller makes aren't counted.
    #[inline]
    pub fn key(&self, place: u32) -> &K {
        &self.entries[place as usize].key
    }

    /// Returns the value at a place.
    #[inline]
    pub fn value(&self, place: u32) -> &V {
        &self.entries[place as usize].value
    }

    /// Returns a mutable reference to the value at a place.
    #[inline]
    pub fn value_mut(&mut self, place: u32) -> &mut V {
        &mut self.entries[place as usize].value
    }

    /// Replaces the value at a place, and returns the old one.
    #[inline]
    pub fn replace_value(&mut self, place: u32, value: V) -> V {
        mem::replace(&mut self.entries[place as usize].value, value)
    }

    /// Writes a key to the next place.
    #[inline]
    pub fn push(&mut self, hash: u64, key: K, value: V) {
        self.writes.tick();
        self.entries.push_reserved(Entry { hash, key, value });
    }

    /// Makes room for up to `room` keys in all. Each key keeps its place.
    ///
    /// # Errors
    ///
    /// `AllocError` if the request for memory is refused. The room is then as it was.
    #[inline]
    pub fn reserve(&mut self, room: usize) -> Result<(), AllocError> {
        let additional = room.saturating_sub(self.len());
        self.entries.reserve_exact(additional)
    }

    /// Drops every key and value. No place has a key afterwards.
    #[inline]
    pub fn clear(&mut self) {
        self.entries.clear();
    }
}

impl<K, V, A: Allocator> Keys<K, V, A> {
    /// Writes a key to a place: to the next one, which has to come with a value, or over the one that
    /// is there, which is dropped. Without a value, the place keeps the one that it has.
    #[inline(always)]
    pub fn put(&mut self, place: u32, entry: Entry<K, Option<V>>) {
        let Entry { hash, key, value } = entry;
        if (place as usize) < self.len() {
            self.replace(place, Entry { hash, key, value });
        } else if let Some(value) = value {
            self.push(hash, key, value);
        }
    }

    /// Writes a key over the one at a place, and returns the old hash and key. Without a value, the
    /// place keeps the one that it has.
    #[inline]
    pub fn replace(&mut self, place: u32, entry: Entry<K, Option<V>>) -> (u64, K) {
        self.writes.tick();
        let Entry { hash, key, value } = entry;
        let Some(value) = value else {
            let entry = &mut self.entries[place as usize];
            let old_hash = mem::replace(&mut entry.hash, hash);
            let old_key = mem::replace(&mut entry.key, key);
            return (old_hash, old_key);
        };
        let entry = Entry { hash, key, value };
        let old = mem::replace(&mut self.entries[place as usize], entry);
        (old.hash, old.key)
    }
}

impl<K: Eq, V, A: Allocator> Keys<K, V, A> {
    /// Returns the first slot among `handles` that has `key`, and counts each comparison. Places
    /// are skipped. The walk of `handles` has not ended yet.
    #[inline]
    pub fn find(&mut self, mut handles: Candidates<'_, u32>, key: &K) -> Option<u32> {
        while let Ok(handle) = handles.peek_or_gap() {
            if let Handle::Resident(slot) = Handle::unpack(handle) {
                if self.key_equals(slot, key) {
                    return Some(slot);
                }
            }
            handles.advance();
        }
        None
    }

    /// Returns the first place among `handles` that has `key`, and counts each comparison. Slots
    /// are skipped.
    #[inline]
    pub fn find_remembered(&mut self, mut handles: Candidates<'_, u32>, key: &K) -> Option<u32> {
        while let Some(handle) = handles.next() {
            if let Handle::Remembered(place) = Handle::unpack(handle) {
                if self.key_equals(place, key) {
                    return Some(place);
                }
            }
        }
        None
    }

    /// Returns the first slot among `handles` that has `key`. The comparisons are counted in
    /// `compared` instead.
    #[inline]
    pub fn find_counting_in(
        &self,
        mut handles: Candidates<'_, u32>,
        key: &K,
        compared: &mut Count,
    ) -> Option<u32> {
        while let Some(handle) = handles.peek() {
            if let Handle::Resident(slot) = Handle::unpack(handle) {
                if self.is_counting_in(slot, key, compared) {
                    return Some(slot);
                }
            }
            handles.advance();
        }
        None
    }

    /// Returns true if `key` equals the key at a place, and counts the comparison.
    #[inline]
    pub fn key_equals(&mut self, place: u32, key: &K) -> bool {
        self.comparisons.tick();
        *key == self.entries[place as usize].key
    }

    /// Returns true if `key` equals the key at a place, and counts the comparison in `compared`.
    #[inline]
    fn is_counting_in(&self, place: u32, key: &K, compared: &mut Count) -> bool {
        compared.tick();
        *key == self.entries[place as usize].key
    }

    /// Raises the count of comparisons by an amount that the proof of the call picks. A caller that
    /// has to state the count exactly raises it to its bound with this.
    #[inline]
    pub fn charge(&mut self) {
        self.comparisons.raise(&());
    }
}
