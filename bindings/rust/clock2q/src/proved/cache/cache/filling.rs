// Written by bindings/rust/erase from crates/clock2q_cache/src/cache/filling.rt; change that, and run erase.
//! Making slots before they are needed: their keys and values, and the list of free slots.

use crate::proved::rattle::Vec;
use crate::proved::cache::cache::Cache;
use crate::proved::directory::directory::Directory;
use crate::proved::rattle::Allocator;
use core::hash::{BuildHasher, Hash};

impl<K: Hash + Eq + Default, V, S: BuildHasher, A: Allocator> Cache<K, V, S, A> {
    /// Gives each slot that has no value yet one that `make` returns, in ascending order of slots.
    /// No key becomes resident: these slots are free, and new keys take the lowest first.
    ///
    /// It is useful with `get_or_insert_mut`, which lends the value that a slot already has.
    ///
    /// # Cost
    ///
    /// One call of `make`, one hash of the default key and at most one access to a link for each such
    /// slot.
    #[inline]
    pub fn prefill<F: FnMut() -> V>(&mut self, make: F) {
        let made = self.directory.made();
        let shares = self.shares;
        fill(&mut self.directory, &self.hasher, shares.capacity, make);
        free_down(&mut self.free, made, shares.capacity);
        self.queues.make_below(shares.capacity as u32);
    }
}

/// Adds default keys, each with a value that `make` returns, until there are as many as `many`.
#[inline]
fn fill<K: Hash + Eq + Default, V, S: BuildHasher, A: Allocator, F: FnMut() -> V>(
    directory: &mut Directory<K, V, A>,
    hasher: &S,
    many: usize,
    mut make: F,
) {
    for _ in directory.made()..many {
        let key = K::default();
        let hash = hasher.hash_one(&key);
        directory.prepare(hash, key, make());
    }
}

/// Adds the slots from `from` up to `to` to the free ones, the lowest last, so that it is the next
/// to be used.
#[inline]
fn free_down<A: Allocator>(free: &mut Vec<u32, A>, from: usize, to: usize) {
    let mut slot = to;
    while slot > from {
        slot -= 1;
        free.push_reserved(slot as u32);
    }
}
