// Written by bindings/rust/erase from crates/clock2q_cache/src/cache/fetching.rt; change that, and run erase.
//! Calls that look a key up and, if it is not resident, insert it with what a closure returns.
use crate::proved::cache::cache::Cache;
use crate::proved::cache::entered::Entered;
use crate::proved::count::GhostValue;
use crate::proved::directory::handle::Found;
use crate::proved::rattle::Allocator;
use core::hash::{BuildHasher, Hash};

impl<K: Hash + Eq, V, S: BuildHasher, A: Allocator> Cache<K, V, S, A> {
    /// Returns the value of a key, after inserting what `f` returns if the key isn't resident. A
    /// resident key is hit, as by [`get`](Cache::get).
    ///
    /// `f` is called only if the key isn't resident, before anything changes.
    ///
    /// # Cost
    ///
    /// That of [`put`](Cache::put), and that of `f` if it is called.
    #[inline]
    pub fn get_or_insert_with<F: FnOnce() -> V>(&mut self, key: K, f: F) -> &V {
        let slot = self.find_or_insert(key, f);
        self.value(slot)
    }

    /// Returns the value of a key as [`get_or_insert_with`](Cache::get_or_insert_with) does, but
    /// `f` may fail.
    ///
    /// # Errors
    ///
    /// The error of `f`. The cache and its history are then as they were.
    ///
    /// # Cost
    ///
    /// That of [`get_or_insert_with`](Cache::get_or_insert_with). After an error no link was
    /// accessed.
    #[inline]
    pub fn try_get_or_insert_with<F: FnOnce() -> Result<V, E>, E>(
        &mut self,
        key: K,
        f: F,
    ) -> Result<&V, E> {
        let found = self.try_find_or_insert(key, f);
        self.value_found(found)
    }

    /// Returns the value of a key, to write to, as
    /// [`try_get_or_insert_with`](Cache::try_get_or_insert_with) does.
    ///
    /// # Errors
    ///
    /// The error of `f`. The cache and its history are then as they were.
    ///
    /// # Cost
    ///
    /// That of [`try_get_or_insert_with`](Cache::try_get_or_insert_with).
    #[inline]
    pub fn try_get_or_insert_with_mut<F: FnOnce() -> Result<V, E>, E>(
        &mut self,
        key: K,
        f: F,
    ) -> Result<&mut V, E> {
        let slot = self.try_find_or_insert(key, f)?;
        Ok(self.value_mut(slot))
    }

    /// Returns the slot of a key and its value, to write to, after inserting the key if it isn't
    /// resident. A resident key is hit, as by [`get`](Cache::get).
    ///
    /// A slot that another key had keeps its value, to be overwritten, so a cache of buffers needs
    /// no new ones. `make` is called only if a slot is made. The key keeps its slot until it leaves
    /// the cache, and [`get_at`](Cache::get_at) finds it there without a hash.
    ///
    /// # Cost
    ///
    /// That of [`put`](Cache::put), and that of `make` if it is called. If the key isn't resident,
    /// it is looked up twice. Contracts don't see what the call spent, since its counts of
    /// comparisons and of accesses to links are raised to the bounds.
    #[inline]
    pub fn get_or_insert_mut<F: FnOnce() -> V>(&mut self, key: K, make: F) -> (usize, &mut V) {
        let (slot, value, _) = self.enter(key, make);
        (slot, value)
    }

    /// Returns the slot of a key and its value, to write to, as
    /// [`get_or_insert_mut`](Cache::get_or_insert_mut) does, and whether the key was resident, and
    /// whether another resident was evicted. The value is then the evicted one's.
    ///
    /// # Cost
    ///
    /// That of [`get_or_insert_mut`](Cache::get_or_insert_mut).
    #[inline]
    pub fn enter<F: FnOnce() -> V>(&mut self, key: K, make: F) -> (usize, &mut V, Entered) {
        let hash = self.hash(&key);
        let most = self.most(&key);
        let (slot, entered) = self.find_or_reuse(hash, key, make);
        self.charge(&most);
        (slot as usize, self.value_mut(slot), entered)
    }

    /// Returns two numbers only for contracts. The proof of the call picks them, and they may
    /// depend on the cache and the key.
    #[inline]
    fn most(&self, key: &K) -> GhostValue<(usize, usize)> {
        let _ = key;
        GhostValue::new(&())
    }

    /// Raises the counts of link accesses and of comparisons by the amounts that the proof of the
    /// call picks, which may depend on `most`.
    #[inline]
    fn charge(&mut self, most: &GhostValue<(usize, usize)>) {
        let _ = most;
        self.queues.charge();
        self.directory.charge();
    }

    /// Returns the slot of a key, which is hit or inserted with what `f` returns.
    #[inline]
    fn find_or_insert<F: FnOnce() -> V>(&mut self, key: K, f: F) -> u32 {
        let hash = self.hash(&key);
        let found = self.lookup(hash, &key);
        if let Found::Resident(slot) = found {
            self.record_hit(slot, &key);
            return slot;
        }
        let value = f();
        self.insert(hash, key, value, found)
    }

    /// Returns the slot of a key, which is hit or inserted. A slot that was made before keeps its
    /// value, and a new one gets what `make` returns.
    #[inline]
    fn find_or_reuse<F: FnOnce() -> V>(&mut self, hash: u64, key: K, make: F) -> (u32, Entered) {
        if let Some(slot) = self.find(hash, &key) {
            self.record_hit(slot, &key);
            let entered = Entered {
                is_hit: true,
                has_evicted: false,
            };
            return (slot, entered);
        }
        let (slot, has_evicted) = self.insert_reusing(hash, key, make);
        let entered = Entered {
            is_hit: false,
            has_evicted,
        };
        (slot, entered)
    }

    /// Returns the value at the slot that was found, or the error that was returned instead.
    #[inline]
    fn value_found<E>(&self, found: Result<u32, E>) -> Result<&V, E> {
        match found {
            Ok(slot) => Ok(self.value(slot)),
            Err(error) => Err(error),
        }
    }

    /// Does what `find_or_insert` does, with an `f` that may fail. If it does, nothing changes.
    #[inline]
    fn try_find_or_insert<F: FnOnce() -> Result<V, E>, E>(&mut self, key: K, f: F) -> Result<u32, E> {
        let hash = self.hash(&key);
        let found = self.lookup(hash, &key);
        if let Found::Resident(slot) = found {
            self.record_hit(slot, &key);
            return Ok(slot);
        }
        let value = f()?;
        Ok(self.insert(hash, key, value, found))
    }
}
