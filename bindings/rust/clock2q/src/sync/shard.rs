//! A part of a shared cache, under one lock.

use super::flight::Flight;
use crate::Refused;
use std::borrow::Borrow;
use std::mem;
use std::ops::{Deref, DerefMut};
use std::sync::{Arc, Mutex, MutexGuard, PoisonError};
use std::vec::Vec;

/// What a shard keeps: pairs, of which a key finds the value.
pub(super) trait Pairs<K, V> {
    /// Returns the value of a key, after a hit, and counts.
    fn find(&mut self, hash: u64, key: &K) -> Option<&V>
    where
        K: Eq;

    /// Returns the value of a key. It records nothing.
    fn peek(&self, hash: u64, key: &K) -> Option<&V>
    where
        K: Eq;

    /// Returns how many pairs there are.
    fn len(&self) -> usize;

    /// Has slots for as many pairs, of which there may be no more than before. If it is refused, nothing has changed.
    fn reserve(&mut self, capacity: usize) -> Result<(), Refused>;

    /// Has as many pairs at most from now on. Returns those above, which leave.
    fn resize(&mut self, limit: usize) -> Result<Vec<(K, V)>, Refused>;

    /// Removes the pair that would leave next, and returns it.
    fn evict(&mut self) -> Option<(K, V)>;

    /// Shows each pair, and records nothing.
    fn visit(&self, see: impl FnMut(&K, &V));

    /// Removes the pairs for which `keep` returns false, each as soon as it does, and adds them to those that left.
    fn retain(&mut self, keep: impl FnMut(&K, &V) -> bool, left: &mut Vec<(K, V)>);

    /// Removes all pairs, and returns them.
    fn take_all(&mut self) -> Vec<(K, V)>;
}

/// A shard, on cache lines of its own.
#[repr(align(128))]
pub(super) struct Shard<P, K, V>(Mutex<State<P, K, V>>);

/// A key's hash, the key, and its value that is being made.
type InFlight<K, V> = (u64, K, Arc<Flight<V>>);

/// What a shard's lock guards: pairs, and the values that are being made and then stored.
struct State<P, K, V> {
    pairs: P,
    made: Vec<InFlight<K, V>>,
}

/// A locked shard, of which only the pairs are seen.
pub(super) struct Locked<'a, P, K, V>(MutexGuard<'a, State<P, K, V>>);

impl<P, K, V> Deref for Locked<'_, P, K, V> {
    type Target = P;

    fn deref(&self) -> &P {
        &self.0.pairs
    }
}

impl<P, K, V> DerefMut for Locked<'_, P, K, V> {
    fn deref_mut(&mut self) -> &mut P {
        &mut self.0.pairs
    }
}

impl<P, K, V> Locked<'_, P, K, V> {
    /// Has a value that is being made for a key go to those that wait for it, and not be stored: it may be older than
    /// what happens to the key now. Whoever has the lock drops what is returned without it.
    pub(super) fn outdate<Q>(&mut self, hash: u64, key: &Q) -> Option<InFlight<K, V>>
    where
        K: Borrow<Q>,
        Q: Eq + ?Sized,
    {
        let mut made = self.0.made.iter();
        let at = made.position(|(of, held, _)| *of == hash && held.borrow() == key)?;
        Some(self.0.made.swap_remove(at))
    }

    /// Does so for all keys.
    pub(super) fn outdate_all(&mut self) -> Vec<InFlight<K, V>> {
        mem::take(&mut self.0.made)
    }
}

impl<P, K, V> Shard<P, K, V> {
    pub(super) fn new(pairs: P) -> Shard<P, K, V> {
        Shard(Mutex::new(State {
            pairs,
            made: Vec::new(),
        }))
    }

    /// Locks the pairs. A lock is never left poisoned: what panics under it leaves whole pairs.
    pub(super) fn lock(&self) -> Locked<'_, P, K, V> {
        Locked(self.state())
    }

    fn state(&self) -> MutexGuard<'_, State<P, K, V>> {
        self.0.lock().unwrap_or_else(PoisonError::into_inner)
    }
}

impl<P: Pairs<K, V>, K, V> Shard<P, K, V> {
    /// Removes all pairs, and calls `gone` with each without the lock.
    pub(super) fn clear(&self, gone: &mut impl FnMut(K, V)) {
        let mut pairs = self.lock();
        let outdated = pairs.outdate_all();
        let left = pairs.take_all();
        drop(pairs);
        drop(outdated);
        left.into_iter().for_each(|(key, value)| gone(key, value));
    }

    /// Removes the pairs for which `keep` returns false under the lock, and calls `gone` with each without it. What is
    /// being made is outdated, since `keep` hasn't seen it.
    pub(super) fn retain(
        &self,
        keep: &mut impl FnMut(&K, &V) -> bool,
        gone: &mut impl FnMut(K, V),
    ) {
        // Before the lock, so that they are dropped after it if `keep` panics.
        let mut left = Vec::new();
        let outdated;
        let mut pairs = self.lock();
        outdated = pairs.outdate_all();
        pairs.retain(keep, &mut left);
        drop(pairs);
        drop(outdated);
        left.into_iter().for_each(|(key, value)| gone(key, value));
    }

    /// Returns clones of the pairs, which are made under the lock.
    pub(super) fn pairs(&self) -> impl Iterator<Item = (K, V)>
    where
        K: Clone,
        V: Clone,
    {
        // Before the lock, so that clones are dropped after it if another panics.
        let (mut keys, mut values) = (Vec::new(), Vec::new());
        let pairs = self.lock();
        keys.reserve(pairs.len());
        values.reserve(pairs.len());
        pairs.visit(|key, value| {
            keys.push(key.clone());
            values.push(value.clone());
        });
        drop(pairs);
        keys.into_iter().zip(values)
    }
}

impl<P: Pairs<K, V>, K: Eq, V: Clone> Shard<P, K, V> {
    /// Returns a clone of the value of a key, which `make` makes and `push` stores if neither is it here nor
    /// does another thread make it. `push` takes the pair out after it has run code of users, and what it leaves or
    /// returns is dropped without the lock.
    pub(super) fn value_or_make<E, L>(
        &self,
        hash: u64,
        key: K,
        make: impl FnOnce() -> Result<V, E>,
        push: impl FnOnce(&mut P, &mut Option<(K, V)>) -> L,
    ) -> Result<V, E> {
        match self.value_or_begin(hash, key) {
            Ok(value) => Ok(value),
            Err(making) => {
                let value = make()?;
                Ok(making.store(value, push))
            }
        }
    }

    /// Returns a clone of the value of a key, maybe after waiting for it, or else the promise to make it.
    fn value_or_begin(&self, hash: u64, key: K) -> Result<V, Making<'_, P, K, V>> {
        let mut is_counted = false;
        loop {
            let mut state = self.state();
            let found = if is_counted {
                state.pairs.peek(hash, &key)
            } else {
                state.pairs.find(hash, &key)
            };
            if let Some(value) = found {
                return Ok(value.clone());
            }
            is_counted = true;
            let flight = match state.flight(hash, &key) {
                Some(flight) => flight,
                None => return Err(self.begin(state, hash, key)),
            };
            drop(state);
            if let Some(value) = flight.wait() {
                return Ok(value);
            }
        }
    }
}

impl<P, K, V> Shard<P, K, V> {
    /// Has others wait for the value of a key.
    fn begin(
        &self,
        mut state: MutexGuard<'_, State<P, K, V>>,
        hash: u64,
        key: K,
    ) -> Making<'_, P, K, V> {
        let flight = Arc::new(Flight::new());
        state.made.push((hash, key, Arc::clone(&flight)));
        Making {
            shard: self,
            flight,
            is_over: false,
        }
    }

    /// Stores a value that was made, unless it is outdated, and returns what `push` does.
    fn store_made<L>(
        &self,
        flight: &Arc<Flight<V>>,
        value: V,
        push: impl FnOnce(&mut P, &mut Option<(K, V)>) -> L,
    ) -> Option<L> {
        // Before the lock, so that the pair is dropped after it if `push` panics; `value` is too.
        let mut pair;
        let mut state = self.state();
        let key = state.end(flight)?;
        pair = Some((key, value));
        Some(push(&mut state.pairs, &mut pair))
    }
}

impl<P, K, V> State<P, K, V> {
    /// Returns what makes the value of a key, if something does.
    fn flight(&self, hash: u64, key: &K) -> Option<Arc<Flight<V>>>
    where
        K: Eq,
    {
        let mut made = self.made.iter();
        let (_, _, flight) = made.find(|(of, held, _)| *of == hash && held == key)?;
        Some(Arc::clone(flight))
    }

    /// Has nobody wait from now on, and returns the key, unless the value is outdated.
    fn end(&mut self, flight: &Arc<Flight<V>>) -> Option<K> {
        let mut made = self.made.iter();
        let at = made.position(|(_, _, other)| Arc::ptr_eq(flight, other))?;
        Some(self.made.swap_remove(at).1)
    }
}

/// The promise to make the value of a key. If it is dropped, those that wait try themselves.
struct Making<'a, P, K, V> {
    shard: &'a Shard<P, K, V>,
    flight: Arc<Flight<V>>,
    is_over: bool,
}

impl<P, K: Eq, V: Clone> Making<'_, P, K, V> {
    /// Stores the value, and returns a clone of it, as to those that wait. What leaves is dropped last.
    fn store<L>(mut self, value: V, push: impl FnOnce(&mut P, &mut Option<(K, V)>) -> L) -> V {
        let copy = value.clone();
        let before = self.shard.store_made(&self.flight, value, push);
        // Nobody begins to wait from now on.
        if Arc::strong_count(&self.flight) > 1 {
            self.flight.end(Some(copy.clone()));
        }
        self.is_over = true;
        drop(before);
        copy
    }
}

impl<P, K, V> Drop for Making<'_, P, K, V> {
    fn drop(&mut self) {
        if !self.is_over {
            let key = self.shard.state().end(&self.flight);
            self.flight.end(None);
            drop(key);
        }
    }
}
