//! Pairs whose time is limited, and those of them that left.

use crate::before::Before;
use crate::slots::Found;
use crate::store::Store;
use crate::Cause;
use std::borrow::Borrow;
use std::time::Duration;

/// The end of what never expires, in nanoseconds.
const NEVER: u64 = u64::MAX;

/// Returns a moment in nanoseconds, before [`NEVER`].
pub(crate) fn moment(time: Duration) -> u64 {
    u64::try_from(time.as_nanos()).map_or(NEVER - 1, |time| time.min(NEVER - 1))
}

/// A value, and the moment from which on it isn't returned any more.
#[derive(Clone)]
pub(crate) struct Timed<V> {
    pub(crate) value: V,
    until: u64,
}

impl<V> Timed<V> {
    /// Gives a value a time to live from now on, or no end.
    pub(crate) fn new(value: V, now: u64, time_to_live: Option<Duration>) -> Timed<V> {
        let until = time_to_live.map_or(NEVER, |time| now.saturating_add(moment(time)));
        Timed { value, until }
    }

    pub(crate) fn is_over(&self, now: u64) -> bool {
        self.until <= now
    }
}

/// The pairs that left in one call, three at most, each with the reason.
pub(crate) struct Gone<K, V>([Option<(K, V, Cause)>; 3]);

impl<K, V> Gone<K, V> {
    pub(crate) fn new() -> Gone<K, V> {
        Gone([None, None, None])
    }

    /// Adds a pair that left for a reason, or because its time is over.
    pub(crate) fn add(&mut self, (key, held): (K, Timed<V>), cause: Cause, now: u64) {
        let cause = match held.is_over(now) {
            true => Cause::Expired,
            false => cause,
        };
        let free = self.0.iter_mut().find(|place| place.is_none());
        *free.expect("no call has more leave") = Some((key, held.value, cause));
    }

    /// Calls the listener with each pair, and returns the last one that didn't expire.
    pub(crate) fn tell(self, mut listener: impl FnMut(&K, &V, Cause)) -> Option<(K, V, Cause)> {
        let mut last = None;
        for (key, value, cause) in self.0.into_iter().flatten() {
            listener(&key, &value, cause);
            if cause != Cause::Expired {
                last = Some((key, value, cause));
            }
        }
        last
    }
}

impl<K, V> Store<K, Timed<V>> {
    /// Returns true if the time of the pair at a slot is over.
    pub(crate) fn is_over(&self, slot: usize, now: u64) -> bool {
        let pair = self.entries.pair(slot);
        pair.is_some_and(|(_, held)| held.is_over(now))
    }

    /// Removes the pair that would leave next, as one that is removed if its time is over.
    pub(crate) fn evict_timed(&mut self, now: u64) -> Option<(K, Timed<V>)> {
        let slot = self.next_victim_slot()?;
        if self.is_over(slot, now) {
            return self.remove_at(slot);
        }
        self.evict().map(|(_, pair)| pair)
    }

    /// Removes the pair at a slot if its time is over or `keep` returns false for it.
    pub(crate) fn reject(
        &mut self,
        slot: usize,
        now: u64,
        keep: impl FnOnce(&K, &mut V) -> bool,
    ) -> Option<(K, Timed<V>)> {
        let (key, held) = self.entries.pair_mut(slot)?;
        if !held.is_over(now) && keep(key, &mut held.value) {
            return None;
        }
        self.remove_at(slot)
    }
}

impl<K: Eq, V> Store<K, Timed<V>> {
    /// Returns the value of a key whose time isn't over. It records nothing.
    pub(crate) fn peek_timed<Q>(&self, hash: u64, key: &Q, now: u64) -> Option<&Timed<V>>
    where
        K: Borrow<Q>,
        Q: Eq + ?Sized,
    {
        let (_, held) = self.peek(hash, key)?;
        Some(held).filter(|held| !held.is_over(now))
    }

    /// Returns the slot of a key whose time isn't over, after a hit, and counts; or else removes the pair of the key, if
    /// there is one, and returns it.
    pub(crate) fn meet<Q>(
        &mut self,
        hash: u64,
        key: &Q,
        now: u64,
    ) -> Result<usize, Option<(K, Timed<V>)>>
    where
        K: Borrow<Q>,
        Q: Eq + ?Sized,
    {
        match self.slot(hash, key) {
            Some(slot) if !self.is_over(slot, now) => {
                self.hit(slot);
                self.hits += 1;
                Ok(slot)
            }
            found => {
                self.misses += 1;
                Err(found.and_then(|slot| self.remove_at(slot)))
            }
        }
    }

    /// Stores a pair, for whose key a look-up returned `found`, and returns what left. A pair of the key whose time is over
    /// is removed first. It runs no code of users, and drops nothing.
    pub(crate) fn put_timed(
        &mut self,
        mut found: Found,
        hash: u64,
        (key, held): (K, Timed<V>),
        now: u64,
    ) -> Gone<K, V> {
        let mut gone = Gone::new();
        if let Found::Resident(slot) = found {
            if self.is_over(slot as usize, now) {
                if let Some(pair) = self.remove_at(slot as usize) {
                    gone.add(pair, Cause::Expired, now);
                }
                found = self.look_up_absent(hash);
            }
        }
        match self.push_at(found, hash, key, held) {
            Before::Nothing => {}
            Before::Evicted(key, held) => gone.add((key, held), Cause::Evicted, now),
            Before::Replaced(key, held) => gone.add((key, held), Cause::Replaced, now),
        }
        if let Some(pair) = self.take_second() {
            gone.add(pair, Cause::Evicted, now);
        }
        gone
    }
}
