//! What is divided among shards.

use super::locked;
use super::shard::{Pairs, Shard};
use crate::slots::{Shares, Slots};
use crate::{Refused, MAX_CAPACITY};
use std::boxed::Box;
use std::ops::Deref;
use std::sync::Mutex;
use std::vec::Vec;

/// How many shards there are if there are keys enough.
const SHARDS: usize = 16;
/// How many keys a shard is for at least, unless the number of shards is asked for.
const SHARD_CAPACITY: usize = 64;

/// Its products with hashes have high bits that are spread, and others than those by which a shard's index spreads them.
const SPREAD: u64 = 0xD6E8_FEB8_6659_FD93;

/// Shards, of which the high bits of a key's hash choose one.
pub(super) struct Shards<P, K, V>(Box<[Shard<P, K, V>]>);

/// Returns how many shards a cache has if no number is asked for.
pub(super) fn usual_count(capacity: usize) -> usize {
    (capacity / SHARD_CAPACITY).clamp(1, SHARDS)
}

/// Returns how many shards a cache of these shares has: each shard has a part of each of them but of the history, of which
/// some have none if it is short.
pub(super) fn count_for(capacity: usize, shares: &Shares) -> Result<usize, Refused> {
    if capacity == 0 {
        return Err(Refused::Capacity);
    }
    if shares.history.is_some_and(|history| history > capacity) {
        return Err(Refused::Policy);
    }
    let Some((small, window)) = shares.small_and_window else {
        return Ok(usual_count(capacity));
    };
    if small >= capacity || window > small || (small == 0) != (window == 0) {
        return Err(Refused::Policy);
    }
    let most = if small == 0 { SHARDS } else { window };
    Ok(usual_count(capacity).min(most).min(capacity - small))
}

/// Makes the slots of a shard, of a capacity and shares that are divided among all.
pub(super) fn slots_of_part(
    capacity: usize,
    shares: &Shares,
    at: usize,
    count: usize,
) -> Result<Slots, Refused> {
    let of = |whole: usize| part(whole as u64, at, count) as usize;
    let own = Shares {
        small_and_window: shares
            .small_and_window
            .map(|(small, window)| (of(small), of(window))),
        history: shares.history.map(of),
    };
    Slots::with_shares(of(capacity), own)
}

/// Returns a part of a whole that is divided into parts, which differ by at most 1.
pub(super) fn part(whole: u64, at: usize, count: usize) -> u64 {
    let (at, count) = (at as u64, count as u64);
    whole / count + u64::from(at < whole % count)
}

impl<P, K, V> Shards<P, K, V> {
    /// Makes that many shards, or one for each key if there are fewer keys. `make` is given the number of each
    /// and that of them all.
    pub(super) fn new(
        capacity: usize,
        shards: usize,
        mut make: impl FnMut(usize, usize) -> Result<P, Refused>,
    ) -> Result<Shards<P, K, V>, Refused> {
        let count = shards.min(capacity);
        if count == 0 {
            return Err(Refused::Capacity);
        }
        let made: Result<Vec<_>, Refused> = (0..count)
            .map(|at| Ok(Shard::new(make(at, count)?)))
            .collect();
        Ok(Shards(made?.into_boxed_slice()))
    }

    /// Returns the shard of the keys of a hash.
    pub(super) fn of(&self, hash: u64) -> &Shard<P, K, V> {
        let spread = u128::from(hash.wrapping_mul(SPREAD));
        &self.0[((spread * self.0.len() as u128) >> 64) as usize]
    }
}

impl<P: Pairs<K, V>, K, V> Shards<P, K, V> {
    /// Returns how many pairs there are.
    pub(super) fn pairs_len(&self) -> usize {
        self.iter().map(|shard| shard.lock().len()).sum()
    }

    /// Has the shards hold `capacity` pairs at most together, which `present` is then, and returns those that leave. If it
    /// is refused, no shard holds more or fewer than before.
    pub(super) fn resize(
        &self,
        present: &Mutex<usize>,
        capacity: usize,
    ) -> Result<Vec<(K, V)>, Refused> {
        let count = self.len();
        let limit = |at| part(capacity as u64, at, count) as usize;
        if capacity < count || limit(0) > MAX_CAPACITY {
            return Err(Refused::Capacity);
        }
        let mut left = Vec::new();
        let mut present = locked(present);
        for (at, shard) in self.iter().enumerate() {
            shard.lock().reserve(limit(at))?;
        }
        for (at, shard) in self.iter().enumerate() {
            left.extend(shard.lock().resize(limit(at))?);
        }
        *present = capacity;
        Ok(left)
    }

    /// Removes the pair that would leave next from the shard that has most pairs, and returns it. If that has none any
    /// more, one of the others loses one.
    pub(super) fn evict(&self) -> Option<(K, V)> {
        let lens = self.iter().map(|shard| shard.lock().len()).enumerate();
        let (fullest, _) = lens.max_by_key(|(_, len)| *len)?;
        let (before, from) = self.split_at(fullest);
        let mut shards = from.iter().chain(before);
        shards.find_map(|shard| shard.lock().evict())
    }
}

impl<P, K, V> Deref for Shards<P, K, V> {
    type Target = [Shard<P, K, V>];

    fn deref(&self) -> &[Shard<P, K, V>] {
        &self.0
    }
}
