//! Pairs with weights, of which the sum is limited.

use crate::slots::{Found, Slots};
use crate::store::Store;
use crate::{Cause, Refused};
use alloc::vec::Vec;
use core::borrow::Borrow;
use core::mem;

/// A value, and the weight of its pair.
pub(crate) struct Weighed<V> {
    pub(crate) value: V,
    weight: u64,
}

/// What took the place of what.
pub(crate) struct Stored<K, V> {
    /// Where the pair is.
    pub(crate) slot: usize,
    /// The key, and its value before.
    pub(crate) before: Option<(K, V)>,
    /// The pairs that left.
    pub(crate) left: Vec<(K, V)>,
    /// Where among them the pair of the key is, if it left for its own new value.
    own: Option<usize>,
}

/// Calls a listener, if there is one, with pairs that left.
pub(crate) fn tell_all<'a, K: 'a, V: 'a>(
    listener: &mut Option<impl FnMut(&K, &V, Cause)>,
    left: impl IntoIterator<Item = &'a (K, V)>,
    cause: Cause,
) {
    if let Some(listener) = listener {
        left.into_iter()
            .for_each(|(key, value)| listener(key, value, cause));
    }
}

impl<K, V> Stored<K, V> {
    /// Calls a listener with all pairs that left or were replaced, if there is one.
    pub(crate) fn tell(&self, listener: &mut Option<impl FnMut(&K, &V, Cause)>) {
        let own = self.own.unwrap_or(self.left.len());
        let (before, from) = self.left.split_at(own);
        let (own, after) = from.split_at(from.len().min(1));
        tell_all(listener, before, Cause::Evicted);
        tell_all(listener, own, Cause::Replaced);
        tell_all(listener, after, Cause::Evicted);
        tell_all(listener, &self.before, Cause::Replaced);
    }

    /// Returns all pairs that left or were replaced, this one last.
    pub(crate) fn into_pairs(self) -> Vec<(K, V)> {
        let mut pairs = self.left;
        pairs.extend(self.before);
        pairs
    }
}

/// Pairs at their slots, of which the weights are at most `max_weight` together.
pub(crate) struct WeightedStore<K, V> {
    pub(crate) pairs: Store<K, Weighed<V>>,
    pub(crate) weight: u64,
    pub(crate) max_weight: u64,
}

impl<K, V> WeightedStore<K, V> {
    pub(crate) fn new(slots: Slots, max_weight: u64) -> Result<WeightedStore<K, V>, Refused> {
        Ok(WeightedStore {
            pairs: Store::new(slots)?,
            weight: 0,
            max_weight,
        })
    }

    /// Has the weights be at most `max_weight` together from now on, and returns the pairs that leave.
    pub(crate) fn set_max_weight(&mut self, max_weight: u64) -> Vec<(K, V)> {
        let mut left = Vec::new();
        while self.weight > max_weight {
            left.extend(self.evict());
        }
        self.max_weight = max_weight;
        left
    }

    /// Removes the pair at a slot, and returns it.
    pub(crate) fn remove_at(&mut self, slot: usize) -> Option<(K, V)> {
        self.pairs.remove_at(slot).map(|pair| self.without(pair))
    }

    /// Removes the pair that would leave next, and returns it.
    pub(crate) fn evict(&mut self) -> Option<(K, V)> {
        self.pairs.evict().map(|(_, pair)| self.without(pair))
    }

    pub(crate) fn clear(&mut self) {
        self.weight = 0;
        self.pairs.clear();
    }

    /// Removes the pairs for which `keep` returns false, each as soon as it does, and calls `gone` with it then.
    pub(crate) fn retain(
        &mut self,
        mut keep: impl FnMut(&K, &V) -> bool,
        mut gone: impl FnMut((K, V)),
    ) {
        let weight = &mut self.weight;
        let keeps = |key: &K, held: &mut Weighed<V>| keep(key, &held.value);
        self.pairs.retain(keeps, |(key, held)| {
            *weight -= held.weight;
            gone((key, held.value));
        });
    }

    /// Has as many pairs at most from now on, with more slots if there are fewer. Returns those above, which leave.
    pub(crate) fn resize(&mut self, limit: usize) -> Result<Vec<(K, V)>, Refused> {
        let left = self.pairs.resize(limit)?;
        Ok(left.into_iter().map(|pair| self.without(pair)).collect())
    }

    /// Takes the weight of a pair that left off the sum.
    fn without(&mut self, (key, held): (K, Weighed<V>)) -> (K, V) {
        self.weight -= held.weight;
        (key, held.value)
    }

    /// Records a hit of the pair at a slot, and returns its weight.
    fn hit(&mut self, slot: usize) -> u64 {
        self.pairs.hit(slot);
        let pair = self.pairs.entries.pair(slot);
        pair.map_or(0, |(_, held)| held.weight)
    }
}

impl<K: Eq, V> WeightedStore<K, V> {
    /// Returns the value of a key, after a hit, and counts.
    #[inline]
    pub(crate) fn find<Q>(&mut self, hash: u64, key: &Q) -> Option<&V>
    where
        K: Borrow<Q>,
        Q: Eq + ?Sized,
    {
        let held = self.pairs.find_value(hash, key)?;
        Some(&held.value)
    }

    /// Returns the value of a key. It records nothing.
    pub(crate) fn peek<Q>(&self, hash: u64, key: &Q) -> Option<&V>
    where
        K: Borrow<Q>,
        Q: Eq + ?Sized,
    {
        let (_, held) = self.pairs.peek(hash, key)?;
        Some(&held.value)
    }

    /// Returns the slot of a key, or where it would go. It records nothing.
    pub(crate) fn look_up<Q>(&self, hash: u64, key: &Q) -> Found
    where
        K: Borrow<Q>,
        Q: Eq + ?Sized,
    {
        self.pairs.look_up(hash, key)
    }
}

impl<K, V> WeightedStore<K, V> {
    /// Removes all pairs, and returns them.
    pub(crate) fn take_all(&mut self) -> Vec<(K, V)> {
        self.weight = 0;
        let mut left = Vec::with_capacity(self.pairs.len());
        left.extend(self.pairs.drain().0.map(|(key, held)| (key, held.value)));
        left
    }

    /// Removes the pair of a key of this hash, for which a look-up returned `found`, and returns it. A key that has none
    /// is forgotten.
    pub(crate) fn remove_found(&mut self, found: &Found, hash: u64) -> Option<(K, V)> {
        let pair = self.pairs.remove_found(found, hash)?;
        Some(self.without(pair))
    }

    /// Stores a pair of this weight, for whose key a look-up returned `found`, or returns it if the weight is above the
    /// limit alone. It runs no code of users, and drops nothing.
    pub(crate) fn push_at(
        &mut self,
        found: Found,
        hash: u64,
        (key, value): (K, V),
        weight: u64,
    ) -> Result<Stored<K, V>, (K, V)> {
        if weight > self.max_weight {
            return Err((key, value));
        }
        let here = match found {
            Found::Resident(slot) => Some(slot as usize),
            _ => None,
        };
        let mut left = Vec::new();
        let own = self.make_room(here, weight, &mut left);
        let held = Weighed { value, weight };
        if let (Some(slot), None) = (here, own) {
            let (_, here) = self.pairs.entries.pair_mut(slot).expect("a pair is here");
            let before = mem::replace(here, held);
            self.weight = self.weight - before.weight + weight;
            let before = Some((key, before.value));
            return Ok(Stored {
                slot,
                before,
                left,
                own,
            });
        }
        self.weight += weight;
        let found = match left.is_empty() {
            true => found,
            false => self.pairs.look_up_absent(hash),
        };
        let (slot, more) = self.pairs.admit(found, hash, key, held);
        let second = self.pairs.take_second();
        left.extend(
            more.into_iter()
                .chain(second)
                .map(|pair| self.without(pair)),
        );
        Ok(Stored {
            slot,
            before: None,
            left,
            own,
        })
    }

    /// Has pairs leave until there is room for a weight in place of the one at a slot, if there is one, after a hit of it.
    /// Returns where among those that left the pair of this slot is, if it left too.
    fn make_room(
        &mut self,
        here: Option<usize>,
        weight: u64,
        left: &mut Vec<(K, V)>,
    ) -> Option<usize> {
        let mut at = None;
        let mut own = here.map_or(0, |slot| self.hit(slot));
        while self.weight - own > self.max_weight - weight {
            let (slot, pair) = self.pairs.evict().expect("what has a weight is here");
            if here == Some(slot) && at.is_none() {
                at = Some(left.len());
                own = 0;
            }
            left.push(self.without(pair));
        }
        at
    }
}
