//! Pairs at their slots.

use crate::Refused;
use alloc::vec::{self, Vec};
use core::borrow::Borrow;
use core::iter::Flatten;
use core::slice;

/// Pairs of keys and values by the slots of the keys.
pub(crate) struct Entries<K, V> {
    /// As many as slots were reached.
    pairs: Vec<Option<(K, V)>>,
}

/// The pairs of a cache in the order of their slots, by reference.
pub(crate) type Pairs<'a, K, V> = Flatten<slice::Iter<'a, Option<(K, V)>>>;

/// The same, to write to.
pub(crate) type PairsMut<'a, K, V> = Flatten<slice::IterMut<'a, Option<(K, V)>>>;

/// The pairs that a cache had.
pub(crate) type Drained<'a, K, V> = Flatten<vec::Drain<'a, Option<(K, V)>>>;

/// The pairs of a cache that is no more.
pub(crate) type IntoPairs<K, V> = Flatten<vec::IntoIter<Option<(K, V)>>>;

impl<K, V> Entries<K, V> {
    /// Makes room for a pair at each slot below the capacity.
    pub(crate) fn new(capacity: usize) -> Result<Entries<K, V>, Refused> {
        let mut pairs = Vec::new();
        pairs
            .try_reserve_exact(capacity)
            .map_err(|_| Refused::Memory)?;
        Ok(Entries { pairs })
    }

    /// Makes room for a pair at each slot below a larger capacity.
    pub(crate) fn reserve(&mut self, capacity: usize) -> Result<(), Refused> {
        self.pairs
            .try_reserve_exact(capacity - self.pairs.len())
            .map_err(|_| Refused::Memory)
    }

    /// Returns the pair at a slot.
    #[inline]
    pub(crate) fn pair(&self, slot: usize) -> Option<&(K, V)> {
        self.pairs.get(slot)?.as_ref()
    }

    /// Returns true if the pair at a slot has this key.
    #[inline(always)]
    pub(crate) fn has<Q>(&self, slot: usize, key: &Q) -> bool
    where
        K: Borrow<Q>,
        Q: Eq + ?Sized,
    {
        matches!(self.pair(slot), Some((held, _)) if held.borrow() == key)
    }

    /// Returns the pair at a slot, to write to.
    #[inline]
    pub(crate) fn pair_mut(&mut self, slot: usize) -> Option<&mut (K, V)> {
        self.pairs.get_mut(slot)?.as_mut()
    }

    /// Stores a pair at a slot, and returns the one that was there.
    #[inline(always)]
    pub(crate) fn put(&mut self, slot: usize, key: K, value: V) -> Option<(K, V)> {
        if let Some(place) = self.pairs.get_mut(slot) {
            return place.replace((key, value));
        }
        while self.pairs.len() < slot {
            self.pairs.push(None);
        }
        self.pairs.push(Some((key, value)));
        None
    }

    /// Removes the pair at a slot, and returns it.
    #[inline]
    pub(crate) fn take(&mut self, slot: usize) -> Option<(K, V)> {
        self.pairs.get_mut(slot)?.take()
    }

    /// Removes all pairs, and returns them.
    pub(crate) fn drain(&mut self) -> Drained<'_, K, V> {
        self.pairs.drain(..).flatten()
    }

    /// Returns how many slots any key has entered: those of all pairs are below.
    pub(crate) fn bound(&self) -> usize {
        self.pairs.len()
    }

    /// Returns the pairs.
    pub(crate) fn iter(&self) -> Pairs<'_, K, V> {
        self.pairs.iter().flatten()
    }

    /// Returns the pairs, to write to.
    pub(crate) fn iter_mut(&mut self) -> PairsMut<'_, K, V> {
        self.pairs.iter_mut().flatten()
    }

    /// Returns the pairs, of which there is no cache any more.
    pub(crate) fn into_pairs(self) -> IntoPairs<K, V> {
        self.pairs.into_iter().flatten()
    }
}
