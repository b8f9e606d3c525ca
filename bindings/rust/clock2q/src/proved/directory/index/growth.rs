// Written by bindings/rust/erase from crates/clock2q_directory/src/index/growth.rt; change that, and run erase.
//! A larger index, with the slots and places of another.

use crate::proved::directory::handle::Handle;
use crate::proved::directory::index::{Index, charge};
use crate::proved::directory::keys::Keys;
use crate::proved::handles::Candidates;
use crate::proved::rattle::{AllocError, Allocator};

impl<A: Allocator + Copy> Index<A> {
    /// Returns an index for up to `slots` residents and `places` remembered keys, with every slot
    /// and place that this one has, under the hashes of `keys`: the residents' and the remembered
    /// ones. It takes all the memory that it will ever need, and is charged what this one was as
    /// well.
    ///
    /// # Errors
    ///
    /// `AllocError` if a request for memory is refused. Memory taken so far is given back.
    ///
    /// # Cost
    ///
    /// Linear in `slots` and `places` if hashes are well spread.
    #[inline]
    pub(crate) fn grown<K, V>(
        &self,
        alloc: A,
        slots: usize,
        places: usize,
        keys: (&Keys<K, V, A>, &Keys<K, (), A>),
    ) -> Result<Self, AllocError> {
        let (residents, remembered) = keys;
        let mut index = Index::new(alloc, slots, places)?;
        index.charge_as(self);
        add_places(&mut index, self, remembered);
        add_slots(&mut index, self, residents);
        Ok(index)
    }
}

impl<A: Allocator> Index<A> {
    /// Adds the place of a key that is remembered.
    #[inline]
    fn add_place(&mut self, hash: u64, place: u32) {
        let is_shared = self.is_shared();
        charge(&self.shared, &self.own, &mut self.charged, &hash);
        if is_shared {
            let handle = Handle::Remembered(place).pack();
            self.shared.insert_at_gap(None, hash, handle);
        } else {
            self.own.insert_at_gap(None, hash, place);
        }
    }

    /// Returns true if this slot is under the hash. What it reads isn't charged.
    #[inline]
    fn has_slot(&self, hash: u64, slot: u32) -> bool {
        is_among(self.handles(hash), slot)
    }

    /// Returns true if this place is under the hash. What it reads isn't charged.
    #[inline]
    fn has_place(&self, hash: u64, place: u32) -> bool {
        if self.is_shared() {
            let handle = Handle::Remembered(place).pack();
            return is_among(self.handles(hash), handle);
        }
        is_among(self.own_places(hash), place)
    }

    /// Charges what another index was charged.
    #[inline]
    fn charge_as(&mut self, other: &Index<A>) {
        self.charged.raise(&other.charged);
    }
}

/// Returns true if a handle is among those that a lookup yields.
#[inline]
fn is_among(mut handles: Candidates<'_, u32>, handle: u32) -> bool {
    while let Some(other) = handles.next() {
        if handle == other {
            return true;
        }
    }
    false
}

/// Adds the place of each key that another index has at its place.
#[inline]
fn add_places<K, V, A: Allocator>(index: &mut Index<A>, from: &Index<A>, keys: &Keys<K, V, A>) {
    for place in 0..keys.len() as u32 {
        let hash = keys.hash(place);
        if from.has_place(hash, place) {
            index.add_place(hash, place);
        }
    }
}

/// Adds the slot of each key that another index has at its slot.
#[inline]
fn add_slots<K, V, A: Allocator>(index: &mut Index<A>, from: &Index<A>, keys: &Keys<K, V, A>) {
    for slot in 0..keys.len() as u32 {
        let hash = keys.hash(slot);
        if from.has_slot(hash, slot) {
            index.add_slot(None, hash, slot);
        }
    }
}
