// Written by bindings/rust/erase from crates/clock2q_directory/src/index.rt; change that, and run erase.
//! The index of a cache: where each known key is, under the key's hash.

mod growth;

use crate::proved::directory::handle::Handle;
use crate::proved::directory::history::Retired;
use crate::proved::count::Count;
use crate::proved::handles::{Candidates, Entry, Gap, Table};
use crate::proved::rattle::{AllocError, Allocator, Global};

/// The most entries with which slots and places share a table. With one more, no run is too long
/// yet.
const MOST_ENTRIES: usize = (1 << 24) - 2;

/// The most entries for which a table gets three times the room.
const SMALL_TABLE: usize = 16_384;

/// The most entries for which a table gets twice the room.
const MIDDLE_TABLE: usize = 262_144;

/// Returns the number of entries to make room for in a table of at most `most`. A small table gets
/// three times the room, which keeps lookups short, and one of medium size twice the room. A large
/// one gets room for one more, since a key that takes another's slot may enter before the other
/// leaves. Such a table is never more than three quarters full.
#[inline]
pub fn index_room(most: usize) -> usize {
    if most <= SMALL_TABLE {
        most * 3
    } else if most <= MIDDLE_TABLE {
        most * 2
    } else {
        most + 1
    }
}

/// The slot of each resident and the place of each remembered key, under the key's hash.
///
/// Both kinds are in one table, so that one lookup finds whether a key is resident, remembered or
/// neither. If one table would have so many entries that a run could become too long, the places
/// have a table of their own.
///
/// Each call is charged the most slots of both tables that it can read and write, and contracts see
/// the sum. A change is charged the walk of a hash and twice its run, each with the slot of one
/// more entry. All slots that the tables count are within that sum. A lookup borrows the index, so
/// its reads are counted in the [`Candidates`] that it returns. A caller that can change the index
/// charges it the most that these may read.
///
/// # Example
///
/// ```
/// # #![allow(unused)]
/// # use clock2q::proved::rattle::Global;
/// # use clock2q::proved::directory::{directory::Directory, handle::Handle, index::Index, keys::{Entry, Keys}, newcomer::Newcomer};
/// let mut index = Index::new(Global, 2, 1)?;
/// index.add_slot(None, 7, 0);
/// index.remember(7, 0, 0);
/// index.add_slot(None, 9, 0);
/// index.forget(Some(7), 0);
/// # Ok::<(), Box<dyn std::error::Error>>(())
/// ```
pub struct Index<A: Allocator = Global> {
    shared: Table<u32, A>,
    own: Table<u32, A>,
    charged: Count,
}

impl<A: Allocator + Copy> Index<A> {
    /// Returns an empty index for up to `slots` residents and `places` remembered keys. It takes
    /// all the memory that it will ever need.
    ///
    /// # Errors
    ///
    /// `AllocError` if a request for memory is refused. Memory taken so far is given back.
    #[inline]
    pub fn new(alloc: A, slots: usize, places: usize) -> Result<Self, AllocError> {
        let is_shared = slots + places <= MOST_ENTRIES;
        let most = if is_shared { slots + places } else { slots };
        let Ok(shared) = Table::with_capacity(alloc, index_room(most)) else {
            return Err(AllocError);
        };
        let beside = if is_shared { 0 } else { places.max(1) };
        let Ok(own) = Table::with_capacity(alloc, index_room(beside)) else {
            return Err(AllocError);
        };
        Ok(Index {
            shared,
            own,
            charged: Count::new(),
        })
    }
}

impl<A: Allocator> Index<A> {
    /// Returns true if slots and places are in one table.
    #[inline(always)]
    pub fn is_shared(&self) -> bool {
        self.own.capacity() == 0
    }

    /// Returns the numbers of the [handles](Handle) under a hash in the table of the slots, which has
    /// no places if they have a table of their own.
    #[inline(always)]
    pub fn handles(&self, hash: u64) -> Candidates<'_, u32> {
        self.shared.get_in_slots(hash)
    }

    /// Returns the places under a hash, given that they have a table of their own.
    #[inline]
    pub fn own_places(&self, hash: u64) -> Candidates<'_, u32> {
        self.own.get_in_slots(hash)
    }

    /// Charges one lookup of a hash, which is the most slots of both tables that the handles under
    /// it read. A caller that looks a key up in an index that it may change calls this once.
    #[inline]
    pub fn charge_lookup(&mut self, hash: u64) {
        charge(&self.shared, &self.own, &mut self.charged, &hash); // a walk in each
    }

    /// Adds the slot of a key that becomes resident, at the gap for its hash if a lookup found that.
    #[inline(always)]
    pub fn add_slot(&mut self, gap: Option<Gap>, hash: u64, slot: u32) {
        let is_found = gap.is_some();
        charge(
            &self.shared,
            &self.own,
            &mut self.charged,
            &(hash, is_found),
        );
        self.shared.insert_at_gap(gap, hash, slot);
    }

    /// Adds the slot of a key that becomes resident in place of another, which leaves.
    #[inline(always)]
    pub fn replace(&mut self, gap: Option<Gap>, hash: u64, slot: u32, old_hash: u64) {
        let seen = (hash, old_hash, gap.is_some());
        // a table of the slots alone may have no room for one more before another leaves
        let usable = if self.is_shared() { gap } else { None };
        charge(&self.shared, &self.own, &mut self.charged, &seen);
        let entry = Entry { hash, handle: slot };
        let old = Entry {
            hash: old_hash,
            handle: slot,
        };
        self.shared.replace(usable, entry, old);
    }

    /// Adds the slot of a key that becomes resident in place of another, which is remembered at a
    /// place: that of the oldest key, if one is forgotten.
    #[inline(always)]
    pub fn replace_remembering(&mut self, gap: Option<Gap>, hash: u64, slot: u32, retired: Retired) {
        let entry = Entry { hash, handle: slot };
        if !self.is_shared() {
            self.forget(retired.oldest, retired.place);
            let seen = (hash, retired.hash);
            charge(&self.shared, &self.own, &mut self.charged, &seen);
            let old = Entry {
                hash: retired.hash,
                handle: slot,
            };
            self.shared.replace(None, entry, old);
            self.own.insert_at_gap(None, retired.hash, retired.place);
            return;
        }
        let seen = (hash, retired, gap.is_some());
        charge(&self.shared, &self.own, &mut self.charged, &seen);
        let handle = Handle::Remembered(retired.place).pack();
        match retired.oldest {
            Some(oldest) => {
                let old = Entry {
                    hash: oldest,
                    handle,
                };
                self.shared.replace(gap, entry, old);
                self.shared.replace_handle(retired.hash, slot, handle);
            }
            None => {
                self.shared.insert_at_gap(gap, hash, slot);
                self.shared.replace_handle(retired.hash, slot, handle);
            }
        }
    }

    /// Removes the slot of a resident that leaves.
    #[inline(always)]
    pub fn remove_slot(&mut self, hash: u64, slot: u32) {
        charge(&self.shared, &self.own, &mut self.charged, &hash);
        self.shared.remove_existing(hash, slot);
    }

    /// Replaces the slot of a resident that leaves with the place at which it is remembered.
    #[inline(always)]
    pub fn remember(&mut self, hash: u64, slot: u32, place: u32) {
        let is_shared = self.is_shared();
        charge(&self.shared, &self.own, &mut self.charged, &hash);
        if is_shared {
            let handle = Handle::Remembered(place).pack();
            self.shared.replace_handle(hash, slot, handle);
        } else {
            self.shared.remove_existing(hash, slot);
            self.own.insert_at_gap(None, hash, place);
        }
    }

    /// Removes the place of the key with this hash, which is forgotten. Without a hash nothing changes.
    #[inline(always)]
    pub fn forget(&mut self, hash: Option<u64>, place: u32) {
        let Some(hash) = hash else {
            return;
        };
        let is_shared = self.is_shared();
        charge(&self.shared, &self.own, &mut self.charged, &hash);
        if is_shared {
            let handle = Handle::Remembered(place).pack();
            self.shared.remove_existing(hash, handle);
        } else {
            self.own.remove_existing(hash, place);
        }
    }

    /// Removes every slot and place.
    #[inline]
    pub fn clear(&mut self) {
        charge(&self.shared, &self.own, &mut self.charged, &());
        self.shared.clear();
        self.own.clear();
    }
}

/// Adds a cost chosen by the caller's proof, which may mention what the other arguments refer to.
#[inline]
fn charge<X, A: Allocator>(
    _shared: &Table<u32, A>,
    _own: &Table<u32, A>,
    charged: &mut Count,
    _seen: &X,
) {
    charged.raise(&());
}
