// Written by bindings/rust/erase from crates/clock2q_handles/src/table/infallible.rt; change that, and run erase.
//! Changes that can't fail, since the caller knows that there is room, or that the entry is there.

use crate::proved::handles::entry::Entry;
use crate::proved::handles::gap::Gap;
use crate::proved::handles::table::Table;
use crate::proved::rattle::Allocator;

impl<H: Copy + Eq + Default, A: Allocator> Table<H, A> {
    /// Inserts `handle` under `hash` as [insert_within_capacity](Table::insert_within_capacity)
    /// does, in a table with so few entries that no run becomes too long. It is for callers whose
    /// contracts bound the number of entries, which it doesn't check.
    #[inline(always)]
    pub fn insert_infallible(&mut self, hash: u64, handle: H) {
        self.insert_at_gap(None, hash, handle);
    }

    /// Inserts `handle` under `hash` as [`insert_infallible`](Table::insert_infallible) does, at the
    /// gap for it if a lookup found that.
    ///
    /// # Cost
    ///
    /// That of [`insert_infallible`](Table::insert_infallible), without the walk if there is a gap.
    #[inline(always)]
    pub fn insert_at_gap(&mut self, gap: Option<Gap>, hash: u64, handle: H) {
        let gap = match gap {
            Some(gap) => gap,
            None => self.slots.gap(hash, &mut self.reads),
        };
        self.slots.put_at(&gap, handle, &mut self.reads);
        self.len += 1;
    }

    /// Removes the first candidate of `hash` that equals `handle`, as [remove](Table::remove) does,
    /// given that there is one. Its walk doesn't test for an end.
    ///
    /// # Cost
    ///
    /// That of [remove](Table::remove).
    #[inline(never)]
    pub fn remove_existing(&mut self, hash: u64, handle: H) {
        // It is out of line, so that a caller that removes one entry to insert another spills fewer
        // registers.
        let held = self.slots.find_existing(hash, handle, &mut self.reads);
        self.slots.take_out(held, &mut self.reads);
        self.len -= 1;
    }

    /// Inserts `entry`, at the gap for its hash if a lookup found that, and removes the first candidate
    /// of the old entry's hash that equals its handle, given that there is one. At a gap it inserts
    /// first, and so it takes one only if the table has room for that time. Otherwise it removes
    /// first, and the table may be full.
    ///
    /// # Cost
    ///
    /// It writes the slots from the new entry's to the end of its run, and those from the removed
    /// entry's to that of the last entry that moves back. Without a gap it also takes the walk of the
    /// hash.
    #[inline(always)]
    pub fn replace(&mut self, gap: Option<Gap>, entry: Entry<H>, old: Entry<H>) {
        let Some(gap) = gap else {
            self.remove_existing(old.hash, old.handle);
            return self.insert_at_gap(None, entry.hash, entry.handle);
        };
        self.slots.put_at(&gap, entry.handle, &mut self.reads);
        let held = self
            .slots
            .find_existing(old.hash, old.handle, &mut self.reads);
        self.slots.take_out(held, &mut self.reads);
    }

    /// Replaces the handle of the first candidate of `hash` that equals `handle` by `new`, given
    /// that there is one. The entry's hash doesn't change, and every entry stays where it is.
    ///
    /// # Cost
    ///
    /// The walk to the entry, and one write of a slot.
    #[inline(always)]
    pub fn replace_handle(&mut self, hash: u64, handle: H, new: H) {
        let slot = self.slots.find_existing(hash, handle, &mut self.reads);
        self.slots.replace_handle_at(slot, new);
    }
}
