// Written by bindings/rust/erase from crates/clock2q_handles/src/slots.rt; change that, and run erase.
//! A table's slots: walks along them, and entries put into them.

mod vectors;

use crate::proved::handles::gap::Gap;
use crate::proved::handles::metadata::Wanted;
use crate::proved::count::Count;
use crate::proved::rattle::Allocator;
pub(super) use vectors::{Slots, View};

impl<H: Copy + Default, A: Allocator> Slots<H, A> {
    /// Returns where a walk for `hash` ends.
    #[inline(always)]
    pub(super) fn gap(&self, hash: u64, reads: &mut Count) -> Gap {
        let view = self.view();
        let mut slot = view.home(hash);
        let mut wanted = Wanted::new(hash);
        while !view.read(slot, reads).ends_walk_for(wanted) {
            slot = view.after(slot);
            wanted = wanted.next();
        }
        Gap { slot, wanted }
    }

    /// Returns true if an entry can be inserted at the gap: neither it nor an entry that has to
    /// move on for it ends up too far past its home.
    #[inline]
    pub(super) fn has_room(&self, gap: &Gap, reads: &mut Count) -> bool {
        if !gap.wanted.is_near() {
            return false;
        }
        let view = self.view();
        let mut slot = gap.slot;
        loop {
            let metadata = view.read(slot, reads);
            if metadata.is_empty() {
                return true;
            }
            if !metadata.can_move_on() {
                return false;
            }
            slot = view.after(slot);
        }
    }

    /// Returns the slot of the first candidate of `hash` that equals `handle`.
    #[inline(always)]
    pub(super) fn find(&self, hash: u64, handle: H, reads: &mut Count) -> Option<usize>
    where
        H: PartialEq,
    {
        if self.count() == 0 {
            return None;
        }
        let view = self.view();
        let mut slot = view.home(hash);
        let mut wanted = Wanted::new(hash);
        loop {
            let metadata = view.read(slot, reads);
            if metadata.is(wanted) && view.handle(slot, &mut Count::new()) == handle {
                return Some(slot);
            }
            if metadata.ends_walk_for(wanted) {
                return None;
            }
            slot = view.after(slot);
            wanted = wanted.next();
        }
    }

    /// Returns the slot of the first candidate of `hash` that equals `handle`, given that there is
    /// one.
    #[inline(always)]
    pub(super) fn find_existing(&self, hash: u64, handle: H, reads: &mut Count) -> usize
    where
        H: PartialEq,
    {
        let view = self.view();
        let mut slot = view.home(hash);
        let mut wanted = Wanted::new(hash);
        loop {
            let metadata = view.read(slot, reads);
            if metadata.is(wanted) && view.handle(slot, &mut Count::new()) == handle {
                return slot;
            }
            slot = view.after(slot);
            wanted = wanted.next();
        }
    }

    /// Inserts each entry of other slots, in the order of those slots, under the hash that `rehash`
    /// returns for its handle.
    #[inline]
    pub(super) fn put_all<F: FnMut(H) -> u64>(
        &mut self,
        old: &Slots<H, A>,
        rehash: &mut F,
        reads: &mut Count,
    ) {
        let view = old.view();
        for slot in 0..old.count() {
            if view.read(slot, reads).is_empty() {
                continue;
            }
            let handle = view.handle(slot, &mut Count::new());
            let hash = rehash(handle);
            let gap = self.gap(hash, reads);
            self.put_at(&gap, handle, reads);
        }
    }
}
