// Written by bindings/rust/erase from crates/clock2q_handles/src/table/removal.rt; change that, and run erase.
//! Removal of entries from a table.

use crate::proved::handles::table::Table;
use crate::proved::rattle::Allocator;

impl<H: Copy + Eq + Default, A: Allocator> Table<H, A> {
    /// Removes the first candidate of `hash` that equals `handle`, and returns true if there was
    /// one. The entries after it move back by one slot, up to an empty slot or an entry at its
    /// home. The table keeps its memory.
    ///
    /// # Cost
    ///
    /// It reads the walk to the entry. It writes the slots from the removed entry's to that of the
    /// last entry that moves back, and reads as many more.
    #[inline]
    pub fn remove(&mut self, hash: u64, handle: H) -> bool {
        let Some(found) = self.slots.find(hash, handle, &mut self.reads) else {
            return false;
        };
        self.slots.take_out(found, &mut self.reads);
        self.len -= 1;
        true
    }
}
