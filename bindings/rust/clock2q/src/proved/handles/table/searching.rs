// Written by bindings/rust/erase from crates/clock2q_handles/src/table/searching.rt; change that, and run erase.
//! Searches for candidates and their positions.

use crate::proved::handles::gap::Gap;
use crate::proved::handles::table::Table;
use crate::proved::count::Count;
use crate::proved::rattle::Allocator;

impl<H: Copy + Eq + Default, A: Allocator> Table<H, A> {
    /// Returns the first candidate of `hash` that `matches` accepts, with its position, which is
    /// its slot: among equal handles, the slot of the one that was accepted. If it accepts none,
    /// returns the gap where an entry of `hash` would be inserted, unless the table has no slots.
    ///
    /// A position stays valid until an entry is inserted or removed, or the table grows.
    ///
    /// # Cost
    ///
    /// That of [get](Table::get).
    #[inline(always)]
    pub fn search<M: FnMut(H) -> bool>(
        &self,
        hash: u64,
        mut matches: M,
    ) -> Result<(H, usize), Option<Gap>> {
        if self.slots.count() == 0 {
            return Err(None);
        }
        let mut reads = Count::new();
        match self.slots.view().offer(hash, &mut matches, &mut reads) {
            Ok(found) => Ok(found),
            Err(gap) => Err(Some(gap)),
        }
    }
}
