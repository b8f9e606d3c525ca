// Written by bindings/rust/erase from crates/clock2q_handles/src/table/clearing.rt; change that, and run erase.
//! Emptying a table.

use crate::proved::handles::table::Table;
use crate::proved::rattle::Allocator;

impl<H: Copy + Eq + Default, A: Allocator> Table<H, A> {
    /// Removes every entry. The table keeps its memory and its capacity.
    ///
    /// # Cost
    ///
    /// One counted write per slot. It writes the metadata alone, which the code shows and no clause
    /// states.
    #[inline]
    pub fn clear(&mut self) {
        self.slots.clear();
        self.len = 0;
    }
}
