// Written by bindings/rust/erase from crates/clock2q_handles/src/table/growth.rt; change that, and run erase.
//! Growth of a table: its new number of slots, and the rebuild of its entries in them.

use crate::proved::handles::error::TableError;
use crate::proved::handles::slots::Slots;
use crate::proved::handles::table::Table;
use crate::proved::count::Count;
use crate::proved::rattle::Allocator;

/// The smallest number of slots of a table that has any.
const MIN_SLOTS: usize = 16;

/// Returns the smallest slot count in which `entries` entries fit, if it can be counted.
#[inline]
pub(super) fn slots_for(entries: usize) -> Option<usize> {
    let quarter = entries.div_ceil(3).checked_next_power_of_two()?;
    let Some(count) = quarter.checked_mul(4) else {
        return None;
    };
    Some(count.max(MIN_SLOTS))
}

impl<H: Copy + Eq + Default, A: Allocator + Copy> Table<H, A> {
    /// Makes room for `additional` more entries, so that inserting them doesn't grow the table.
    ///
    /// If the table has to grow for that, it calls `rehash` once on each held handle, in the order
    /// of the slots, for the hash that the handle was inserted under. `rehash` only needs to be
    /// callable on those, in that order.
    ///
    /// # Errors
    ///
    /// `Size` if the entries or their slots are too many to count, and `Memory` if there is no
    /// memory for the slots. The table is unchanged.
    ///
    /// # Cost
    ///
    /// Constant if there is room already, and otherwise linear in the number of slots.
    #[inline]
    pub fn reserve<F: FnMut(H) -> u64>(
        &mut self,
        additional: usize,
        mut rehash: F,
    ) -> Result<(), TableError> {
        let Some(entries) = self.len().checked_add(additional) else {
            return Err(TableError::Size);
        };
        if entries <= self.capacity() {
            return Ok(());
        }
        let Some(count) = slots_for(entries) else {
            return Err(TableError::Size);
        };
        *self = self.rebuilt(count, &mut rehash)?;
        Ok(())
    }

    /// Makes room for one more entry: a full table grows.
    #[inline(always)]
    pub(super) fn make_room<F: FnMut(H) -> u64>(&mut self, rehash: &mut F) -> Result<(), TableError> {
        if self.len() == self.capacity() {
            return self.grow(rehash);
        }
        Ok(())
    }

    /// Rebuilds a full table in twice its slots, or in `MIN_SLOTS` if that is more.
    #[inline(never)]
    fn grow<F: FnMut(H) -> u64>(&mut self, rehash: &mut F) -> Result<(), TableError> {
        let count = (self.slots.count() * 2).max(MIN_SLOTS);
        *self = self.rebuilt(count, rehash)?;
        Ok(())
    }

    /// Returns a table of the same entries in `count` slots, each under the hash that `rehash`
    /// returns for its handle.
    #[inline]
    fn rebuilt<F: FnMut(H) -> u64>(
        &self,
        count: usize,
        rehash: &mut F,
    ) -> Result<Table<H, A>, TableError> {
        let Ok(mut slots) = Slots::with_count(self.slots.allocator(), count) else {
            return Err(TableError::Memory);
        };
        let mut reads = Count::new();
        reads.raise(&self.reads);
        slots.put_all(&self.slots, rehash, &mut reads);
        slots.take_over_writes(&self.slots);
        Ok(Table {
            slots,
            reads,
            len: self.len,
        })
    }
}
