// Written by bindings/rust/erase from crates/clock2q_handles/src/table.rt; change that, and run erase.
//! A multimap from 64-bit hashes to handles that its caller owns.

mod clearing;
mod growth;
mod infallible;
mod insertion;
mod removal;
mod searching;

use crate::proved::handles::candidates::Candidates;
use crate::proved::handles::error::TableError;
use crate::proved::handles::metadata::Wanted;
use crate::proved::handles::slots::Slots;
use crate::proved::handles::table::growth::slots_for;
use crate::proved::count::Count;
use crate::proved::rattle::{Allocator, Global};
use core::fmt;

/// A multimap from 64-bit hashes to handles. The [module](crate::proved::handles)'s page says what it stores of them,
/// and where.
///
/// # Example
///
/// ```
/// # #![allow(unused)]
/// # use clock2q::proved::rattle::Global;
/// # use clock2q::proved::handles::{partition, Entry, Table, TableError};
/// let mut table: Table<usize> = Table::with_capacity(Global, 12)?;
/// table.insert(7, 70, |_| 7)?;
/// table.insert(7, 71, |_| 7)?;
/// let mut candidates = table.get(7);
/// assert_eq!(candidates.next(), Some(70));
/// assert_eq!(candidates.next(), Some(71));
/// assert_eq!(candidates.next(), None);
/// assert!(table.remove(7, 70));
/// assert_eq!(table.len(), 1);
/// # Ok::<(), Box<dyn std::error::Error>>(())
/// ```
pub struct Table<H: Copy + Eq + Default, A: Allocator = Global> {
    slots: Slots<H, A>,
    reads: Count,
    len: usize,
}

impl<H: Copy + Eq + Default, A: Allocator + Copy> Table<H, A> {
    /// Returns an empty table with no slots, which takes no memory.
    #[inline]
    pub fn new(alloc: A) -> Table<H, A> {
        Table {
            slots: Slots::new(alloc),
            reads: Count::new(),
            len: 0,
        }
    }

    /// Returns an empty table that holds `entries` entries before it grows.
    ///
    /// # Errors
    ///
    /// `Size` if the slots are too many to count, and `Memory` if there is no memory for them.
    ///
    /// # Cost
    ///
    /// Linear in `entries`: every slot is initialized.
    #[inline]
    pub fn with_capacity(alloc: A, entries: usize) -> Result<Table<H, A>, TableError> {
        if entries == 0 {
            return Ok(Table::new(alloc));
        }
        let Some(count) = slots_for(entries) else {
            return Err(TableError::Size);
        };
        let Ok(slots) = Slots::with_count(alloc, count) else {
            return Err(TableError::Memory);
        };
        let reads = Count::new();
        let len = 0;
        Ok(Table { slots, reads, len })
    }
}

impl<H: Copy + Eq + Default, A: Allocator> Table<H, A> {
    /// Returns the number of entries.
    #[inline]
    pub fn len(&self) -> usize {
        self.len
    }

    /// Returns true if the table has no entry.
    #[inline]
    pub fn is_empty(&self) -> bool {
        self.len() == 0
    }

    /// Returns the number of entries that the table holds before it grows: three quarters of its
    /// slots.
    #[inline]
    pub fn capacity(&self) -> usize {
        self.slots.count() / 4 * 3
    }

    /// Returns an iterator over the handles whose home and fingerprint are those of `hash`, in the
    /// order of their slots. They are the handles that were inserted under `hash`, and those under
    /// other hashes that agree with it in both.
    ///
    /// # Cost
    ///
    /// The iterator reads slots as it is advanced. Once drained, it has read those from the home of
    /// `hash` to the first that is empty or whose entry is nearer to its own home.
    #[inline]
    pub fn get(&self, hash: u64) -> Candidates<'_, H> {
        if self.slots.count() == 0 {
            return Candidates {
                view: self.slots.view(),
                slot: 0,
                wanted: Wanted::nothing(),
                reads: Count::new(),
                handle_reads: Count::new(),
            };
        }
        self.get_in_slots(hash)
    }

    /// Returns what [`get`](Table::get) does, given that the table has slots. It doesn't test for that.
    #[inline(always)]
    pub fn get_in_slots(&self, hash: u64) -> Candidates<'_, H> {
        let view = self.slots.view();
        Candidates {
            slot: view.home(hash),
            view,
            wanted: Wanted::new(hash),
            reads: Count::new(),
            handle_reads: Count::new(),
        }
    }

    /// Hints that `hash` will be looked up next. It changes nothing, and does nothing yet.
    #[inline]
    pub fn prefetch(&self, hash: u64) {
        let _ = hash;
    }
}

impl<H: Copy + Eq + Default, A: Allocator> fmt::Debug for Table<H, A> {
    #[inline]
    fn fmt(&self, f: &mut fmt::Formatter<'_>) -> fmt::Result {
        f.debug_struct("Table")
            .field("len", &self.len)
            .field("slots", &self.slots.count())
            .finish()
    }
}
