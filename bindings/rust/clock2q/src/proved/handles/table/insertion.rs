// Written by bindings/rust/erase from crates/clock2q_handles/src/table/insertion.rt; change that, and run erase.
//! Insertion of entries into a table.

use crate::proved::handles::error::TableError;
use crate::proved::handles::gap::Gap;
use crate::proved::handles::metadata::MAX_DISPLACEMENT;
use crate::proved::handles::table::Table;
use crate::proved::rattle::Allocator;

impl<H: Copy + Eq + Default, A: Allocator + Copy> Table<H, A> {
    /// Inserts `handle` under `hash`, last among the entries of its home. Handles and hashes may
    /// repeat.
    ///
    /// A full table first grows to twice the slots. Then, and only then, it calls `rehash` once on
    /// each held handle, in the order of the slots, for the hash that the handle was inserted
    /// under. `rehash` only needs to be callable on those, in that order.
    ///
    /// # Errors
    ///
    /// - `Memory` if the table is full and there is no memory to grow. The table is unchanged.
    /// - `RunTooLong` if an entry would be more than 2^24 - 2 slots past its home, which takes 2^24
    ///   entries. Nothing is inserted, but a table that was full has grown.
    ///
    /// # Cost
    ///
    /// Below capacity it writes the slots from the new entry's to the end of its run. Growth is
    /// linear in the number of slots.
    #[inline(always)]
    pub fn insert<F: FnMut(H) -> u64>(
        &mut self,
        hash: u64,
        handle: H,
        mut rehash: F,
    ) -> Result<(), TableError> {
        self.make_room(&mut rehash)?;
        self.insert_within_capacity(hash, handle)
    }

    /// Returns the first candidate of `hash` that `matches` accepts, and false. If it accepts none,
    /// inserts `handle` under `hash` as [insert](Table::insert) does, and returns it and true.
    ///
    /// A full table grows first, whether or not a candidate is accepted. Then `matches` is called
    /// on the candidates in order, up to the first that it accepts.
    ///
    /// # Errors
    ///
    /// Those of [insert](Table::insert). `RunTooLong` is returned only if no candidate was
    /// accepted.
    ///
    /// # Cost
    ///
    /// That of [get](Table::get), and that of [insert](Table::insert) if no candidate is accepted
    /// or the table is full.
    #[inline]
    pub fn find_or_insert<M: FnMut(H) -> bool, F: FnMut(H) -> u64>(
        &mut self,
        hash: u64,
        mut matches: M,
        handle: H,
        mut rehash: F,
    ) -> Result<(H, bool), TableError> {
        self.make_room(&mut rehash)?;
        self.find_or_put(hash, &mut matches, handle)
    }
}

impl<H: Copy + Eq + Default, A: Allocator> Table<H, A> {
    /// Inserts `handle` under `hash`, last among the entries of its home, in a table that is below
    /// [capacity](Table::capacity). It takes no memory, and asks for no hash of a held handle. A
    /// table from [with_capacity](Table::with_capacity) takes all its entries this way.
    ///
    /// # Errors
    ///
    /// `RunTooLong` if an entry would be more than 2^24 - 2 slots past its home, which takes 2^24
    /// entries. The table is unchanged.
    ///
    /// # Cost
    ///
    /// It writes the slots from the new entry's to the end of its run.
    #[inline(always)]
    pub fn insert_within_capacity(&mut self, hash: u64, handle: H) -> Result<(), TableError> {
        let gap = self.slots.gap(hash, &mut self.reads);
        self.insert_at(gap, hash, handle)
    }

    /// Returns the first candidate that is accepted, or inserts the handle if none is.
    #[inline]
    fn find_or_put<M: FnMut(H) -> bool>(
        &mut self,
        hash: u64,
        matches: &mut M,
        handle: H,
    ) -> Result<(H, bool), TableError> {
        match self.offer(hash, matches) {
            Ok(found) => Ok((found.0, false)),
            Err(end) => match self.insert_at(end, hash, handle) {
                Ok(()) => Ok((handle, true)),
                Err(refusal) => Err(refusal),
            },
        }
    }

    /// Calls `matches` on the candidates of `hash`, up to the first that it accepts. Returns that
    /// candidate and its slot, or else the gap for the hash.
    #[inline(always)]
    fn offer<M: FnMut(H) -> bool>(&mut self, hash: u64, matches: &mut M) -> Result<(H, usize), Gap> {
        self.slots.view().offer(hash, matches, &mut self.reads)
    }

    /// Inserts an entry at the gap for its hash, unless a run would be too long.
    #[inline(always)]
    fn insert_at(&mut self, end: Gap, hash: u64, handle: H) -> Result<(), TableError> {
        if self.len > MAX_DISPLACEMENT {
            return self.insert_among_many(end, hash, handle);
        }
        self.slots.put_at(&end, handle, &mut self.reads);
        self.len += 1;
        Ok(())
    }

    /// Inserts an entry at the gap for its hash as [insert_at](Table::insert_at) does, in a table
    /// with so many entries that a run may become too long. It first reads the rest of the run.
    #[inline(never)]
    fn insert_among_many(&mut self, end: Gap, hash: u64, handle: H) -> Result<(), TableError> {
        let _ = hash;
        if !self.slots.has_room(&end, &mut self.reads) {
            return Err(TableError::RunTooLong);
        }
        self.slots.put_at(&end, handle, &mut self.reads);
        self.len += 1;
        Ok(())
    }
}
