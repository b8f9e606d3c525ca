// Written by bindings/rust/erase from crates/clock2q_handles/src/slots/vectors.rt; change that, and run erase.
//! The two vectors of a table's slots. Only this module reaches them. It counts each write of a slot,
//! and each read of its metadata.

use crate::proved::rattle::Vec;
use crate::proved::handles::gap::Gap;
use crate::proved::handles::metadata::Metadata;
use crate::proved::count::Count;
use crate::proved::rattle::{AllocError, Allocator};

/// The slots: a power of two of them, or none, the number of slots minus one, and the number of
/// writes to them.
pub(crate) struct Slots<H, A: Allocator> {
    metadata: Vec<Metadata, A>,
    handles: Vec<H, A>,
    mask: usize,
    writes: Count,
}

impl<H: Copy + Default, A: Allocator> Slots<H, A> {
    /// Returns no slots, without allocating.
    #[inline]
    pub(crate) fn new(alloc: A) -> Slots<H, A>
    where
        A: Copy,
    {
        Slots {
            metadata: Vec::new(alloc),
            handles: Vec::new(alloc),
            mask: 0,
            writes: Count::new(),
        }
    }

    /// Returns `count` empty slots.
    #[inline]
    pub(crate) fn with_count(alloc: A, count: usize) -> Result<Slots<H, A>, AllocError>
    where
        A: Copy,
    {
        let mut metadata = Vec::with_capacity(alloc, count)?;
        let mut handles = Vec::with_capacity(alloc, count)?;
        metadata.resize(count, Metadata::EMPTY)?;
        handles.resize(count, H::default())?;
        Ok(Slots {
            metadata,
            handles,
            mask: count.wrapping_sub(1),
            writes: Count::new(),
        })
    }

    #[inline]
    pub(crate) fn allocator(&self) -> A
    where
        A: Copy,
    {
        *self.metadata.allocator()
    }

    /// Adds the writes counted for the slots that these replace.
    #[inline]
    pub(crate) fn take_over_writes(&mut self, replaced: &Slots<H, A>) {
        self.writes.raise(&replaced.writes);
    }

    /// Returns both vectors to read.
    #[inline(always)]
    pub(crate) fn view(&self) -> View<'_, H> {
        View {
            metadata: self.metadata.as_slice(),
            handles: self.handles.as_slice(),
            mask: self.metadata.len().wrapping_sub(1),
        }
    }

    /// Returns the number of slots.
    #[inline]
    pub(crate) fn count(&self) -> usize {
        self.metadata.len()
    }

    /// Writes the handle of a slot.
    #[inline(always)]
    pub(crate) fn replace_handle_at(&mut self, slot: usize, handle: H) {
        self.handles[slot] = handle;
        self.writes.tick();
    }

    /// Inserts an entry at a gap. The rest of the run moves on by one slot, and each slot that is
    /// written is read.
    #[inline(always)]
    pub(crate) fn put_at(&mut self, gap: &Gap, handle: H, reads: &mut Count) {
        let metadata = self.metadata.as_mut_slice();
        let handles = self.handles.as_mut_slice();
        let writes = &mut self.writes;
        let mask = metadata.len().wrapping_sub(1);
        let mut slot = gap.slot;
        let mut word = gap.wanted.metadata();
        let mut handle = handle;
        reads.tick();
        let mut there = metadata[slot];
        while !there.is_empty() {
            let held = handles[slot];
            metadata[slot] = word;
            handles[slot] = handle;
            writes.tick();
            word = there.one_further();
            handle = held;
            slot = after(slot, mask);
            reads.tick();
            there = metadata[slot];
        }
        metadata[slot] = word;
        handles[slot] = handle;
        writes.tick();
    }

    /// Removes the entry in a slot. The entries after it move back by one slot, up to an empty slot
    /// or an entry at its home. It reads as many slots as it writes. The handle of the slot that is
    /// left empty stays in memory, but no lookup reaches it.
    #[inline(always)]
    pub(crate) fn take_out(&mut self, slot: usize, reads: &mut Count) {
        let metadata = self.metadata.as_mut_slice();
        let handles = self.handles.as_mut_slice();
        let writes = &mut self.writes;
        let mask = metadata.len().wrapping_sub(1);
        let mut hole = slot;
        loop {
            let next = after(hole, mask);
            reads.tick();
            let word = metadata[next];
            if !word.can_move_back() {
                break;
            }
            let handle = handles[next];
            metadata[hole] = word.one_nearer();
            handles[hole] = handle;
            writes.tick();
            hole = next;
        }
        metadata[hole] = Metadata::EMPTY;
        writes.tick();
    }

    /// Empties every slot. The handles stay in memory, but no lookup reaches them.
    #[inline]
    pub(crate) fn clear(&mut self) {
        fill(
            self.metadata.as_mut_slice(),
            Metadata::EMPTY,
            &mut self.writes,
        );
    }
}

/// Both vectors of a table's slots, and the number of slots minus one. Walks only reach the vectors
/// through [read](View::read) and [handle](View::handle), which count each read.
pub(crate) struct View<'a, H> {
    metadata: &'a [Metadata],
    handles: &'a [H],
    mask: usize,
}

impl<'a, H: Copy + Default> View<'a, H> {
    /// Returns the home slot of a hash, if there are slots.
    #[inline]
    pub(crate) fn home(&self, hash: u64) -> usize {
        hash as usize & self.mask
    }

    /// Returns the slot after `slot`: slot 0 after the last.
    #[inline]
    pub(crate) fn after(&self, slot: usize) -> usize {
        let mask = self.mask;
        (slot + 1) & mask
    }

    /// Reads the metadata of a slot, and counts the read.
    #[inline]
    pub(crate) fn read(&self, slot: usize, reads: &mut Count) -> Metadata {
        reads.tick();
        let metadata = self.metadata;
        metadata[slot]
    }

    /// Reads the handle of an entry that was found, and counts the read.
    #[inline]
    pub(crate) fn handle(&self, slot: usize, reads: &mut Count) -> H {
        reads.tick();
        let handles = self.handles;
        handles[slot]
    }
}

/// Returns the slot after `slot`, of `mask + 1` slots: slot 0 after the last.
#[inline]
fn after(slot: usize, mask: usize) -> usize {
    (slot + 1) & mask
}

/// Writes the same word to each slot, and counts the slots as written.
#[inline]
fn fill(metadata: &mut [Metadata], word: Metadata, writes: &mut Count) {
    for at in 0..metadata.len() {
        metadata[at] = word;
        writes.tick();
    }
}
