// Written by bindings/rust/erase from crates/clock2q_queues/src/links/window.rt; change that, and run erase.
//! The positions of Small's window, each with a slot or none. Only these accessors reach them.

use crate::proved::rattle::Vec;
use crate::proved::count::Count;
use crate::proved::rattle::{AllocError, Allocator, Global};

/// What a free position holds. No slot has this number, since slots are fewer.
const NO_SLOT: u32 = u32::MAX;

/// The number of the slot at each position, with the number of reads and writes. A position takes
/// four bytes, half of what an `Option` of such a number takes.
pub(super) struct Window<A: Allocator = Global> {
    numbers: Vec<u32, A>,
    accesses: Count,
}

impl<A: Allocator> Window<A> {
    /// Returns a window of `len` free positions, with no read or write counted yet.
    #[inline]
    pub(super) fn new(alloc: A, len: u32) -> Result<Self, AllocError> {
        let numbers = Vec::from_elem(alloc, NO_SLOT, len as usize)?;
        Ok(Window {
            numbers,
            accesses: Count::new(),
        })
    }

    /// Returns a window of `len` positions: those before position `at`, free ones, and those from that
    /// position on. The count goes on from that of this window: each of its positions is read and written.
    #[inline]
    pub(super) fn with_gap(&self, alloc: A, at: u32, len: u32) -> Result<Self, AllocError> {
        let (before, after) = self.numbers.split_at(at as usize);
        let mut numbers = Vec::with_capacity(alloc, len as usize)?;
        numbers.extend_from_slice(before)?;
        numbers.resize(len as usize - after.len(), NO_SLOT)?;
        numbers.extend_from_slice(after)?;
        let mut accesses = Count::new();
        accesses.raise(self);
        Ok(Window { numbers, accesses })
    }

    /// Returns the number of positions.
    #[inline]
    pub(super) fn len(&self) -> u32 {
        self.numbers.len() as u32
    }

    /// Returns the position after another, or the first one after the last.
    #[inline]
    pub(super) fn after(&self, position: u32) -> u32 {
        if position as usize + 1 < self.numbers.len() {
            position + 1
        } else {
            0
        }
    }

    /// Puts a slot at a position, and returns the slot that was there, if there was one.
    #[inline]
    pub(super) fn replace(&mut self, position: u32, slot: u32) -> Option<u32> {
        self.accesses.tick();
        let was = self.numbers[position as usize];
        self.accesses.tick();
        self.numbers[position as usize] = slot;
        (was != NO_SLOT).then_some(was)
    }

    /// Frees a position.
    #[inline]
    pub(super) fn free(&mut self, position: u32) {
        self.accesses.tick();
        self.numbers[position as usize] = NO_SLOT;
    }

    /// Frees every position.
    #[inline]
    pub(super) fn clear(&mut self) {
        let numbers = self.numbers.as_mut_slice();
        let accesses = &mut self.accesses;
        for at in 0..numbers.len() {
            numbers[at] = NO_SLOT;
            accesses.tick();
        }
    }
}
