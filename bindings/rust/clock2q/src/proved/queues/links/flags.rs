// Written by bindings/rust/erase from crates/clock2q_queues/src/links/flags.rt; change that, and run erase.
//! What is known of a slot without its record: whether it is in a queue, and its hit bit.

use crate::proved::rattle::Vec;
use crate::proved::queues::entries::{Entry, Location};
use crate::proved::queues::ring::Ring;
use crate::proved::count::Count;
use crate::proved::rattle::{AllocError, Allocator, Global};

/// Whether a slot is in a queue, as its record says too, and its hit bit. A slot in no queue has a
/// clear bit.
#[derive(Clone, Copy)]
pub(super) enum Flag {
    /// In neither queue.
    Free,
    /// In a queue, with a clear bit.
    Clear,
    /// In a queue, with a set bit.
    Hit,
}

/// The flag of each slot. Only the first ones are made: any other slot is free.
pub(super) struct Flags<A: Allocator = Global> {
    flags: Vec<Flag, A>,
    slots: u32,
}

impl<A: Allocator> Flags<A> {
    /// Returns the flags of `slots` free slots. It takes all the memory that they will ever need.
    #[inline]
    pub(super) fn new(alloc: A, slots: u32) -> Result<Self, AllocError> {
        Ok(Flags {
            flags: Vec::with_capacity(alloc, slots as usize)?,
            slots,
        })
    }

    /// Returns the flags of `slots` slots: those of these, and free slots. It takes all the memory that
    /// they will ever need.
    #[inline]
    pub(super) fn grown(&self, alloc: A, slots: u32) -> Result<Self, AllocError> {
        let mut flags = Vec::with_capacity(alloc, slots as usize)?;
        flags.extend_from_slice(&self.flags)?;
        Ok(Flags { flags, slots })
    }

    /// Returns the entry of a slot that is in a queue, and true if its hit bit is set. The ring counts both
    /// as one access.
    #[inline]
    pub(super) fn look(&self, slot: u32, ring: &mut Ring<Location, A>) -> (Entry<Location>, bool) {
        let entry = ring.read(slot);
        (entry, matches!(self.flags[slot as usize], Flag::Hit))
    }

    /// Clears the bit of a slot that is in a queue, and returns true if it was set. The look is counted.
    #[inline]
    pub(super) fn inspect(&mut self, slot: u32, looks: &mut Count) -> bool {
        looks.tick();
        let was = self.flags[slot as usize];
        self.flags[slot as usize] = Flag::Clear;
        matches!(was, Flag::Hit)
    }

    /// Returns true if a slot is in a queue. It doesn't say whether the slot's bit is set.
    #[inline]
    pub(super) fn says_linked(&self, slot: usize) -> bool {
        match self.flags.get(slot) {
            Some(flag) => !matches!(flag, Flag::Free),
            None => false,
        }
    }

    /// Writes the flag of a slot that is in a queue.
    #[inline]
    pub(super) fn set(&mut self, slot: u32, flag: Flag) {
        self.flags[slot as usize] = flag;
    }

    /// Writes the flag of a slot that was made, or makes that of the next slot.
    #[inline(always)]
    pub(super) fn write(&mut self, slot: u32, flag: Flag) {
        if (slot as usize) < self.flags.len() {
            self.flags[slot as usize] = flag;
        } else {
            self.flags.push_reserved(flag);
        }
    }

    /// Makes the flags of the slots below a bound that have none yet.
    #[inline]
    pub(super) fn make_below(&mut self, bound: u32) {
        while self.flags.len() < bound as usize {
            self.flags.push_reserved(Flag::Free);
        }
    }

    /// Makes every slot free.
    #[inline]
    pub(super) fn clear(&mut self) {
        self.flags.clear();
    }
}
