// Written by bindings/rust/erase from crates/clock2q_queues/src/links.rt; change that, and run erase.
//! What the queues are built on: the link records and the hit bits by slot number, and the
//! positions of Small's window.

mod flags;
mod window;

use crate::proved::queues::entries::{Entry, Location};
use crate::proved::queues::ring::Ring;
use crate::proved::count::Count;
use flags::{Flag, Flags};
use crate::proved::rattle::{AllocError, Allocator, Global};
use window::Window;

/// The records and the hit bits of the slots, which both queues share, and the window's positions.
pub(crate) struct Links<A: Allocator = Global> {
    pub(crate) ring: Ring<Location, A>,
    flags: Flags<A>,
    window: Window<A>,
    inspections: Count,
}

impl<A: Allocator> Links<A> {
    /// Returns links for `slots` slots, and a window of `window` positions.
    #[inline]
    pub(crate) fn new(alloc: A, slots: u32, window: u32) -> Result<Self, AllocError>
    where
        A: Clone,
    {
        let ring = Ring::new(alloc.clone(), slots)?;
        let flags = Flags::new(alloc.clone(), slots)?;
        let positions = Window::new(alloc, window)?;
        Ok(Links {
            ring,
            flags,
            window: positions,
            inspections: Count::new(),
        })
    }

    /// Returns links for `slots` slots and a window of `window` positions, with what these links hold. The
    /// new positions are put in at the cursor, so they are taken next. All counts go on from those of these
    /// links.
    #[inline]
    pub(crate) fn grown(
        &self,
        alloc: A,
        slots: u32,
        window: u32,
        cursor: u32,
    ) -> Result<Self, AllocError>
    where
        A: Clone,
    {
        let gap = window - self.window.len();
        let ring = self
            .ring
            .grown_past_gap(alloc.clone(), slots, cursor, gap)?;
        let flags = self.flags.grown(alloc.clone(), slots)?;
        let positions = self.window.with_gap(alloc, cursor, window)?;
        let mut inspections = Count::new();
        inspections.raise(&self.inspections);
        Ok(Links {
            ring,
            flags,
            window: positions,
            inspections,
        })
    }

    /// Returns the number of the window's positions.
    #[inline]
    pub(crate) fn window_len(&self) -> u32 {
        self.window.len()
    }

    /// Returns where a slot is.
    #[inline]
    pub(crate) fn location(&mut self, slot: u32) -> Location {
        self.ring.held(slot)
    }

    /// Puts a slot, with a clear bit, into an empty queue: it is its own neighbour on both sides.
    #[inline]
    pub(crate) fn attach_alone(&mut self, slot: u32, location: Location) {
        let alone = Entry {
            previous: slot,
            next: slot,
            held: location,
        };
        self.flags.write(slot, Flag::Clear);
        self.ring.write(slot, alone);
    }

    /// Makes the records and the flags of the slots below a bound that have none yet.
    #[inline]
    pub(crate) fn make_below(&mut self, bound: u32) {
        self.ring.make_below(bound);
        self.flags.make_below(bound);
    }

    /// Puts a slot, with a clear bit, just before another.
    #[inline]
    pub(crate) fn attach(&mut self, slot: u32, before: u32, location: Location) {
        self.flags.write(slot, Flag::Clear);
        self.ring.attach(slot, before, location);
    }

    /// Removes a slot from between its neighbours, clears its bit, and returns the entry that it had.
    #[inline]
    pub(crate) fn detach(&mut self, slot: u32) -> Entry<Location> {
        self.flags.set(slot, Flag::Free);
        self.ring.detach(slot)
    }

    /// Gives a slot that is in a queue another location, and a clear bit.
    #[inline]
    pub(crate) fn relocate(&mut self, slot: u32, location: Location) {
        self.flags.set(slot, Flag::Clear);
        self.ring.set_location(slot, location);
    }

    /// Puts a slot at the cursor, and returns the position after it, or the first one after the last.
    /// The slot that was there, if there was one, becomes old with a clear bit.
    #[inline]
    pub(crate) fn take_position(&mut self, cursor: u32, slot: u32) -> u32 {
        if let Some(oldest) = self.window.replace(cursor, slot) {
            self.relocate(oldest, Location::SmallOld);
        }
        self.window.after(cursor)
    }

    /// Empties the position of a slot, if it was young.
    #[inline]
    pub(crate) fn leave_position(&mut self, location: Location) {
        if let Location::SmallYoung(position) = location {
            self.window.free(position);
        }
    }

    /// Returns true if a slot is in a queue. It reads the byte with the slot's bit, and no record.
    #[inline]
    pub(crate) fn is_linked(&self, slot: usize) -> bool {
        self.flags.says_linked(slot)
    }

    /// Sets the hit bit of a slot that is in a queue.
    #[inline]
    pub(crate) fn set_bit(&mut self, slot: u32) {
        self.flags.set(slot, Flag::Hit);
    }

    /// Returns true if the bit of a slot in a queue was set, and clears it: the hand's inspection of a
    /// slot.
    #[inline]
    pub(crate) fn inspect(&mut self, slot: u32) -> bool {
        self.flags.inspect(slot, &mut self.inspections)
    }

    /// Returns the entry of a slot that is in a queue, and true if its bit is set. Both are one access.
    #[inline]
    pub(crate) fn look(&mut self, slot: u32) -> (Entry<Location>, bool) {
        self.flags.look(slot, &mut self.ring)
    }

    /// Resets every record, every position and every bit to its initial state.
    #[inline]
    pub(crate) fn reset(&mut self) {
        self.ring.clear();
        self.flags.clear();
        self.window.clear();
    }
}
