// Written by bindings/rust/erase from crates/clock2q_queues/src/queues/growth.rt; change that, and run erase.
//! Queues with room for more slots.

use super::Queues;
use crate::proved::rattle::{AllocError, Allocator};

impl<A: Allocator> Queues<A> {
    /// Returns queues for the slots below `slots`, with a window of `window` admissions, that hold the
    /// same slots in the same order, each with its bit. A young slot is as many admissions old as it was,
    /// so in a longer window it stays young for longer. An old slot stays old. These queues stay as they
    /// are.
    ///
    /// # Errors
    ///
    /// `AllocError` if a request for memory is refused. Memory taken so far is given back.
    ///
    /// # Cost
    ///
    /// Two accesses to links for each record that was made and each position of the old window.
    #[inline]
    pub fn grown(&self, alloc: A, slots: u32, window: u32) -> Result<Self, AllocError>
    where
        A: Clone,
    {
        let mut small = self.small;
        // a window with no position may have any cursor
        small.cursor = small.cursor.min(self.links.window_len());
        Ok(Queues {
            links: self.links.grown(alloc, slots, window, small.cursor)?,
            small,
            main: self.main,
        })
    }
}
