// Written by bindings/rust/erase from crates/clock2q_queues/src/small.rt; change that, and run erase.
//! Small: the queue of the newest residents, of which the last admitted ones are young.

use crate::proved::queues::entries::Location;
use crate::proved::queues::links::Links;
use crate::proved::rattle::Allocator;

/// A queue of slots, newest first. The window's positions hold the young slots, and the cursor is
/// the position of the next admission.
#[derive(Clone, Copy)]
pub(crate) struct Small {
    pub(crate) newest: u32,
    pub(crate) oldest: u32,
    pub(crate) len: usize,
    pub(crate) cursor: u32,
}

impl Small {
    /// Returns an empty queue.
    #[inline]
    pub(crate) fn new() -> Self {
        Small {
            newest: 0,
            oldest: 0,
            len: 0,
            cursor: 0,
        }
    }

    /// Removes a slot. If it was young, its position becomes free.
    #[inline]
    pub(crate) fn unlink<A: Allocator>(&mut self, links: &mut Links<A>, slot: u32) {
        let was = links.detach(slot);
        links.leave_position(was.held);
        self.len -= 1;
        if self.newest == slot {
            self.newest = was.next;
        }
        if self.oldest == slot {
            self.oldest = was.previous;
        }
    }

    /// Empties the queue. `Links::reset` resets the records and the window's positions.
    #[inline]
    pub(crate) fn clear(&mut self) {
        *self = Small::new();
    }
}
