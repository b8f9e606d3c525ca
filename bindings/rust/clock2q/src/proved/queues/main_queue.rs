// Written by bindings/rust/erase from crates/clock2q_queues/src/main_queue.rt; change that, and run erase.
//! Main: a ring of slots with a hand, which looks for the slot to evict.

use crate::proved::queues::entries::Location;
use crate::proved::queues::links::Links;
use crate::proved::rattle::Allocator;

/// A ring of slots. The hand is at the slot that it inspects next, and a new slot goes just before
/// the hand.
#[derive(Clone, Copy)]
pub(crate) struct Main {
    pub(crate) hand: Option<u32>,
    pub(crate) len: usize,
}

impl Main {
    /// Returns an empty ring.
    #[inline]
    pub(crate) fn new() -> Self {
        Main { hand: None, len: 0 }
    }

    /// Removes a slot. If the hand is at that slot, it moves on.
    #[inline]
    pub(crate) fn unlink<A: Allocator>(&mut self, links: &mut Links<A>, slot: u32) {
        let was = links.detach(slot);
        self.len -= 1;
        if self.hand == Some(slot) {
            self.hand = (self.len > 0).then_some(was.next);
        }
    }

    /// Moves the hand on to the slot to evict, and returns that slot. The hand passes each slot
    /// whose bit is set, and clears the bit.
    #[inline]
    pub(crate) fn select<A: Allocator>(&mut self, links: &mut Links<A>) -> u32 {
        // a ring with an entry has a hand
        let mut hand = self.hand.unwrap();
        while links.inspect(hand) {
            hand = links.look(hand).0.next;
        }
        self.hand = Some(hand);
        hand
    }

    /// Returns the slot that [`select`](Main::select) would choose, or `None` if the ring is empty.
    /// The hand and the bits stay as they are. If every bit is set, the hand would come back to its slot.
    #[inline]
    pub(crate) fn victim<A: Allocator>(&self, links: &mut Links<A>) -> Option<u32> {
        let hand = self.hand?;
        let mut slot = hand;
        for _ in 0..self.len {
            let (entry, hit) = links.look(slot);
            if !hit {
                return Some(slot);
            }
            slot = entry.next;
        }
        Some(hand)
    }

    /// Empties the ring. `Links::reset` resets the records.
    #[inline]
    pub(crate) fn clear(&mut self) {
        *self = Main::new();
    }
}
