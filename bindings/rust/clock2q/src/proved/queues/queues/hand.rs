// Written by bindings/rust/erase from crates/clock2q_queues/src/queues/hand.rt; change that, and run erase.
//! What the hand chooses: the slot of Main that leaves, and the slot that leaves next.

use super::Queues;
use crate::proved::rattle::Allocator;

impl<A: Allocator> Queues<A> {
    /// Moves the hand on to the slot that it chooses, as in [`take_victim`](Queues::take_victim),
    /// and returns that slot, which stays in Main.
    ///
    /// # Cost
    ///
    /// Linear in the number of slots that the hand passes.
    #[inline]
    pub fn select(&mut self) -> u32 {
        self.main.select(&mut self.links)
    }

    /// Returns the slot that leaves next: Small's oldest one, or the one that the hand would choose if
    /// that one goes on to Main or Small is empty. Returns `None` if there is no slot. The queues, the
    /// bits and the hand stay as they are.
    ///
    /// # Cost
    ///
    /// One access to a link for each slot that it looks at: Small's oldest one and, if a slot of Main
    /// leaves next, at most those that the hand would inspect.
    #[inline]
    pub fn next_victim(&mut self) -> Option<u32> {
        if self.victim_leaves() {
            self.main.victim(&mut self.links)
        } else {
            (self.small.len > 0).then_some(self.small.oldest)
        }
    }

    /// Returns true if a slot of Main leaves next, rather than Small's oldest one.
    #[inline]
    pub fn victim_leaves(&mut self) -> bool {
        if self.main.len == 0 {
            return false;
        }
        if self.small.len == 0 {
            return true;
        }
        self.tail_is_promoted()
    }

    /// Removes the slot that the hand chooses from Main, and returns it.
    ///
    /// The hand passes each slot whose bit is set, and clears the bit. It chooses the first slot
    /// whose bit is clear.
    ///
    /// # Cost
    ///
    /// Linear in the number of slots that the hand passes.
    #[inline]
    pub fn take_victim(&mut self) -> u32 {
        let victim = self.main.select(&mut self.links);
        self.main.unlink(&mut self.links, victim);
        victim
    }

    /// Makes the slot that the hand chooses, as in [`take_victim`](Queues::take_victim), the last
    /// one of Main, and returns it: a new key takes the slot of Main's victim.
    ///
    /// # Cost
    ///
    /// Linear in the number of slots that the hand passes.
    #[inline]
    pub fn replace_victim(&mut self) -> u32 {
        let victim = self.main.select(&mut self.links);
        // the hand moves on from it, whose bit is clear
        self.main.hand = Some(self.links.look(victim).0.next);
        victim
    }
}
