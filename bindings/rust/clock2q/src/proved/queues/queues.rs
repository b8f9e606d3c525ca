// Written by bindings/rust/erase from crates/clock2q_queues/src/queues.rt; change that, and run erase.
//! The two queues of a cache's residents, Small and Main, over the links that they share.

mod growth;
mod hand;

use crate::proved::queues::entries::Location;
use crate::proved::queues::links::Links;
use crate::proved::queues::main_queue::Main;
use crate::proved::queues::small::Small;
use crate::proved::rattle::{AllocError, Allocator, Global};

/// The two queues of a cache's residents. They hold slot numbers from 0, and a slot is in at most
/// one of them.
///
/// Small has the newest slots, in order of admission. The slots of the last admissions, as many as
/// the window is long, are young: a hit on a young slot doesn't count. Main is a ring with a hand,
/// and a new slot goes just before the hand.
///
/// # Example
///
/// ```
/// # #![allow(unused)]
/// # use clock2q::proved::rattle::Global;
/// # use clock2q::proved::queues::{order::Order, queues::Queues};
/// let mut queues = Queues::new(Global, 4, 2)?;
/// queues.admit(0);
/// queues.admit(1);
/// queues.admit(2);
/// queues.hit(0);
/// assert!(queues.tail_is_promoted());
/// assert_eq!(queues.take_tail(), Some(0));
/// queues.append(0);
/// assert!(queues.is_resident(0));
/// let mut more = queues.grown(Global, 8, 4)?;
/// assert_eq!(more.take_victim(), 0);
/// # Ok::<(), Box<dyn std::error::Error>>(())
/// ```
pub struct Queues<A: Allocator = Global> {
    links: Links<A>,
    main: Main,
    small: Small,
}

impl<A: Allocator> Queues<A> {
    /// Returns empty queues for the slots below `slots`, with a window of `window` admissions.
    ///
    /// # Errors
    ///
    /// `AllocError` if a request for memory is refused. Memory taken so far is given back.
    ///
    /// # Cost
    ///
    /// Linear in `window`.
    #[inline]
    pub fn new(alloc: A, slots: u32, window: u32) -> Result<Self, AllocError>
    where
        A: Clone,
    {
        Ok(Queues {
            links: Links::new(alloc, slots, window)?,
            small: Small::new(),
            main: Main::new(),
        })
    }

    /// Makes the link records of the slots below a bound that have none yet. Otherwise a slot's record
    /// is made when the slot is first in a queue.
    ///
    /// # Cost
    ///
    /// One access to a link for each record made.
    #[inline]
    pub fn make_below(&mut self, bound: u32) {
        self.links.make_below(bound);
    }

    /// Returns the number of slots in Small.
    #[inline]
    pub fn small_len(&self) -> usize {
        self.small.len
    }

    /// Returns the number of slots in Main.
    #[inline]
    pub fn main_len(&self) -> usize {
        self.main.len
    }

    /// Returns true if the oldest slot of Small goes on to Main instead of leaving: it is old, and
    /// its bit is set.
    #[inline]
    pub fn tail_is_promoted(&mut self) -> bool {
        let (entry, hit) = self.links.look(self.small.oldest);
        matches!(entry.held, Location::SmallOld) && hit
    }

    /// Admits a slot to Small, as its newest. All young slots grow older, and one may become old.
    ///
    /// # Cost
    ///
    /// At most ten accesses to links.
    #[inline(always)]
    pub fn admit(&mut self, slot: u32) {
        let cursor = self.small.cursor;
        self.small.cursor = self.links.take_position(cursor, slot);
        let location = Location::SmallYoung(cursor);
        if self.small.len == 0 {
            self.links.attach_alone(slot, location);
            self.small.oldest = slot;
        } else {
            self.links.attach(slot, self.small.newest, location);
        }
        self.small.newest = slot;
        self.small.len += 1;
    }

    /// Puts a slot at the end of Main, with a clear bit.
    ///
    /// # Cost
    ///
    /// At most six accesses to links.
    #[inline(always)]
    pub fn append(&mut self, slot: u32) {
        // it goes just before the hand, and in an empty ring the hand goes to it
        match self.main.hand {
            None => {
                self.links.attach_alone(slot, Location::Main);
                self.main.hand = Some(slot);
            }
            Some(hand) => self.links.attach(slot, hand, Location::Main),
        }
        self.main.len += 1;
    }

    /// Returns where a slot is.
    #[inline]
    fn location(&mut self, slot: u32) -> Location {
        self.links.location(slot)
    }

    /// Returns true if a slot is in a queue. Any number may be asked for: one that is no slot's is in
    /// none. It accesses no link.
    #[inline]
    pub fn is_resident(&self, slot: usize) -> bool {
        self.links.is_linked(slot)
    }

    /// Removes Small's oldest slot, and returns it. Returns `None` if Small is empty.
    #[inline(always)]
    pub fn take_tail(&mut self) -> Option<u32> {
        let tail = (self.small.len > 0).then_some(self.small.oldest)?;
        self.small.unlink(&mut self.links, tail);
        Some(tail)
    }

    /// Makes Small's oldest slot its newest, and returns it: a new key takes the slot of the oldest
    /// one. All young slots grow older, and one may become old.
    #[inline(always)]
    pub fn replace_tail(&mut self) -> u32 {
        // the ring stays, since the newest slot follows the oldest in it
        let slot = self.small.oldest;
        let cursor = self.small.cursor;
        let was = self.links.look(slot).0;
        self.links.leave_position(was.held);
        self.small.oldest = was.previous;
        self.small.newest = slot;
        self.small.cursor = self.links.take_position(cursor, slot);
        self.links.relocate(slot, Location::SmallYoung(cursor));
        slot
    }

    /// Removes a slot from its queue. If it is in neither, nothing changes.
    #[inline]
    pub fn leave(&mut self, slot: u32) {
        match self.location(slot) {
            Location::Free => {}
            Location::SmallYoung(_) | Location::SmallOld => {
                self.small.unlink(&mut self.links, slot);
            }
            Location::Main => self.main.unlink(&mut self.links, slot),
        }
    }

    /// Records a hit on a slot. A hit on a young slot doesn't count.
    #[inline]
    pub fn hit(&mut self, slot: u32) {
        self.links.set_bit(slot);
    }

    /// Raises the count of link accesses by an amount that the proof of the call picks. A caller
    /// that has to state the count exactly raises it to its bound with this.
    #[inline]
    pub fn charge(&mut self) {
        self.links.ring.charge();
    }

    /// Removes every slot from both queues.
    ///
    /// # Cost
    ///
    /// Linear in the length of the window.
    #[inline]
    pub fn clear(&mut self) {
        self.small.clear();
        self.main.clear();
        self.links.reset();
    }
}
