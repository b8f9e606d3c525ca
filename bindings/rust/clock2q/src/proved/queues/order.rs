// Written by bindings/rust/erase from crates/clock2q_queues/src/order.rt; change that, and run erase.
//! Places that are reused, ordered newest first, and the chain of the free ones.

use crate::proved::queues::entries::Entry;
use crate::proved::queues::ring::Ring;
use crate::proved::rattle::{AllocError, Allocator, Global};

/// Places that were given up. The record of each links to the next.
#[derive(Clone, Copy)]
struct Chain {
    head: u32,
    len: u32,
}

/// A limited number of places, with those in use ordered newest first: the places of the keys that
/// a cache remembers, say. A place that is given up becomes the head of a chain, and
/// [`push`](Order::push) takes a place from that chain first.
///
/// # Example
///
/// ```
/// # #![allow(unused)]
/// # use clock2q::proved::rattle::Global;
/// # use clock2q::proved::queues::{order::Order, queues::Queues};
/// let mut order = Order::new(Global, 2)?;
/// assert_eq!(order.push(), 0);
/// assert_eq!(order.push(), 1);
/// assert_eq!(order.replace_oldest(), 0);
/// order.unlink(1);
/// assert_eq!(order.len(), 1);
/// let order = order.grown(Global, 3)?;
/// assert_eq!(order.limit(), 3);
/// # Ok::<(), Box<dyn std::error::Error>>(())
/// ```
pub struct Order<A: Allocator = Global> {
    ring: Ring<(), A>,
    newest: u32,
    len: u32,
    chain: Chain,
}

impl<A: Allocator> Order<A> {
    /// Returns an order of `limit` places, none of them in use. It takes all the memory that it
    /// will ever need.
    ///
    /// # Errors
    ///
    /// `AllocError` if the request for memory is refused.
    #[inline]
    pub fn new(alloc: A, limit: u32) -> Result<Self, AllocError> {
        Ok(Order {
            ring: Ring::new(alloc, limit)?,
            newest: 0,
            len: 0,
            chain: Chain { head: 0, len: 0 },
        })
    }

    /// Returns an order of `limit` places that has the same places in use, and the same free ones. It takes
    /// all the memory that it will ever need. This order stays as it is.
    ///
    /// # Errors
    ///
    /// `AllocError` if the request for memory is refused.
    ///
    /// # Cost
    ///
    /// Two accesses for each place that was used.
    #[inline]
    pub fn grown(&self, alloc: A, limit: u32) -> Result<Self, AllocError> {
        Ok(Order {
            ring: self.ring.grown(alloc, limit)?,
            newest: self.newest,
            len: self.len,
            chain: self.chain,
        })
    }

    /// Returns the number of places in use.
    #[inline]
    pub fn len(&self) -> u32 {
        self.len
    }

    /// Returns the total number of places.
    #[inline]
    pub fn limit(&self) -> u32 {
        self.ring.places
    }

    /// Puts a free place at the front, and returns it. It is the head of the chain, or the next
    /// unused place if the chain is empty.
    #[inline]
    pub fn push(&mut self) -> u32 {
        let mut place = self.len;
        if self.chain.len > 0 {
            place = self.chain.head;
            self.chain.head = self.ring.read(place).next;
            self.chain.len -= 1;
        }
        if self.len == 0 {
            let alone = Entry {
                previous: place,
                next: place,
                held: (),
            };
            self.ring.write(place, alone);
        } else {
            self.ring.attach(place, self.newest, ());
        }
        self.newest = place;
        self.len += 1;
        place
    }

    /// Moves the last place to the front, and returns it: a new key takes the oldest one's place.
    #[inline]
    pub fn replace_oldest(&mut self) -> u32 {
        let oldest = self.ring.read(self.newest).previous;
        self.newest = oldest;
        oldest
    }

    /// Gives up a place, and puts it at the head of the chain.
    #[inline]
    pub fn unlink(&mut self, place: u32) {
        let was = self.ring.detach(place);
        let before_head = Entry {
            previous: 0,
            next: self.chain.head,
            held: (),
        };
        self.ring.write(place, before_head);
        self.chain.head = place;
        self.chain.len += 1;
        self.len -= 1;
        if self.newest == place {
            self.newest = was.next;
        }
    }

    /// Empties the order. Every place is unused again.
    #[inline]
    pub fn clear(&mut self) {
        self.ring.clear();
        self.len = 0;
        self.chain = Chain { head: 0, len: 0 };
    }
}
