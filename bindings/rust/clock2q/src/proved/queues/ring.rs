// Written by bindings/rust/erase from crates/clock2q_queues/src/ring.rt; change that, and run erase.
//! Entries that are linked by number, slots in their queues or places in their order.

use crate::proved::rattle::Vec;
use crate::proved::queues::entries::{Entry, Held, Location};
use crate::proved::count::Count;
use crate::proved::rattle::{AllocError, Allocator, Global};

/// The entry of each place, with the number of reads and writes. Only the first ones are made, which
/// takes one write each: any other place is vacant.
pub(crate) struct Ring<T: Held, A: Allocator = Global> {
    entries: Vec<Entry<T>, A>,
    pub(crate) places: u32,
    accesses: Count,
}

impl<T: Held, A: Allocator> Ring<T, A> {
    /// Returns a ring of `places` vacant places, with no read or write counted yet. It takes all the
    /// memory that it will ever need.
    #[inline]
    pub(crate) fn new(alloc: A, places: u32) -> Result<Self, AllocError> {
        Ok(Ring {
            entries: Vec::with_capacity(alloc, places as usize)?,
            places,
            accesses: Count::new(),
        })
    }

    /// Returns a ring of `places` places with the same entries. It takes all the memory that it will ever
    /// need. The count goes on from that of this ring: each entry that was made is read and written.
    #[inline]
    pub(crate) fn grown(&self, alloc: A, places: u32) -> Result<Self, AllocError> {
        let mut entries = Vec::with_capacity(alloc, places as usize)?;
        let mut accesses = Count::new();
        accesses.raise(&self.accesses);
        for entry in &self.entries {
            accesses.tick();
            accesses.tick();
            entries.push_reserved(*entry);
        }
        Ok(Ring {
            entries,
            places,
            accesses,
        })
    }

    /// Returns the entry of a place that was made.
    #[inline]
    pub(crate) fn read(&mut self, place: u32) -> Entry<T> {
        self.accesses.tick();
        self.entries[place as usize]
    }

    /// Returns what is held of any place.
    #[inline]
    pub(crate) fn held(&mut self, place: u32) -> T {
        self.accesses.tick();
        match self.entries.get(place as usize) {
            Some(entry) => entry.held,
            None => T::VACANT,
        }
    }

    /// Writes the entry of a place that was made, or makes that of the next place.
    #[inline(always)]
    pub(crate) fn write(&mut self, place: u32, entry: Entry<T>) {
        self.accesses.tick();
        if (place as usize) < self.entries.len() {
            self.entries[place as usize] = entry;
        } else {
            self.entries.push_reserved(entry);
        }
    }

    /// Makes the entries of the places below a bound that have none yet.
    #[inline]
    pub(crate) fn make_below(&mut self, bound: u32) {
        while self.entries.len() < bound as usize {
            self.accesses.tick();
            self.entries.push_reserved(Entry {
                previous: 0,
                next: 0,
                held: T::VACANT,
            });
        }
    }

    /// Writes the place after another. Changing one field counts as a read and a write of the entry.
    #[inline(always)]
    fn set_next(&mut self, place: u32, next: u32) {
        self.accesses.tick();
        self.accesses.tick();
        self.entries[place as usize].next = next;
    }

    /// Writes the place before another, which counts as a read and a write too.
    #[inline(always)]
    fn set_previous(&mut self, place: u32, previous: u32) {
        self.accesses.tick();
        self.accesses.tick();
        self.entries[place as usize].previous = previous;
    }

    /// Puts a place just before another.
    #[inline(always)]
    pub(crate) fn attach(&mut self, place: u32, before: u32, held: T) {
        let previous = self.read(before).previous;
        let between = Entry {
            previous,
            next: before,
            held,
        };
        self.write(place, between);
        self.set_next(previous, place);
        self.set_previous(before, place);
    }

    /// Removes a place from between its neighbours, and returns the entry that it had.
    #[inline]
    pub(crate) fn detach(&mut self, place: u32) -> Entry<T> {
        let was = self.read(place);
        self.set_next(was.previous, was.next);
        self.set_previous(was.next, was.previous);
        let vacant = Entry {
            previous: 0,
            next: 0,
            held: T::VACANT,
        };
        self.write(place, vacant);
        was
    }

    /// Raises the count of accesses by an amount that the proof of the call picks.
    #[inline]
    pub(crate) fn charge(&mut self) {
        self.accesses.raise(&());
    }

    /// Makes every place vacant. None is read or written.
    #[inline]
    pub(crate) fn clear(&mut self) {
        self.entries.clear();
    }
}

impl<A: Allocator> Ring<Location, A> {
    /// Returns a ring of `slots` slots with the same records, whose locations are
    /// [past a gap](Location::past_gap) at the cursor. Otherwise it is like [`grown`](Ring::grown).
    #[inline]
    pub(crate) fn grown_past_gap(
        &self,
        alloc: A,
        slots: u32,
        cursor: u32,
        gap: u32,
    ) -> Result<Self, AllocError> {
        let mut entries = Vec::with_capacity(alloc, slots as usize)?;
        let mut accesses = Count::new();
        accesses.raise(&self.accesses);
        for entry in &self.entries {
            accesses.tick();
            accesses.tick();
            entries.push_reserved(Entry {
                held: entry.held.past_gap(cursor, gap),
                ..*entry
            });
        }
        Ok(Ring {
            entries,
            places: slots,
            accesses,
        })
    }

    /// Writes the location of a slot that was made, which counts as a read and a write.
    #[inline]
    pub(crate) fn set_location(&mut self, slot: u32, location: Location) {
        self.accesses.tick();
        self.accesses.tick();
        self.entries[slot as usize].held = location;
    }
}
