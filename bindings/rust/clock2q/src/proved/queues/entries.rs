// Written by bindings/rust/erase from crates/clock2q_queues/src/entries.rt; change that, and run erase.
//! What a ring links: an entry for each slot of the queues, or for each place of an order.

/// Where a slot is: the queue that it is in, if any, and in Small whether it is young.
#[derive(Clone, Copy, Debug, PartialEq, Eq)]
pub(crate) enum Location {
    /// In neither queue.
    Free,
    /// In Small, young, with its position in the window.
    SmallYoung(u32),
    /// In Small, old.
    SmallOld,
    /// In Main.
    Main,
}

impl Location {
    /// Returns the location of the same slot in a window that has `gap` new positions at the cursor. The old
    /// positions from the cursor on are moved up.
    #[inline]
    pub(crate) fn past_gap(self, cursor: u32, gap: u32) -> Self {
        match self {
            Location::SmallYoung(position) if position >= cursor => {
                Location::SmallYoung(position + gap)
            }
            same => same,
        }
    }
}

/// What is held of a slot or a place beside its neighbours. Contracts see it as a location.
pub(crate) trait Held: Copy {
    /// What is held where no ring has the slot or the place.
    const VACANT: Self;
}

impl Held for Location {
    const VACANT: Self = Location::Free;
}

/// Nothing is held of an order's places, which are all in the same ring. In contracts each has the
/// location of a free slot.
impl Held for () {
    const VACANT: Self = ();
}

/// The neighbours of a slot or a place, and what is held of it.
#[derive(Clone, Copy)]
pub(crate) struct Entry<T> {
    pub(crate) previous: u32,
    pub(crate) next: u32,
    pub(crate) held: T,
}

const _: () = assert!(core::mem::size_of::<Entry<()>>() == 8);

const _: () = assert!(core::mem::size_of::<Entry<Location>>() <= 16);
