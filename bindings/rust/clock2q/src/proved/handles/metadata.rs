// Written by bindings/rust/erase from crates/clock2q_handles/src/metadata.rt; change that, and run erase.
//! What a table stores about an entry beside its handle: one word per slot.

/// One unit of reach, which is an entry's displacement plus one. The fingerprint is in the bits
/// below it.
const UNIT: u32 = 1 << 8;

/// The furthest that an entry may be past its home.
pub(super) const MAX_DISPLACEMENT: usize = (1 << 24) - 2;

/// A slot's displacement and fingerprint. A reach of 0 means that the slot is empty.
#[derive(Clone, Copy)]
pub(crate) struct Metadata {
    word: u32,
}

impl Metadata {
    /// The metadata of an empty slot. Any word below a unit would do; the bytes of this one are all
    /// equal, so slots are filled by one call of `memset`.
    pub(super) const EMPTY: Metadata = Metadata { word: 0 };

    #[inline]
    pub(super) fn is_empty(self) -> bool {
        self.word < UNIT
    }

    /// Returns true if a walk that looks for `wanted` in this slot ends here.
    #[inline]
    pub(crate) fn ends_walk_for(self, wanted: Wanted) -> bool {
        u64::from(self.word) < wanted.word / WANTED_UNIT * WANTED_UNIT
    }

    /// Returns true if the slot holds an entry that the walk looks for.
    #[inline]
    pub(crate) fn is(self, wanted: Wanted) -> bool {
        u64::from(self.word) == wanted.word
    }

    /// Returns true if the entry may move on by one slot.
    #[inline]
    pub(super) fn can_move_on(self) -> bool {
        (self.word / UNIT) as usize <= MAX_DISPLACEMENT
    }

    /// Returns true if the slot holds an entry that isn't at its home.
    #[inline]
    pub(super) fn can_move_back(self) -> bool {
        2 * UNIT <= self.word
    }

    /// Returns the metadata of the same entry one slot further past its home.
    #[inline]
    pub(super) fn one_further(self) -> Metadata {
        Metadata {
            word: self.word + UNIT,
        }
    }

    /// Returns the metadata of the same entry one slot nearer to its home.
    #[inline]
    pub(super) fn one_nearer(self) -> Metadata {
        Metadata {
            word: self.word - UNIT,
        }
    }
}

/// The same unit in a 64-bit word.
const WANTED_UNIT: u64 = 1 << 8;

/// What a walk looks for in its current slot: an entry of its home, as far past it as the slot is,
/// with the fingerprint of its hash; or nothing, once the walk has ended. The word is longer than a
/// slot's, since a walk goes one slot further than an entry may be.
#[derive(Clone, Copy)]
pub(crate) struct Wanted {
    word: u64,
}

impl Wanted {
    #[inline]
    pub(super) fn nothing() -> Wanted {
        Wanted { word: 0 }
    }

    /// Returns what a walk for `hash` looks for at its home.
    #[inline]
    pub(super) fn new(hash: u64) -> Wanted {
        Wanted {
            word: WANTED_UNIT + (hash >> 56),
        }
    }

    #[inline]
    pub(super) fn is_nothing(self) -> bool {
        self.word < WANTED_UNIT
    }

    /// Returns true if an entry inserted where the walk is would be near enough to its home.
    #[inline]
    pub(super) fn is_near(self) -> bool {
        self.word / WANTED_UNIT <= MAX_DISPLACEMENT as u64 + 1
    }

    /// Returns what the walk looks for in the next slot.
    #[inline]
    pub(super) fn next(self) -> Wanted {
        Wanted {
            word: self.word + WANTED_UNIT,
        }
    }

    /// Returns the metadata of an entry inserted where the walk ends.
    #[inline]
    pub(super) fn metadata(self) -> Metadata {
        Metadata {
            word: self.word as u32,
        }
    }
}
