// Written by bindings/rust/erase from crates/clock2q_directory/src/handle.rt; change that, and run erase.
//! Where a known key is: at a slot, if it is a resident, or at a place of the history, which the
//! literature calls Ghost, if it is one of those that Small evicted.

use crate::proved::handles::Gap;

/// The smallest number of a remembered key's handle.
const REMEMBERED: u32 = 1 << 31;

/// Where a known key is. The table of the index stores this in one number: a slot as it is, and a
/// place plus 2^31.
///
/// # Example
///
/// ```
/// # #![allow(unused)]
/// # use clock2q::proved::directory::{directory::Directory, handle::Handle, index::Index, keys::{Entry, Keys}, newcomer::Newcomer};
/// assert_eq!(Handle::Resident(7).pack(), 7);
/// assert_eq!(Handle::Remembered(7).pack(), 2_147_483_655);
/// ```
#[derive(Clone, Copy)]
pub enum Handle {
    /// The slot of a resident.
    Resident(u32),
    /// The place of a remembered key, which is no slot.
    Remembered(u32),
}

impl Handle {
    /// Returns the number that the table stores.
    #[inline]
    pub fn pack(self) -> u32 {
        match self {
            Handle::Resident(slot) => slot,
            Handle::Remembered(place) => REMEMBERED + place,
        }
    }

    /// Returns the slot or the place for a stored number.
    #[inline]
    pub fn unpack(number: u32) -> Self {
        if number < REMEMBERED {
            Handle::Resident(number)
        } else {
            Handle::Remembered(number - REMEMBERED)
        }
    }
}

/// What a lookup of a key finds.
pub enum Found {
    /// The slot of a resident.
    Resident(u32),
    /// The place of a remembered key.
    Remembered(u32),
    /// Neither, with the gap where the key would go if the walk reached it.
    Absent(Option<Gap>),
}

impl Found {
    /// Returns the result of a search of the history alone, for a key that is not resident.
    #[inline]
    pub fn from_place(place: Option<u32>) -> Self {
        match place {
            Some(place) => Found::Remembered(place),
            None => Found::Absent(None),
        }
    }

    /// Returns the gap where the key would go, if it is absent and the gap is known.
    #[inline]
    pub fn gap(self) -> Option<Gap> {
        match self {
            Found::Absent(gap) => gap,
            Found::Resident(_) | Found::Remembered(_) => None,
        }
    }
}
