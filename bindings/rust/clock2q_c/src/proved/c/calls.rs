// Written by bindings/rust/erase from crates/clock2q_c/src/calls.rt; change that, and run erase.
//! The calls that find, give and free a key's slot.

use crate::proved::c::handle::Handle;
use clock2q::proved::cache::{DefaultHashBuilder, Occupant};
use crate::proved::pages::{find, is_in};
use core::hash::{BuildHasher, Hash, Hasher};
use clock2q::proved::rattle::FoldHasher;

/// A key's slot, and which key had that slot until now.
#[repr(C)]
pub struct Place {
    /// Below the capacity.
    pub slot: usize,
    /// The key that had the slot until now, which may be the same one, or 0.
    pub last: u64,
    /// Whether there was one.
    pub has_last: bool,
    /// Whether it lost the slot.
    pub evicted: bool,
}

/// The slot of a key, if it has one.
#[repr(C)]
pub struct Found {
    /// The slot, or 0.
    pub slot: usize,
    /// Whether the key has one.
    pub is_found: bool,
}

/// Returns the slot of a key, after a hit, or after giving the key a slot, which another key may
/// lose. By value, so that C needn't pass memory that already holds a place.
///
/// # Cost
///
/// That of `Cache::put_slot`.
#[no_mangle]
pub extern "C" fn clock2q_enter_key(handle: &mut Handle, key: u64) -> Place {
    let held = handle.held();
    let (slot, occupant) = held.cache.put_slot(key, ());
    place_of(key, slot, occupant)
}

/// Returns the slot of a key and who had it, in C's form.
#[inline]
fn place_of(key: u64, slot: usize, occupant: Occupant<u64>) -> Place {
    let (last, has_last, evicted) = match occupant {
        Occupant::Itself => (key, true, false),
        Occupant::Nobody => (0, false, false),
        Occupant::Other(other) => (other, true, true),
    };
    Place {
        slot,
        last,
        has_last,
        evicted,
    }
}

/// Returns the slot of a key and records a hit, if the key has a slot.
///
/// # Cost
///
/// That of `Cache::get`.
#[no_mangle]
pub extern "C" fn clock2q_find_key(handle: &mut Handle, key: u64) -> Found {
    match find(&mut handle.held().cache, key) {
        Some(slot) => Found {
            slot,
            is_found: true,
        },
        None => Found {
            slot: 0,
            is_found: false,
        },
    }
}

/// If the key is at this slot, records a hit and returns true. The slot may be any number.
///
/// # Cost
///
/// That of `Cache::get_at`: no hash.
#[no_mangle]
pub extern "C" fn clock2q_at(handle: &mut Handle, slot: usize, key: u64) -> bool {
    is_in(&mut handle.held().cache, slot, key)
}

/// Frees the slot of a key, and returns true if the key had one. A key without a slot is forgotten
/// if it is remembered.
///
/// # Cost
///
/// That of `Cache::remove`.
#[no_mangle]
pub extern "C" fn clock2q_remove(handle: &mut Handle, key: u64) -> bool {
    handle.held().cache.remove(&key)
}

/// Frees all slots, and forgets all keys.
///
/// # Cost
///
/// That of `Cache::clear`: time in proportion to the capacity.
#[no_mangle]
pub extern "C" fn clock2q_clear(handle: &mut Handle) {
    handle.held().cache.clear();
}
