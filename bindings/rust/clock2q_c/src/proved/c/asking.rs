// Written by bindings/rust/erase from crates/clock2q_c/src/asking.rt; change that, and run erase.
//! The calls that change no key's slot and record no hit.

use crate::proved::c::calls::{Found, Place};
use crate::proved::c::handle::Handle;
use clock2q::proved::cache::DefaultHashBuilder;
use core::hash::{BuildHasher, Hash, Hasher};
use clock2q::proved::rattle::FoldHasher;

/// Returns true if the key has a slot. It records no hit.
///
/// # Cost
///
/// That of `Cache::contains`.
#[no_mangle]
pub extern "C" fn clock2q_contains(handle: &mut Handle, key: u64) -> bool {
    handle.held().cache.contains(&key)
}

/// Returns the slot of a key, if the key has one. It records no hit.
///
/// # Cost
///
/// That of `Cache::peek_slot`.
#[no_mangle]
pub extern "C" fn clock2q_peek_key(handle: &mut Handle, key: u64) -> Found {
    match handle.held().cache.peek_slot(&key) {
        Some(slot) => Found {
            slot,
            is_found: true,
        },
        None => Found {
            slot: 0,
            is_found: false,
        },
    }
}

/// Returns the place of the key that leaves next: its slot, and itself as the key that has it. If no key
/// has a slot, returns a place whose parts are all 0 and false.
///
/// # Cost
///
/// That of `Cache::next_victim`: no hash.
#[no_mangle]
pub extern "C" fn clock2q_next_victim(handle: &mut Handle) -> Place {
    match handle.held().cache.next_victim() {
        Some((key, slot)) => Place {
            slot,
            last: *key,
            has_last: true,
            evicted: false,
        },
        None => Place {
            slot: 0,
            last: 0,
            has_last: false,
            evicted: false,
        },
    }
}

/// Returns the number of keys that have a slot.
#[no_mangle]
pub extern "C" fn clock2q_len(handle: &mut Handle) -> usize {
    handle.held().cache.len()
}

/// Returns the number of keys that can have a slot.
#[no_mangle]
pub extern "C" fn clock2q_capacity(handle: &mut Handle) -> usize {
    handle.held().cache.capacity()
}
