// Written by bindings/rust/erase from crates/clock2q_c/src/evicting.rt; change that, and run erase.
//! The call that takes a slot away though no key comes.

use crate::proved::c::calls::Place;
use crate::proved::c::handle::Handle;
use clock2q::proved::cache::DefaultHashBuilder;
use core::hash::{BuildHasher, Hash, Hasher};
use clock2q::proved::rattle::FoldHasher;

/// Takes the slot away from the key that leaves next, and returns its place: the slot that it had,
/// and itself as the key that had it. If no key has a slot, returns a place whose parts are all 0 and
/// false, and changes nothing.
///
/// # Cost
///
/// That of `Cache::evict`: no hash.
#[no_mangle]
pub extern "C" fn clock2q_evict_key(handle: &mut Handle) -> Place {
    match handle.held().cache.evict() {
        Some((key, slot)) => Place {
            slot,
            last: key,
            has_last: true,
            evicted: true,
        },
        None => Place {
            slot: 0,
            last: 0,
            has_last: false,
            evicted: false,
        },
    }
}
