// Written by bindings/rust/erase from crates/clock2q_c/src/tokens/asking.rt; change that, and run erase.
//! The calls for tokens that change no token's slot and record no hit.

use crate::proved::c::calls::Found;
use crate::proved::c::tokens::given::GivenHash;
use crate::proved::c::tokens::handle::TokensHandle;
use crate::proved::c::tokens::token::Token;
use core::hash::{BuildHasher, BuildHasherDefault, Hash, Hasher};

/// Returns the slot that comes after `nth` others among those of the tokens that have this hash, if
/// there is one. It records no hit.
///
/// # Cost
///
/// That of `Cache::slot_with_hash`: no hash, and time in proportion to `nth` if hashes are well
/// spread.
#[no_mangle]
pub extern "C" fn clock2q_tokens_seek(handle: &mut TokensHandle, hash: u64, nth: usize) -> Found {
    match handle.held().cache.slot_with_hash(hash, nth) {
        Some(slot) => Found {
            slot,
            is_found: true,
        },
        None => Found {
            slot: 0,
            is_found: false,
        },
    }
}

/// Returns the slot of the token that leaves next, if a token has one.
///
/// # Cost
///
/// That of `Cache::next_victim`: no hash.
#[no_mangle]
pub extern "C" fn clock2q_tokens_next_victim(handle: &mut TokensHandle) -> Found {
    match handle.held().cache.next_victim() {
        Some((_, slot)) => Found {
            slot,
            is_found: true,
        },
        None => Found {
            slot: 0,
            is_found: false,
        },
    }
}

/// Returns the number of tokens that have a slot.
#[no_mangle]
pub extern "C" fn clock2q_tokens_len(handle: &mut TokensHandle) -> usize {
    handle.held().cache.len()
}

/// Returns the number of tokens that can have a slot.
#[no_mangle]
pub extern "C" fn clock2q_tokens_capacity(handle: &mut TokensHandle) -> usize {
    handle.held().cache.capacity()
}
