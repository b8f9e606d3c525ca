// Written by bindings/rust/erase from crates/clock2q_c/src/tokens/evicting.rt; change that, and run erase.
//! The call that takes a slot away though no token comes.

use crate::proved::c::calls::Found;
use crate::proved::c::tokens::given::GivenHash;
use crate::proved::c::tokens::handle::TokensHandle;
use crate::proved::c::tokens::token::Token;
use core::hash::{BuildHasher, BuildHasherDefault, Hash, Hasher};

/// Takes the slot away from the token that leaves next, and returns the slot, if a token has one.
///
/// # Cost
///
/// That of `Cache::evict`: no hash.
#[no_mangle]
pub extern "C" fn clock2q_tokens_evict(handle: &mut TokensHandle) -> Found {
    match handle.held().cache.evict() {
        Some((_, slot)) => Found {
            slot,
            is_found: true,
        },
        None => Found {
            slot: 0,
            is_found: false,
        },
    }
}
