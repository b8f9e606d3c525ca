// Written by bindings/rust/erase from crates/clock2q_c/src/tokens/growing.rt; change that, and run erase.
//! The calls that raise the capacity of a cache of tokens.

use crate::proved::c::status::{BAD_CAPACITY, BAD_POLICY, DONE, NO_MEMORY, status_of};
use crate::proved::c::tokens::handle::TokensHandle;
use clock2q::proved::cache::MAX_CAPACITY;
use core::num::NonZeroUsize;

/// Raises the capacity to `capacity` tokens, with the usual shares. No token leaves its slot, and what is
/// remembered stays so.
///
/// Returns [`DONE`], or why the cache is as it was: [`BAD_CAPACITY`], [`BAD_POLICY`] if a share would be
/// smaller than it is, or [`NO_MEMORY`].
///
/// # Cost
///
/// That of `Cache::grow`.
#[no_mangle]
pub extern "C" fn clock2q_tokens_grow(handle: &mut TokensHandle, capacity: usize) -> u32 {
    let Some(capacity) = NonZeroUsize::new(capacity) else {
        return BAD_CAPACITY;
    };
    match handle.held().cache.grow(capacity) {
        Ok(()) => DONE,
        Err(refusal) => status_of(refusal),
    }
}

/// Raises the capacity to `capacity` tokens, with these shares, as
/// [`clock2q_tokens_with_history`](crate::proved::c::tokens::clock2q_tokens_with_history) has them.
///
/// Returns what [`clock2q_tokens_grow`] does, and [`BAD_POLICY`] if the shares don't fit together too.
///
/// # Cost
///
/// That of [`clock2q_tokens_grow`].
#[no_mangle]
pub extern "C" fn clock2q_tokens_grow_with_history(
    handle: &mut TokensHandle,
    capacity: usize,
    small: usize,
    window: usize,
    history: usize,
) -> u32 {
    let Some(capacity) = NonZeroUsize::new(capacity) else {
        return BAD_CAPACITY;
    };
    let cache = &mut handle.held().cache;
    match cache.grow_with_history(capacity, small, window, history) {
        Ok(()) => DONE,
        Err(refusal) => status_of(refusal),
    }
}
