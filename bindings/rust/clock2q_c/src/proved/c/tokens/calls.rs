// Written by bindings/rust/erase from crates/clock2q_c/src/tokens/calls.rt; change that, and run erase.
//! The calls that give tokens slots, hit them there and free the slots.

use crate::proved::c::tokens::given::GivenHash;
use crate::proved::c::tokens::handle::TokensHandle;
use crate::proved::c::tokens::held::HeldTokens;
use crate::proved::c::tokens::token::Token;
use clock2q::proved::rattle::Global;
use core::hash::{BuildHasher, BuildHasherDefault, Hash, Hasher};

/// A slot, and whether a token has just entered it.
#[repr(C)]
pub struct Admitted {
    /// Below the capacity.
    pub slot: usize,
    /// Whether a token entered it. If not, it is the first slot of the hash.
    pub has_entered: bool,
}

/// If no token has this hash, gives the token of this hash and the number 0 a slot, which another
/// token may lose. Otherwise returns the slot that [`clock2q_tokens_seek`] returns first, records
/// no hit and changes nothing.
///
/// # Cost
///
/// That of `Cache::slot_with_hash_or_insert`.
#[no_mangle]
pub extern "C" fn clock2q_tokens_admit(handle: &mut TokensHandle, hash: u64) -> Admitted {
    let (slot, has_entered) = admit(handle.held(), hash);
    Admitted { slot, has_entered }
}

/// Admits the token of a hash and the number 0, if no token has the hash.
#[inline]
fn admit(held: &mut HeldTokens<Global>, hash: u64) -> (usize, bool) {
    let token = Token { hash, number: 0 };
    held.cache.slot_with_hash_or_insert(token, ())
}

/// Gives the token of this hash and this number a slot, which another token may lose, or records a
/// hit if it has one. Returns the slot.
///
/// # Cost
///
/// That of `Cache::put_slot`.
#[no_mangle]
pub extern "C" fn clock2q_tokens_enter(handle: &mut TokensHandle, hash: u64, number: u64) -> usize {
    let token = Token { hash, number };
    handle.held().cache.put_slot(token, ()).0
}

/// Records a hit on the token at this slot and returns true, if there is one. The slot may be any
/// number.
///
/// # Cost
///
/// That of `Cache::hit_slot`: no hash.
#[no_mangle]
pub extern "C" fn clock2q_tokens_hit(handle: &mut TokensHandle, slot: usize) -> bool {
    handle.held().cache.hit_slot(slot)
}

/// Frees this slot and returns true, if a token has it. The slot may be any number.
///
/// # Cost
///
/// That of `Cache::remove_slot`: no hash.
#[no_mangle]
pub extern "C" fn clock2q_tokens_remove(handle: &mut TokensHandle, slot: usize) -> bool {
    handle.held().cache.remove_slot(slot)
}

/// Forgets the token of this hash and this number, so that it counts as new when it comes back. If
/// it has a slot, frees the slot and returns true.
///
/// # Cost
///
/// That of `Cache::remove`.
#[no_mangle]
pub extern "C" fn clock2q_tokens_forget(handle: &mut TokensHandle, hash: u64, number: u64) -> bool {
    handle.held().cache.remove(&Token { hash, number })
}

/// Frees all slots, and forgets all tokens.
///
/// # Cost
///
/// That of `Cache::clear`: time in proportion to the capacity.
#[no_mangle]
pub extern "C" fn clock2q_tokens_clear(handle: &mut TokensHandle) {
    handle.held().cache.clear();
}
