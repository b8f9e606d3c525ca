//! Written by hand in place of `clock2q_c/src/tokens/handle.rt`: the handle of tokens that C holds.

use super::held::HeldTokens;
use crate::proved::c::unboxed::{handle, no_cache, Box, Pointer};
use clock2q::proved::rattle::Global;

handle! {
    /// The pointer to a cache of tokens, or null if there is none: `clock2q_tokens` of the header.
    TokensHandle, HeldTokens<Global>
}
