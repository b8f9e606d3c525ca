//! Written by hand in place of `clock2q_c/src/handle.rt`: the handle that C holds. There is no `unsafe` code here: an
//! `Option` of a `Box` is one pointer or null.

use super::held::Held;
use super::unboxed::{handle, no_cache, Box, Pointer};
use clock2q::proved::rattle::Global;

handle! {
    /// The pointer to a cache, or null if there is none: `clock2q_cache` of the header.
    Handle, Held<Global>
}
