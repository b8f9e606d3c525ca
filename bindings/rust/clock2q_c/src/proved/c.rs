// Written by bindings/rust/erase from crates/clock2q_c/src/lib.rt; change that, and run erase.
//! The cache for C: 64-bit keys, each with a slot in the caller's own arrays.
//!
//! C holds a [`Handle`], one pointer, and passes it to each call. The contracts describe the calls
//! by the machine of the cache that the handle points to. C has to ensure what no contract can
//! require of it: that the pointer to a handle isn't null, that a handle isn't copied, that no two
//! calls use one at a time, and that a call which requires a cache has one. Calls return their
//! results by value.

mod asking;
mod calls;
mod evicting;
mod growing;
mod handle;
mod held;
mod making;
mod status;
mod tokens;
mod unboxed;
mod version;

pub use crate::proved::c::asking::{
    clock2q_capacity, clock2q_contains, clock2q_len, clock2q_next_victim, clock2q_peek_key,
};
pub use crate::proved::c::calls::{
    Found, Place, clock2q_at, clock2q_clear, clock2q_enter_key, clock2q_find_key, clock2q_remove,
};
pub use crate::proved::c::evicting::clock2q_evict_key;
pub use crate::proved::c::growing::{clock2q_grow, clock2q_grow_with_history};
pub use crate::proved::c::handle::Handle;
pub use crate::proved::c::making::{clock2q_new, clock2q_release, clock2q_with_history, clock2q_with_policy};
pub use crate::proved::c::status::{BAD_CAPACITY, BAD_POLICY, DONE, NO_MEMORY};
pub use crate::proved::c::tokens::{
    Admitted, GivenHash, Token, TokensHandle, clock2q_tokens_admit, clock2q_tokens_capacity,
    clock2q_tokens_clear, clock2q_tokens_enter, clock2q_tokens_evict, clock2q_tokens_forget,
    clock2q_tokens_grow, clock2q_tokens_grow_with_history, clock2q_tokens_hit, clock2q_tokens_len,
    clock2q_tokens_new, clock2q_tokens_next_victim, clock2q_tokens_release, clock2q_tokens_remove,
    clock2q_tokens_seek, clock2q_tokens_with_history, clock2q_tokens_with_policy,
};
pub use crate::proved::c::version::{VERSION, clock2q_version};
