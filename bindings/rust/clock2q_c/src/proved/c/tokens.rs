// Written by bindings/rust/erase from crates/clock2q_c/src/tokens.rt; change that, and run erase.
//! The calls for tokens, by which a caller in C has keys of its own types: the library is given the
//! hash of a key, and the caller compares its keys at the slots of that hash.

mod asking;
mod calls;
mod evicting;
mod given;
mod growing;
mod handle;
mod held;
mod making;
mod token;

pub use asking::{
    clock2q_tokens_capacity, clock2q_tokens_len, clock2q_tokens_next_victim, clock2q_tokens_seek,
};
pub use calls::{
    Admitted, clock2q_tokens_admit, clock2q_tokens_clear, clock2q_tokens_enter,
    clock2q_tokens_forget, clock2q_tokens_hit, clock2q_tokens_remove,
};
pub use evicting::clock2q_tokens_evict;
pub use given::GivenHash;
pub use growing::{clock2q_tokens_grow, clock2q_tokens_grow_with_history};
pub use handle::TokensHandle;
pub use making::{
    clock2q_tokens_new, clock2q_tokens_release, clock2q_tokens_with_history,
    clock2q_tokens_with_policy,
};
pub use token::Token;
