// Written by bindings/rust/erase from crates/clock2q_c/src/tokens/held.rt; change that, and run erase.
//! What a handle of tokens points to.
use crate::proved::c::tokens::given::GivenHash;
use crate::proved::c::tokens::token::Token;
use clock2q::proved::cache::Cache;
use clock2q::proved::rattle::Allocator;
use core::hash::BuildHasherDefault;

/// A cache of tokens, without values: what a token means is the caller's.
pub(crate) struct HeldTokens<A: Allocator> {
    pub(crate) cache: Cache<Token, (), BuildHasherDefault<GivenHash>, A>,
}
