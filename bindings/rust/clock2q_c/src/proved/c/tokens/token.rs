// Written by bindings/rust/erase from crates/clock2q_c/src/tokens/token.rt; change that, and run erase.
//! A key by its hash.

use core::hash::{Hash, Hasher};

/// The hash of a key, and a number in which the tokens of one hash differ. Two tokens of one hash are
/// equal if their numbers are. Only the hash is hashed.
///
/// # Example
///
/// ```
/// # use clock2q::proved::c::Token;
/// let one = Token { hash: 7, number: 0 };
/// let other = Token { hash: 7, number: 1 };
/// assert!(one != other);
/// ```
#[derive(Clone, Copy, Debug, PartialEq, Eq)]
pub struct Token {
    /// The hash.
    pub hash: u64,
    /// The number.
    pub number: u64,
}

impl Hash for Token {
    #[inline]
    fn hash<H: Hasher>(&self, state: &mut H) {
        state.write_u64(self.hash);
    }
}
