// Written by bindings/rust/erase from crates/clock2q_directory/src/newcomer.rt; change that, and run erase.
//! A key that is about to become a resident.
use crate::proved::handles::Gap;

/// A key that is about to become a resident.
pub struct Newcomer<K, V> {
    /// The gap for its hash, if a lookup found that.
    pub gap: Option<Gap>,
    /// Its hash.
    pub hash: u64,
    /// The key itself.
    pub key: K,
    /// Its value. Without one, it gets the value that its slot has.
    pub value: Option<V>,
}
