// Written by bindings/rust/erase from crates/clock2q_c/src/tokens/given.rt; change that, and run erase.
//! A hasher that computes nothing.

use core::hash::Hasher;

/// A hasher that returns the number of 64 bits that was written last, for keys that have a hash
/// already. Other bytes change nothing.
///
/// # Example
///
/// ```
/// # use clock2q::proved::c::GivenHash;
/// # use std::hash::Hasher;
/// let mut hasher = GivenHash::default();
/// hasher.write_u64(7);
/// assert_eq!(hasher.finish(), 7);
/// ```
#[derive(Clone, Copy, Debug)]
pub struct GivenHash {
    hash: u64,
}

impl Default for GivenHash {
    /// Returns a hasher to which nothing was written, whose hash is 0.
    #[inline]
    fn default() -> GivenHash {
        GivenHash { hash: 0 }
    }
}

impl Hasher for GivenHash {
    #[inline]
    fn finish(&self) -> u64 {
        self.hash
    }

    #[inline]
    fn write(&mut self, bytes: &[u8]) {
        if bytes.len() == 8 {
            self.hash = u64::from_le_bytes([
                bytes[0], bytes[1], bytes[2], bytes[3], bytes[4], bytes[5], bytes[6], bytes[7],
            ]);
        }
    }

    #[inline]
    fn write_u16(&mut self, number: u16) {
        self.write(&number.to_le_bytes());
    }

    #[inline]
    fn write_u32(&mut self, number: u32) {
        self.write(&number.to_le_bytes());
    }

    #[inline]
    fn write_u64(&mut self, number: u64) {
        self.write(&number.to_le_bytes());
    }

    #[inline]
    fn write_u128(&mut self, number: u128) {
        self.write(&number.to_le_bytes());
    }

    #[inline]
    fn write_usize(&mut self, number: usize) {
        self.write(&number.to_le_bytes());
    }
}
