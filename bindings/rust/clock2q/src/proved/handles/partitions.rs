// Written by bindings/rust/erase from crates/clock2q_handles/src/partitions.rt; change that, and run erase.
//! Splitting keys among several tables.

/// Returns the group that `hash` falls into, below `partitions`, which is a power of two.
///
/// The group comes from the bits just below the top byte. A table of fewer than 2^40 slots reads
/// none of them, so keys that are split among tables by group stay spread over every home and
/// fingerprint of their own table.
///
/// # Cost
///
/// A few arithmetic operations, the same for every hash and count.
///
/// # Example
///
/// ```
/// # #![allow(unused)]
/// # use clock2q::proved::handles::{partition, Entry, Table, TableError};
/// # let (mut tables, hash) = ([0; 16], 7 << 50);
/// let table = &mut tables[partition(hash, 16)];
/// # *table = 1;
/// ```
#[inline]
pub fn partition(hash: u64, partitions: usize) -> usize {
    let shift = 56 - partitions.trailing_zeros();
    (hash >> shift) as usize & (partitions - 1)
}
